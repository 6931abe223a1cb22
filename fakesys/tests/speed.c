/* SPDX-License-Identifier: MIT OR Apache-2.0 */
/* speed FILE COUNT: the medians, in microseconds, of pread(2) of an open file; of open, read and close; of stat; and
 * of opendir, readdir to the end and closedir of its directory. */
#include <dirent.h>
#include <fcntl.h>
#include <libgen.h>
#include <stdio.h>
#include <stdlib.h>
#include <string.h>
#include <sys/stat.h>
#include <time.h>
#include <unistd.h>

static const char *path;
static char directory[4096];
static int opened;

static void must(int is_well)
{
    if (is_well)
        return;
    perror(path);
    exit(1);
}

static void read_again(void)
{
    char text[4096];
    must(pread(opened, text, sizeof text, 0) >= 0);
}

static void open_and_read(void)
{
    char text[4096];
    int file = open(path, O_RDONLY);
    must(file >= 0 && read(file, text, sizeof text) >= 0 && !close(file));
}

static void look(void)
{
    struct stat stat_of;
    must(!stat(path, &stat_of));
}

static void list(void)
{
    DIR *names = opendir(directory);
    must(names != NULL);
    while (readdir(names))
        continue;
    must(!closedir(names));
}

static double microseconds(void)
{
    struct timespec now;
    clock_gettime(CLOCK_MONOTONIC, &now);
    return (double)now.tv_sec * 1e6 + (double)now.tv_nsec / 1e3;
}

static int compare(const void *left, const void *right)
{
    double one = *(const double *)left, other = *(const double *)right;
    return (one > other) - (one < other);
}

static double median(void (*call)(void), size_t count)
{
    double *times = malloc(count * sizeof *times);
    must(times != NULL);
    for (size_t at = 0; at < count; at++) {
        double begun = microseconds();
        call();
        times[at] = microseconds() - begun;
    }
    qsort(times, count, sizeof *times, compare);
    double result = times[count / 2];
    free(times);
    return result;
}

int main(int count, char **words)
{
    void (*calls[])(void) = {read_again, open_and_read, look, list};
    if (count != 3)
        return 2;
    path = words[1];
    strncpy(directory, path, sizeof directory - 1);
    dirname(directory);
    opened = open(path, O_RDONLY);
    must(opened >= 0);
    for (size_t at = 0; at < sizeof calls / sizeof *calls; at++)
        printf("%.2f ", median(calls[at], (size_t)atol(words[2])));
    puts("");
    return 0;
}
