/* SPDX-License-Identifier: MIT OR Apache-2.0 */
/* removals MOUNT COUNT: devices come and go COUNT times while threads read, write, open and poll their file.
 *
 * It counts each stat, open, write and read at offset 0 that began after the rm of its device had returned, and
 * that succeeded: there must be none. A text is the number of its device's life, and inode numbers grow, so each
 * reader knows which rm it came after. */
#include <errno.h>
#include <fcntl.h>
#include <poll.h>
#include <pthread.h>
#include <stdatomic.h>
#include <stdbool.h>
#include <stdint.h>
#include <stdio.h>
#include <stdlib.h>
#include <string.h>
#include <sys/stat.h>
#include <unistd.h>

#define DEVICES 4

static char control[300];
static atomic_long left, lives, reads, writes, opens, stats, polls, refused;
static atomic_long late_reads, late_writes, late_opens, late_stats, torn, unknown;
static atomic_bool is_over;
static struct device {
    atomic_long gone, gone_inode; /* the last life whose rm has returned, and its file's inode number */
    char path[300];               /* of its file */
} devices[DEVICES];

static unsigned next_number(unsigned *lot)
{
    return *lot = *lot * 1103515245 + 12345, *lot >> 8;
}

static void count_error(void)
{
    if (errno == ENOENT || errno == ENODEV)
        refused++;
    else
        unknown++;
}

/* The life that a read returns, or 0 if it fails. */
static long read_life(int file)
{
    char text[32], *end;
    ssize_t length = pread(file, text, sizeof text - 1, 0);
    if (length < 0) {
        count_error();
        return 0;
    }
    text[length] = 0;
    long life = strtol(text, &end, 10);
    if (life <= 0 || strcmp(end, "\n"))
        torn++;
    reads++;
    return life;
}

static void look_at(struct device *it)
{
    struct stat stat;
    long gone_inode = it->gone_inode;
    if (lstat(it->path, &stat)) {
        count_error();
        return;
    }
    stats++;
    late_stats += (long)stat.st_ino <= gone_inode;
}

static int open_device(struct device *it, int how)
{
    struct stat stat;
    long gone_inode = it->gone_inode;
    int file = open(it->path, how);
    if (file < 0) {
        count_error();
        return file;
    }
    opens++;
    if (fstat(file, &stat) || (long)stat.st_ino <= gone_inode)
        late_opens++;
    return file;
}

/* Reads through one open file until it is gone. */
static void read_on(struct device *it, int file, int turns)
{
    for (int turn = 0; turn < turns; turn++) {
        long gone = it->gone, life = read_life(file);
        if (!life)
            return;
        late_reads += life <= gone;
    }
}

static void write_on(struct device *it, int file)
{
    char text[32];
    long life = read_life(file);
    int length = snprintf(text, sizeof text, "%ld\n", life);
    for (int turn = 0; turn < 20 && life; turn++) {
        long gone = it->gone;
        if (pwrite(file, text, (size_t)length, 0) < 0) {
            count_error();
            return;
        }
        writes++;
        late_writes += life <= gone;
    }
}

static void poll_on(int file)
{
    struct pollfd waiting = {.fd = file, .events = POLLPRI};
    if (read_life(file) && poll(&waiting, 1, 200) >= 0)
        polls++;
}

/* A user: of each four one reads on, one opens the file again for each read, one writes, one polls. */
static void *use(void *data)
{
    unsigned number = (unsigned)(uintptr_t)data, lot = number + 1;
    while (!is_over) {
        struct device *it = &devices[next_number(&lot) % DEVICES];
        look_at(it);
        int file = open_device(it, number % 4 == 2 ? O_RDWR : O_RDONLY);
        if (file < 0)
            continue;
        if (number % 4 == 0)
            read_on(it, file, 50);
        else if (number % 4 == 1)
            read_on(it, file, 1);
        else if (number % 4 == 2)
            write_on(it, file);
        else
            poll_on(file);
        close(file);
    }
    return NULL;
}

/* Writes lines to the control file. */
static void tell(const char *lines)
{
    int file = open(control, O_WRONLY);
    if (file < 0 || write(file, lines, strlen(lines)) != (ssize_t)strlen(lines) || close(file)) {
        perror(lines);
        exit(1);
    }
}

/* Plugs a device in and removes it after a short time, until all removals are done. */
static void *plug(void *data)
{
    struct device *it = data;
    unsigned number = (unsigned)(it - devices), lot = 100 + number;
    char line[200];
    struct stat stat;
    while (left-- > 0) {
        long life = ++lives;
        snprintf(line, sizeof line, "mkdir /devices/d%u off\nfile /devices/d%u/a 644 %ld\n"
                 "slow /devices/d%u/a %u\nactivate /devices/d%u\n",
                 number, number, life, number, next_number(&lot) % 8 == 0, number);
        tell(line);
        usleep(next_number(&lot) % 1500);
        stat.st_ino = 0;
        if (lstat(it->path, &stat))
            count_error();
        snprintf(line, sizeof line, "rm /devices/d%u\n", number);
        tell(line);
        it->gone_inode = (long)stat.st_ino;
        it->gone = life;
    }
    return NULL;
}

int main(int count, char **words)
{
    pthread_t plugs[DEVICES], users[12];
    if (count != 3)
        return 2;
    left = atol(words[2]);
    snprintf(control, sizeof control, "%s/.control", words[1]);
    for (size_t at = 0; at < DEVICES; at++)
        snprintf(devices[at].path, sizeof devices->path, "%s/devices/d%zu/a", words[1], at);
    for (size_t at = 0; at < sizeof users / sizeof *users; at++)
        pthread_create(&users[at], NULL, use, (void *)(uintptr_t)at);
    for (size_t at = 0; at < DEVICES; at++)
        pthread_create(&plugs[at], NULL, plug, &devices[at]);
    for (size_t at = 0; at < DEVICES; at++)
        pthread_join(plugs[at], NULL);
    is_over = true;
    for (size_t at = 0; at < sizeof users / sizeof *users; at++)
        pthread_join(users[at], NULL);
    printf("%ld removals, %ld reads, %ld opens, %ld stats, %ld writes, %ld polls, %ld refused; "
           "late: %ld reads, %ld opens, %ld stats, %ld writes; torn %ld, unknown errors %ld\n",
           lives, reads, opens, stats, writes, polls, refused, late_reads, late_opens, late_stats, late_writes,
           torn, unknown);
    return late_reads || late_opens || late_stats || late_writes || torn || unknown;
}
