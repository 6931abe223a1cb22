/* SPDX-License-Identifier: MIT OR Apache-2.0 */
/* What the calls of kt_live.h, and of kernfs_tree.h below it, cost beside rwlock_live.h, which is written by hand over
 * pthread_rwlock_t: by one thread, and by each of four, on four devices and on one device. bench/run runs it. It prints
 * a table in nanoseconds, the best of ROUNDS rounds in which the threads work at once (0: there was none, on a busy
 * machine). With the argument `bounds` it then prints each figure above its bound, and the status is 1 if there is one.
 */
#include <kt_live.h>
#include <sched.h>
#include <stdatomic.h>
#include <stdio.h>

#include "rwlock_live.h"

enum { THREADS = 4, ROUNDS = 15, TRIES = 4 * ROUNDS };

static struct kt_live *live;
static struct rw_tree *tree;
static struct kt_live_file *files[THREADS];
static struct rw_file *rw_files[THREADS];
static struct kt_handle holds[THREADS];
static atomic_int at_start;
static int thread_count, turns;
static bool is_one_device;
static void (*turn)(int place, const char *path);
static _Alignas(64) struct { double start, end, rest[6]; } times[THREADS];

static double now(void)
{
    struct timespec time;
    clock_gettime(CLOCK_MONOTONIC, &time);
    return (double)time.tv_sec * 1e9 + (double)time.tv_nsec;
}

static void must(bool it)
{
    if (!it)
        abort();
}

/* ---- both have a device whose attribute shows the same ---- */

static int64_t show(void *device, const struct kt_attribute *attribute, char *page)
{
    (void)device, (void)attribute;
    memcpy(page, "1200\n", 5);
    return 5;
}
static int64_t rw_show_value(void *device, const struct rw_attribute *attribute, char *page)
{
    (void)device, (void)attribute;
    memcpy(page, "1200\n", 5);
    return 5;
}
static int64_t store(void *device, const struct kt_attribute *attribute, const char *bytes, size_t length)
{
    (void)device, (void)attribute, (void)bytes;
    return (int64_t)length;
}
static const struct kt_attribute attributes[] = {{"value", 0444, show, NULL, 0}, {"target", 0200, NULL, store, 0}};
static const struct rw_attribute rw_attributes[] = {{"value", 0444, rw_show_value, NULL}};

/* ---- one turn of each call; `path` ends with the attribute's name ---- */

static void read_live(int place, const char *path)
{
    char text[16];
    (void)place;
    must(kt_live_read(live, path, text, sizeof text) == 5);
}
static void read_rwlock(int place, const char *path)
{
    char text[16];
    (void)place;
    must(rw_read(tree, path, text, sizeof text) == 5);
}
static void pread_live(int place, const char *path)
{
    char text[16];
    (void)path;
    must(kt_live_pread(files[place], 0, text, sizeof text) == 5);
}
static void pread_rwlock(int place, const char *path)
{
    char text[16];
    (void)path;
    must(rw_pread(rw_files[place], 0, text, sizeof text) == 5);
}
static void open_live(int place, const char *path)
{
    struct kt_live_file *file;
    (void)place;
    must(!kt_live_open(live, path, true, false, &file) && !kt_live_close(file));
}
static void open_rwlock(int place, const char *path)
{
    struct rw_file *file;
    (void)place;
    must(!rw_open(tree, path, &file));
    rw_close(file);
}
static void publish_live(int place, const char *path)
{
    char other[] = "/other0";
    struct kt_key key;
    (void)path;
    other[6] = (char)('0' + place);
    must(!kt_live_publish(live, other, attributes, 2, NULL, &key) && kt_live_unpublish(live, key) == 1);
}
static void publish_rwlock(int place, const char *path)
{
    char other[] = "/other0";
    (void)path;
    other[6] = (char)('0' + place);
    must(!rw_publish(tree, other, rw_attributes, 1, NULL) && rw_unpublish(tree, other) == 1);
}

/* A call of a node by a new hold: the look-up and the hold are under the lock. */
static void call_tree(int place, const char *path)
{
    struct kt_handle *hold = &holds[place];
    struct kt_key key;
    pthread_mutex_lock(&live->lock.mutex);
    must(!kt_walk(&live->tree, path, strlen(path), &key) && !kt_hold(&live->tree, key, hold));
    pthread_mutex_unlock(&live->lock.mutex);
    must(!kt_enter(hold) && !kt_leave(hold));
    kt_clear(hold);
}
static void call_rwlock(int place, const char *path)
{
    const struct rw_attribute *attribute;
    struct rw_device *device;
    (void)place;
    must(!rw_get(tree, path, &device, &attribute));
    pthread_rwlock_rdlock(&device->inside);
    must(!device->is_gone);
    pthread_rwlock_unlock(&device->inside);
    rw_put(device);
}

/* A file that comes and goes, with the compaction of the log that it needs now and then. */
static void create_tree(int place, const char *path)
{
    struct kt_key root = {0, 1}, key;
    struct kt_command_counts counts;
    char name[] = "file0";
    (void)path;
    name[4] = (char)('0' + place);
    pthread_mutex_lock(&live->lock.mutex);
    must(!kt_create_file(&live->tree, root, name, 5, 0444, 0, true, &key) && kt_remove(&live->tree, key) == 1);
    must(!kt_commands(&live->tree, &counts));
    if (counts.stored >= 2 * counts.compacted + 1000)
        must(!kt_compact(&live->tree));
    pthread_mutex_unlock(&live->lock.mutex);
}
static void create_rwlock(int place, const char *path)
{
    char name[] = "/file0";
    (void)path;
    name[5] = (char)('0' + place);
    must(!rw_publish(tree, name, NULL, 0, NULL) && rw_unpublish(tree, name) == 1);
}

/* ---- measuring ---- */

static void *run(void *data)
{
    int place = (int)(intptr_t)data;
    char path[] = "/device0/value";
    path[7] = (char)('0' + (is_one_device ? 0 : place));
    atomic_fetch_add(&at_start, 1);
    while (atomic_load(&at_start) < thread_count)
        sched_yield();
    times[place].start = now();
    for (int i = 0; i < turns; i++)
        turn(place, path);
    times[place].end = now();
    return NULL;
}

/* How long a turn took on average, if the threads worked at once for half of the round or more; otherwise 0. */
static double round_of(int threads)
{
    pthread_t all[THREADS];
    double sum = 0, first = 1e18, last_start = 0, first_end = 1e18, last = 0;
    atomic_store(&at_start, 0);
    for (intptr_t i = 0; i < threads; i++)
        must(!pthread_create(&all[i], NULL, run, (void *)i));
    for (int i = 0; i < threads; i++) {
        double start, end;
        pthread_join(all[i], NULL);
        start = times[i].start;
        end = times[i].end;
        sum += (end - start) / turns / threads;
        first = start < first ? start : first;
        last_start = start > last_start ? start : last_start;
        first_end = end < first_end ? end : first_end;
        last = end > last ? end : last;
    }
    return 2 * (first_end - last_start) >= last - first ? sum : 0;
}

/* The best round; 0 if no round counts, on a busy machine. */
static double best(void (*what)(int, const char *), int threads, bool is_one, int count)
{
    double least = 0;
    int rounds = 0;
    turn = what;
    turns = count;
    thread_count = threads;
    is_one_device = is_one;
    for (int i = 0; i < TRIES && rounds < ROUNDS; i++) {
        double it = round_of(threads);
        rounds += it > 0;
        least = it > 0 && (least <= 0 || it < least) ? it : least;
    }
    return least;
}

/* Files of each thread's own device, or all of the first. */
static void open_files(bool is_one)
{
    for (int i = 0; i < THREADS; i++) {
        char path[] = "/device0/value";
        path[7] = (char)('0' + (is_one ? 0 : i));
        if (files[i]) {
            must(!kt_live_close(files[i]));
            rw_close(rw_files[i]);
        }
        must(!kt_live_open(live, path, true, false, &files[i]) && !rw_open(tree, path, &rw_files[i]));
    }
}

int main(int count, char **words)
{
    static const struct {
        const char *name;
        void (*live)(int, const char *), (*rwlock)(int, const char *);
        int turns;
        double by_one, by_four; /* at most, by one thread, and by four on their own devices; 0: no bound */
    } rows[] = {
        {"read by a path", read_live, read_rwlock, 20000, 250, 0},
        {"read by an open file", pread_live, pread_rwlock, 20000, 120, 130},
        {"open, close", open_live, open_rwlock, 10000, 0, 0},
        {"publish, unpublish", publish_live, publish_rwlock, 1000, 0, 0},
        {"walk, hold, enter, leave, clear", call_tree, call_rwlock, 10000, 140, 0},
        {"create, remove", create_tree, create_rwlock, 4000, 420, 0},
    };
    enum { ROWS = sizeof rows / sizeof *rows };
    double figures[ROWS][6];
    struct kt_key key;
    int above = 0;
    must(!kt_live_new(&live, 256) && (tree = rw_new()) != NULL);
    for (int i = 0; i < THREADS; i++) {
        char path[] = "/device0";
        path[7] = (char)('0' + i);
        must(!kt_new(&holds[i].at) && !kt_live_publish(live, path, attributes, 2, NULL, &key));
        must(!rw_publish(tree, path, rw_attributes, 1, NULL));
    }
    puts("| In C, ns (by hand over rwlocks) | 1 thread | 4 threads, own devices | 4 threads, one device |");
    puts("|---|---|---|---|");
    for (int i = 0; i < ROWS; i++) {
        double *at = figures[i];
        for (int way = 0; way < 3; way++) {
            open_files(way == 2);
            at[2 * way] = best(rows[i].live, way ? THREADS : 1, way == 2, rows[i].turns);
            at[2 * way + 1] = best(rows[i].rwlock, way ? THREADS : 1, way == 2, rows[i].turns);
        }
        printf("| %s | %.0f (%.0f) | %.0f (%.0f) | %.0f (%.0f) |\n", rows[i].name, at[0], at[1], at[2], at[3], at[4],
               at[5]);
        fflush(stdout);
    }
    for (int i = 0; i < ROWS && count == 2 && !strcmp(words[1], "bounds"); i++) {
        bool is_above = (rows[i].by_one > 0 && figures[i][0] > rows[i].by_one) ||
                        (rows[i].by_four > 0 && figures[i][2] > rows[i].by_four);
        if (is_above)
            printf("%s: at most %.0f by one thread, %.0f by four\n", rows[i].name, rows[i].by_one, rows[i].by_four);
        above += is_above;
    }
    return above != 0;
}
