/* SPDX-License-Identifier: MIT OR Apache-2.0 */
/* What kt_live.h says about an unpublishing that waits: which thread is inside, a time limit, a warning, and callbacks
 * that unpublish each other's device. It prints a line for each test; the last line is 'N passed, M failed'. */
#ifndef _GNU_SOURCE
#define _GNU_SOURCE
#endif
#include <kt_live.h>
#include <sched.h>
#include <stdatomic.h>

#include "trying.h"

enum { CIRCLE = 3 };

static struct kt_live *live;
static struct kt_key keys[CIRCLE];
static atomic_int inside, may_go, warnings, answers[CIRCLE];
static char warned[4096];

static int64_t stay(void *device, const struct kt_attribute *attribute, char *page)
{
    (void)device, (void)attribute, (void)page;
    atomic_fetch_add(&inside, 1);
    while (!atomic_load(&may_go))
        sched_yield();
    return 0;
}

/* Unpublishes the next device of the circle, once a callback is in each. */
static int64_t cross(void *device, const struct kt_attribute *attribute, const char *bytes, size_t length)
{
    int place = *(int *)device;
    (void)attribute, (void)bytes;
    atomic_fetch_add(&inside, 1);
    while (atomic_load(&inside) < CIRCLE)
        sched_yield();
    atomic_store(&answers[place], kt_live_unpublish(live, keys[(place + 1) % CIRCLE]));
    return (int64_t)length;
}

static void warn(const char *text, void *data)
{
    if (atomic_fetch_add(&warnings, 1) == 0)
        snprintf(warned, sizeof warned, "%s", text);
    TRY(data == &warnings, 1);
}

static void *reader(void *path)
{
    char text[8];
    pthread_setname_np(pthread_self(), "reader");
    return kt_live_read(live, path, text, sizeof text) == 0 ? path : NULL;
}

static void *open_reader(void *file)
{
    char text[8];
    return kt_live_pread(file, 0, text, sizeof text) == 0 ? file : NULL;
}

static void *writer(void *path) { return kt_live_write(live, path, "1", 1) == 1 ? path : NULL; }

static const struct kt_attribute stays[] = {{"speed", 0444, stay, NULL, 0}};
static const struct kt_attribute crosses[] = {{"go", 0200, NULL, cross, 0}};

/* What kt_live_inside() prints at a path. Returns what it returns. */
static int32_t listed(const char *path, char *text, size_t size)
{
    FILE *out = tmpfile();
    int32_t answer = kt_live_inside(live, path, out);
    rewind(out);
    text[fread(text, 1, size - 1, out)] = 0;
    fclose(out);
    return answer;
}

static void try_inside(void)
{
    struct kt_live_file *file;
    char text[2048];
    pthread_t threads[2];
    struct kt_key key;
    void *out;
    TRY(kt_live_publish(live, "/fan0", stays, 1, NULL, &key), 0);
    TRY(kt_live_open(live, "/fan0/speed", true, false, &file), 0);
    TRY(listed("/", text, sizeof text), 0);
    TRY((int64_t)strlen(text), 0);
    TRY(listed("/none", text, sizeof text), -ENOENT);
    TRY(listed("none", text, sizeof text), -EINVAL);
    pthread_create(&threads[0], NULL, reader, "/fan0/speed");
    pthread_create(&threads[1], NULL, open_reader, file);
    while (atomic_load(&inside) < 2)
        sched_yield();
    TRY(listed("/", text, sizeof text), 2);
    TRY(strstr(text, "/fan0/speed: a show is inside, thread 0x") == NULL, 0);
    TRY(strstr(text, " reader, ") == NULL, 0);
    TRY(kt_live_unpublish_for(live, key, 20, NULL), -ETIMEDOUT);
    TRY(kt_live_read(live, "/fan0/speed", text, sizeof text), -ENODEV); /* it is marked */
    TRY(listed("/fan0", text, sizeof text), 2);
    kt_live_warn(live, 10, warn, &warnings);
    TRY(kt_live_unpublish_for(live, key, 200, NULL), -ETIMEDOUT);
    TRY(atomic_load(&warnings) > 1, 1);
    TRY(strstr(warned, "/fan0/speed: a show is inside, thread 0x") == NULL, 0);
    TRY(strstr(warned, "/fan0: an unpublishing waits, thread 0x") == NULL, 0);
    kt_live_warn(live, 0, NULL, NULL);
    atomic_store(&may_go, 1);
    TRY(kt_live_unpublish(live, key), 1);
    TRY(kt_live_unpublish_for(live, key, 1000, NULL), -ENOENT);
    for (int i = 0; i < 2; i++) {
        pthread_join(threads[i], &out);
        TRY(out != NULL, 1);
    }
    TRY(kt_live_close(file), 0);
}

/* Of callbacks that unpublish each other's device in a circle one gets -EDEADLK, and the others 1. */
static void try_circle(void)
{
    static int places[CIRCLE] = {0, 1, 2};
    static char paths[CIRCLE][8] = {"/a/go", "/b/go", "/c/go"};
    char dir[] = "/a";
    pthread_t threads[CIRCLE];
    int ones = 0, refused = -1;
    void *out;
    atomic_store(&inside, 0);
    for (int i = 0; i < CIRCLE; i++) {
        dir[1] = (char)('a' + i);
        TRY(kt_live_publish(live, dir, crosses, 1, &places[i], &keys[i]), 0);
    }
    for (int i = 0; i < CIRCLE; i++)
        pthread_create(&threads[i], NULL, writer, paths[i]);
    for (int i = 0; i < CIRCLE; i++) {
        pthread_join(threads[i], &out);
        TRY(out != NULL, 1);
        ones += atomic_load(&answers[i]) == 1;
        if (atomic_load(&answers[i]) == -EDEADLK)
            refused = i;
    }
    TRY(ones, CIRCLE - 1);
    TRY(refused >= 0, 1);
    TRY(kt_live_unpublish(live, keys[(refused + 1) % CIRCLE]), 1);
}

int main(void)
{
    TRY(kt_live_new(&live, 64), 0);
    try_inside();
    try_circle();
    TRY(kt_live_delete(live), 0);
    return tried();
}
