/* SPDX-License-Identifier: MIT OR Apache-2.0 */
/* Open files of kt_live.h: what each call returns; then 10,000 devices (or as many as the argument says) come and go
 * under threads that have their files open, unpublished by their owner and by their own stores. */
#include <kt_live.h>
#include <sched.h>
#include <stdatomic.h>

#include "trying.h"

enum { USERS = 3, ALIVE = 0x600d, FREED = 0xdead };

struct device {
    atomic_int inside;
    unsigned alive;
    struct kt_live_file *self; /* what its callback runs by */
};

static struct kt_live *live;
static atomic_int is_over;
static atomic_long late, used, gone, by_stores;

/* ---- one thread ---- */

static int64_t show_number(void *data, const struct kt_attribute *attribute, char *page)
{
    return snprintf(page, KT_PAGE_SIZE, "%d%0*d\n", *(int *)data, (int)attribute->which, 7);
}

static int64_t store_number(void *data, const struct kt_attribute *attribute, const char *bytes, size_t length)
{
    (void)attribute;
    *(int *)data = atoi(bytes);
    return (int64_t)length;
}

/* In its own callback a file cannot be used. */
static int64_t show_itself(void *data, const struct kt_attribute *attribute, char *page)
{
    struct kt_live_file *self = ((struct device *)data)->self;
    (void)attribute;
    return snprintf(page, KT_PAGE_SIZE, "%d %d %d %d", (int)kt_live_pread(self, 0, page, 8),
                    (int)kt_live_pwrite(self, "1", 1), kt_live_changed(self), kt_live_close(self));
}

static const struct kt_attribute numbers[] = {
    {"both", 0644, show_number, store_number, 1},
    {"read", 0444, show_number, NULL, 1},
    {"write", 0200, NULL, store_number, 0},
    {"long", 0444, show_number, NULL, 4090},
};
static const struct kt_attribute itself[] = {{"itself", 0444, show_itself, NULL, 0}};

static void try_reads(struct kt_key dir)
{
    struct kt_live_file *file, *longer;
    char text[KT_PAGE_SIZE];
    TRY(kt_live_open(live, "/d/both", true, true, &file), 0);
    TRY(kt_live_changed(file), 1);
    TRY(kt_live_pread(file, 0, text, sizeof text), 3);
    TRY(strcmp(text, "57\n"), 0);
    TRY(kt_live_changed(file), 0);
    TRY(kt_live_pwrite(file, "12", 2), 2);
    TRY(kt_live_pwrite(file, "", 0), 0);
    TRY(kt_live_notify(live, dir, "both"), 0);
    TRY(kt_live_changed(file), 1);
    TRY(kt_live_pread(file, 1, text, 2), 2); /* the last text goes on */
    TRY(memcmp(text, "7\n", 2), 0);
    TRY(kt_live_pread(file, 0, text, sizeof text), 4);
    TRY(strcmp(text, "127\n"), 0);
    TRY(kt_live_pread(file, 4, text, sizeof text), 0);
    TRY(kt_live_delete(live), -EBUSY);
    TRY(kt_live_open(live, "/d/long", true, false, &longer), 0);
    TRY(kt_live_pread(longer, 0, text, sizeof text), 4093);
    TRY(kt_live_pread(longer, 4000, text, sizeof text), 93);
    TRY(kt_live_pwrite(longer, "1", 1), -EACCES);
    TRY(kt_live_close(longer), 0);
    TRY(kt_live_unpublish(live, dir), 1);
    TRY(kt_live_pread(file, 0, text, sizeof text), -ENODEV);
    TRY(kt_live_pread(file, 1, text, sizeof text), 3); /* what was shown before */
    TRY(kt_live_pwrite(file, "1", 1), -ENODEV);
    TRY(kt_live_changed(file), 1);
    TRY(kt_live_close(file), 0);
}

/* A path is written with its zero byte, or nothing is. */
static void try_path(struct kt_key key, const char *path)
{
    size_t length = strlen(path);
    for (size_t size = 0; size <= length + 2; size++) {
        char text[] = "--------------------";
        bool fits = size > length;
        TRY(kt_live_path(live, key, text, size), fits ? (int64_t)length : -ERANGE);
        TRY((int64_t)strspn(text, "-"), fits ? 0 : (int64_t)sizeof text - 1);
        TRY(!fits || (!strcmp(text, path) && text[length + 1] == '-'), 1);
    }
}

static void try_one(void)
{
    struct device device = {.alive = ALIVE};
    struct kt_live_file *file = NULL;
    struct kt_key dir, own;
    char text[64];
    void *found = NULL;
    int number = 5;
    TRY(kt_live_publish(live, "/d", numbers, 4, &number, &dir), 0);
    TRY(kt_live_open(live, "/d/none", true, false, &file), -ENOENT);
    TRY(kt_live_open(live, "/d", true, false, &file), -EISDIR);
    TRY(kt_live_open(live, "d", true, false, &file), -EINVAL);
    TRY(kt_live_open(live, "/d/read", true, true, &file), -EACCES);
    TRY(kt_live_open(live, "/d/write", true, false, &file), -EACCES);
    pthread_mutex_lock(&live->lock.mutex);
    TRY(kt_create_file(&live->tree, dir, "own", 3, 0644, 0, true, &own), 0);
    pthread_mutex_unlock(&live->lock.mutex);
    TRY(kt_live_open(live, "/d/own", true, false, &file), -EIO);
    TRY(kt_live_read(live, "/d/own", text, sizeof text), -EIO);
    TRY(file == NULL, 1);
    TRY(kt_live_path(live, own, text, sizeof text), 6);
    TRY(strcmp(text, "/d/own"), 0);
    try_path(own, "/d/own");
    try_path(dir, "/d");
    try_path((struct kt_key){0, 1}, "/");
    try_reads(dir);
    TRY(kt_live_path(live, own, text, sizeof text), -ENOENT);
    TRY(kt_live_publish(live, "/self", itself, 1, &device, &dir), 0);
    TRY(kt_live_open(live, "/self/itself", true, false, &device.self), 0);
    TRY(kt_live_pread(device.self, 0, text, sizeof text), 15);
    printf("in its own callback: %s\n", text);
    TRY(strcmp(text, "-22 -13 -22 -16"), 0);
    TRY(kt_live_close(device.self), 0);
    TRY(kt_live_take(live, dir, &found), 1);
    TRY(found == &device, 1);
}

/* ---- many threads ---- */

static int64_t show(void *data, const struct kt_attribute *attribute, char *page)
{
    struct device *device = data;
    (void)attribute;
    atomic_fetch_add(&device->inside, 1);
    if (device->alive != ALIVE || !kt_live_self(live).generation)
        atomic_fetch_add(&late, 1);
    memcpy(page, "1200\n", 5);
    atomic_fetch_sub(&device->inside, 1);
    return 5;
}

static void free_device(struct device *device)
{
    if (atomic_load(&device->inside) || device->alive != ALIVE)
        atomic_fetch_add(&late, 1);
    device->alive = FREED;
    free(device);
}

static int64_t store(void *data, const struct kt_attribute *attribute, const char *bytes, size_t length)
{
    struct device *device = data;
    (void)attribute;
    (void)bytes;
    if (device->alive != ALIVE)
        atomic_fetch_add(&late, 1);
    if (kt_live_unpublish(live, kt_live_self(live)) == 1) {
        free_device(device);
        atomic_fetch_add(&by_stores, 1);
    }
    return (int64_t)length;
}

static const struct kt_attribute attributes[] = {{"speed", 0444, show, NULL, 0}, {"remove", 0200, NULL, store, 0}};

/* Reads by an open file; now and then by the path; now and then it removes the device by its other file. */
static void use(struct kt_live_file *file, struct kt_live_file *remove, const char *path, unsigned *seed)
{
    char text[64];
    for (int i = 0; i < 100; i++) {
        int64_t answer = kt_live_pread(file, 0, text, sizeof text);
        if (remove && rand_r(seed) % 600 == 0)
            answer = kt_live_pwrite(remove, "1", 1);
        if (rand_r(seed) % 50 == 0)
            (void)!kt_live_read(live, path, text, sizeof text);
        atomic_fetch_add(answer < 0 ? &gone : &used, 1);
        if (answer < 0)
            return;
    }
}

static void *user(void *data)
{
    unsigned seed = (unsigned)(uintptr_t)data;
    while (!atomic_load(&is_over)) {
        char path[] = "/d0/speed", remove[] = "/d0/remove";
        struct kt_live_file *file, *other = NULL;
        path[2] = remove[2] = (char)('0' + rand_r(&seed) % 2);
        if (kt_live_open(live, path, true, false, &file)) {
            sched_yield();
            continue;
        }
        if (kt_live_open(live, remove, false, true, &other))
            other = NULL;
        use(file, other, path, &seed);
        kt_live_close(file);
        if (other)
            kt_live_close(other);
    }
    return NULL;
}

/* Publishes a device, lets it be used, and unpublishes it. Whether it could be published. */
static bool one_turn(const char *path)
{
    struct device *device = calloc(1, sizeof *device);
    struct kt_key key;
    long before = atomic_load(&used);
    device->alive = ALIVE;
    if (kt_live_publish(live, path, attributes, 2, device, &key)) {
        free(device);
        return false;
    }
    for (int i = 0; i < 50 && atomic_load(&used) < before + 20; i++)
        sched_yield();
    if (kt_live_unpublish(live, key) == 1)
        free_device(device);
    return true;
}

int main(int count, char **words)
{
    long turns = count > 1 ? atol(words[1]) : 10000;
    pthread_t users[USERS];
    TRY(kt_live_new(&live, 1024), 0);
    try_one();
    for (long i = 0; i < USERS; i++)
        pthread_create(&users[i], NULL, user, (void *)(i + 1));
    for (long i = 0; i < turns; i++)
        while (!one_turn(i % 2 ? "/d1" : "/d0"))
            sched_yield();
    atomic_store(&is_over, 1);
    for (int i = 0; i < USERS; i++)
        pthread_join(users[i], NULL);
    printf("%ld reads, %ld refused, %ld unpublished by their stores\n", atomic_load(&used), atomic_load(&gone),
           atomic_load(&by_stores));
    TRY(atomic_load(&late), 0);
    TRY(kt_live_delete(live), 0);
    return tried();
}
