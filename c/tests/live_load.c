/* SPDX-License-Identifier: MIT OR Apache-2.0 */
/* 10,000 devices (or as many as the argument says) come and go by kt_live.h under readers, writers, pollers and callbacks
 * that unpublish their own device. The thread for which this returns 1 frees the device at once. */
#include <kt_live.h>
#include <stdatomic.h>
#include <stdio.h>

enum { PLACES = 3, USERS = 4, ALIVE = 0x600d, FREED = 0xdead };

/* What callbacks use. One that runs on after the 1 would use freed memory. */
struct device {
    atomic_int inside;
    unsigned alive;
    char pad[100];
};

static struct kt_live *live;
static atomic_long late, reads, writes, refused, self_removed, lost, removed, woken, listed, wrong;
static atomic_int is_over;
static long turns = 10000, rounds;

static void must(int64_t answer, const char *what)
{
    if (answer < 0) {
        printf("%s: %s\n", what, strerror((int)-answer));
        abort();
    }
}

static void look(struct device *device)
{
    if (device->alive != ALIVE)
        atomic_fetch_add(&late, 1);
}

/* Frees what only `own` callbacks of this thread use. */
static void free_device(struct device *device, int own)
{
    if (atomic_load(&device->inside) != own || device->alive != ALIVE)
        atomic_fetch_add(&late, 1);
    device->alive = FREED;
    free(device);
    atomic_fetch_add(&removed, 1);
}

static int64_t show(void *data, const struct kt_attribute *attribute, char *page)
{
    struct device *device = data;
    (void)attribute;
    atomic_fetch_add(&device->inside, 1);
    look(device);
    sched_yield();
    look(device);
    atomic_fetch_sub(&device->inside, 1);
    memcpy(page, "text\n", 5);
    return 5;
}

static int64_t store(void *data, const struct kt_attribute *attribute, const char *bytes, size_t length)
{
    struct device *device = data;
    (void)attribute;
    (void)bytes;
    atomic_fetch_add(&device->inside, 1);
    look(device);
    atomic_fetch_sub(&device->inside, 1);
    return (int64_t)length;
}

static int64_t delete(void *data, const struct kt_attribute *attribute, const char *bytes, size_t length)
{
    struct device *device = data;
    (void)attribute;
    (void)bytes;
    atomic_fetch_add(&device->inside, 1);
    sched_yield(); /* so that others come too */
    int32_t answer = kt_live_unpublish(live, kt_live_self(live));
    if (answer == 1) {
        atomic_fetch_add(&self_removed, 1);
        free_device(device, 1);
        return (int64_t)length;
    }
    must(answer, "unpublish inside");
    look(device); /* the thread that was first waits for this callback */
    sched_yield();
    look(device);
    atomic_fetch_add(&lost, 1);
    atomic_fetch_sub(&device->inside, 1);
    return (int64_t)length;
}

static const struct kt_attribute attributes[] = {
    {"speed", 0644, show, store, 0}, {"delete", 0200, NULL, delete, 0}, {"none", 0, NULL, NULL, 0}};

static void *user(void *data)
{
    unsigned seed = (unsigned)(uintptr_t)data;
    char path[32], text[16];
    while (!atomic_load(&is_over)) {
        int place = rand_r(&seed) % PLACES, what = rand_r(&seed) % 100;
        snprintf(path, sizeof path, "%s/dev%d/%s", place == 2 ? "/bus" : "", place, what < 10 ? "delete" : "speed");
        int64_t answer = what < 50 && what >= 10 ? kt_live_read(live, path, text, sizeof text)
                                                 : kt_live_write(live, path, "1", 1);
        if (answer == -ENODEV || answer == -ENOENT) {
            atomic_fetch_add(&refused, 1);
            sched_yield();
        } else {
            atomic_fetch_add(answer < 0 ? &wrong : answer == 5 ? &reads : &writes, 1);
        }
    }
    return NULL;
}

/* Watches a device that comes and goes: at each event it lists what is there. */
static void *poller(void *data)
{
    uint64_t times;
    char text[16];
    struct pollfd watched = {.fd = *(int *)data, .events = POLLIN};
    while (!atomic_load(&is_over)) {
        struct kt_child at = {.name = ""};
        if (poll(&watched, 1, 100) != 1)
            continue;
        must(read(watched.fd, &times, sizeof times), "read");
        atomic_fetch_add(&woken, (long)times);
        int64_t answer = kt_live_read(live, "/dev0/speed", text, sizeof text);
        if (answer != 5 && answer != -ENODEV && answer != -ENOENT)
            atomic_fetch_add(&wrong, 1);
        while (kt_live_list(live, "/", &at) == 1)
            atomic_fetch_add(&listed, 1);
    }
    return NULL;
}

/* Publishes a device, and unpublishes it if no callback has done so; at the last place the directory that contains it
 * goes first. The key is stored beside the device, which a callback may have freed. */
static void *owner(void *data)
{
    int place = (int)(uintptr_t)data;
    char path[32];
    snprintf(path, sizeof path, "%s/dev%d", place == 2 ? "/bus" : "", place);
    for (long i = 0; i < rounds; i++) {
        struct device *device = calloc(1, sizeof *device);
        struct kt_key bus = {0, 0}, key;
        if (place == 2)
            must(kt_live_publish(live, "/bus", NULL, 0, NULL, &bus), "/bus");
        device->alive = ALIVE;
        must(kt_live_publish(live, path, attributes, 3, device, &key), path);
        int32_t told = kt_live_notify(live, key, "speed");
        if (told && told != -ENOENT)
            atomic_fetch_add(&wrong, 1);
        long before = atomic_load(&reads) + atomic_load(&writes);
        for (int k = 0; k < 1000 && (k < 10 || atomic_load(&reads) + atomic_load(&writes) == before); k++)
            sched_yield();
        if (place == 2 && kt_live_unpublish(live, bus) != 1)
            atomic_fetch_add(&wrong, 1);
        int32_t answer = kt_live_unpublish(live, key);
        if (answer == 1)
            free_device(device, 0);
        else if (answer != 0 && answer != -ENOENT)
            must(answer, "unpublish");
    }
    return NULL;
}

int main(int count, char **words)
{
    pthread_t users[USERS], owners[PLACES], polling;
    if (count > 1)
        turns = atol(words[1]);
    rounds = turns / PLACES + 1;
    must(kt_live_new(&live, 64), "new");
    int fd = kt_live_watch(live, "/dev0/speed");
    must(fd, "watch");
    for (int i = 0; i < USERS; i++)
        pthread_create(&users[i], NULL, user, (void *)(uintptr_t)(i + 1));
    pthread_create(&polling, NULL, poller, &fd);
    for (int i = 0; i < PLACES; i++)
        pthread_create(&owners[i], NULL, owner, (void *)(uintptr_t)i);
    for (int i = 0; i < PLACES; i++)
        pthread_join(owners[i], NULL);
    atomic_store(&is_over, 1);
    for (int i = 0; i < USERS; i++)
        pthread_join(users[i], NULL);
    pthread_join(polling, NULL);
    uint64_t times;
    if (read(fd, &times, sizeof times) == sizeof times)
        atomic_fetch_add(&woken, (long)times);
    must(kt_live_unwatch(live, fd), "unwatch");
    must(kt_live_delete(live), "delete"); /* nothing is published, watched or run any longer */
    printf("%ld removals, %ld of them by callbacks, %ld came second; %ld reads, %ld writes, %ld refused, %ld wakes, "
           "%ld names; %ld callbacks where none may be, %ld wrong answers\n",
           removed, self_removed, lost, reads, writes, refused, woken, listed, late, wrong);
    /* the watcher saw each device at its path come and go */
    return atomic_load(&late) || atomic_load(&wrong) || atomic_load(&removed) != rounds * PLACES ||
           !atomic_load(&reads) || !atomic_load(&writes) || atomic_load(&woken) < rounds * 2;
}
