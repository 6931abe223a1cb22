/* SPDX-License-Identifier: MIT OR Apache-2.0 */
/* 10,000 removals (or as many as the argument says) under load: threads use attributes of directories that come and go,
 * and what a callback would use is freed as soon as the removal has returned. One attribute is hidden and shown again. */
#include <kernfs_tree.h>
#include <pthread.h>
#include <stdatomic.h>
#include <stdio.h>
#include <stdlib.h>
#include <string.h>

enum { PLACES = 2, USERS = 3 };

/* What a callback uses. It is freed after the removal, so one that ran on would use freed memory. */
struct device {
    atomic_long inside, uses;
    unsigned alive;
};

static struct kt_lock lock = KT_LOCK_INIT;
static struct kt_handle tree;
static struct kt_key root;
static atomic_long late, used, refused, self_removed, steady_inside, steady_uses;
static long one, other; /* the same, but while they are changed: then the steady file is hidden */
static atomic_int is_over;
static long turns = 10000;

static void must(int64_t answer, const char *what)
{
    if (answer < 0) {
        printf("%s: %s\n", what, strerror((int)-answer));
        abort();
    }
}

static int64_t use(struct kt_handle *call, void *data)
{
    struct kt_node_info stat;
    struct kt_key key = *(struct kt_key *)data;
    (void)call;
    /* as long as this call runs the node is in the tree, and its tag, the device, is there */
    pthread_mutex_lock(&lock.mutex);
    int32_t told = kt_stat(&tree, key, &stat);
    pthread_mutex_unlock(&lock.mutex);
    if (told) {
        atomic_fetch_add(&late, 1);
        return 0;
    }
    struct device *device = (struct device *)(uintptr_t)stat.tag;
    atomic_fetch_add(&device->inside, 1);
    if (device->alive != 0x600d)
        atomic_fetch_add(&late, 1);
    atomic_fetch_add(&device->uses, 1);
    atomic_fetch_sub(&device->inside, 1);
    return 0;
}

/* Removes its own node now and then. */
static int64_t use_up(struct kt_handle *call, void *data)
{
    int32_t first = kt_remove_self_wait(&tree, call, *(struct kt_key *)data, &lock);
    must(first, "remove_self");
    atomic_fetch_add(&self_removed, first);
    return first;
}

static void *user(void *data)
{
    unsigned seed = (unsigned)(uintptr_t)data;
    struct kt_handle hold;
    must(kt_new(&hold.at), "new");
    while (!atomic_load(&is_over)) {
        char path[] = "/0/f";
        struct kt_key key;
        path[1] = (char)('0' + rand_r(&seed) % PLACES);
        pthread_mutex_lock(&lock.mutex);
        int32_t found = kt_walk(&tree, path, 4, &key);
        if (!found)
            found = kt_hold(&tree, key, &hold);
        pthread_mutex_unlock(&lock.mutex);
        if (found)
            continue;
        for (int i = 0; i < 20; i++) {
            int64_t answer = kt_run(&hold, &lock, rand_r(&seed) % 400 ? use : use_up, &key);
            atomic_fetch_add(answer < 0 ? &refused : &used, 1);
            if (answer < 0)
                break;
        }
        kt_clear_wake(&hold, &lock);
    }
    kt_delete(hold);
    return NULL;
}

/* Uses the file that is hidden and shown again. */
static int64_t use_steady(struct kt_handle *call, void *data)
{
    (void)call;
    (void)data;
    atomic_fetch_add(&steady_inside, 1);
    if (one != other)
        atomic_fetch_add(&late, 1);
    atomic_fetch_add(&steady_uses, 1);
    atomic_fetch_sub(&steady_inside, 1);
    return 0;
}

static void *steady_user(void *data)
{
    struct kt_handle hold;
    must(kt_new(&hold.at), "new");
    pthread_mutex_lock(&lock.mutex);
    must(kt_hold(&tree, *(struct kt_key *)data, &hold), "hold");
    pthread_mutex_unlock(&lock.mutex);
    while (!atomic_load(&is_over))
        if (kt_run(&hold, &lock, use_steady, NULL) < 0)
            sched_yield();
    kt_clear_wake(&hold, &lock);
    kt_delete(hold);
    return NULL;
}

/* Hides a file, changes what its callbacks use, and shows it again, this many times. */
static void *hider(void *data)
{
    struct kt_key steady = *(struct kt_key *)data;
    for (long i = 0; i < turns / 10; i++) {
        long before = atomic_load(&steady_uses);
        for (int k = 0; k < 1000 && atomic_load(&steady_uses) == before; k++)
            sched_yield();
        must(kt_hide_wait(&tree, steady, &lock), "hide");
        if (atomic_load(&steady_inside))
            atomic_fetch_add(&late, 1);
        one++;
        sched_yield();
        other++;
        pthread_mutex_lock(&lock.mutex);
        must(kt_unhide(&tree, steady), "unhide");
        pthread_mutex_unlock(&lock.mutex);
    }
    return NULL;
}

struct owner {
    int place;
    long removals;
};

/* Creates a directory with an attribute and removes it, this many times. */
static void *owner(void *data)
{
    struct owner *own = data;
    char name[] = {(char)('0' + own->place)};
    for (long i = 0; i < turns / 2; i++) {
        struct device *device = calloc(1, sizeof *device);
        struct kt_key dir, file;
        device->alive = 0x600d;
        pthread_mutex_lock(&lock.mutex);
        must(kt_create_dir(&tree, root, name, 1, false, &dir), "create_dir");
        must(kt_create_file(&tree, dir, "f", 1, 0644, (uint64_t)(uintptr_t)device, false, &file), "create_file");
        must(kt_activate(&tree, dir), "activate");
        if (i % 64 == 0)
            must(kt_compact(&tree), "compact");
        pthread_mutex_unlock(&lock.mutex);
        for (int k = 0; k < 1000 && !atomic_load(&device->uses); k++)
            sched_yield();
        must(kt_remove_wait(&tree, dir, &lock), "remove");
        if (atomic_load(&device->inside))
            atomic_fetch_add(&late, 1);
        device->alive = 0xdead;
        free(device);
        own->removals++;
    }
    return NULL;
}

int main(int count, char **words)
{
    if (count > 1)
        turns = atol(words[1]);
    must(kt_new(&tree.at), "new");
    must(kt_create_root(&tree, 64, 64), "create_root");
    must(kt_root(&tree, &root), "root");
    struct kt_key steady;
    must(kt_create_file(&tree, root, "steady", 6, 0644, 0, true, &steady), "create_file");
    pthread_t users[USERS], owners[2], steady_one, hiding_one;
    struct owner own[2] = {{0, 0}, {1, 0}};
    for (int i = 0; i < USERS; i++)
        pthread_create(&users[i], NULL, user, (void *)(uintptr_t)(i + 1));
    for (int i = 0; i < 2; i++)
        pthread_create(&owners[i], NULL, owner, &own[i]);
    pthread_create(&steady_one, NULL, steady_user, &steady);
    pthread_create(&hiding_one, NULL, hider, &steady);
    for (int i = 0; i < 2; i++)
        pthread_join(owners[i], NULL);
    pthread_join(hiding_one, NULL);
    atomic_store(&is_over, 1);
    pthread_join(steady_one, NULL);
    for (int i = 0; i < USERS; i++)
        pthread_join(users[i], NULL);
    kt_delete(tree);
    printf("%ld removals, %ld calls, %ld refused, %ld self-removals, %ld hidings; %ld callbacks where none may be\n",
           own[0].removals + own[1].removals, atomic_load(&used), atomic_load(&refused), atomic_load(&self_removed), one,
           atomic_load(&late));
    return atomic_load(&late) != 0 || own[0].removals + own[1].removals != turns / 2 * 2 || !atomic_load(&used) ||
           one != turns / 10 || !atomic_load(&steady_uses);
}
