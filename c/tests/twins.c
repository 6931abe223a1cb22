/* SPDX-License-Identifier: MIT OR Apache-2.0 */
/* Twins: an object that many threads call is a directory that is not activated, with a live file for each thread. Each
 * thread enters its own file by its own hold, so no thread writes a cache line that another thread needs. One removal
 * of the directory removes the files too, and returns when nobody is inside any of them. */
#include <kernfs_tree.h>
#include <stdatomic.h>
#include <stdlib.h>
#include <string.h>
#include <unistd.h>
#include "trying.h"

enum { THREADS = 4, CALLS = 10000 };

/* What a thread has: its twin of the object, and what it counts. Each caller has its own cache lines. */
struct caller {
    _Alignas(128) struct kt_handle hold;
    struct kt_key twin;
    pthread_t thread;
    int32_t refused; /* what its last kt_enter_wake() returned */
    atomic_int inside;
    atomic_long calls;
};

static struct kt_lock lock = KT_LOCK_INIT;
static struct kt_handle tree;
static struct caller callers[THREADS];
static pthread_barrier_t all_inside, counted;

static void must(int64_t answer, const char *what)
{
    if (answer < 0) {
        fprintf(stderr, "%s: %s\n", what, kt_strerror((int32_t)answer));
        exit(1);
    }
}

/* Makes the object, and for each caller a twin and a hold of it. */
static struct kt_key publish(struct kt_key root)
{
    struct kt_key object;
    pthread_mutex_lock(&lock.mutex);
    must(kt_create_dir(&tree, root, "object", 6, false, &object), "object");
    for (int i = 0; i < THREADS; i++) {
        char name = (char)('0' + i);
        must(kt_create_file(&tree, object, &name, 1, 0444, 0, true, &callers[i].twin), "twin");
        must(kt_new(&callers[i].hold.at), "new");
        must(kt_hold(&tree, callers[i].twin, &callers[i].hold), "hold");
    }
    pthread_mutex_unlock(&lock.mutex);
    return object;
}

/* Whether a removal has marked the node. */
static bool is_doomed(struct kt_key key)
{
    struct kt_node_info stat;
    pthread_mutex_lock(&lock.mutex);
    must(kt_stat(&tree, key, &stat), "stat");
    pthread_mutex_unlock(&lock.mutex);
    return stat.doomed;
}

/* In the last call of each thread: all are inside when the removal begins, and then leave one after the other. */
static void stay(const struct caller *me)
{
    pthread_barrier_wait(&all_inside);
    pthread_barrier_wait(&counted);
    for (int i = 0; i < 30000 && !is_doomed(me->twin); i++)
        usleep(1000);
    usleep(20 * 1000 * (unsigned)(1 + (me - callers)));
}

/* Enters and leaves its twin until it is refused. What is between would be the callback that uses the object. (If
 * nothing refuses it, it ends after twice as many calls.) */
static void *call(void *data)
{
    struct caller *me = data;
    while (atomic_load(&me->calls) < 2 * CALLS && (me->refused = kt_enter_wake(&me->hold, &lock)) == 0) {
        atomic_store(&me->inside, 1);
        if (atomic_fetch_add(&me->calls, 1) + 1 == CALLS)
            stay(me);
        atomic_store(&me->inside, 0);
        must(kt_leave_wake(&me->hold, &lock), "leave");
    }
    return NULL;
}

static int inside(void)
{
    int count = 0;
    for (int i = 0; i < THREADS; i++)
        count += atomic_load(&callers[i].inside);
    return count;
}

static long calls(void)
{
    long count = 0;
    for (int i = 0; i < THREADS; i++)
        count += atomic_load(&callers[i].calls);
    return count;
}

/* After the removal no hold of a twin can enter, and no twin is in the tree. */
static void try_after(void)
{
    struct kt_node_info stat;
    int refused = 0, late = 0, there = 0;
    for (int i = 0; i < THREADS; i++) {
        refused += callers[i].refused == -ENODEV;
        late += kt_enter_wake(&callers[i].hold, &lock) != -ENODEV;
        there += kt_stat(&tree, callers[i].twin, &stat) != -ENOENT;
        must(kt_clear_wake(&callers[i].hold, &lock), "clear");
        must(kt_delete(callers[i].hold), "delete");
    }
    expect("threads that were refused with ENODEV", refused, THREADS);
    expect("holds that can still enter", late, 0);
    expect("twins that are still in the tree", there, 0);
}

int main(void)
{
    struct kt_key root, object;
    char name[KT_NAME_MAX];
    must(kt_new(&tree.at), "new");
    must(kt_create_root(&tree, 2 + THREADS, 3), "tree");
    must(kt_root(&tree, &root), "root");
    object = publish(root);
    expect("the first name that is listed", kt_next(&tree, root, "", 0, name, sizeof name), -ENOENT);
    pthread_barrier_init(&all_inside, NULL, THREADS + 1);
    pthread_barrier_init(&counted, NULL, THREADS + 1);
    for (int i = 0; i < THREADS; i++)
        must(-pthread_create(&callers[i].thread, NULL, call, &callers[i]), "thread");

    pthread_barrier_wait(&all_inside);
    expect("inside when the removal begins", inside(), THREADS);
    pthread_barrier_wait(&counted);
    expect("the removal of the object", kt_remove_wait(&tree, object, &lock), 1);
    expect("inside when it has returned", inside(), 0);

    for (int i = 0; i < THREADS; i++)
        pthread_join(callers[i].thread, NULL);
    expect("calls, none of them after the removal", calls(), (int64_t)THREADS * CALLS);
    try_after();
    must(kt_delete(tree), "delete");
    pthread_barrier_destroy(&all_inside);
    pthread_barrier_destroy(&counted);
    return tried();
}
