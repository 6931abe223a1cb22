/* SPDX-License-Identifier: MIT OR Apache-2.0 */
/* A gate: an object that many threads call is one node. Each thread goes inside by its own pass, in its own lane, so no
 * thread writes a cache line that another thread needs. A removal of the node shuts the gate, and returns when nobody
 * is inside. Four threads call the object, and it is removed and freed, 1,000 times or as often as the argument says. */
#include <kernfs_tree.h>
#include <stdatomic.h>
#include <stdlib.h>
#include <string.h>
#include <unistd.h>
#include "trying.h"

enum { THREADS = 4, CALLS = 1000 };

/* What the threads call: each counts in its own cell. It is freed after the removal. */
struct object {
    long calls[THREADS][16];
};

/* What a thread has. Each caller has its own cache lines. */
struct caller {
    _Alignas(128) struct kt_handle pass;
    pthread_t thread;
    int number;
    int32_t refused; /* what its last kt_pass_enter_wake() returned */
    atomic_int inside;
};

static struct kt_lock lock = KT_LOCK_INIT;
static struct kt_handle tree, gate, first;
static struct kt_key root;
static struct caller callers[THREADS];
static struct object *object;
static atomic_bool is_over, stays;
static pthread_barrier_t begun, all_inside, counted, ended;

static void must(int64_t answer, const char *what)
{
    if (answer < 0) {
        fprintf(stderr, "%s: %s\n", what, kt_strerror(answer));
        exit(1);
    }
}

/* A live file of this name, and a hold of it behind the handle of the gate. */
static struct kt_key publish(const char *name, bool live)
{
    struct kt_key key;
    pthread_mutex_lock(&lock.mutex);
    must(kt_create_file(&tree, root, name, strlen(name), 0444, 0, live, &key), "object");
    must(kt_hold(&tree, key, &gate), "hold");
    pthread_mutex_unlock(&lock.mutex);
    return key;
}

/* Each call, with right and wrong uses. */
static void try_uses(void)
{
    struct kt_key key = publish("uses", false);
    struct kt_handle other, none;
    struct kt_node_counts counts;
    must(kt_new(&other.at), "new");
    must(kt_new(&none.at), "new");
    TRY(kt_gate(&gate, 4, &first), -ENODEV); /* it is not activated */
    must(kt_activate(&tree, key), "activate");
    TRY(kt_gate(&gate, 0, &first), -EINVAL);
    TRY(kt_gate(&gate, KT_LANES_MAX + 1, &first), -EINVAL);
    TRY(kt_gate(&gate, 4, &tree), -EINVAL); /* something is behind it */
    TRY(kt_gate(&none, 4, &first), -EINVAL);
    TRY(kt_gate(&tree, 4, &first), -EINVAL);
    TRY(kt_shut(&gate), -EINVAL);
    TRY(kt_gate(&gate, 4, &first), 0);
    TRY(kt_gate(&gate, 4, &none), -EINVAL); /* it is no hold any longer */
    TRY(kt_enter(&gate), -EINVAL);
    TRY(kt_pass(&gate, 1, &other), -EINVAL);
    TRY(kt_pass(&first, 7, &other), 0);
    TRY(kt_pass(&first, 7, &other), -EINVAL);
    TRY(kt_pass_leave(&first), -EINVAL);
    TRY(kt_pass_enter(&gate), -EINVAL);
    TRY(kt_pass_enter(&first), 0);
    TRY(kt_pass_enter(&first), -EINVAL);
    TRY(kt_pass(&first, 0, &none), -EINVAL); /* it is inside */
    TRY(kt_pass_enter(&other), 0);
    TRY(kt_pass_leave(&other), 0);
    TRY(kt_clear(&first), -EBUSY);
    TRY(kt_clear(&gate), -EBUSY);
#if !defined(KT_ASAN) && !defined(KT_TSAN) /* (these abort the program) */
    TRY(kt_delete(gate), -EBUSY);
    TRY(kt_delete(first), -EBUSY);
#endif
    TRY(kt_counts(&tree, key, &counts), 0);
    TRY(counts.users, 1); /* the gate, however many passes are inside */
    TRY(kt_remove(&tree, key), -EAGAIN);
    TRY(kt_pass_enter(&other), 0); /* a removal that does not know of the gate waits */
    TRY(kt_pass_leave(&other), 0);
    TRY(kt_shut(&gate), -EAGAIN);
    TRY(kt_pass_enter(&other), -ENODEV);
    TRY(kt_pass_leave(&first), 1);
    TRY(kt_remove(&tree, key), -EAGAIN);
    TRY(kt_shut(&gate), 1); /* the removal waits for the gate's call */
    TRY(kt_shut(&gate), -EINVAL);
    TRY(kt_pass_enter(&first), -ENODEV);
    TRY(kt_enter(&gate), -ENODEV);
    TRY(kt_remove(&tree, key), 1);
    TRY(kt_clear(&other), 0);
    TRY(kt_pass(&first, 2, &other), 0); /* a pass may outlive the gate */
    TRY(kt_pass_enter(&other), -ENODEV);
    must(kt_clear(&gate), "clear");
    must(kt_clear(&first), "clear");
    must(kt_delete(other), "delete");
    must(kt_delete(none), "delete");
}

/* A gate that is shut with nobody inside, and a hidden file that has one. */
static void try_shut(void)
{
    struct kt_key key = publish("shut", true);
    TRY(kt_gate(&gate, 1, &first), 0);
    TRY(kt_shut_wait(&gate, &lock), 0);
    TRY(kt_enter(&gate), 0); /* the node stays live, and its hold is there again */
    TRY(kt_leave(&gate), 0);
    must(kt_clear(&first), "clear");
    TRY(kt_gate_wake(&gate, KT_LANES_MAX, &first, &lock), 0);
    TRY(kt_hide(&tree, key), -EAGAIN);
    TRY(kt_shut_wait(&gate, &lock), 0);
    TRY(kt_hide(&tree, key), 0);
    TRY(kt_remove_wait(&tree, key, &lock), 1);
    must(kt_clear(&gate), "clear");
    must(kt_clear(&first), "clear");
}

/* In one call of each thread of the first turn: all are inside when the removal begins, and leave one by one. */
static void stay(const struct caller *me)
{
    pthread_barrier_wait(&all_inside);
    pthread_barrier_wait(&counted);
    usleep(20 * 1000 * (unsigned)(1 + me->number));
}

/* Goes inside and out again until it is refused. What is between is the callback that uses the object. */
static void *call(void *data)
{
    struct caller *me = data;
    for (;;) {
        pthread_barrier_wait(&begun);
        if (atomic_load(&is_over))
            return NULL;
        for (long i = 0; (me->refused = kt_pass_enter_wake(&me->pass, &lock)) == 0; i++) {
            atomic_store(&me->inside, 1);
            object->calls[me->number][0]++;
            if (i == CALLS && atomic_load(&stays))
                stay(me);
            atomic_store(&me->inside, 0);
            must(kt_pass_leave_wake(&me->pass, &lock), "leave");
        }
        pthread_barrier_wait(&ended);
    }
}

static int inside(void)
{
    int count = 0;
    for (int i = 0; i < THREADS; i++)
        count += atomic_load(&callers[i].inside);
    return count;
}

/* Removes the node, in two ways in turn. */
static int32_t removed(struct kt_key key, long turn)
{
    if (turn % 2 == 0)
        return kt_remove_gated_wait(&tree, &gate, key, &lock);
    must(kt_shut_wait(&gate, &lock), "shut");
    return kt_remove_wait(&tree, key, &lock);
}

/* Publishes the object, has it called, and removes and frees it. Returns how much was wrong. */
static int turn(long number)
{
    struct kt_key key = publish("object", true);
    int wrong = 0;
    alarm(300); /* a thread that is never woken ends the program */
    object = calloc(1, sizeof *object);
    must(object ? 0 : -ENOMEM, "object");
    must(kt_gate(&gate, THREADS, &first), "gate");
    for (int i = 0; i < THREADS; i++)
        must(kt_pass(&first, (uint32_t)i, &callers[i].pass), "pass");
    atomic_store(&stays, number == 0);
    pthread_barrier_wait(&begun);
    if (number == 0) {
        pthread_barrier_wait(&all_inside);
        expect("inside when the removal begins", inside(), THREADS);
        pthread_barrier_wait(&counted);
    } else {
        usleep((unsigned)(number % 100));
    }
    wrong += removed(key, number) != 1;
    wrong += inside();
    memset(object, 0, sizeof *object); /* nobody uses it any longer */
    free(object);
    object = NULL;
    pthread_barrier_wait(&ended);
    for (int i = 0; i < THREADS; i++) {
        wrong += callers[i].refused != -ENODEV;
        wrong += kt_pass_enter_wake(&callers[i].pass, &lock) != -ENODEV;
        must(kt_clear(&callers[i].pass), "clear");
    }
    must(kt_clear_wake(&gate, &lock), "clear");
    must(kt_clear(&first), "clear");
    return wrong;
}

int main(int count, char **words)
{
    long turns = count > 1 ? atol(words[1]) : 1000;
    int wrong = 0;
    must(kt_new(&tree.at), "new");
    must(kt_new(&gate.at), "new");
    must(kt_new(&first.at), "new");
    must(kt_create_root(&tree, 4, 4), "tree");
    must(kt_root(&tree, &root), "root");
    try_uses();
    try_shut();

    pthread_barrier_init(&begun, NULL, THREADS + 1);
    pthread_barrier_init(&all_inside, NULL, THREADS + 1);
    pthread_barrier_init(&counted, NULL, THREADS + 1);
    pthread_barrier_init(&ended, NULL, THREADS + 1);
    for (int i = 0; i < THREADS; i++) {
        callers[i].number = i;
        must(kt_new(&callers[i].pass.at), "new");
        must(-pthread_create(&callers[i].thread, NULL, call, &callers[i]), "thread");
    }
    for (long i = 0; i < turns; i++)
        wrong += turn(i);
    expect("threads inside after a removal, and calls after it", wrong, 0);

    atomic_store(&is_over, true);
    pthread_barrier_wait(&begun);
    for (int i = 0; i < THREADS; i++) {
        pthread_join(callers[i].thread, NULL);
        must(kt_delete(callers[i].pass), "delete");
    }
    must(kt_delete(first), "delete");
    must(kt_delete(gate), "delete");
    must(kt_delete(tree), "delete");
    return tried();
}
