/* SPDX-License-Identifier: MIT OR Apache-2.0 */
/* Threads that wait for a gate: to shut it, to remove its node, or without knowing of it. The sleeps and the wakes of the
 * headers are counted here, so each test knows which threads sleep, and none depends on time. If a thread is never woken,
 * a signal ends the program. It prints a line for each test; the last line is 'N passed, M failed'. */
#include <pthread.h>
#include <stdatomic.h>

static int count_sleep(pthread_cond_t *at, pthread_mutex_t *mutex);
static int count_nap(pthread_cond_t *at, pthread_mutex_t *mutex, const struct timespec *until);
static int count_wake(pthread_cond_t *at);
#define pthread_cond_wait count_sleep
#define pthread_cond_timedwait count_nap
#define pthread_cond_broadcast count_wake
#include <kernfs_tree.h>
#undef pthread_cond_wait
#undef pthread_cond_timedwait
#undef pthread_cond_broadcast
#include <sched.h>
#include <stdlib.h>
#include <unistd.h>
#include "trying.h"

enum { LANES = 2, LONG = 3600 * 1000 };

static struct kt_lock lock = KT_LOCK_INIT;
static struct kt_handle tree, gate, hold, first, other, more;
static struct kt_key root, dir, file;
static atomic_int sleeps, wakes, bare_wakes; /* since begin(); the bare ones were made while nobody had the lock */

static int count_sleep(pthread_cond_t *at, pthread_mutex_t *mutex)
{
    atomic_fetch_add(&sleeps, 1);
    return pthread_cond_wait(at, mutex);
}

static int count_nap(pthread_cond_t *at, pthread_mutex_t *mutex, const struct timespec *until)
{
    atomic_fetch_add(&sleeps, 1);
    return pthread_cond_timedwait(at, mutex, until);
}

static int count_wake(pthread_cond_t *at)
{
    if (pthread_mutex_trylock(&lock.mutex) == 0) {
        atomic_fetch_add(&bare_wakes, 1);
        pthread_mutex_unlock(&lock.mutex);
    }
    atomic_fetch_add(&wakes, 1);
    return pthread_cond_broadcast(at);
}

static void must(int64_t answer)
{
    if (answer < 0) {
        fprintf(stderr, "%s\n", kt_strerror(answer));
        exit(1);
    }
}

/* A file in a directory, with two holds, one of which is a gate; and two passes of the gate. */
static void begin(void)
{
    alarm(300);
    must(kt_create_dir(&tree, root, "d", 1, true, &dir));
    must(kt_create_file(&tree, dir, "f", 1, 0444, 0, true, &file));
    must(kt_hold(&tree, file, &gate));
    must(kt_hold(&tree, file, &hold));
    must(kt_gate(&gate, LANES, &first));
    must(kt_pass(&first, 1, &other));
    atomic_store(&sleeps, 0);
    atomic_store(&wakes, 0);
}

/* Nobody waits or is inside, and the gate is closed. */
static void end(void)
{
    struct kt_handle *each[] = {&gate, &hold, &first, &other, &more};
    must(kt_remove(&tree, dir));
    for (size_t i = 0; i < sizeof each / sizeof *each; i++)
        TRY(kt_clear_wake(each[i], &lock), 0);
    TRY(atomic_load(&bare_wakes), 0);
}

/* Waits until this number of sleeps has begun: their threads sleep, or were woken and have not looked yet. */
static void until_asleep(int number)
{
    for (int seen = 0; seen < number;) {
        sched_yield();
        pthread_mutex_lock(&lock.mutex);
        seen = atomic_load(&sleeps);
        pthread_mutex_unlock(&lock.mutex);
    }
}

/* A call that another thread makes, and what it returned. */
struct waiter {
    int32_t (*call)(void);
    pthread_t thread;
    int32_t result;
};

static void *waits(void *data)
{
    struct waiter *me = data;
    me->result = me->call();
    return NULL;
}

/* Begins a call, and returns when this number of sleeps has begun. */
static void start(struct waiter *it, int32_t (*call)(void), int number)
{
    it->call = call;
    must(-pthread_create(&it->thread, NULL, waits, it));
    until_asleep(number);
}

static int32_t result_of(struct waiter *it)
{
    pthread_join(it->thread, NULL);
    return it->result;
}

static int32_t shut(void) { return kt_shut_wait(&gate, &lock); }
static int32_t shut_long(void) { return kt_shut_wait_for(&gate, &lock, LONG); }
static int32_t remove_gated(void) { return kt_remove_gated_wait(&tree, &gate, file, &lock); }
static int32_t remove_gated_long(void) { return kt_remove_gated_wait_for(&tree, &gate, file, &lock, LONG); }
static int32_t remove_file(void) { return kt_remove_wait(&tree, file, &lock); }
static int32_t remove_dir(void) { return kt_remove_wait(&tree, dir, &lock); }
static int32_t hide_file(void) { return kt_hide_wait(&tree, file, &lock); }

/* Each step wakes when it has to, and only then. */
static void try_wakes(void)
{
    begin();
    TRY(kt_pass_enter_wake(&first, &lock), 0);
    TRY(kt_pass_leave_wake(&first, &lock), 0);
    TRY(kt_pass_leave_wake(&first, &lock), -EINVAL);
    TRY(kt_pass_enter_wake(&first, &lock), 0);
    TRY(atomic_load(&wakes), 0);
    TRY(kt_shut(&gate), -EAGAIN);
    TRY(kt_pass_enter_wake(&other, &lock), -ENODEV);
    TRY(atomic_load(&wakes), 1);
    TRY(kt_pass_leave_wake(&first, &lock), 0); /* the shutting that it wakes is not in its result */
    TRY(atomic_load(&wakes), 2);
    TRY(kt_shut_wait(&gate, &lock), 0);
    TRY(kt_gate_wake(&gate, 0, &more, &lock), -EINVAL);
    TRY(atomic_load(&wakes), 2);
    TRY(kt_hide(&tree, file), 0);
    TRY(kt_gate_wake(&gate, LANES, &more, &lock), -ENODEV);
    TRY(atomic_load(&wakes), 3);
    TRY(kt_unhide(&tree, file), 0);
    TRY(kt_gate_wake(&gate, LANES, &more, &lock), 0);
    TRY(kt_remove(&tree, file), -EAGAIN);
    TRY(atomic_load(&wakes), 3);
    TRY(kt_shut_wait(&gate, &lock), 0); /* the removal may sleep */
    TRY(atomic_load(&wakes), 4);
    end();
}

static int64_t look(struct kt_handle *pass, void *number)
{
    TRY(kt_pass_enter(pass), -EINVAL); /* it is inside */
    return *(int *)number;
}
static int64_t leave_early(struct kt_handle *pass, void *data)
{
    (void)data;
    TRY(kt_pass_leave(pass), 0);
    return -EPERM;
}
static int64_t begin_shutting(struct kt_handle *pass, void *data)
{
    (void)pass, (void)data;
    TRY(kt_shut(&gate), -EAGAIN);
    return 7;
}

/* Callbacks by a pass. */
static void try_run(void)
{
    int five = 5, minus = -5;
    int64_t out = 0;
    begin();
    TRY(kt_pass_run(&first, &lock, look, &five), 5);
    TRY(kt_pass_leave(&first), -EINVAL); /* it is outside again */
    TRY(kt_pass_run_into(&first, &lock, look, &minus, &out), 0);
    TRY(out, -5);
    TRY(kt_pass_run(&first, &lock, leave_early, NULL), -EPERM);
    TRY(kt_pass_leave(&first), -EINVAL);
    TRY(kt_pass_run(&gate, &lock, look, &five), -EINVAL);
    TRY(atomic_load(&wakes), 0);
    TRY(kt_pass_run(&first, &lock, begin_shutting, NULL), 7);
    TRY(atomic_load(&wakes), 1);
    TRY(kt_pass_run_into(&first, &lock, look, &five, &out), -ENODEV);
    TRY(out, -5);
    TRY(atomic_load(&wakes), 2);
    TRY(kt_shut_wait(&gate, &lock), 0);
    end();
}

/* A removal that is refused leaves the gate open. */
static void try_refusals(void)
{
    struct kt_key none = {7, 9};
    begin();
    TRY(kt_remove_gated_wait(&tree, &gate, none, &lock), -ENOENT);
    TRY(kt_remove_gated_wait(&tree, &gate, root, &lock), -EINVAL);
    TRY(kt_remove_gated_wait_for(&tree, &gate, root, &lock, 1), -EINVAL);
    must(kt_hold(&tree, file, &more));
    TRY(kt_remove_gated_wait(&tree, &gate, file, &lock), -EMFILE);
    TRY(kt_clear(&more), 1);
    TRY(kt_pass_enter(&other), 0);
    TRY(kt_pass_leave(&other), 0);
    TRY(kt_remove_gated_wait(&tree, &gate, file, &lock), 1);
    end();
}

/* Calls that are made again. */
static void try_again(void)
{
    begin();
    TRY(kt_shut_wait(&gate, &lock), 0);
    TRY(kt_shut_wait(&gate, &lock), -EINVAL);
    TRY(kt_shut_wait_for(&gate, &lock, 1), -EINVAL);
    TRY(kt_remove_gated_wait(&tree, &gate, file, &lock), 1);
    TRY(kt_remove_gated_wait(&tree, &gate, file, &lock), 0);
    TRY(kt_remove_gated_wait_for(&tree, &gate, file, &lock, 1), 0);
    end();
}

/* Time limits. The first are over while somebody is inside, the others never. */
static void try_limits(void)
{
    struct waiter it;
    begin();
    must(kt_pass_enter(&first));
    TRY(kt_shut_wait_for(&gate, &lock, 20), -ETIMEDOUT);
    TRY(kt_pass_enter(&other), -ENODEV); /* it is shut */
    TRY(kt_remove_gated_wait_for(&tree, &gate, file, &lock, 20), -ETIMEDOUT);
    TRY(kt_enter(&hold), -ENODEV); /* and marked */
    start(&it, shut_long, atomic_load(&sleeps) + 1);
    TRY(kt_pass_leave_wake(&first, &lock), 0);
    TRY(result_of(&it), 0);
    TRY(kt_remove_gated_wait_for(&tree, &gate, file, &lock, LONG), 1);
    end();

    begin();
    must(kt_enter(&hold));
    TRY(kt_remove_gated_wait_for(&tree, &gate, file, &lock, 20), -ETIMEDOUT);
    TRY(kt_shut(&gate), -EINVAL); /* it is closed, and only a callback by a hold is inside */
    TRY(kt_remove_gated_wait_for(&tree, &gate, file, &lock, 20), -ETIMEDOUT);
    start(&it, remove_gated_long, atomic_load(&sleeps) + 1);
    TRY(kt_leave_wake(&hold, &lock), 0);
    TRY(result_of(&it), 1);
    end();
}

/* A thread that waits for a pass looks again when it is woken, and sleeps on while the pass is inside. */
static void try_passes(int32_t (*call)(void), int32_t result)
{
    struct waiter it;
    begin();
    must(kt_pass_enter(&first));
    start(&it, call, 1);
    TRY(kt_pass_enter_wake(&other, &lock), -ENODEV);
    until_asleep(2);
    kt_wake(&lock);
    until_asleep(3);
    TRY(kt_pass_leave_wake(&first, &lock), 0);
    TRY(result_of(&it), result);
    end();
}

/* A removal of a gate's node also waits for a callback by a hold, also if the gate was closed before. */
static void try_callback(bool is_closed)
{
    struct waiter it;
    begin();
    must(kt_enter(&hold));
    if (is_closed)
        TRY(kt_shut_wait(&gate, &lock), 0);
    start(&it, remove_gated, 1);
    kt_wake(&lock);
    until_asleep(2);
    TRY(kt_pass_enter(&other), -ENODEV);
    TRY(kt_leave_wake(&hold, &lock), 0);
    TRY(result_of(&it), 1);
    end();
}

/* Two removals that know nothing of the gate sleep until it is shut: both are woken. */
static void try_removals(void)
{
    struct waiter of_file, of_dir;
    begin();
    start(&of_file, remove_file, 1);
    start(&of_dir, remove_dir, 2);
    TRY(kt_pass_enter_wake(&first, &lock), 0); /* the gate is still open */
    TRY(kt_pass_leave_wake(&first, &lock), 0);
    TRY(kt_shut_wait(&gate, &lock), 0);
    TRY(result_of(&of_file) >= 0, true);
    TRY(result_of(&of_dir), 1);
    end();
}

static void try_hiding(void)
{
    struct waiter it;
    begin();
    start(&it, hide_file, 1);
    TRY(kt_unhide(&tree, file), -EAGAIN);
    TRY(kt_shut_wait(&gate, &lock), 0);
    TRY(result_of(&it), 0);
    TRY(kt_unhide(&tree, file), 0);
    end();
}

/* Of two removals of a gate's node, of which one knows of the gate, one takes the node out. */
static void try_removers(void)
{
    struct waiter it;
    begin();
    start(&it, remove_file, 1);
    TRY(kt_remove_gated_wait(&tree, &gate, file, &lock) + result_of(&it), 1);
    end();
}

int main(void)
{
    setvbuf(stdout, NULL, _IOLBF, 0); /* a signal may end it */
    must(kt_new(&tree.at) || kt_new(&gate.at) || kt_new(&hold.at) || kt_new(&first.at) || kt_new(&other.at) ||
         kt_new(&more.at) ? -ENOMEM : 0);
    must(kt_create_root(&tree, 8, 3));
    must(kt_root(&tree, &root));
    try_wakes();
    try_run();
    try_refusals();
    try_again();
    try_limits();
    try_passes(shut, 0);
    try_passes(shut_long, 0);
    try_passes(remove_gated, 1);
    try_passes(remove_gated_long, 1);
    try_callback(false);
    try_callback(true);
    try_removals();
    try_hiding();
    try_removers();
    TRY(kt_delete(more) || kt_delete(first) || kt_delete(other) || kt_delete(hold) || kt_delete(gate), 0);
    TRY(kt_delete(tree), 0);
    return tried();
}
