/* SPDX-License-Identifier: MIT OR Apache-2.0 */
/* kt_gates.h: gates and passes with the lock of a tree, and calls that wait until nobody is inside. kt_wait.h includes
 * this. It is C over the calls of kernfs_tree.h: tested, not proved. What kt_wait.h says about the lock and about
 * fork() holds here too.
 *
 * One thread at a time uses a gate. This holds for the whole of kt_shut_wait() and kt_remove_gated_wait(): until such a
 * call has returned, no other thread may use, clear or free the gate's handle. Other threads that remove the node call
 * kt_remove_wait(), which does not use the gate. Each thread that goes inside has its own pass.
 *
 * Threads that end: if a thread is cancelled in a callback of kt_pass_run() or ends there by pthread_exit(), or if a
 * C++ exception leaves the callback, the pass is left. (kt_wait.h says in which code an exception may do so.) Between
 * kt_pass_enter_wake() and kt_pass_leave_wake() nothing leaves the pass for a thread that ends: a pass that stays
 * inside keeps its gate from closing, and each removal of its node waiting, for ever. If a thread is cancelled while it
 * waits here, the lock is unlocked. The gate stays shut and keeps its call of the node. Then another thread calls
 * kt_shut_wait() or kt_remove_gated_wait() again, which finishes what was begun. Until one does, kt_remove_wait() of
 * the node waits. */
#include "kernfs_tree.h"
#ifndef KT_GATES_H
#define KT_GATES_H

/* kt_gate(), kt_pass_enter() and kt_pass_leave(), each with the wake that is due after it. */
KT_CALL(1, 3, 4)
static inline int32_t kt_gate_wake(struct kt_handle *hold, uint32_t lanes, struct kt_handle *pass, struct kt_lock *lock)
{
    int32_t answer = kt_gate(hold, lanes, pass);
    if (answer == -ENODEV || answer == -ENOMEM)
        kt_wake(lock);
    return answer;
}

KT_CALL(1, 2)
static inline int32_t kt_pass_enter_wake(struct kt_handle *pass, struct kt_lock *lock)
{
    int32_t answer = kt_pass_enter(pass);
    if (answer == -ENODEV)
        kt_wake(lock);
    return answer;
}

static inline int32_t kt_pass_leave_wake(struct kt_handle *pass, struct kt_lock *lock)
{
    int32_t answer = kt_pass_leave(pass);
    if (answer != 1)
        return answer;
    kt_wake(lock);
    return 0;
}

/* (Leaves a pass if its callback does not return.) */
static inline void kt_pass_end_of(void *data)
{
    struct kt_ending *it = (struct kt_ending *)data;
    kt_pass_leave_wake(it->call, it->lock);
}

/* Runs a callback by a pass, which is inside meanwhile. The callback gets the pass. It may leave the pass early, but
 * must not clear or free it. Returns 0, and `out` gets what the callback returned; or returns the error of
 * kt_pass_enter(), and the callback did not run. */
KT_CALL(1, 2, 3, 5)
static inline int32_t kt_pass_run_into(struct kt_handle *pass, struct kt_lock *lock, kt_callback *callback, void *data,
                                       int64_t *out)
{
    struct kt_ending ending;
    int32_t answer = kt_pass_enter_wake(pass, lock);
    if (answer)
        return answer;
    ending.call = pass;
    ending.lock = lock;
    pthread_cleanup_push(kt_pass_end_of, &ending);
    *out = callback(pass, data);
    pthread_cleanup_pop(1);
    return 0;
}

/* Like kt_pass_run_into(), if it does not matter whether an error is the callback's. Returns what the callback
 * returned, or the error of kt_pass_enter(). */
static inline int64_t kt_pass_run(struct kt_handle *pass, struct kt_lock *lock, kt_callback *callback, void *data)
{
    int64_t out = 0;
    int32_t answer = kt_pass_run_into(pass, lock, callback, data, &out);
    return answer ? answer : out;
}

/* (Under the lock: shuts a gate, and waits until nobody is inside or, unless `until` is NULL, until that time.) */
static inline int32_t kt_shut_locked(struct kt_handle *gate, struct kt_lock *lock, const struct timespec *until)
{
    int32_t answer;
    for (int waited = 0; (answer = kt_shut(gate)) == -EAGAIN && waited != ETIMEDOUT;)
        waited = kt_sleep_until(lock, until);
    if (answer == 1)
        pthread_cond_broadcast(&lock->left);
    return answer < 0 ? answer : 0;
}

/* (Like kt_shut_locked(), but takes the lock. Returns -ETIMEDOUT if that time has come.) */
static inline int32_t kt_shut_until(struct kt_handle *gate, struct kt_lock *lock, const struct timespec *until)
{
    int32_t answer;
    pthread_mutex_lock(&lock->mutex);
    pthread_cleanup_push(kt_unlock_of, lock);
    answer = kt_shut_locked(gate, lock, until);
    pthread_cleanup_pop(1);
    return answer == -EAGAIN ? -ETIMEDOUT : answer;
}

/* (Takes the lock, removes a node, and shuts its gate as soon as the node is marked.) */
static inline int32_t kt_remove_gated_until(struct kt_handle *tree, struct kt_handle *gate, struct kt_key key,
                                            struct kt_lock *lock, const struct timespec *until)
{
    int32_t answer;
    pthread_mutex_lock(&lock->mutex);
    pthread_cleanup_push(kt_unlock_of, lock);
    answer = kt_remove(tree, key);
    /* (if an earlier call has closed the gate, the removal goes on) */
    if (answer == -EAGAIN && kt_shut_locked(gate, lock, until) != -EAGAIN)
        answer = kt_step_until(kt_remove, tree, key, lock, until);
    pthread_cleanup_pop(1);
    return answer == -EAGAIN ? -ETIMEDOUT : answer;
}

/* Shuts a gate, and waits until nobody is inside (percpu_ref_kill, and the wait for it). Returns 0: nobody ever enters
 * again by a pass of the gate, and its handle has the hold again. Returns -EINVAL if there is no gate, or if it was
 * shut and closed before. A thread that is inside by a pass must leave before it calls this. */
KT_CALL(1, 2)
static inline int32_t kt_shut_wait(struct kt_handle *gate, struct kt_lock *lock)
{
    kt_order_waits_gate(gate->at);
    return kt_shut_until(gate, lock, NULL);
}

/* Removes the node of a gate, and everything below it, and waits until nobody is inside. It marks the nodes, shuts the
 * gate, and then waits for the passes and for all other callbacks. Returns what kt_remove_wait() returns. After 0 or 1
 * nobody is inside, and the gate's handle has the hold, which the program must clear. After -ENOENT, -EINVAL or -EMFILE
 * the gate is as it was. After -ENOMEM everything may be marked and the gate shut: call it again. If the gate was shut
 * and closed before, or if there is none, this does the same as kt_remove_wait().
 *
 * Nothing checks that this is a gate of the node. Other gates below the node must be shut before, each by
 * kt_shut_wait(). */
KT_CALL(1, 2, 4)
static inline int32_t kt_remove_gated_wait(struct kt_handle *tree, struct kt_handle *gate, struct kt_key key,
                                           struct kt_lock *lock)
{
    kt_order_waits(tree->at, key, false);
    return kt_remove_gated_until(tree, gate, key, lock, NULL);
}

#if defined(TIME_UTC) || defined(CLOCK_REALTIME)
/* The same two with a time limit, like kt_remove_wait_for(). They return -ETIMEDOUT if somebody is still inside then:
 * the gate is shut and stays so, and for the second everything is marked too. Then call it again. */
KT_CALL(1, 2)
static inline int32_t kt_shut_wait_for(struct kt_handle *gate, struct kt_lock *lock, unsigned milliseconds)
{
    struct timespec until = kt_time_in(milliseconds);
    return kt_shut_until(gate, lock, &until);
}

KT_CALL(1, 2, 4)
static inline int32_t kt_remove_gated_wait_for(struct kt_handle *tree, struct kt_handle *gate, struct kt_key key,
                                               struct kt_lock *lock, unsigned milliseconds)
{
    struct timespec until = kt_time_in(milliseconds);
    return kt_remove_gated_until(tree, gate, key, lock, &until);
}
#endif

#endif /* KT_GATES_H */
