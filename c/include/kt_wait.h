/* SPDX-License-Identifier: MIT OR Apache-2.0 */
/* kt_wait.h: a lock for a tree, and calls that take it and may sleep. kernfs_tree.h includes this, unless KT_NO_PTHREAD
 * is defined. It is C over the calls there: tested, not proved.
 *
 * Before a call of kernfs_tree.h on a tree, take the lock with pthread_mutex_lock(&lock.mutex). A thread that has the
 * lock may call only kt_remove_claimed() of the functions here. Nothing checks this: kt_remove_wait() and the other
 * removals and hidings would wait for ever. So would all others once their node is gone, also kt_run(), kt_pass_run(),
 * kt_read() and kt_poll(). (If a function's comment is in parentheses, like this sentence, the function is for the
 * calls here and not for programs.)
 *
 * Threads that end: if a thread is cancelled (pthread_cancel()) while it waits here, it unlocks the lock. What it began
 * stays begun: a node that was to be removed is marked, and another kt_remove_wait() finishes the removal (kt_gates.h
 * says what finishes the shutting of a gate). Only after kt_claim() is the cancellation put off until the node is out.
 * If a thread is cancelled in a callback or ends there by pthread_exit(), or if a C++ exception leaves the callback,
 * its call is left as if the callback had returned. For exceptions this holds in C++, and in C that is compiled with
 * -fexceptions; in other C code no exception may leave a callback. Do not cancel asynchronously, and let no longjmp()
 * leave a callback. A thread that ends keeps its holds. Clear them before, since a hold keeps its slot from being
 * reused, and a call that nobody leaves keeps each removal waiting.
 *
 * fork(): the child of a program with threads must not use the tree. In the child, calls of the parent's other threads
 * are inside for ever, and one of those threads may have had the lock. */
#include "kernfs_tree.h"
#ifndef KT_WAIT_H
#define KT_WAIT_H

#include <poll.h>
#include <pthread.h>
#include <time.h>

/* The lock of a tree, and the condition on which its removals, its hidings and kt_shut_wait() wait. */
struct kt_lock {
    pthread_mutex_t mutex;
    pthread_cond_t left;
};

#define KT_LOCK_INIT { PTHREAD_MUTEX_INITIALIZER, PTHREAD_COND_INITIALIZER }

/* Initializes a lock at run time, for example in allocated memory. (kt_lock_destroy() ends it: then no thread may have
 * the lock or wait in it.) Returns 0, or a negative errno of pthread_mutex_init() or pthread_cond_init(). */
KT_CALL(1)
static inline int32_t kt_lock_init(struct kt_lock *lock)
{
    int answer = pthread_mutex_init(&lock->mutex, NULL);
    if (answer)
        return -answer;
    answer = pthread_cond_init(&lock->left, NULL);
    if (answer)
        pthread_mutex_destroy(&lock->mutex);
    return -answer;
}

static inline void kt_lock_destroy(struct kt_lock *lock)
{
    pthread_cond_destroy(&lock->left);
    pthread_mutex_destroy(&lock->mutex);
}

/* Wakes the threads that wait in a removal, a hiding or kt_shut_wait(). It takes the lock, so that no wake comes
 * between a look and the sleep after it. */
static inline void kt_wake(struct kt_lock *lock)
{
    pthread_mutex_lock(&lock->mutex);
    pthread_cond_broadcast(&lock->left);
    pthread_mutex_unlock(&lock->mutex);
}

/* kt_enter(), kt_leave() and kt_break(), each with the wake that is due after it. */
KT_CALL(1, 2)
static inline int32_t kt_enter_wake(struct kt_handle *hold, struct kt_lock *lock)
{
    int32_t answer = kt_enter(hold);
    if (answer == -ENODEV)
        kt_wake(lock);
    return answer;
}

static inline int32_t kt_leave_wake(struct kt_handle *call, struct kt_lock *lock)
{
    int32_t answer = kt_leave(call);
    if (answer != 1)
        return answer;
    kt_wake(lock);
    return 0;
}

static inline int32_t kt_break_wake(struct kt_handle *call, struct kt_lock *lock)
{
    int32_t answer = kt_break(call);
    if (answer != 1)
        return answer;
    kt_wake(lock);
    return 0;
}

/* Frees what is behind a handle, with the wake that may be due: for threads that wait for the end of a call, and for a
 * removal that waits because a node has the maximum number of holds. Returns 0, or -EBUSY as kt_clear() does. */
static inline int32_t kt_clear_wake(struct kt_handle *handle, struct kt_lock *lock)
{
    int32_t answer = kt_clear(handle);
    if (answer != 1)
        return answer;
    kt_wake(lock);
    return 0;
}

/* (Unlocks the lock for a thread that is cancelled in a wait: after the wait it has the lock again.) */
static inline void kt_unlock_of(void *lock)
{
    pthread_mutex_unlock(&((struct kt_lock *)lock)->mutex);
}

/* (Under the lock: waits for the condition. Unless `until` is NULL, it waits only until that time, and then returns
 * ETIMEDOUT.) */
static inline int kt_sleep_until(struct kt_lock *lock, const struct timespec *until)
{
    return until ? pthread_cond_timedwait(&lock->left, &lock->mutex, until)
                 : pthread_cond_wait(&lock->left, &lock->mutex);
}

/* (Under the lock: calls kt_remove(), kt_hide() or kt_unhide() until it returns something other than -EAGAIN or, unless
 * `until` is NULL, until that time.) */
static inline int32_t kt_step_until(int32_t (*step)(struct kt_handle *tree, struct kt_key key), struct kt_handle *tree,
                                    struct kt_key key, struct kt_lock *lock, const struct timespec *until)
{
    int32_t answer;
    for (int waited = 0; (answer = step(tree, key)) == -EAGAIN && waited != ETIMEDOUT;)
        waited = kt_sleep_until(lock, until);
    return answer;
}

/* (Like kt_step_until(), but takes the lock. Returns -ETIMEDOUT if that time has come.) */
static inline int32_t kt_until_done(int32_t (*step)(struct kt_handle *tree, struct kt_key key), struct kt_handle *tree,
                                    struct kt_key key, struct kt_lock *lock, const struct timespec *until)
{
    int32_t answer;
    pthread_mutex_lock(&lock->mutex);
    pthread_cleanup_push(kt_unlock_of, lock);
    answer = kt_step_until(step, tree, key, lock, until);
    pthread_cleanup_pop(1);
    return answer == -EAGAIN ? -ETIMEDOUT : answer;
}

/* Removes a node and everything below it, and waits until no callback runs there (kernfs_remove). A callback that
 * removes its own node or one above it calls kt_remove_self_wait() instead. Returns what kt_remove() returns, but never
 * -EAGAIN: of the threads that wait here for one node, one gets 1 and the others get 0. (If a callback calls
 * kt_remove_self_wait() meanwhile, the callback may get 1 too, or instead: kt_claim() says which thread frees.) After
 * -ENOMEM, which may come when everything is marked, call it again. */
KT_CALL(1, 3)
static inline int32_t kt_remove_wait(struct kt_handle *tree, struct kt_key key, struct kt_lock *lock)
{
    kt_order_waits(tree->at, key, false);
    return kt_until_done(kt_remove, tree, key, lock, NULL);
}

#if defined(TIME_UTC) || defined(CLOCK_REALTIME)
/* The time by the system's clock, this many milliseconds from now. */
static inline struct timespec kt_time_in(unsigned milliseconds)
{
    struct timespec at;
#ifdef CLOCK_REALTIME
    clock_gettime(CLOCK_REALTIME, &at);
#else
    timespec_get(&at, TIME_UTC);
#endif
    at.tv_sec += (time_t)(milliseconds / 1000);
    at.tv_nsec += (long)(milliseconds % 1000) * 1000000;
    if (at.tv_nsec >= 1000000000) {
        at.tv_sec++;
        at.tv_nsec -= 1000000000;
    }
    return at;
}

/* Like kt_remove_wait(), with a time limit by the system's clock, so that a daemon can report what it waits for.
 * Returns -ETIMEDOUT if somebody is still inside then: everything is marked and stays so, and nobody can enter. Then
 * call it again. (It needs C11, C++17 or POSIX, with which <time.h> defines the names above.) */
KT_CALL(1, 3)
static inline int32_t kt_remove_wait_for(struct kt_handle *tree, struct kt_key key, struct kt_lock *lock,
                                         unsigned milliseconds)
{
    struct timespec until = kt_time_in(milliseconds);
    return kt_until_done(kt_remove, tree, key, lock, &until);
}
#endif

/* Hides a file, and waits until no callback runs there (kernfs_show() with false). A callback of the file must break
 * its protection first. Returns what kt_hide() returns, but never -EAGAIN. */
KT_CALL(1, 3)
static inline int32_t kt_hide_wait(struct kt_handle *tree, struct kt_key key, struct kt_lock *lock)
{
    kt_order_waits(tree->at, key, false);
    return kt_until_done(kt_hide, tree, key, lock, NULL);
}

/* Shows a file again. It takes the lock and waits, because the thread that hid the file may not have waited until
 * nobody was inside. Returns what kt_unhide() returns, but never -EAGAIN. */
KT_CALL(1, 3)
static inline int32_t kt_unhide_wait(struct kt_handle *tree, struct kt_key key, struct kt_lock *lock)
{
    return kt_until_done(kt_unhide, tree, key, lock, NULL);
}

/* Under the lock: takes a node that kt_claim() has marked out of the tree, and waits until it is out. If it needs
 * memory, it asks again and again. It puts off the cancellation of its thread, because what is claimed cannot stay.
 * Returns what kt_remove() returns, but never -EAGAIN or -ENOMEM. */
static inline int32_t kt_remove_claimed(struct kt_handle *tree, struct kt_key key, struct kt_lock *lock)
{
    int32_t answer;
    int before = 0;
    pthread_setcancelstate(PTHREAD_CANCEL_DISABLE, &before);
    while ((answer = kt_remove(tree, key)) == -EAGAIN || answer == -ENOMEM) {
        if (answer == -EAGAIN) {
            pthread_cond_wait(&lock->left, &lock->mutex);
            continue;
        }
        pthread_mutex_unlock(&lock->mutex);
        poll(NULL, 0, 10);
        pthread_mutex_lock(&lock->mutex);
    }
    pthread_setcancelstate(before, NULL);
    return answer;
}

/* Removes a call's node, or `key` above it, from inside its callback (kernfs_remove_self), and waits for every other
 * callback there. The call must be running, with its protection. This claims the node first, and then breaks the
 * protection. It returns when the node is out and the call has its protection again: 1 for the first call that claimed
 * the node, and 0 for each other one, or if the node was gone. The result 1 does not say that other callbacks there
 * that broke their protection have returned: see "Freeing what callbacks use" in kernfs_tree.h.
 *
 * Fails like kt_claim(), also with -ENOMEM, and then nothing has changed, so the same callback may try again. It
 * returns -ENOENT only for a key that this tree never gave out. It returns -EINVAL if the call is not running, is
 * broken or was restored, as after an earlier call of this function. In this case the node is marked and claimed, and
 * kt_remove() removes it. If nobody had claimed the node before, this caller frees what callbacks use, and no later
 * call returns 1. */
KT_CALL(1, 2, 4)
static inline int32_t kt_remove_self_wait(struct kt_handle *tree, struct kt_handle *call, struct kt_key key,
                                          struct kt_lock *lock)
{
    int32_t claimed, answer;
    kt_order_waits(tree->at, key, true);
    pthread_mutex_lock(&lock->mutex);
    claimed = kt_claim(tree, key);
    if (claimed >= 0) {
        answer = kt_break(call);
        if (answer == 1)
            pthread_cond_broadcast(&lock->left);
        if (answer >= 0) {
            answer = kt_remove_claimed(tree, key, lock);
            kt_restore(call);
        }
    } else {
        answer = claimed == -ENOENT ? kt_remove(tree, key) : claimed; /* 0 if it was gone */
    }
    pthread_mutex_unlock(&lock->mutex);
    return answer < 0 ? answer : claimed == 0;
}

/* Leaves a call. If the call is broken, it is restored first. */
static inline void kt_end_wake(struct kt_handle *call, struct kt_lock *lock)
{
    if (kt_leave_wake(call, lock) == -EINVAL) {
        kt_restore(call);
        kt_leave_wake(call, lock);
    }
}

/* (Ends a call if its callback does not return.) */
struct kt_ending {
    struct kt_handle *call;
    struct kt_lock *lock;
};
static inline void kt_end_of(void *data)
{
    struct kt_ending *it = (struct kt_ending *)data;
    kt_end_wake(it->call, it->lock);
}

/* A function that runs under a call. It may break and restore the call; a call that it leaves broken is restored. It
 * may end the handle's call with kt_clear(), but must not free the handle. No longjmp() may leave it. */
typedef int64_t kt_callback(struct kt_handle *call, void *data);

/* Runs a callback under a call of a hold. Returns 0, and `out` gets what the callback returned; or returns the error of
 * kt_enter(), and the callback did not run. */
KT_CALL(1, 2, 3, 5)
static inline int32_t kt_run_into(struct kt_handle *hold, struct kt_lock *lock, kt_callback *callback, void *data,
                                  int64_t *out)
{
    struct kt_ending ending;
    int32_t answer = kt_enter_wake(hold, lock);
    if (answer)
        return answer;
    ending.call = hold;
    ending.lock = lock;
    pthread_cleanup_push(kt_end_of, &ending);
    *out = callback(hold, data);
    pthread_cleanup_pop(1);
    return 0;
}

/* Like kt_run_into(), if it does not matter whether an error is the callback's. Returns what the callback returned, or
 * the error of kt_enter(). */
static inline int64_t kt_run(struct kt_handle *hold, struct kt_lock *lock, kt_callback *callback, void *data)
{
    int64_t out = 0;
    int32_t answer = kt_run_into(hold, lock, callback, data, &out);
    return answer ? answer : out;
}

/* Writes a text into the page. Returns the number of bytes (what is beyond 4,095 bytes is cut off), or a negative
 * errno. */
typedef int64_t kt_show(struct kt_handle *file, void *data, char *page);

/* Takes 1 to 4,096 bytes. Returns the number of bytes that it took, or a negative errno. */
typedef int64_t kt_store(struct kt_handle *file, void *data, const char *bytes, size_t length);

/* (Runs the show of a file that was entered for it, and keeps its text. Returns 0, or the error of the show.) */
static inline int64_t kt_show_into(struct kt_handle *file, struct kt_lock *lock, kt_show *show, void *data)
{
    char page[KT_PAGE_SIZE];
    struct kt_ending ending;
    int64_t length;
    ending.call = file;
    ending.lock = lock;
    pthread_cleanup_push(kt_end_of, &ending);
    length = show(file, data, page);
    if (length >= 0)
        kt_shown(file, page, length < KT_PAGE_SIZE ? (size_t)length : KT_PAGE_SIZE);
    pthread_cleanup_pop(1);
    return length < 0 ? length : 0;
}

/* Reads an open file (kernfs_fop_read_iter). Returns the number of bytes, -EACCES, -ENODEV, or the error of the
 * show. */
static inline int64_t kt_read(struct kt_handle *file, struct kt_lock *lock, uint64_t offset, void *out, size_t size,
                              kt_show *show, void *data)
{
    int64_t begun = kt_begin_read(file, offset);
    if (begun == -ENODEV)
        kt_wake(lock);
    if (begun == 1)
        begun = kt_show_into(file, lock, show, data);
    return begun < 0 ? begun : kt_copy(file, offset, out, size);
}

/* Writes to an open file (kernfs_fop_write_iter). Returns -EACCES, -ENODEV, or what the store returned. Without any
 * byte the store does not run, and 0 takes the place of what it returned. */
static inline int64_t kt_write(struct kt_handle *file, struct kt_lock *lock, const char *bytes, size_t length,
                               kt_store *store, void *data)
{
    struct kt_ending ending;
    int64_t answer = kt_begin_write(file);
    if (answer == -ENODEV)
        kt_wake(lock);
    if (answer)
        return answer;
    ending.call = file;
    ending.lock = lock;
    pthread_cleanup_push(kt_end_of, &ending);
    if (length)
        answer = store(file, data, bytes, length < KT_PAGE_SIZE ? length : KT_PAGE_SIZE);
    pthread_cleanup_pop(1);
    return answer;
}

/* Returns 1 if an open file has changed since its last show, was never shown, or its node is not live
 * (kernfs_fop_poll), and otherwise 0. */
static inline int32_t kt_poll(struct kt_handle *file, struct kt_lock *lock)
{
    int32_t changed, entered = kt_enter_wake(file, lock);
    if (entered)
        return entered == -ENODEV ? 1 : entered;
    changed = kt_changed(file);
    kt_end_wake(file, lock);
    return changed;
}

#include "kt_gates.h"

#endif /* KT_WAIT_H */
