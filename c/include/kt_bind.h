/* SPDX-License-Identifier: MIT OR Apache-2.0 */
/* kt_bind.h: what a binding for another language links with, besides the calls of kernfs_tree.h. The library
 * libkernfs_tree_bind has these functions, and those of kt_live.h under their own names. It is C: tested, not proved.
 *
 * The helpers of kt_wait.h are static functions, which only C and C++ can call. These functions do the same, with a
 * lock that knows which thread has it. So a thread that has the lock may wake others, for example in a finalizer; and a
 * call that would wait for its own thread fails with -EDEADLK. kernfs_tree-bindings(3) has the rules for a binding. */
#ifndef KT_BIND_H
#define KT_BIND_H

#include <kernfs_tree.h>

#ifdef __cplusplus
extern "C" {
#endif

/* The lock of a tree, on which its removals and hidings wait. */
struct kt_bind_lock;

/* The functions that run in a call of a hold (kt_bind_run()), and that show and store (kt_bind_read(),
 * kt_bind_write()). These are the types of kt_wait.h. */
typedef int64_t kt_bind_callback(struct kt_handle *call, void *data);
typedef int64_t kt_bind_show(struct kt_handle *file, void *data, char *page);
typedef int64_t kt_bind_store(struct kt_handle *file, void *data, const char *bytes, size_t length);

/* Makes a lock. Returns 0, -ENOMEM, or a negative errno of pthread_mutex_init() or pthread_cond_init(). */
KT_CALL(1) int32_t kt_bind_new_lock(struct kt_bind_lock **out);

/* Frees a lock that no thread has or waits for. */
KT_STEP(1) void kt_bind_delete_lock(struct kt_bind_lock *lock);

/* Takes the lock, for calls on its tree. Returns 0, or -EDEADLK if this thread has it already. The thread that takes
 * the lock must also release it. */
KT_CALL(1) int32_t kt_bind_take(struct kt_bind_lock *lock);
KT_STEP(1) void kt_bind_release(struct kt_bind_lock *lock);

/* Whether this thread has the lock. */
KT_STEP(1) bool kt_bind_is_mine(struct kt_bind_lock *lock);

/* Wakes the threads that wait in a removal or a hiding. The calling thread may or may not have the lock. */
KT_STEP(1) void kt_bind_wake(struct kt_bind_lock *lock);

/* kt_enter(), kt_break(), kt_clear() and kt_delete(), each with the wake that is due after it. They return what those
 * return, but 0 instead of 1. The calling thread may have the lock. (kt_clear() and kt_delete() of a tree are called
 * with it.) */
KT_CALL(1, 2) int32_t kt_bind_enter(struct kt_handle *hold, struct kt_bind_lock *lock);
KT_STEP(1, 2) int32_t kt_bind_break(struct kt_handle *call, struct kt_bind_lock *lock);
KT_STEP(1, 2) int32_t kt_bind_clear(struct kt_handle *handle, struct kt_bind_lock *lock);
KT_STEP(2) int32_t kt_bind_delete(struct kt_handle handle, struct kt_bind_lock *lock);

/* kt_leave() with its wake. A call that is broken is restored first. Returns 0 or -EINVAL (there is no call). */
KT_STEP(1, 2) int32_t kt_bind_leave(struct kt_handle *call, struct kt_bind_lock *lock);

/* Removes a node and everything below it, hides a file, or shows it again. Each sleeps until nobody is inside, for at
 * most this number of milliseconds; if the number is below 0, there is no limit. Returns what kt_remove(), kt_hide()
 * and kt_unhide() return, but never -EAGAIN. Returns -ETIMEDOUT if somebody is still inside: then call it again.
 * Returns -EDEADLK if this thread has the lock. */
KT_CALL(1, 3)
int32_t kt_bind_remove(struct kt_handle *tree, struct kt_key key, struct kt_bind_lock *lock, int64_t milliseconds);
KT_CALL(1, 3)
int32_t kt_bind_hide(struct kt_handle *tree, struct kt_key key, struct kt_bind_lock *lock, int64_t milliseconds);
KT_CALL(1, 3)
int32_t kt_bind_unhide(struct kt_handle *tree, struct kt_key key, struct kt_bind_lock *lock, int64_t milliseconds);

/* kt_remove_self_wait(): removes a call's node, or `key` above it, from inside. Also returns -EDEADLK if this thread
 * has the lock. */
KT_CALL(1, 2, 4)
int32_t kt_bind_remove_self(struct kt_handle *tree, struct kt_handle *call, struct kt_key key, struct kt_bind_lock *lock);

/* kt_run_into(), kt_read(), kt_write() and kt_poll(). A single crossing from another language enters, calls back and
 * leaves. The function that is called back may only return: nothing else may leave it. Also returns -EDEADLK if this
 * thread has the lock. */
KT_CALL(1, 2, 3, 5)
int32_t kt_bind_run(struct kt_handle *hold, struct kt_bind_lock *lock, kt_bind_callback *callback, void *data,
                    int64_t *out);
KT_CALL(1, 2, 6)
int64_t kt_bind_read(struct kt_handle *file, struct kt_bind_lock *lock, uint64_t offset, void *out, size_t size,
                     kt_bind_show *show, void *data);
KT_CALL(1, 2, 5)
int64_t kt_bind_write(struct kt_handle *file, struct kt_bind_lock *lock, const char *bytes, size_t length,
                      kt_bind_store *store, void *data);
KT_CALL(1, 2) int32_t kt_bind_poll(struct kt_handle *file, struct kt_bind_lock *lock);

#ifdef __cplusplus
}
#endif

#endif /* KT_BIND_H */
