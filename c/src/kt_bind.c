/* SPDX-License-Identifier: MIT OR Apache-2.0 */
/* The library libkernfs_tree_bind: kt_bind.h over the helpers of kt_wait.h, and the calls of kt_live.h as they are.
 * Bindings for other languages link with it, so that none of them writes the waiting again. */
#define KT_LIVE_CALL __attribute__((visibility("default")))
#include <kt_bind.h>
#include <kt_live.h>
#include <limits.h>

#define EXPORTED __attribute__((visibility("default")))

struct kt_bind_lock {
    struct kt_lock lock;
    const char *owner; /* the `here` of the thread that has it, or NULL */
};

/* Its address is a name of this thread. */
static _Thread_local const char here;

/* (Only its own thread writes the name of a thread into `owner`, so no other order of memory matters.) */
static bool is_mine(struct kt_bind_lock *lock)
{
    return __atomic_load_n(&lock->owner, __ATOMIC_RELAXED) == &here;
}

EXPORTED int32_t kt_bind_new_lock(struct kt_bind_lock **out)
{
    struct kt_bind_lock *lock = (struct kt_bind_lock *)calloc(1, sizeof *lock);
    int32_t answer = lock ? kt_lock_init(&lock->lock) : -ENOMEM;
    if (answer)
        free(lock);
    else
        *out = lock;
    return answer;
}

EXPORTED void kt_bind_delete_lock(struct kt_bind_lock *lock)
{
    kt_lock_destroy(&lock->lock);
    free(lock);
}

EXPORTED int32_t kt_bind_take(struct kt_bind_lock *lock)
{
    if (is_mine(lock))
        return -EDEADLK;
    pthread_mutex_lock(&lock->lock.mutex);
    __atomic_store_n(&lock->owner, &here, __ATOMIC_RELAXED);
    return 0;
}

EXPORTED void kt_bind_release(struct kt_bind_lock *lock)
{
    __atomic_store_n(&lock->owner, NULL, __ATOMIC_RELAXED);
    pthread_mutex_unlock(&lock->lock.mutex);
}

EXPORTED bool kt_bind_is_mine(struct kt_bind_lock *lock) { return is_mine(lock); }

EXPORTED void kt_bind_wake(struct kt_bind_lock *lock)
{
    if (is_mine(lock))
        pthread_cond_broadcast(&lock->lock.left);
    else
        kt_wake(&lock->lock);
}

/* The result of a step that returns 1 if a wake is due. */
static int32_t after(int32_t answer, struct kt_bind_lock *lock)
{
    if (answer != 1)
        return answer;
    kt_bind_wake(lock);
    return 0;
}

EXPORTED int32_t kt_bind_enter(struct kt_handle *hold, struct kt_bind_lock *lock)
{
    int32_t answer = kt_enter(hold);
    if (answer == -ENODEV)
        kt_bind_wake(lock);
    return answer;
}

EXPORTED int32_t kt_bind_break(struct kt_handle *call, struct kt_bind_lock *lock) { return after(kt_break(call), lock); }

EXPORTED int32_t kt_bind_clear(struct kt_handle *handle, struct kt_bind_lock *lock)
{
    return after(kt_clear(handle), lock);
}

EXPORTED int32_t kt_bind_delete(struct kt_handle handle, struct kt_bind_lock *lock)
{
    return after(kt_delete(handle), lock);
}

EXPORTED int32_t kt_bind_leave(struct kt_handle *call, struct kt_bind_lock *lock)
{
    int32_t answer = kt_leave(call);
    if (answer == -EINVAL && !kt_restore(call))
        answer = kt_leave(call);
    return after(answer, lock);
}

/* A step of a removal or a hiding, which returns -EAGAIN while somebody is inside. */
typedef int32_t step(struct kt_handle *tree, struct kt_key key);

/* Takes a step until it is done, or until the time is over. */
static int32_t wait_for(step *take, struct kt_handle *tree, struct kt_key key, struct kt_bind_lock *lock,
                        int64_t milliseconds)
{
    struct timespec until;
    if (is_mine(lock))
        return -EDEADLK;
    if (milliseconds < 0)
        return kt_until_done(take, tree, key, &lock->lock, NULL);
    until = kt_time_in(milliseconds < UINT_MAX ? (unsigned)milliseconds : UINT_MAX);
    return kt_until_done(take, tree, key, &lock->lock, &until);
}

EXPORTED int32_t kt_bind_remove(struct kt_handle *tree, struct kt_key key, struct kt_bind_lock *lock,
                                int64_t milliseconds)
{
    return wait_for(kt_remove, tree, key, lock, milliseconds);
}

EXPORTED int32_t kt_bind_hide(struct kt_handle *tree, struct kt_key key, struct kt_bind_lock *lock,
                              int64_t milliseconds)
{
    return wait_for(kt_hide, tree, key, lock, milliseconds);
}

EXPORTED int32_t kt_bind_unhide(struct kt_handle *tree, struct kt_key key, struct kt_bind_lock *lock,
                                int64_t milliseconds)
{
    return wait_for(kt_unhide, tree, key, lock, milliseconds);
}

EXPORTED int32_t kt_bind_remove_self(struct kt_handle *tree, struct kt_handle *call, struct kt_key key,
                                     struct kt_bind_lock *lock)
{
    return is_mine(lock) ? -EDEADLK : kt_remove_self_wait(tree, call, key, &lock->lock);
}

EXPORTED int32_t kt_bind_run(struct kt_handle *hold, struct kt_bind_lock *lock, kt_bind_callback *callback, void *data,
                             int64_t *out)
{
    return is_mine(lock) ? -EDEADLK : kt_run_into(hold, &lock->lock, callback, data, out);
}

EXPORTED int64_t kt_bind_read(struct kt_handle *file, struct kt_bind_lock *lock, uint64_t offset, void *out,
                              size_t size, kt_bind_show *show, void *data)
{
    return is_mine(lock) ? -EDEADLK : kt_read(file, &lock->lock, offset, out, size, show, data);
}

EXPORTED int64_t kt_bind_write(struct kt_handle *file, struct kt_bind_lock *lock, const char *bytes, size_t length,
                               kt_bind_store *store, void *data)
{
    return is_mine(lock) ? -EDEADLK : kt_write(file, &lock->lock, bytes, length, store, data);
}

EXPORTED int32_t kt_bind_poll(struct kt_handle *file, struct kt_bind_lock *lock)
{
    return is_mine(lock) ? -EDEADLK : kt_poll(file, &lock->lock);
}
