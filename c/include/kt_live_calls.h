/* SPDX-License-Identifier: MIT OR Apache-2.0 */
/* kt_live_calls.h: the parts of kt_live.h that run callbacks, by a path and by an open file. It is private to
 * kt_live.h, which includes it. */
#include "kt_live.h"
#ifndef KT_LIVE_CALLS_H
#define KT_LIVE_CALLS_H

/* The place on the stack of a callback that runs; 0 if none does. The thread of an open file writes this without the
 * lock. */
static inline uintptr_t kt_live_stack(const struct kt_live_call *call)
{
    return __atomic_load_n(&call->stack, __ATOMIC_ACQUIRE);
}

static inline pthread_t kt_live_thread(const struct kt_live_call *call)
{
    return __atomic_load_n(&call->thread, __ATOMIC_RELAXED);
}

/* Whether this is a callback of the calling thread. (While another thread begins or ends a callback with an open file,
 * `thread` may be old or new, but it is never the calling thread.) */
static inline bool kt_live_is_mine(const struct kt_live_call *call)
{
    return kt_live_stack(call) && pthread_equal(kt_live_thread(call), pthread_self());
}

/* Records that this thread begins a callback. Inner callbacks have lower frames. */
static inline void kt_live_mark(struct kt_live_call *call, char way)
{
    call->release = NULL;
    __atomic_store_n(&call->way, way, __ATOMIC_RELAXED);
    __atomic_store_n(&call->since, kt_live_about_now(), __ATOMIC_RELAXED);
    __atomic_store_n(&call->thread, pthread_self(), __ATOMIC_RELAXED);
    __atomic_store_n(&call->stack, (uintptr_t)__builtin_frame_address(0), __ATOMIC_RELEASE);
}

/* Why the node with this key cannot be read or written. Under the lock. */
static inline int32_t kt_live_refusal(struct kt_live *live, struct kt_key key, char way)
{
    struct kt_node_info info;
    int32_t answer = kt_stat(&live->tree, key, &info);
    if (answer)
        return answer;
    if (info.kind != KT_FILE)
        return info.kind == KT_DIR ? -EISDIR : -EINVAL;
    if (!info.activated || info.doomed || info.hidden)
        return -ENODEV;
    return info.mode & (way == 'w' ? 0222 : 0444) ? -EIO : -EACCES;
}

/* Finds the device of a call, and the attribute if one is read or written. Returns 0, or why there is none. Under the
 * lock. */
static inline int32_t kt_live_choose(struct kt_live *live, char way, struct kt_live_call *call)
{
    call->attribute = NULL;
    if (way == 'x') {
        call->device = kt_live_find(live, call->key);
        return call->device ? 0 : -ENOENT;
    }
    call->device = kt_live_owner(live, call->key, &call->attribute);
    if (call->device && call->attribute->mode & (way == 'w' ? 0222 : 0444))
        return 0;
    return kt_live_refusal(live, call->key, way);
}

/* Begins a callback at the node at a path. Without the lock. */
static inline int32_t kt_live_begin(struct kt_live *live, const char *path, char way, struct kt_live_call *call)
{
    int32_t answer;
    kt_live_lock(live);
    answer = kt_live_walk(live, path, &call->key);
    if (!answer)
        answer = kt_live_choose(live, way, call);
    if (!answer)
        answer = kt_live_take_hold(live, call);
    if (!answer) {
        answer = kt_enter(&call->file);
        if (answer) {
            kt_live_put_hold(live, call, false);
            pthread_cond_broadcast(&live->lock.left);
        }
    }
    if (!answer) {
        /* a node that was entered is live, so it stays published as long as the lock is held or a call runs there */
        call->live = live;
        call->data = call->device->device;
        call->age = live->age;
        call->is_open_file = call->is_aside = false;
        kt_live_mark(call, way);
        kt_live_enlist(live, call);
    }
    kt_live_unlock(live);
    return answer;
}

/* Leaves a call. If the call has stepped aside, it takes its protection again for that. Under the lock. */
static inline void kt_live_leave(struct kt_live_call *call)
{
    if (call->is_aside)
        kt_restore(&call->file);
    call->is_aside = false;
    kt_leave(&call->file);
    pthread_cond_broadcast(&call->live->lock.left);
}

/* Ends a callback, even if the callback does not return (pthread_cleanup_push()). Without the lock. */
static inline void kt_live_end(void *data)
{
    struct kt_live_call *call = (struct kt_live_call *)data;
    struct kt_live *live = call->live;
    kt_live_lock(live);
    kt_live_delist(call);
    kt_live_leave(call);
    kt_live_put_hold(live, call, true);
    kt_live_unlock(live);
    if (call->release)
        call->release(call->release_data);
}

/* Runs the show of a call, and ends the call. (This is a separate function because gcc warns of arguments that are used
 * after pthread_cleanup_push().) */
static inline int64_t kt_live_show(struct kt_live_call *call, char *page)
{
    int64_t length;
    pthread_cleanup_push(kt_live_end, call);
    length = call->attribute->show(call->data, call->attribute, page);
    pthread_cleanup_pop(1);
    return length;
}

KT_LIVE_CALL int64_t kt_live_read(struct kt_live *live, const char *path, void *out, size_t size)
{
    struct kt_live_call call;
    char page[KT_PAGE_SIZE];
    int64_t length = kt_live_begin(live, path, 'r', &call);
    if (length)
        return length;
    memset(page, 0, sizeof page);
    length = kt_live_show(&call, page);
    if (length < 0)
        return length;
    if (length > KT_PAGE_SIZE - 1)
        length = KT_PAGE_SIZE - 1;
    if ((size_t)length >= size)
        length = (int64_t)size;
    else
        page[length] = 0;
    if (size)
        memcpy(out, page, (size_t)length + ((size_t)length < size));
    return length;
}

/* Runs the store of a call with a copy of the bytes that has a zero byte after them. */
static inline int64_t kt_live_store(const struct kt_live_call *call, const char *bytes, size_t length)
{
    char copy[KT_PAGE_SIZE + 1];
    if (length > KT_PAGE_SIZE)
        length = KT_PAGE_SIZE;
    if (!length)
        return 0;
    memcpy(copy, bytes, length);
    copy[length] = 0;
    return call->attribute->store(call->data, call->attribute, copy, length);
}

KT_LIVE_CALL int64_t kt_live_write(struct kt_live *live, const char *path, const char *bytes, size_t length)
{
    struct kt_live_call call;
    int64_t answer = kt_live_begin(live, path, 'w', &call);
    if (answer)
        return answer;
    pthread_cleanup_push(kt_live_end, &call);
    answer = kt_live_store(&call, bytes, length);
    pthread_cleanup_pop(1);
    return answer;
}

KT_LIVE_CALL int64_t kt_live_run(struct kt_live *live, const char *path, kt_live_function *function, void *data)
{
    struct kt_live_call call;
    int64_t answer = kt_live_begin(live, path, 'x', &call);
    if (answer)
        return answer;
    pthread_cleanup_push(kt_live_end, &call);
    answer = function(call.data, data);
    pthread_cleanup_pop(1);
    return answer;
}

KT_LIVE_CALL struct kt_key kt_live_self(struct kt_live *live)
{
    struct kt_key key = {0, 0};
    struct kt_live_call *inner = NULL;
    kt_live_lock(live);
    for (struct kt_live_call *it = live->calls; it; it = it->next)
        if (kt_live_is_mine(it) && (!inner || it->stack < inner->stack))
            inner = it;
    if (inner && inner->device)
        key = inner->device->key;
    kt_live_unlock(live);
    return key;
}

/* ---- open files ---- */

struct kt_live_file {
    struct kt_live_call call;
    void *memory; /* the block that this is in */
};

/* Makes an open file, in cache lines that nothing else is in, because its thread writes it at each read. */
static inline struct kt_live_file *kt_live_new_file(struct kt_live *live)
{
    enum { LINE = 64 };
    size_t size = (sizeof(struct kt_live_file) + LINE - 1) / LINE * LINE;
    void *memory = calloc(1, size + LINE);
    struct kt_live_file *file;
    if (!memory)
        return NULL;
    file = (struct kt_live_file *)(((uintptr_t)memory + LINE - 1) / LINE * LINE);
    file->memory = memory;
    file->call.live = live;
    file->call.is_open_file = true;
    if (!kt_new(&file->call.file.at))
        return file;
    free(memory);
    return NULL;
}

/* Opens the attribute at a path. Under the lock. If this fails, the file may be open. */
static inline int32_t kt_live_open_at(struct kt_live *live, const char *path, bool read, bool write,
                                      struct kt_live_call *call)
{
    int32_t answer = kt_live_walk(live, path, &call->key);
    if (!answer)
        answer = kt_open(&live->tree, call->key, read, write, &call->file);
    if (answer)
        return answer;
    call->device = kt_live_owner(live, call->key, &call->attribute);
    if (!call->device)
        return -EIO;
    call->data = call->device->device;
    return 0;
}

KT_LIVE_CALL int32_t kt_live_open(struct kt_live *live, const char *path, bool read, bool write,
                                  struct kt_live_file **out)
{
    struct kt_live_file *file = kt_live_new_file(live);
    int32_t answer;
    if (!file)
        return -ENOMEM;
    kt_live_lock(live);
    answer = kt_live_open_at(live, path, read, write, &file->call);
    if (!answer)
        kt_live_enlist(live, &file->call);
    else
        kt_clear(&file->call.file);
    kt_live_unlock(live);
    if (!answer) {
        *out = file;
        return 0;
    }
    kt_delete(file->call.file);
    free(file->memory);
    return answer;
}

KT_LIVE_CALL int32_t kt_live_close(struct kt_live_file *file)
{
    struct kt_live *live = file->call.live;
    if (kt_live_stack(&file->call))
        return -EBUSY;
    kt_live_lock(live);
    kt_live_delist(&file->call);
    kt_clear(&file->call.file);
    pthread_cond_broadcast(&live->lock.left);
    kt_live_unlock(live);
    kt_delete(file->call.file);
    free(file->memory);
    return 0;
}

/* Ends a callback of an open file, even if the callback does not return. Without the lock: what this thread has marked
 * is unmarked before it leaves. So a removal that counted this callback as inside sees no callback here once that
 * removal is over. If the callback has stepped aside, an unpublishing that does not count it as inside may be waiting
 * for it. Only then is the call left under the lock. */
static inline void kt_live_end_file(void *data)
{
    struct kt_live_call *call = &((struct kt_live_file *)data)->call;
    struct kt_lock *lock = &call->live->lock;
    kt_live_release *release = call->release;
    if (!release && !call->is_aside) {
        __atomic_store_n(&call->stack, (uintptr_t)0, __ATOMIC_RELEASE);
        (void)kt_leave_wake(&call->file, lock);
        return;
    }
    pthread_mutex_lock(&lock->mutex);
    __atomic_store_n(&call->stack, (uintptr_t)0, __ATOMIC_RELEASE);
    kt_live_leave(call);
    pthread_mutex_unlock(&lock->mutex);
    if (release)
        release(call->release_data);
}

/* Runs the show of an open file that was entered for the show, and keeps its text. */
static inline int64_t kt_live_show_file(struct kt_live_file *file)
{
    char page[KT_PAGE_SIZE];
    int64_t length;
    memset(page, 0, sizeof page);
    kt_live_mark(&file->call, 'r');
    pthread_cleanup_push(kt_live_end_file, file);
    length = file->call.attribute->show(file->call.data, file->call.attribute, page);
    if (length >= 0)
        kt_shown(&file->call.file, page, length < KT_PAGE_SIZE ? (size_t)length : KT_PAGE_SIZE);
    pthread_cleanup_pop(1);
    return length;
}

KT_LIVE_CALL int64_t kt_live_pread(struct kt_live_file *file, uint64_t offset, void *out, size_t size)
{
    int64_t length = kt_begin_read(&file->call.file, offset);
    if (length == -ENODEV)
        kt_wake(&file->call.live->lock);
    if (length == 1)
        length = kt_live_show_file(file);
    if (length < 0)
        return length;
    length = kt_copy(&file->call.file, offset, out, size);
    if (length >= 0 && (size_t)length < size)
        ((char *)out)[length] = 0;
    return length;
}

KT_LIVE_CALL int64_t kt_live_pwrite(struct kt_live_file *file, const char *bytes, size_t length)
{
    int64_t answer = kt_begin_write(&file->call.file);
    if (answer == -ENODEV)
        kt_wake(&file->call.live->lock);
    if (answer)
        return answer;
    kt_live_mark(&file->call, 'w');
    pthread_cleanup_push(kt_live_end_file, file);
    answer = kt_live_store(&file->call, bytes, length);
    pthread_cleanup_pop(1);
    return answer;
}

KT_LIVE_CALL int32_t kt_live_changed(struct kt_live_file *file)
{
    return kt_poll(&file->call.file, &file->call.live->lock);
}

#endif /* KT_LIVE_CALLS_H */
