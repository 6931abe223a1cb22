/* SPDX-License-Identifier: MIT OR Apache-2.0 */
/* kt_live_watch.h: the parts of kt_live.h that watch nodes and list them. It is private to kt_live.h, which includes
 * it. Its functions are called under the lock, except those that kt_live.h declares. */
#include "kt_live.h"
#ifndef KT_LIVE_WATCH_H
#define KT_LIVE_WATCH_H

/* ---- watches ---- */

/* Makes a watch's descriptor readable. If it is readable already, the write may be refused, and nothing is lost. */
static inline void kt_live_raise(struct kt_live_watcher *watch)
{
    uint64_t one = 1;
    int before = kt_live_no_cancel();
    (void)!write(watch->fd, &one, sizeof one);
    kt_live_cancel_as(before);
}

static inline bool kt_live_is_there(struct kt_live *live, struct kt_key key)
{
    struct kt_node_info info;
    return !kt_stat(&live->tree, key, &info) && info.activated && !info.doomed;
}

/* Looks for the node of a watch again, unless the node that it had is still there. Returns whether a node has come or
 * gone. */
static inline bool kt_live_look_again(struct kt_live *live, struct kt_live_watcher *watch)
{
    bool was_there = watch->is_there;
    if (was_there && kt_live_is_there(live, watch->key))
        return false;
    watch->is_there = !kt_live_walk(live, watch->path, &watch->key) && kt_live_is_there(live, watch->key);
    return was_there || watch->is_there;
}

/* Makes each watch readable whose node has gone or come since the last look. */
static inline void kt_live_raise_changed(struct kt_live *live)
{
    for (struct kt_live_watcher *it = live->watches; it; it = it->next)
        if (kt_live_look_again(live, it))
            kt_live_raise(it);
}

/* Makes a watch with its own copy of the path. */
static inline int kt_live_new_watch(struct kt_live *live, const char *path)
{
    size_t size = strlen(path) + 1;
    struct kt_live_watcher *watch = (struct kt_live_watcher *)calloc(1, sizeof *watch + size);
    if (!watch)
        return -ENOMEM;
    watch->fd = eventfd(0, EFD_CLOEXEC | EFD_NONBLOCK);
    if (watch->fd < 0) {
        int answer = -errno;
        free(watch);
        return answer;
    }
    watch->path = (const char *)memcpy(watch + 1, path, size);
    watch->is_there = !kt_live_walk(live, path, &watch->key) && kt_live_is_there(live, watch->key);
    watch->next = live->watches;
    live->watches = watch;
    return watch->fd;
}

KT_LIVE_CALL int kt_live_watch(struct kt_live *live, const char *path)
{
    struct kt_key key;
    int answer;
    kt_live_lock(live);
    answer = kt_live_walk(live, path, &key);
    if (answer != -EINVAL)
        answer = kt_live_new_watch(live, path);
    kt_live_unlock(live);
    return answer;
}

KT_LIVE_CALL int32_t kt_live_unwatch(struct kt_live *live, int fd)
{
    struct kt_live_watcher *watch, **at;
    int before = kt_live_no_cancel();
    kt_live_lock(live);
    for (at = &live->watches; *at && (*at)->fd != fd; at = &(*at)->next)
        ;
    watch = *at;
    if (watch)
        *at = watch->next;
    kt_live_unlock(live);
    if (watch)
        close(fd);
    free(watch);
    kt_live_cancel_as(before);
    return watch ? 0 : -EBADF;
}

KT_LIVE_CALL int32_t kt_live_notify(struct kt_live *live, struct kt_key device, const char *name)
{
    const struct kt_attribute *attribute;
    struct kt_key key;
    bool is_own;
    int32_t answer;
    kt_live_lock(live);
    answer = kt_find(&live->tree, device, name, strlen(name), &key);
    if (!answer)
        answer = kt_event_open(&live->tree, key, &live->post);
    if (!answer) {
        answer = kt_notify(&live->post);
        kt_clear(&live->post);
    }
    /* (no watch was updated when the program itself created a file) */
    is_own = !answer && !kt_live_owner(live, key, &attribute);
    for (struct kt_live_watcher *it = live->watches; it && !answer; it = it->next) {
        if (is_own)
            (void)kt_live_look_again(live, it);
        if (kt_live_is_same(it->key, key))
            kt_live_raise(it);
    }
    kt_live_unlock(live);
    return answer;
}

/* ---- names ---- */

KT_LIVE_CALL int32_t kt_live_list(struct kt_live *live, const char *path, struct kt_child *at)
{
    struct kt_key dir;
    int32_t answer;
    kt_live_lock(live);
    answer = kt_live_walk(live, path, &dir);
    if (!answer)
        answer = kt_list(&live->tree, dir, at);
    kt_live_unlock(live);
    return answer;
}

KT_LIVE_CALL int64_t kt_live_path(struct kt_live *live, struct kt_key key, char *path, size_t size)
{
    int64_t length;
    kt_live_lock(live);
    length = kt_path(&live->tree, key, path, size ? size - 1 : 0); /* (no path is empty) */
    kt_live_unlock(live);
    if (length >= 0)
        path[length] = 0;
    return length;
}

#endif /* KT_LIVE_WATCH_H */
