/* SPDX-License-Identifier: MIT OR Apache-2.0 */
/* kt_live_removal.h: the parts of kt_live.h that publish and unpublish devices, and say which thread is inside. It is
 * private to kt_live.h, which includes it. Its functions are called under the lock, except those that kt_live.h
 * declares. */
#include "kt_live.h"
#ifndef KT_LIVE_REMOVAL_H
#define KT_LIVE_REMOVAL_H

/* ---- publishing ---- */

/* Whether each attribute has a name and a mode that fits its callbacks (DEVICE_ATTR). Without the lock. */
static inline bool kt_live_fits(const struct kt_attribute *attributes, size_t count)
{
    for (size_t i = 0; i < count; i++) {
        const struct kt_attribute *it = &attributes[i];
        if (!it->mode)
            continue;
        if (!it->name || (it->mode & ~0666) || !(it->mode & 0444) != !it->show || !(it->mode & 0222) != !it->store)
            return false;
    }
    return true;
}

/* Tries again to remove directories that were never live. Returns 0 or -ENOMEM. */
static inline int32_t kt_live_sweep(struct kt_live *live)
{
    while (live->remnants) {
        struct kt_live_device *it = live->remnants;
        if (kt_remove(&live->tree, it->key) < 0)
            return -ENOMEM;
        live->remnants = it->next;
        free(it);
    }
    return 0;
}

/* Makes the directory at a path, not live. */
static inline int32_t kt_live_create_dir(struct kt_live *live, const char *path, struct kt_key *out)
{
    const char *slash = strrchr(path, '/');
    struct kt_key parent;
    int32_t answer;
    if (!slash || !strncmp(path, "//", 2))
        return -EINVAL;
    answer = slash == path ? kt_root(&live->tree, &parent)
                           : kt_walk(&live->tree, path, (size_t)(slash - path), &parent);
    return answer ? answer : kt_create_dir(&live->tree, parent, slash + 1, strlen(slash + 1), false, out);
}

static inline int32_t kt_live_create_files(struct kt_live *live, struct kt_live_device *it)
{
    int32_t answer = 0;
    for (size_t i = 0; i < it->count && !answer; i++) {
        const struct kt_attribute *attribute = &it->attributes[i];
        if (!attribute->mode)
            continue;
        answer = kt_create_file(&live->tree, it->key, attribute->name, strlen(attribute->name), attribute->mode, i,
                                false, &it->files[i]);
        it->nodes += !answer;
    }
    return answer;
}

/* From now on, the device is found by the keys of its directory and its files. */
static inline void kt_live_enroll(struct kt_live *live, struct kt_live_device *it)
{
    it->next = live->at[it->key.slot].dir;
    live->at[it->key.slot].dir = it;
    for (size_t i = 0; i < it->count; i++)
        if (it->files[i].generation) {
            live->at[it->files[i].slot].owner = it;
            live->at[it->files[i].slot].attribute = i;
        }
    live->nodes += it->nodes;
}

/* Creates all nodes, and then makes all of them live. If they cannot all be created, they are removed again. If there
 * is no memory for that either, they stay, without being live, until a later call removes them. */
static inline int32_t kt_live_add(struct kt_live *live, const char *path, struct kt_live_device *it, struct kt_key *out)
{
    int32_t answer = kt_live_sweep(live);
    if (!answer)
        answer = kt_live_create_dir(live, path, &it->key);
    if (answer) {
        free(it);
        return answer;
    }
    it->nodes = 1;
    it->above = kt_live_above(live, it->key);
    answer = kt_live_create_files(live, it);
    if (!answer)
        answer = kt_activate(&live->tree, it->key);
    if (!answer) {
        *out = it->key;
        kt_live_enroll(live, it);
        kt_live_tidy(live);
        kt_live_raise_changed(live);
        return 0;
    }
    kt_live_tidy(live);
    it->next = live->remnants;
    live->remnants = it;
    (void)!kt_live_sweep(live);
    return answer;
}

KT_LIVE_CALL int32_t kt_live_publish_plugin(struct kt_live *live, const char *path,
                                            const struct kt_attribute *attributes, size_t count, void *device,
                                            kt_live_release *release, void *data, struct kt_key *out)
{
    struct kt_live_device *it;
    int32_t answer;
    if (!kt_live_fits(attributes, count))
        return -EINVAL;
    it = (struct kt_live_device *)calloc(1, sizeof *it + count * sizeof *it->files);
    if (!it)
        return -ENOMEM;
    it->device = device;
    it->attributes = attributes;
    it->count = count;
    it->files = (struct kt_key *)(it + 1);
    it->release = release;
    it->release_data = data;
    kt_live_lock(live);
    answer = kt_live_add(live, path, it, out);
    kt_live_unlock(live);
    return answer;
}

KT_LIVE_CALL int32_t kt_live_publish(struct kt_live *live, const char *path, const struct kt_attribute *attributes,
                                     size_t count, void *device, struct kt_key *out)
{
    return kt_live_publish_plugin(live, path, attributes, count, device, NULL, NULL, out);
}

/* ---- who keeps an unpublishing waiting ---- */

static inline bool kt_live_is_below(struct kt_live *live, struct kt_key key, struct kt_key top)
{
    do {
        if (kt_live_is_same(key, top))
            return true;
    } while (!kt_parent(&live->tree, key, &key));
    return false;
}

/* Breaks the protection of this thread's own callbacks at a node or below it, because its removal would wait for them.
 * They stay aside until they end. (A call breaks its protection only once, and the next unpublishing must not wait for
 * them either.) */
static inline void kt_live_step_aside(struct kt_live *live, struct kt_key top)
{
    for (struct kt_live_call *it = live->calls; it; it = it->next)
        if (!it->is_aside && kt_live_is_mine(it) && kt_live_is_below(live, it->key, top))
            it->is_aside = kt_break(&it->file) >= 0;
    pthread_cond_broadcast(&live->lock.left);
}

/* Whether a callback has stepped aside for an unpublishing in which its thread sleeps, and which may wait for the
 * unpublishing of this device. (If it is an unpublishing of the same device and not the first one, it waits for no
 * callback that has stepped aside, so its own callback goes on.) */
static inline bool kt_live_gives_way(struct kt_live *live, const struct kt_live_call *call,
                                     const struct kt_live_device *device)
{
    for (struct kt_live_sleep *it = live->sleeps; it; it = it->next)
        if ((it->device || !kt_live_is_same(it->key, device->key)) &&
            pthread_equal(it->thread, kt_live_thread(call)) &&
            kt_live_is_within(live, call->device, kt_live_find(live, it->key)))
            return true;
    return false;
}

/* Whether a callback may use a device: it is in the device's code; or it is in the code of a device below, has stepped
 * aside, and goes on. */
static inline bool kt_live_uses(struct kt_live *live, const struct kt_live_call *call,
                                const struct kt_live_device *device)
{
    return call->device == device ||
           (call->is_aside && kt_live_is_within(live, call->device, device) && !kt_live_gives_way(live, call, device));
}

/* Whether a callback of another thread may use a device. */
static inline bool kt_live_is_used(struct kt_live *live, const struct kt_live_device *device)
{
    for (struct kt_live_call *it = live->calls; it; it = it->next)
        if (kt_live_stack(it) && !kt_live_is_mine(it) && kt_live_uses(live, it, device))
            return true;
    return false;
}

/* Whether a callback keeps an unpublishing that sleeps from ending. */
static inline bool kt_live_keeps(struct kt_live *live, const struct kt_live_call *call,
                                 const struct kt_live_sleep *sleep)
{
    if (!kt_live_stack(call) || pthread_equal(kt_live_thread(call), sleep->thread))
        return false;
    return (!call->is_aside && kt_live_is_below(live, call->key, sleep->key)) ||
           (sleep->device && kt_live_uses(live, call, sleep->device));
}

/* Whether a sleep waits for a callback whose thread sleeps too, without a time limit, and so on, until the last of
 * these is this thread. Then none of them ends. */
static inline bool kt_live_is_circle(struct kt_live *live, struct kt_live_sleep *sleep, pthread_t thread)
{
    sleep->is_seen = true;
    for (struct kt_live_call *it = live->calls; it; it = it->next) {
        if (!kt_live_keeps(live, it, sleep))
            continue;
        if (pthread_equal(kt_live_thread(it), thread))
            return true;
        for (struct kt_live_sleep *next = live->sleeps; next; next = next->next)
            if (pthread_equal(next->thread, kt_live_thread(it)) && next->until == INT64_MAX && !next->is_seen &&
                kt_live_is_circle(live, next, thread))
                return true;
    }
    return false;
}

static inline bool kt_live_never_ends(struct kt_live *live, struct kt_live_sleep *sleep)
{
    for (struct kt_live_sleep *it = live->sleeps; it; it = it->next)
        it->is_seen = false;
    return kt_live_is_circle(live, sleep, sleep->thread);
}

/* ---- unpublishing ---- */

/* A device is unpublished. On the way up from `it`, the device right below the one that is gone is from now on below
 * what was above that one. */
static inline void kt_live_lift(struct kt_live *live, struct kt_live_device *it, const struct kt_live_device *gone)
{
    while (it && !kt_live_is_same(it->above, gone->key))
        it = kt_live_find(live, it->above);
    if (it)
        it->above = gone->above;
}

/* Forgets a device that is unpublished: no callback and no open file belongs to it any longer. The function that must
 * run once its last callback has ended is passed to the outermost callback of this thread there or, if there is none,
 * to the unpublishing. */
static inline void kt_live_forget(struct kt_live *live, struct kt_live_device *device, struct kt_live_sleep *sleep)
{
    struct kt_live_device **at = &live->at[device->key.slot].dir;
    struct kt_live_call *outer = NULL;
    for (struct kt_live_call *it = live->calls; it; it = it->next) {
        kt_live_lift(live, it->device, device);
        if (it->device != device)
            continue;
        it->device = NULL;
        if (kt_live_is_mine(it) && (!outer || it->stack > outer->stack))
            outer = it;
    }
    if (outer) {
        outer->release = device->release;
        outer->release_data = device->release_data;
    } else {
        sleep->release = device->release;
        sleep->release_data = device->release_data;
    }
    while (*at != device)
        at = &(*at)->next;
    *at = device->next;
    for (size_t i = 0; i < device->count; i++)
        if (device->files[i].generation && live->at[device->files[i].slot].owner == device)
            live->at[device->files[i].slot].owner = NULL;
    live->nodes -= device->nodes;
    kt_live_tidy(live);
    free(device);
}

/* Sleeps until something has left, or until a time. */
static inline void kt_live_doze(struct kt_live *live, int64_t until)
{
    struct timespec at;
    if (until == INT64_MAX) {
        pthread_cond_wait(&live->lock.left, &live->lock.mutex);
        return;
    }
    at.tv_sec = (time_t)(until / 1000000);
    at.tv_nsec = (long)(until % 1000000) * 1000;
    pthread_cond_timedwait(&live->lock.left, &live->lock.mutex, &at);
}

/* Sleeps for a moment, without the lock, in the hope that there is memory then. */
static inline void kt_live_pause(struct kt_live *live)
{
    kt_live_unlock(live);
    poll(NULL, 0, 10);
    kt_live_lock(live);
}

static inline void kt_live_report(struct kt_live *live, const struct kt_live_sleep *sleep);

/* Takes what is claimed out of the tree, and waits until no callback keeps it. Returns 0, -ETIMEDOUT or -EDEADLK. */
static inline int32_t kt_live_wait_out(struct kt_live *live, struct kt_live_sleep *sleep)
{
    for (;;) {
        int64_t now = kt_live_now(), warn = INT64_MAX;
        int32_t answer = kt_remove(&live->tree, sleep->key);
        if (answer >= 0 && !(sleep->device && kt_live_is_used(live, sleep->device)))
            return 0;
        if (answer == -EAGAIN || answer >= 0) {
            if (kt_live_never_ends(live, sleep))
                return -EDEADLK;
        }
        if (now >= sleep->until)
            return -ETIMEDOUT;
        if (live->warn_after)
            warn = sleep->warned + (int64_t)live->warn_after * 1000;
        if (now >= warn) {
            sleep->warned = now;
            kt_live_report(live, sleep);
        } else if (answer == -EAGAIN || answer >= 0) {
            kt_live_doze(live, warn < sleep->until ? warn : sleep->until);
        } else {
            kt_live_pause(live);
        }
    }
}

/* Marks a device and takes it out of the tree. Returns what kt_live_unpublish() returns. */
static inline int32_t kt_live_take_out(struct kt_live *live, struct kt_key key, struct kt_live_sleep *sleep)
{
    struct kt_live_device *device = kt_live_find(live, key);
    int32_t answer = device ? kt_claim(&live->tree, key) : -ENOENT; /* marks it */
    bool is_first;
    kt_keys_check(&live->tree, key);
    if (!device || (answer < 0 && answer != -ENOENT)) /* (-ENOENT for a device: it was removed with one above it) */
        return answer;
    live->age++;
    kt_live_drop_kept(live);
    is_first = !device->is_claimed;
    device->is_claimed = true;
    kt_live_raise_changed(live);
    kt_live_step_aside(live, key);
    sleep->key = key;
    sleep->device = is_first ? device : NULL;
    sleep->next = live->sleeps;
    sleep->link = &live->sleeps;
    if (sleep->next)
        sleep->next->link = &sleep->next;
    live->sleeps = sleep;
    answer = kt_live_wait_out(live, sleep);
    *sleep->link = sleep->next;
    if (sleep->next)
        sleep->next->link = sleep->link;
    if (answer && is_first)
        device->is_claimed = false; /* the next call is the first */
    if (!answer && is_first) {
        sleep->data = device->device;
        kt_live_forget(live, device, sleep);
    }
    (void)!kt_live_sweep(live);
    return answer ? answer : is_first;
}

/* Before a wait for the device at a path, or for the device with a key if `path` is NULL. */
static inline void kt_live_order(struct kt_live *live, const char *path, struct kt_key key)
{
#ifdef KT_TSAN
    bool is_there;
    kt_live_lock(live);
    is_there = (!path || !kt_live_walk(live, path, &key)) && kt_live_find(live, key);
    kt_live_unlock(live);
    if (is_there)
        kt_order_waits(live->tree.at, key, true);
#else
    (void)live, (void)path, (void)key;
#endif
}

/* Unpublishes the device at a path, or the device with a key if `path` is NULL. `until` is as in a sleep. */
static inline int32_t kt_live_end_device(struct kt_live *live, const char *path, struct kt_key key, int64_t until,
                                         void **device)
{
    struct kt_live_sleep sleep;
    int before = kt_live_no_cancel(); /* what is marked cannot stay */
    int32_t answer = 0;
    memset(&sleep, 0, sizeof sleep);
    sleep.thread = pthread_self();
    sleep.since = sleep.warned = kt_live_now();
    sleep.until = until;
    if (until == INT64_MAX)
        kt_live_order(live, path, key);
    kt_live_lock(live);
    if (path)
        answer = kt_live_walk(live, path, &key);
    if (!answer)
        answer = kt_live_take_out(live, key, &sleep);
    kt_live_unlock(live);
    if (answer == 1 && device)
        *device = sleep.data;
    if (sleep.release)
        sleep.release(sleep.release_data);
    kt_live_cancel_as(before);
    return answer;
}

KT_LIVE_CALL int32_t kt_live_unpublish(struct kt_live *live, struct kt_key key)
{
    return kt_live_end_device(live, NULL, key, INT64_MAX, NULL);
}

KT_LIVE_CALL int32_t kt_live_take(struct kt_live *live, struct kt_key key, void **device)
{
    return kt_live_end_device(live, NULL, key, INT64_MAX, device);
}

KT_LIVE_CALL int32_t kt_live_unpublish_at(struct kt_live *live, const char *path, void **device)
{
    struct kt_key key = {0, 0};
    return kt_live_end_device(live, path, key, INT64_MAX, device);
}

KT_LIVE_CALL int32_t kt_live_unpublish_for(struct kt_live *live, struct kt_key key, unsigned milliseconds,
                                           void **device)
{
    return kt_live_end_device(live, NULL, key, kt_live_now() + (int64_t)milliseconds * 1000, device);
}

#include "kt_live_inside.h"

#endif /* KT_LIVE_REMOVAL_H */
