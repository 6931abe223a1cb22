/* SPDX-License-Identifier: MIT OR Apache-2.0 */
/* kt_live_tree.h: the parts of kt_live.h that keep what is published: the lock, the slots and the holds. It is private
 * to kt_live.h, which includes it. Its functions are called under the lock, except those that kt_live.h declares. */
#include "kt_live.h"
#ifndef KT_LIVE_TREE_H
#define KT_LIVE_TREE_H

/* A published device. */
struct kt_live_device {
    struct kt_live_device *next; /* the next one whose directory had the same slot */
    struct kt_key key;           /* its directory */
    struct kt_key above;         /* the nearest device above it; 0, 0 if there is none */
    void *device;
    const struct kt_attribute *attributes;
    struct kt_key *files; /* of each attribute; 0, 0 if it has no file */
    size_t count;
    uint64_t nodes; /* how many: the directory and the files */
    kt_live_release *release;
    void *release_data;
    bool is_claimed;
};

/* What is published at a slot: the devices whose directories had the slot, and the device whose file has it. */
struct kt_live_slot {
    struct kt_live_device *dir, *owner;
    size_t attribute; /* which attribute of the owner */
};

/* A callback that runs, on the stack of its thread; or an open file, which is in the list as long as it is open. */
struct kt_live_call {
    struct kt_live_call *next, **link; /* link: what points to it */
    struct kt_live *live;
    struct kt_handle file;
    struct kt_live_device *device; /* NULL once the device is unpublished */
    const struct kt_attribute *attribute;
    void *data; /* the program's device */
    struct kt_key key;
    pthread_t thread;
    uintptr_t stack; /* where its callback runs: lower for an inner callback. 0 if none runs */
    int64_t since;   /* when the callback began, as kt_live_about_now() */
    kt_live_release *release; /* this runs once the callback has ended */
    void *release_data;
    uint32_t age; /* of the tree, when the callback began */
    char way;     /* r: a show, w: a store, x: a function of kt_live_run() */
    bool is_open_file;
    bool is_aside; /* it has broken its protection, until it ends. Only its thread writes this, under the lock */
};

/* An unpublishing that sleeps, on the stack of its thread. */
struct kt_live_sleep {
    struct kt_live_sleep *next, **link;
    struct kt_key key;
    struct kt_live_device *device; /* the device whose callbacks it waits for too, or NULL */
    pthread_t thread;
    int64_t since, warned, until; /* until: INT64_MAX if it has no time limit */
    bool is_seen;
    void *data; /* what was unpublished, and what must then run */
    kt_live_release *release;
    void *release_data;
};

struct kt_live_watcher {
    struct kt_live_watcher *next;
    const char *path;
    struct kt_key key; /* the node there */
    int fd;
    bool is_there;
};

/* A hold that no callback uses, kept for the next callback at that node. */
struct kt_live_kept {
    struct kt_key key;
    struct kt_handle hold; /* `at` is NULL if there is none */
};
enum { KT_LIVE_KEPT = 64 };

static inline void kt_live_lock(struct kt_live *live) { pthread_mutex_lock(&live->lock.mutex); }
static inline void kt_live_unlock(struct kt_live *live) { pthread_mutex_unlock(&live->lock.mutex); }

/* Puts off the cancellation of this thread. Returns what kt_live_cancel_as() needs. */
static inline int kt_live_no_cancel(void)
{
    int before = 0;
    pthread_setcancelstate(PTHREAD_CANCEL_DISABLE, &before);
    return before;
}
static inline void kt_live_cancel_as(int before) { pthread_setcancelstate(before, NULL); }

/* The system's clock, in microseconds. */
static inline int64_t kt_live_now(void)
{
    struct timeval at;
    gettimeofday(&at, NULL);
    return (int64_t)at.tv_sec * 1000000 + at.tv_usec;
}

/* The same, but it may be 4 ms behind. It is cheap enough for each callback. */
static inline int64_t kt_live_about_now(void)
{
#ifdef CLOCK_REALTIME_COARSE
    struct timespec at;
    clock_gettime(CLOCK_REALTIME_COARSE, &at);
    return (int64_t)at.tv_sec * 1000000 + at.tv_nsec / 1000;
#else
    return kt_live_now();
#endif
}

/* Compacts the log of the tree if it has at least 1,000 more than twice as many commands as kt_compact() leaves at
 * most. If there is no memory, the next change tries again. */
static inline void kt_live_tidy(struct kt_live *live)
{
    struct kt_command_counts commands;
    if (!kt_commands(&live->tree, &commands) && commands.stored >= 2 * commands.compacted + 1000)
        kt_compact(&live->tree);
}

static inline int32_t kt_live_walk(struct kt_live *live, const char *path, struct kt_key *out)
{
    return kt_walk(&live->tree, path, strlen(path), out);
}

static inline bool kt_live_is_same(struct kt_key one, struct kt_key other)
{
    return one.slot == other.slot && one.generation == other.generation;
}

/* The device whose directory has a key, or NULL. */
static inline struct kt_live_device *kt_live_find(struct kt_live *live, struct kt_key key)
{
    struct kt_live_device *found = key.slot < live->slots ? live->at[key.slot].dir : NULL;
    while (found && found->key.generation != key.generation)
        found = found->next;
    return found;
}

/* The nearest device above a node, or 0, 0. */
static inline struct kt_key kt_live_above(struct kt_live *live, struct kt_key key)
{
    struct kt_key none = {0, 0};
    while (!kt_parent(&live->tree, key, &key))
        if (kt_live_find(live, key))
            return key;
    return none;
}

/* Whether a device is `top` or was published below it, even if their directories are out of the tree. */
static inline bool kt_live_is_within(struct kt_live *live, const struct kt_live_device *device,
                                     const struct kt_live_device *top)
{
    while (device && device != top)
        device = kt_live_find(live, device->above);
    return device != NULL;
}

/* The device to which a file of the tree belongs; `attribute` gets which attribute of it the file is. NULL for a file
 * that the program created itself. */
static inline struct kt_live_device *kt_live_owner(struct kt_live *live, struct kt_key file,
                                                   const struct kt_attribute **attribute)
{
    const struct kt_live_slot *at = &live->at[file.slot];
    if (!at->owner || !kt_live_is_same(at->owner->files[at->attribute], file))
        return NULL;
    *attribute = &at->owner->attributes[at->attribute];
    return at->owner;
}

static inline void kt_live_enlist(struct kt_live *live, struct kt_live_call *call)
{
    call->next = live->calls;
    call->link = &live->calls;
    if (call->next)
        call->next->link = &call->next;
    live->calls = call;
}

static inline void kt_live_delist(struct kt_live_call *call)
{
    *call->link = call->next;
    if (call->next)
        call->next->link = call->link;
}

/* ---- holds ---- */

/* Frees the holds that are kept, so that they keep no slot from being reused. */
static inline void kt_live_drop_kept(struct kt_live *live)
{
    for (size_t i = 0; i < KT_LIVE_KEPT; i++) {
        if (!live->kept[i].hold.at)
            continue;
        if (kt_clear(&live->kept[i].hold) == 1)
            pthread_cond_broadcast(&live->lock.left);
        kt_delete(live->kept[i].hold);
        live->kept[i].hold.at = NULL;
    }
}

/* Gives a call a hold of its node, a kept one or a new one. Returns 0, or fails like kt_hold(). */
static inline int32_t kt_live_take_hold(struct kt_live *live, struct kt_live_call *call)
{
    struct kt_live_kept *kept = &live->kept[call->key.slot % KT_LIVE_KEPT];
    int32_t answer;
    if (kept->hold.at && kt_live_is_same(kept->key, call->key)) {
        call->file = kept->hold;
        kept->hold.at = NULL;
        return 0;
    }
    answer = kt_new(&call->file.at);
    if (answer)
        return answer;
    answer = kt_hold(&live->tree, call->key, &call->file);
    if (answer)
        kt_delete(call->file);
    return answer;
}

/* Called when the hold of a call is no longer needed. The hold is kept if `is_good`, if no unpublishing has begun
 * meanwhile, and if its place is empty. Otherwise it is freed. */
static inline void kt_live_put_hold(struct kt_live *live, struct kt_live_call *call, bool is_good)
{
    struct kt_live_kept *kept = &live->kept[call->key.slot % KT_LIVE_KEPT];
    if (is_good && call->age == live->age && !kept->hold.at) {
        kept->key = call->key;
        kept->hold = call->file;
        return;
    }
    if (kt_clear(&call->file) == 1)
        pthread_cond_broadcast(&live->lock.left);
    kt_delete(call->file);
}

/* ---- the tree ---- */

/* Makes the handles and the tree of a new struct. Returns 0 or -ENOMEM. */
static inline int32_t kt_live_start(struct kt_live *live)
{
    int32_t answer = kt_new(&live->tree.at);
    if (answer)
        return answer;
    answer = kt_new(&live->post.at);
    if (!answer) {
        answer = kt_create_root(&live->tree, live->slots, KT_HOLDS_MAX);
        if (answer)
            kt_delete(live->post);
    }
    if (answer)
        kt_delete(live->tree);
    return answer;
}

static inline void kt_live_free(struct kt_live *live)
{
    free(live->kept);
    free(live->at);
    free(live);
}

KT_LIVE_CALL int32_t kt_live_new(struct kt_live **out, uint32_t slots)
{
    struct kt_live *live;
    int32_t answer;
    if (slots < 1 || slots > KT_SLOTS_MAX)
        return -EINVAL;
    live = (struct kt_live *)calloc(1, sizeof *live);
    if (!live)
        return -ENOMEM;
    live->slots = slots;
    live->at = (struct kt_live_slot *)calloc(slots, sizeof *live->at);
    live->kept = (struct kt_live_kept *)calloc(KT_LIVE_KEPT, sizeof *live->kept);
    answer = live->at && live->kept ? kt_lock_init(&live->lock) : -ENOMEM;
    if (!answer) {
        answer = kt_live_start(live);
        if (answer)
            kt_lock_destroy(&live->lock);
    }
    if (answer) {
        kt_live_free(live);
        return answer;
    }
    *out = live;
    return 0;
}

KT_LIVE_CALL int32_t kt_live_delete(struct kt_live *live)
{
    struct kt_live_device *next;
    int32_t answer = -EBUSY;
    kt_live_lock(live);
    if (!live->nodes && !live->watches && !live->calls && !live->sleeps) {
        kt_live_drop_kept(live);
        answer = kt_clear(&live->tree);
    }
    kt_live_unlock(live);
    if (answer < 0)
        return answer;
    for (; live->remnants; live->remnants = next) {
        next = live->remnants->next;
        free(live->remnants);
    }
    kt_delete(live->tree);
    kt_delete(live->post);
    kt_lock_destroy(&live->lock);
    kt_live_free(live);
    return 0;
}

#endif /* KT_LIVE_TREE_H */
