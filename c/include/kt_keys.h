/* SPDX-License-Identifier: MIT OR Apache-2.0 */
/* kt_keys.h: reports keys of another tree, in programs that use kernfs_tree.h; kt_check.h includes this.
 *
 * Under AddressSanitizer and ThreadSanitizer, a program is aborted with a message if it passes a key to a tree that has
 * not given the key out. For this, each tree begins with other generations than the seven trees before it: its first
 * slots are used and freed a few times, before kt_create_root() returns. So the keys of two trees differ, until their
 * slots were used again and again. A key that both trees have given out is not reported, and neither is a key of a slot
 * beyond the first KT_KEYS_FIRST that both trees have used.
 *
 * Nothing is reported about a tree that was made in code without a sanitizer, or while 64 others existed, or about a
 * key that no tree gave out. The same holds for a node that code without a sanitizer has created, while the node
 * exists. Once it is gone, its key is reported if another tree gave out the same one. The table here belongs to the
 * whole program: if a plug-in includes this too, link the program with -rdynamic, as for kt_told.h. */
#include "kernfs_tree.h"
#ifndef KT_KEYS_H
#define KT_KEYS_H

#if defined(KT_ASAN) || defined(KT_TSAN)
#include <stdio.h>
#include <stdlib.h>
#include <string.h>
#ifdef KT_TSAN
#include "kt_told.h"
#define KT_KEYS_CALL KT_UNSEEN
#else
#define KT_KEYS_CALL static __attribute__((noinline, unused))
#endif

enum { KT_KEYS_TREES = 64, KT_KEYS_FIRST = 32, KT_KEYS_STEP = 7, KT_KEYS_WAYS = 8 };

/* A tree that has not been freed. What it has given out is read under its lock, or under `is_locked`. */
struct kt_keys_tree {
    void *at; /* of its handle, or NULL */
    uint32_t slots;
    uint32_t *last;                       /* of each slot, the generation of the last key that was given out */
    uint32_t before[KT_KEYS_FIRST + 1]; /* of the first slots, the last generation that the program never got */
};
struct kt_keys_program {
    bool is_locked; /* while a tree is added or removed, or the trees are searched */
    unsigned made;
    uint64_t given[KT_KEYS_FIRST + 1]; /* of the first slots, a bit for each generation that some tree has given out */
    struct kt_keys_tree trees[KT_KEYS_TREES];
};
#ifdef __cplusplus
extern "C" {
#endif
__attribute__((weak)) struct kt_keys_program kt_keys;

KT_KEYS_CALL void kt_keys_lock(void)
{
    while (__atomic_test_and_set(&kt_keys.is_locked, __ATOMIC_ACQUIRE))
        ;
}
KT_KEYS_CALL void kt_keys_unlock(void) { __atomic_clear(&kt_keys.is_locked, __ATOMIC_RELEASE); }

/* Finds the tree behind a handle, or returns NULL. For NULL it finds a free place. */
KT_KEYS_CALL struct kt_keys_tree *kt_keys_find(const void *at)
{
    for (unsigned i = 0; i < KT_KEYS_TREES; i++)
        if (__atomic_load_n(&kt_keys.trees[i].at, __ATOMIC_ACQUIRE) == at)
            return &kt_keys.trees[i];
    return NULL;
}

KT_KEYS_CALL uint32_t kt_keys_before(const struct kt_keys_tree *it, uint32_t slot)
{
    return slot <= KT_KEYS_FIRST ? it->before[slot] : 0;
}

/* Whether a tree has given out a key. */
KT_KEYS_CALL bool kt_keys_has(const struct kt_keys_tree *it, struct kt_key key)
{
    return key.slot < it->slots && key.generation > kt_keys_before(it, key.slot) &&
           key.generation <= __atomic_load_n(&it->last[key.slot], __ATOMIC_RELAXED);
}

/* Records that a tree has given out a key. */
KT_KEYS_CALL void kt_keys_give(const void *at, struct kt_key key)
{
    struct kt_keys_tree *it = kt_keys_find(at);
    if (it && key.slot < it->slots && key.generation > __atomic_load_n(&it->last[key.slot], __ATOMIC_RELAXED))
        __atomic_store_n(&it->last[key.slot], key.generation, __ATOMIC_RELAXED);
    if (key.slot <= KT_KEYS_FIRST && key.generation < 64)
        __atomic_fetch_or(&kt_keys.given[key.slot], UINT64_C(1) << key.generation, __ATOMIC_RELAXED);
}

/* Whether some tree, which may have been freed, has given out this key. (It is called for a key whose generation is
 * below those of the tree that gets the key, so that was another tree.) */
KT_KEYS_CALL bool kt_keys_was_given(struct kt_key key)
{
    return key.slot <= KT_KEYS_FIRST && key.generation < 64 &&
           __atomic_load_n(&kt_keys.given[key.slot], __ATOMIC_RELAXED) >> key.generation & 1;
}

/* Uses the first slots of a new tree this many times. */
KT_KEYS_CALL void kt_keys_use(struct kt_handle *tree, struct kt_keys_tree *it, unsigned times)
{
    struct kt_key root = {0, 1}, dir, key;
    if (!times)
        return;
    while (times--) {
        char name = 'A';
        if (kt_create_dir(tree, root, "d", 1, false, &dir))
            break;
        for (key = dir; key.slot <= KT_KEYS_FIRST; name++) {
            it->before[key.slot] = key.generation;
            if (kt_create_file(tree, dir, &name, 1, 0, 0, false, &key))
                break;
        }
        if (kt_remove(tree, dir) < 0)
            break;
    }
    kt_compact(tree);
}

/* Adds a new tree. */
KT_KEYS_CALL void kt_keys_begin(struct kt_handle *tree, uint32_t slots)
{
    unsigned number = __atomic_fetch_add(&kt_keys.made, 1, __ATOMIC_RELAXED);
    struct kt_keys_tree made, *it;
    memset(&made, 0, sizeof made);
    made.slots = slots;
    made.last = (uint32_t *)calloc(slots, sizeof *made.last);
    if (!made.last)
        return;
    made.last[0] = 1;
    kt_keys_use(tree, &made, number % KT_KEYS_WAYS * KT_KEYS_STEP);
    kt_keys_lock();
    it = kt_keys_find(NULL);
    if (it) {
        *it = made;
        __atomic_store_n(&it->at, tree->at, __ATOMIC_RELEASE);
    }
    kt_keys_unlock();
    if (!it)
        free(made.last);
}

/* Removes a tree that was freed. Does nothing for any other handle. */
KT_KEYS_CALL void kt_keys_end(const void *at)
{
    struct kt_keys_tree *it;
    kt_keys_lock();
    it = kt_keys_find(at);
    if (it) {
        free(it->last);
        __atomic_store_n(&it->at, (void *)NULL, __ATOMIC_RELEASE);
    }
    kt_keys_unlock();
}

/* Whether a tree other than this one has given out a key. */
KT_KEYS_CALL bool kt_keys_other_has(const struct kt_keys_tree *it, struct kt_key key)
{
    bool found = false;
    kt_keys_lock();
    for (unsigned i = 0; i < KT_KEYS_TREES && !found; i++)
        found = &kt_keys.trees[i] != it && kt_keys.trees[i].at && kt_keys_has(&kt_keys.trees[i], key);
    kt_keys_unlock();
    return found;
}

/* Checks a key before a call on a tree. */
KT_KEYS_CALL void kt_keys_check(struct kt_handle *tree, struct kt_key key)
{
    struct kt_keys_tree *it = kt_keys_find(tree->at);
    struct kt_node_info info;
    if (!it || !key.generation || kt_keys_has(it, key))
        return;
    if (key.generation <= kt_keys_before(it, key.slot)) {
        if (!kt_keys_was_given(key))
            return;
    } else if (!kt_stat(tree, key, &info) || !kt_keys_other_has(it, key)) {
        return;
    }
    fprintf(stderr, "kernfs_tree: a key of another tree: slot %lu, generation %lu\n", (unsigned long)key.slot,
            (unsigned long)key.generation);
    abort();
}
#ifdef __cplusplus
}
#endif
#else
static inline void kt_keys_check(struct kt_handle *tree, struct kt_key key) { (void)tree, (void)key; }
#endif

#endif /* KT_KEYS_H */
