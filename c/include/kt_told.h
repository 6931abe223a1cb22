/* SPDX-License-Identifier: MIT OR Apache-2.0 */
/* kt_told.h: ThreadSanitizer annotations for programs that use kernfs_tree.h; kt_check.h includes this.
 *
 * What a call did happens before what follows the removal or the hiding of its node, or the removal of a node above it,
 * once that has returned 0 or more. What was done inside by a pass also happens before what follows kt_shut() of its
 * gate, once that has returned 0 or more. What was done before kt_activate() and kt_unhide() happens before what
 * follows a kt_enter() or a kt_pass_enter() there. This is tracked for each node, so a race of the program between
 * callbacks of two nodes is still reported, even if another node was removed in between.
 *
 * If kt_rename() has moved a node, or a node more than 11 levels below the root is held, all nodes of the tree count as
 * one. If a program has more handles than there is room for here, all nodes of the program count as one. The table here
 * belongs to the whole program: if a plug-in includes this too, link the program with -rdynamic.
 */
#include "kernfs_tree.h"
#ifndef KT_TOLD_H
#define KT_TOLD_H

#ifdef KT_TSAN
#ifdef __cplusplus
extern "C" {
#endif
void __tsan_acquire(void *);
void __tsan_release(void *);
void __tsan_write1(void *);

static inline void kt_touch(void *at) { __tsan_write1(at); }

/* The nodes for which a handle's steps are annotated: its node, those above it, and the root as the last. */
enum { KT_TOLD_NODES = 8192, KT_TOLD_HANDLES = 4096, KT_TOLD_TRIES = 16, KT_TOLD_DEPTH = 12 };
struct kt_told_handle {
    void *at; /* of the handle, or NULL */
    uint64_t turn; /* of its call, or 0 (kt_order.h) */
    unsigned count, nodes[KT_TOLD_DEPTH];
    unsigned gate; /* of a gate and its passes: 1 + the gate's place among those of the nodes; otherwise 0 */
};

/* Places that stand for nodes. The sanitizer releases and acquires them, and they have no other use. Two nodes may
 * share a place. */
struct kt_told_program {
    uint64_t left[KT_TOLD_NODES], shown[KT_TOLD_NODES];
    unsigned char is_one[KT_TOLD_NODES]; /* at a root's place: the tree's nodes count as one */
    struct kt_told_handle handles[KT_TOLD_HANDLES];
    uint64_t turns;
};
__attribute__((weak)) struct kt_told_program kt_told;
/* for handles that are not in the table */
#define KT_LEFT ((void *)(uintptr_t)&kt_new)
#define KT_SHOWN ((void *)(uintptr_t)&kt_unhide)

/* The sanitizer does not look at accesses to the table, and they order nothing for it. */
#define KT_UNSEEN static __attribute__((noinline, unused, no_sanitize("thread")))

static inline unsigned kt_told_place(const void *tree, struct kt_key key)
{
    uint64_t mixed = ((uint64_t)(uintptr_t)tree >> 4) * 0x9e3779b97f4a7c15u + key.slot * 0xc2b2ae3d27d4eb4fu;
    mixed = (mixed ^ mixed >> 29) + key.generation * 0x165667b19e3779f9u;
    return (unsigned)((mixed * 0x9e3779b97f4a7c15u) >> 51) % KT_TOLD_NODES;
}

static inline unsigned kt_told_root(const void *tree)
{
    struct kt_key root = {0, 1};
    return kt_told_place(tree, root);
}

static inline bool kt_told_is_one(const void *tree)
{
    return __atomic_load_n(&kt_told.is_one[kt_told_root(tree)], __ATOMIC_RELAXED);
}

static inline void kt_told_make_one(const void *tree)
{
    __atomic_store_n(&kt_told.is_one[kt_told_root(tree)], 1, __ATOMIC_RELAXED);
}

/* Finds the entry of a handle. If there is none, takes a free one for it if `made`, and otherwise returns NULL. */
KT_UNSEEN struct kt_told_handle *kt_told_find(void *at, bool made)
{
    unsigned first = (unsigned)((uint64_t)(uintptr_t)at * 0x9e3779b97f4a7c15u >> 48);
    struct kt_told_handle *it = NULL;
    for (unsigned i = 0; i < 2u * KT_TOLD_TRIES && !it; i++) {
        struct kt_told_handle *here = &kt_told.handles[(first + i % KT_TOLD_TRIES) % KT_TOLD_HANDLES];
        void *none = NULL;
        if (__atomic_load_n(&here->at, __ATOMIC_RELAXED) == at ||
            (made && i >= KT_TOLD_TRIES &&
             __atomic_compare_exchange_n(&here->at, &none, at, false, __ATOMIC_RELAXED, __ATOMIC_RELAXED)))
            it = here;
    }
    return it;
}

/* Records a new handle, or that a handle has nothing behind it. */
KT_UNSEEN void kt_told_empty(void *at, bool made)
{
    struct kt_told_handle *it = kt_told_find(at, made);
    if (it)
        it->count = 0, it->turn = 0, it->gate = 0;
}

KT_UNSEEN void kt_told_delete(void *at)
{
    struct kt_told_handle *it = kt_told_find(at, false);
    if (it)
        __atomic_store_n(&it->at, (void *)NULL, __ATOMIC_RELAXED);
}

/* Records that a handle now holds a node. Under the tree's lock. */
KT_UNSEEN void kt_told_hold(struct kt_handle *tree, struct kt_key key, void *at)
{
    struct kt_told_handle *it = kt_told_find(at, false);
    struct kt_key up;
    if (!it)
        return;
    it->count = 0;
    for (; !kt_parent(tree, key, &up); key = up) {
        if (it->count + 1 < KT_TOLD_DEPTH)
            it->nodes[it->count++] = kt_told_place(tree->at, key);
        else
            kt_told_make_one(tree->at);
    }
    it->nodes[it->count++] = kt_told_root(tree->at);
}

/* Records that a handle now holds the node of another one. If that one is not in the table, this one leaves the table
 * too. */
KT_UNSEEN void kt_told_dup(void *hold, void *other)
{
    struct kt_told_handle *from = kt_told_find(hold, false), *to = kt_told_find(other, false);
    if (!to)
        return;
    to->count = from ? from->count : 0;
    to->gate = from ? from->gate : 0;
    for (unsigned i = 0; i < to->count; i++)
        to->nodes[i] = from->nodes[i];
    if (!from)
        kt_told_delete(other);
}

/* Records that a gate was made of the node that a handle holds, with its first pass. */
KT_UNSEEN void kt_told_gate(void *hold, void *pass)
{
    struct kt_told_handle *it = kt_told_find(hold, false);
    struct kt_key number = {0, 0};
    number.slot = (uint32_t)__atomic_add_fetch(&kt_told.turns, 1, __ATOMIC_RELAXED);
    if (it)
        it->gate = 1 + kt_told_place(hold, number);
    kt_told_dup(hold, pass);
}

/* Before a call is left, broken or freed, and after it was entered. */
KT_UNSEEN void kt_told_release(void *at)
{
    struct kt_told_handle *it = kt_told_find(at, false);
    if (!it)
        __tsan_release(KT_LEFT);
    for (unsigned i = 0; it && i < it->count; i++)
        __tsan_release(&kt_told.left[it->nodes[i]]);
    if (it && it->gate)
        __tsan_release(&kt_told.left[it->gate - 1]);
}

KT_UNSEEN void kt_told_acquire(void *at)
{
    struct kt_told_handle *it = kt_told_find(at, false);
    if (!it)
        __tsan_acquire(KT_SHOWN);
    for (unsigned i = 0; it && i < it->count; i++)
        __tsan_acquire(&kt_told.shown[it->nodes[i]]);
}

/* After a gate is closed: records that its handle has a hold again. */
KT_UNSEEN void kt_told_closed(void *at)
{
    struct kt_told_handle *it = kt_told_find(at, false);
    __tsan_acquire(KT_LEFT);
    if (it && it->gate)
        __tsan_acquire(&kt_told.left[it->gate - 1]);
    if (it)
        it->gate = 0;
}

/* After a removal or a hiding is over, and before a node is shown. */
static inline void kt_told_gone(const void *tree, struct kt_key key)
{
    __tsan_acquire(KT_LEFT);
    __tsan_acquire(&kt_told.left[kt_told_place(tree, key)]);
    if (kt_told_is_one(tree))
        __tsan_acquire(&kt_told.left[kt_told_root(tree)]);
}

static inline void kt_told_shown(const void *tree, struct kt_key key)
{
    __tsan_release(KT_SHOWN);
    __tsan_release(&kt_told.shown[kt_told_place(tree, key)]);
    if (kt_told_is_one(tree))
        __tsan_release(&kt_told.shown[kt_told_root(tree)]);
}
#ifdef __cplusplus
}
#endif
#endif /* KT_TSAN */

#ifdef KT_ASAN
static inline void kt_told_empty(void *at, bool made) { (void)at, (void)made; }
static inline void kt_told_delete(void *at) { (void)at; }
static inline void kt_told_hold(const struct kt_handle *tree, struct kt_key key, void *at)
{
    (void)tree, (void)key, (void)at;
}
static inline void kt_told_dup(void *hold, void *other) { (void)hold, (void)other; }
static inline void kt_told_gate(void *hold, void *pass) { (void)hold, (void)pass; }
static inline void kt_told_release(void *at) { (void)at; }
static inline void kt_told_acquire(void *at) { (void)at; }
static inline void kt_told_closed(void *at) { (void)at; }
static inline void kt_told_gone(const void *tree, struct kt_key key) { (void)tree, (void)key; }
static inline void kt_told_shown(const void *tree, struct kt_key key) { (void)tree, (void)key; }
static inline void kt_told_make_one(const void *tree) { (void)tree; }
#endif

#ifdef KT_ASAN
static inline void kt_touch(void *at) { (void)*(const volatile char *)at; }
#endif

#endif /* KT_TOLD_H */
