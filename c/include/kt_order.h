/* SPDX-License-Identifier: MIT OR Apache-2.0 */
/* kt_order.h: what ThreadSanitizer's deadlock detector learns about programs that use kernfs_tree.h; kt_check.h
 * includes this. To the detector a node is a lock, which a call holds for reading, and which a removal or a hiding
 * takes for writing. So it reports the following order, even in a run that does not hang because the remover came after
 * the callback:
 *
 *     callback: in a call of a node, locks a mutex          remover: has that mutex locked, and waits for the node
 *
 * It looks at kt_remove_wait(), kt_remove_self_wait(), kt_remove_gated_wait(), kt_hide_wait(), kt_live_unpublish() and
 * kt_shut_wait(), and not at waits with a time limit. A gate is such a lock too: a pass that is inside holds it for
 * reading, and kt_shut_wait() takes it for writing. If one of these functions waits for a node or a gate that its own
 * thread is inside, the program is aborted with a message, because it would wait for itself. (This does not hold for
 * kt_remove_self_wait() and kt_live_unpublish(), before which this thread's own calls step aside.) If a thread leaves a
 * call that another thread entered, nothing is reported about that call. */
#include "kernfs_tree.h"
#ifndef KT_ORDER_H
#define KT_ORDER_H

#ifdef KT_TSAN
#include "kt_told.h"
#include <stdlib.h>
#ifdef __cplusplus
extern "C" {
#endif
void __tsan_mutex_pre_lock(void *at, unsigned flags);
void __tsan_mutex_post_lock(void *at, unsigned flags, int recursion);
int __tsan_mutex_pre_unlock(void *at, unsigned flags);
void __tsan_mutex_post_unlock(void *at, unsigned flags);
/* for reading; and as a try-lock, because nobody waits to enter */
enum { KT_ORDER_READ = 1 << 3, KT_ORDER_TRIED = KT_ORDER_READ | 1 << 4, KT_ORDER_FAILED = 1 << 5, KT_ORDER_CALLS = 16 };

/* A call that this thread is inside: the nodes and the gate that it is inside, and which of them are locked for it. */
struct kt_order_call {
    void *at;
    uint64_t turn;
    unsigned count, nodes[KT_TOLD_DEPTH];
    unsigned locked; /* a bit for each of them */
};
struct kt_order_thread {
    unsigned count;
    struct kt_order_call calls[KT_ORDER_CALLS];
};
__attribute__((weak)) __thread struct kt_order_thread kt_order;
/* A place that stands for a node or a gate: never read or written. */
__attribute__((weak)) struct { uint64_t place, rest; } kt_order_places[KT_TOLD_NODES];

KT_UNSEEN bool kt_order_has(const struct kt_order_call *call, unsigned node)
{
    for (unsigned i = 0; i < call->count; i++)
        if (call->nodes[i] == node)
            return true;
    return false;
}

KT_UNSEEN void kt_order_lock(struct kt_order_call *call)
{
    for (unsigned i = 0; i < call->count; i++) {
        void *place = &kt_order_places[call->nodes[i]];
        call->locked |= 1u << i;
        for (struct kt_order_call *it = kt_order.calls; it < call; it++)
            if (kt_order_has(it, call->nodes[i]))
                call->locked &= ~(1u << i); /* this thread has it already */
        if (!(call->locked >> i & 1))
            continue;
        __tsan_mutex_pre_lock(place, KT_ORDER_TRIED);
        __tsan_mutex_post_lock(place, KT_ORDER_TRIED, 0);
    }
}

KT_UNSEEN void kt_order_unlock(struct kt_order_call *call)
{
    for (unsigned i = call->count; i--;) {
        void *place = &kt_order_places[call->nodes[i]];
        if (!(call->locked >> i & 1))
            continue;
        call->locked &= ~(1u << i);
        __tsan_mutex_pre_unlock(place, KT_ORDER_READ);
        __tsan_mutex_post_unlock(place, KT_ORDER_READ);
    }
}

/* Forgets the calls that have ended, whichever thread ended them. */
KT_UNSEEN void kt_order_prune(void)
{
    for (unsigned i = kt_order.count; i--;) {
        struct kt_order_call *call = &kt_order.calls[i];
        struct kt_told_handle *it = kt_told_find(call->at, false);
        if (it && it->turn == call->turn)
            continue;
        kt_order_unlock(call);
        for (unsigned k = i; k + 1 < kt_order.count; k++)
            kt_order.calls[k] = kt_order.calls[k + 1];
        kt_order.count--;
    }
}

/* After a call was entered. (The root is not a lock, because nobody removes it.) */
KT_UNSEEN void kt_order_entered(void *at)
{
    struct kt_told_handle *it = kt_told_find(at, false);
    struct kt_order_call *call;
    kt_order_prune();
    if (!it || !it->count || kt_order.count == KT_ORDER_CALLS)
        return;
    call = &kt_order.calls[kt_order.count];
    it->turn = __atomic_add_fetch(&kt_told.turns, 1, __ATOMIC_RELAXED);
    call->at = at;
    call->turn = it->turn;
    call->count = it->count - 1;
    for (unsigned i = 0; i < call->count; i++)
        call->nodes[i] = it->nodes[i];
    if (it->gate)
        call->nodes[call->count++] = it->gate - 1; /* (in the place of the root) */
    kt_order_lock(call);
    kt_order.count++;
}

/* After a call was left, broken or freed. */
KT_UNSEEN void kt_order_left(void *at)
{
    struct kt_told_handle *it = kt_told_find(at, false);
    if (it)
        it->turn = 0;
    kt_order_prune();
}

/* Before a wait for the node or the gate of a place, without the tree's lock. If `text` is NULL, this thread's own
 * calls there are broken meanwhile; if there are any and there is a text, the program is aborted with the text. */
KT_UNSEEN void kt_order_waits_at(unsigned node, const char *text)
{
    kt_order_prune();
    for (unsigned i = kt_order.count; i--;) {
        if (!kt_order_has(&kt_order.calls[i], node))
            continue;
        if (text) {
            fprintf(stderr, "kernfs_tree: a callback waits for %s that it is inside\n", text);
            abort();
        }
        kt_order_unlock(&kt_order.calls[i]);
    }
    __tsan_mutex_pre_lock(&kt_order_places[node], 0);
    __tsan_mutex_post_lock(&kt_order_places[node], KT_ORDER_FAILED, 0); /* (others may have it for reading) */
    for (unsigned i = 0; i < kt_order.count; i++)
        if (kt_order_has(&kt_order.calls[i], node))
            kt_order_lock(&kt_order.calls[i]);
}

/* Before a wait for a node. If `aside`, this thread's own calls there are broken meanwhile. */
KT_UNSEEN void kt_order_waits(const void *tree, struct kt_key key, bool aside)
{
    kt_order_waits_at(kt_told_place(tree, key), aside ? NULL : "the removal or hiding of a node");
}

/* Before a wait for the passes of a gate. */
KT_UNSEEN void kt_order_waits_gate(void *at)
{
    struct kt_told_handle *it = kt_told_find(at, false);
    if (it && it->gate)
        kt_order_waits_at(it->gate - 1, "the shutting of a gate");
}
#ifdef __cplusplus
}
#endif
#else
static inline void kt_order_entered(void *at) { (void)at; }
static inline void kt_order_left(void *at) { (void)at; }
static inline void kt_order_waits(const void *tree, struct kt_key key, bool aside)
{
    (void)tree, (void)key, (void)aside;
}
static inline void kt_order_waits_gate(void *at) { (void)at; }
#endif

#endif /* KT_ORDER_H */
