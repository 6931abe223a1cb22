/* SPDX-License-Identifier: MIT OR Apache-2.0 */
/* kt_check.h: sanitizer annotations for programs that use kernfs_tree.h, which includes this. Sanitizers do not see the
 * library's own atomics, so they would miss real misuse and report false races.
 *
 * Under AddressSanitizer and ThreadSanitizer (gcc, clang), each call first touches its handles, and the last byte of
 * names and paths. So the sanitizers report a handle that is used after kt_delete(), and a text that is shorter than
 * its length argument. ThreadSanitizer also reports a handle that two threads use at once, and calls on a tree without
 * its lock. It also learns what happens before what (kt_told.h), and in which order locks are taken (kt_order.h). Some
 * mistakes abort the program with a message: kt_delete() of a call, of a pass that is inside or of an open gate, and a
 * key of another tree (kt_keys.h).
 *
 * This tests nothing in the library. Without a sanitizer it is empty. */
#include "kernfs_tree.h"
#ifndef KT_CHECK_H
#define KT_CHECK_H

#include <stdio.h>
#include <stdlib.h>

#if defined(__SANITIZE_THREAD__)
#define KT_TSAN 1
#elif defined(__SANITIZE_ADDRESS__)
#define KT_ASAN 1
#elif defined(__has_feature)
#if __has_feature(thread_sanitizer)
#define KT_TSAN 1
#elif __has_feature(address_sanitizer)
#define KT_ASAN 1
#endif
#endif

#include "kt_order.h"
#include "kt_keys.h"
#if defined(KT_ASAN) || defined(KT_TSAN)
#include "kt_told.h"

static inline struct kt_handle *kt_used(struct kt_handle *handle)
{
    kt_touch(handle->at);
    return handle;
}

/* Touches the tree of a call that gets this key, and checks the key. */
static inline struct kt_handle *kt_used_for(struct kt_handle *tree, struct kt_key key)
{
    kt_keys_check(kt_used(tree), key);
    return tree;
}

/* Touches the last byte of a text. */
static inline const void *kt_there(const void *text, size_t length)
{
    if (length)
        (void)((const volatile char *)text)[length - 1];
    return text;
}

KT_CALL(1)
static inline int32_t kt_new_told(void **at)
{
    int32_t answer = kt_new(at);
    if (!answer)
        kt_told_empty(*at, true);
    return answer;
}

static inline int32_t kt_clear_told(struct kt_handle *handle)
{
    struct kt_key root = {0, 1};
    int32_t answer;
    kt_touch(handle->at);
    kt_told_release(handle->at);
    kt_told_shown(handle->at, root); /* the files of a tree that is freed */
    answer = kt_clear(handle);
    if (answer >= 0) {
        kt_order_left(handle->at); /* (after -EBUSY a pass is still inside) */
        kt_told_empty(handle->at, false);
        kt_keys_end(handle->at);
    }
    return answer;
}

KT_CALL(1)
static inline int32_t kt_create_root_told(struct kt_handle *tree, uint32_t slots, uint32_t holds)
{
    int32_t answer = kt_create_root(kt_used(tree), slots, holds);
    if (!answer)
        kt_keys_begin(tree, slots);
    return answer;
}

KT_CALL(1)
static inline int32_t kt_create_root_with_looks_told(
    struct kt_handle *tree, uint32_t slots, uint32_t holds, uint32_t looks)
{
    int32_t answer = kt_create_root_with_looks(kt_used(tree), slots, holds, looks);
    if (!answer)
        kt_keys_begin(tree, slots);
    return answer;
}

/* Aborts a program that deletes what it must end first. */
static inline void kt_no_delete(const char *text)
{
    fprintf(stderr, "kernfs_tree: kt_delete() of %s\n", text);
    abort();
}

/* For a call kt_delete() may return 1, and for a gate or a pass -EBUSY. Most programs do not look at that, and threads
 * would sleep on. */
static inline int32_t kt_delete_told(struct kt_handle handle)
{
    int32_t answer;
    if (kt_leave(kt_used(&handle)) >= 0 || kt_restore(&handle) >= 0)
        kt_no_delete("a call: leave it first, or call kt_clear_wake()");
    if (kt_pass_leave(&handle) >= 0)
        kt_no_delete("a pass that is inside: leave it first");
    answer = kt_shut(&handle);
    if (answer >= 0 || answer == -EAGAIN)
        kt_no_delete("an open gate: shut it first");
    answer = kt_clear_told(&handle);
    if (answer < 0)
        return answer;
    kt_told_delete(handle.at);
    kt_delete(handle);
    return answer;
}

KT_CALL(1)
static inline int32_t kt_hold_told(struct kt_handle *tree, struct kt_key key, struct kt_handle *hold)
{
    int32_t answer = kt_hold(kt_used_for(tree, key), key, kt_used(hold));
    if (!answer)
        kt_told_hold(tree, key, hold->at);
    return answer;
}

KT_CALL(1, 2)
static inline int32_t kt_dup_told(struct kt_handle *hold, struct kt_handle *other)
{
    int32_t answer = kt_dup(kt_used(hold), kt_used(other));
    if (!answer)
        kt_told_dup(hold->at, other->at);
    return answer;
}

KT_CALL(1)
static inline int32_t kt_open_told(struct kt_handle *tree, struct kt_key key, bool read, bool write,
                                   struct kt_handle *file)
{
    int32_t answer = kt_open(kt_used_for(tree, key), key, read, write, kt_used(file));
    if (!answer)
        kt_told_hold(tree, key, file->at);
    return answer;
}

KT_CALL(1)
static inline int32_t kt_event_open_told(struct kt_handle *tree, struct kt_key key, struct kt_handle *post)
{
    return kt_event_open(kt_used_for(tree, key), key, kt_used(post));
}

KT_CALL(1, 4)
static inline int32_t kt_look_told(struct kt_handle *looker, const void *path, size_t length, struct kt_key *out)
{
    return kt_look(kt_used(looker), kt_there(path, length), length, out);
}

/* The nodes above this one are not known without the tree's lock, so the steps of this hold are taken for those of any
 * node. */
KT_CALL(1)
static inline int32_t kt_pin_told(struct kt_handle *looker, struct kt_key key, struct kt_handle *hold)
{
    int32_t answer = kt_pin(kt_used(looker), key, kt_used(hold));
    if (!answer)
        kt_told_delete(hold->at);
    return answer;
}

KT_CALL(1)
static inline int32_t kt_looker_told(struct kt_handle *tree, struct kt_handle *looker)
{
    return kt_looker(kt_used(tree), kt_used(looker));
}

KT_CALL(1)
static inline int32_t kt_activate_told(struct kt_handle *tree, struct kt_key key)
{
    kt_used_for(tree, key);
    kt_told_shown(tree->at, key);
    return kt_activate(tree, key);
}

KT_CALL(1)
static inline int32_t kt_rename_told(struct kt_handle *tree, struct kt_key key, struct kt_key dir, const void *name,
                                     size_t length)
{
    kt_used_for(tree, key);
    kt_told_make_one(tree->at);
    return kt_rename(kt_used_for(tree, dir), key, dir, kt_there(name, length), length);
}

/* Returns the result of a call. If it is 0, the call gave out a key of the tree. */
static inline int32_t kt_given(const struct kt_handle *tree, int32_t answer, const struct kt_key *out)
{
    if (!answer)
        kt_keys_give(tree->at, *out);
    return answer;
}

KT_CALL(1, 6)
static inline int32_t kt_create_dir_told(struct kt_handle *tree, struct kt_key parent, const void *name, size_t length,
                                         bool live, struct kt_key *out)
{
    int32_t answer = kt_create_dir(kt_used_for(tree, parent), parent, kt_there(name, length), length, live, out);
    return kt_given(tree, answer, out);
}

KT_CALL(1, 8)
static inline int32_t kt_create_file_told(struct kt_handle *tree, struct kt_key parent, const void *name, size_t length,
                                          uint16_t mode, uint64_t tag, bool live, struct kt_key *out)
{
    int32_t answer =
        kt_create_file(kt_used_for(tree, parent), parent, kt_there(name, length), length, mode, tag, live, out);
    return kt_given(tree, answer, out);
}

KT_CALL(1, 7)
static inline int32_t kt_create_link_told(struct kt_handle *tree, struct kt_key parent, const void *name, size_t length,
                                          struct kt_key target, bool live, struct kt_key *out)
{
    int32_t answer;
    kt_used_for(tree, target);
    answer = kt_create_link(kt_used_for(tree, parent), parent, kt_there(name, length), length, target, live, out);
    return kt_given(tree, answer, out);
}

KT_CALL(1, 5)
static inline int32_t kt_find_told(struct kt_handle *tree, struct kt_key dir, const void *name, size_t length,
                                   struct kt_key *out)
{
    int32_t answer = kt_find(kt_used_for(tree, dir), dir, kt_there(name, length), length, out);
    return kt_given(tree, answer, out);
}

KT_CALL(1, 4)
static inline int32_t kt_walk_told(struct kt_handle *tree, const void *path, size_t length, struct kt_key *out)
{
    int32_t answer = kt_walk(kt_used(tree), kt_there(path, length), length, out);
    return kt_given(tree, answer, out);
}

KT_CALL(1, 3)
static inline int32_t kt_stat_told(struct kt_handle *tree, struct kt_key key, struct kt_node_info *out)
{
    return kt_stat(kt_used_for(tree, key), key, out);
}

KT_CALL(1, 3)
static inline int32_t kt_counts_told(struct kt_handle *tree, struct kt_key key, struct kt_node_counts *out)
{
    return kt_counts(kt_used_for(tree, key), key, out);
}

KT_CALL(1, 3)
static inline int32_t kt_parent_told(struct kt_handle *tree, struct kt_key key, struct kt_key *out)
{
    return kt_parent(kt_used_for(tree, key), key, out);
}

KT_CALL(1)
static inline int64_t kt_name_told(struct kt_handle *tree, struct kt_key key, void *name, size_t size)
{
    return kt_name(kt_used_for(tree, key), key, name, size);
}

KT_CALL(1)
static inline int64_t kt_path_told(struct kt_handle *tree, struct kt_key key, void *path, size_t size)
{
    return kt_path(kt_used_for(tree, key), key, path, size);
}

KT_CALL(1)
static inline int64_t kt_readlink_told(struct kt_handle *tree, struct kt_key key, void *text, size_t size)
{
    return kt_readlink(kt_used_for(tree, key), key, text, size);
}

KT_CALL(1)
static inline int32_t kt_claim_told(struct kt_handle *tree, struct kt_key key)
{
    return kt_claim(kt_used_for(tree, key), key);
}

KT_CALL(1)
static inline int64_t kt_next_told(struct kt_handle *tree, struct kt_key dir, const void *after, size_t length,
                                   void *name, size_t size)
{
    return kt_next(kt_used_for(tree, dir), dir, kt_there(after, length), length, name, size);
}

KT_CALL(1)
static inline int32_t kt_remove_told(struct kt_handle *tree, struct kt_key key)
{
    int32_t answer = kt_remove(kt_used_for(tree, key), key);
    if (answer >= 0)
        kt_told_gone(tree->at, key);
    return answer;
}

KT_CALL(1)
static inline int32_t kt_hide_told(struct kt_handle *tree, struct kt_key key)
{
    int32_t answer = kt_hide(kt_used_for(tree, key), key);
    if (answer >= 0)
        kt_told_gone(tree->at, key);
    return answer;
}

KT_CALL(1)
static inline int32_t kt_unhide_told(struct kt_handle *tree, struct kt_key key)
{
    kt_used_for(tree, key);
    kt_told_shown(tree->at, key);
    return kt_unhide(tree, key);
}

/* Returns the result of a step. If it is 0 or more, the step ended what a thread was inside by this handle. */
static inline int32_t kt_left_told(struct kt_handle *handle, int32_t answer)
{
    if (answer >= 0)
        kt_order_left(handle->at);
    return answer;
}

static inline int32_t kt_leave_told(struct kt_handle *call)
{
    kt_touch(call->at);
    kt_told_release(call->at);
    return kt_left_told(call, kt_leave(call));
}

static inline int32_t kt_break_told(struct kt_handle *call)
{
    kt_touch(call->at);
    kt_told_release(call->at);
    return kt_left_told(call, kt_break(call));
}

/* Returns the result of a step that may enter a node. It is `begun` if the node was entered. */
static inline int32_t kt_entered_told(struct kt_handle *hold, int32_t answer, int32_t begun)
{
    if (answer >= 0)
        kt_told_acquire(hold->at);
    if (answer == begun)
        kt_order_entered(hold->at);
    return answer;
}

KT_CALL(1)
static inline int32_t kt_enter_told(struct kt_handle *hold)
{
    return kt_entered_told(hold, kt_enter(kt_used(hold)), 0);
}

KT_CALL(1)
static inline int32_t kt_begin_write_told(struct kt_handle *file)
{
    return kt_entered_told(file, kt_begin_write(kt_used(file)), 0);
}

KT_CALL(1)
static inline int32_t kt_begin_read_told(struct kt_handle *file, uint64_t offset)
{
    return kt_entered_told(file, kt_begin_read(kt_used(file), offset), 1);
}

/* A pass is inside the nodes that the hold of its gate holds. */
KT_CALL(1, 3)
static inline int32_t kt_gate_told(struct kt_handle *hold, uint32_t lanes, struct kt_handle *pass)
{
    int32_t answer = kt_gate(kt_used(hold), lanes, kt_used(pass));
    if (!answer)
        kt_told_gate(hold->at, pass->at);
    return answer;
}

KT_CALL(1, 3)
static inline int32_t kt_pass_told(struct kt_handle *pass, uint32_t lane, struct kt_handle *other)
{
    int32_t answer = kt_pass(kt_used(pass), lane, kt_used(other));
    if (!answer)
        kt_told_dup(pass->at, other->at);
    return answer;
}

KT_CALL(1)
static inline int32_t kt_pass_enter_told(struct kt_handle *pass)
{
    return kt_entered_told(pass, kt_pass_enter(kt_used(pass)), 0);
}

static inline int32_t kt_pass_leave_told(struct kt_handle *pass)
{
    kt_touch(pass->at);
    kt_told_release(pass->at);
    return kt_left_told(pass, kt_pass_leave(pass));
}

KT_CALL(1)
static inline int32_t kt_shut_told(struct kt_handle *gate)
{
    int32_t answer = kt_shut(kt_used(gate));
    if (answer >= 0)
        kt_told_closed(gate->at);
    return answer;
}

#define kt_new kt_new_told
#define kt_create_root kt_create_root_told
#define kt_create_root_with_looks kt_create_root_with_looks_told
#define kt_clear kt_clear_told
#define kt_delete kt_delete_told
#define kt_hold kt_hold_told
#define kt_dup kt_dup_told
#define kt_open kt_open_told
#define kt_event_open kt_event_open_told
#define kt_look kt_look_told
#define kt_looker kt_looker_told
#define kt_pin kt_pin_told
#define kt_activate kt_activate_told
#define kt_rename kt_rename_told
#define kt_next kt_next_told
#define kt_walk kt_walk_told
#define kt_find kt_find_told
#define kt_create_link kt_create_link_told
#define kt_create_file kt_create_file_told
#define kt_create_dir kt_create_dir_told
#define kt_remove kt_remove_told
#define kt_hide kt_hide_told
#define kt_unhide kt_unhide_told
#define kt_stat kt_stat_told
#define kt_counts kt_counts_told
#define kt_parent kt_parent_told
#define kt_name kt_name_told
#define kt_path kt_path_told
#define kt_readlink kt_readlink_told
#define kt_claim kt_claim_told
#define kt_leave kt_leave_told
#define kt_break kt_break_told
#define kt_enter kt_enter_told
#define kt_gate kt_gate_told
#define kt_pass kt_pass_told
#define kt_pass_enter kt_pass_enter_told
#define kt_pass_leave kt_pass_leave_told
#define kt_shut kt_shut_told
#define kt_begin_read kt_begin_read_told
#define kt_begin_write kt_begin_write_told
#define kt_root(tree, ...) kt_root(kt_used(tree), __VA_ARGS__)
#define kt_compact(...) kt_compact(kt_used(__VA_ARGS__))
#define kt_commands(tree, ...) kt_commands(kt_used(tree), __VA_ARGS__)
#define kt_restore(...) kt_restore(kt_used(__VA_ARGS__))
#define kt_notify(...) kt_notify(kt_used(__VA_ARGS__))
#define kt_changed(...) kt_changed(kt_used(__VA_ARGS__))
#define kt_event(post, ...) kt_event(kt_used(post), __VA_ARGS__)
#define kt_shown(file, ...) kt_shown(kt_used(file), __VA_ARGS__)
#define kt_copy(file, ...) kt_copy(kt_used(file), __VA_ARGS__)
#endif

#endif /* KT_CHECK_H */
