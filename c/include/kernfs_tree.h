/* SPDX-License-Identifier: MIT OR Apache-2.0 */
/* kernfs_tree.h: the attribute tree of Linux sysfs (kernfs), as a proved library for user-space programs.
 *
 * Link with -lkernfs_tree, or use pkg-config. Every function is documented here with its errors. The header needs C99
 * or C++11.
 *
 * The promise: once kt_remove() has returned 0 or 1, no callback runs under a call of that node or any node below it,
 * and none ever starts. Once kt_hide() has returned 0, the same holds for that file until kt_unhide(), or until the
 * tree is freed. A callback that has broken its protection (kt_break()) is not waited for, as in the kernel.
 *
 * What is behind a handle:
 *
 *     nothing --kt_create_root()--> a tree
 *     nothing --kt_event_open()--> a post (an event counter)
 *     nothing --kt_hold()--> a hold --kt_enter()--> a call, running --kt_break()--> broken --kt_restore()--> restored
 *                             ^--------------kt_leave()-----'<--------------------------kt_leave()--------------'
 *     nothing --kt_dup()--> a hold of the node of another hold
 *     nothing --kt_looker()--> a looker --kt_pin()--> a hold, behind another handle
 *     a hold --kt_gate()--> a gate --kt_shut()--> a hold again
 *     nothing --kt_gate(), kt_pass()--> a pass --kt_pass_enter()--> a pass that is inside --kt_pass_leave()--> a pass
 *
 * - A hold keeps the slot of its node from being reused. It does not keep the node in the tree.
 * - A call is what a callback runs under.
 * - A post reads and raises the event number (event counter) of a node's slot.
 * - An open file (kt_open()) is a hold too, with a post and the text of its last show. It is entered and left like a
 *   hold.
 * - A looker looks paths up and makes holds without the tree's lock. Each thread needs its own looker.
 * - A gate (percpu_ref) keeps one call of its node for all threads. Each thread goes through the gate by its own pass,
 *   so the threads write no cache line that they share. A removal of the node does not end before kt_shut() has
 *   returned 0 or 1.
 * - A function returns -EINVAL if it does not fit what is behind the handle: a hold instead of a tree, kt_leave()
 *   outside a call, kt_enter() twice, kt_leave() of a broken call.
 *
 * kt_hide() hides the file with a key, and kt_unhide() shows it again. Both are called under the tree's lock.
 * kt_hide_wait() takes the lock itself, hides the file, and sleeps until nobody is inside. The tree keeps what hides a
 * file, so a program keeps only the key. Hidings are not counted: kt_hide() of a hidden file only checks again whether
 * somebody is inside, and one kt_unhide() shows the file. (A thread that still waits in kt_hide_wait() then hides it
 * again.)
 *
 * Return values: 0 or more on success; a negative errno on failure, and then nothing has changed, not even what `out`
 * points to. There is one exception: after -EAGAIN of kt_remove(), kt_hide() or kt_shut(), the removal, the hiding or
 * the shutting has begun. Only the helpers in kt_wait.h, which the end of this file includes, sleep, take a lock or
 * call back. kt_strerror() in kt_tell.h returns a text for each number.
 *
 * Freeing what callbacks use:
 * - Any thread about to remove a node first calls kt_claim(), under the lock. kt_claim() returns 0 to exactly one of
 *   these threads, and that thread frees.
 * - It frees once its own removal (kt_remove_wait(), kt_remove_gated_wait(), or kt_remove_self_wait(), which claims the
 *   node itself) has returned, if no callback there breaks its protection.
 * - A callback that breaks its protection is not waited for, so the program refcounts what it uses. The callback takes
 *   a reference before kt_break(), the remover drops one after the removal, and whoever drops the last one frees. After
 *   kt_break() the callback uses only what that count keeps. If it needs more after kt_restore(), it calls kt_stat()
 *   under the lock. If the node is there, not doomed and not hidden, each later removal waits for this call too.
 *
 * kt_live.h does all this for devices and their attributes.
 *
 * What is proved, for all inputs, is stated beside each call in crates/kernfs_tree/src:
 * - A call returns 0 only if the thing was done, as the tree defines it: the node is linked, found, moved, held,
 *   activated, or out of the tree; the hold was let in while its node was live; the call was left, broken or restored;
 *   the event number is at least one more than the call found.
 * - kt_gate() makes a gate only if the hold was let in while its node was live. kt_pass_enter() returns 0 only if a
 *   look found the gate open after the pass was counted, and -ENODEV only if such a look found it not open. kt_shut()
 *   returns 0 or 1 only if the gate was shut, each lane was seen empty after that, and the gate's call was left. (No
 *   clause says that the call was left last, but the gate's types allow it to give up its call only once it is closed.)
 *   It returns -EAGAIN only if its own look found somebody in a lane.
 * - kt_pass_leave() returns 1 if and only if a look after the pass was left found the gate shut.
 * - kt_leave() and kt_break() return 1 if and only if a removal or a hiding may be waiting for that step. kt_clear()
 *   and kt_delete() end a call, and then return 1 for the same reason. They also return 1 if the hold that they release
 *   had the last place, that is, if their step found the maximum number of holds. In all other cases they return 0.
 * - kt_counts() returns what one load of each of the node's two counts found.
 * - What is written to `out` is what the tree, the post or the text has. A length is the length of what is written.
 * - kt_dup() counts one more hold of that node, by one step on its word of holds, and no other step counts one. The
 *   first hold stays as it is. kt_dup() returns an error number only for the cause of that number (for -ENOMEM: there
 *   was a place for another hold).
 * - kt_look() returns 0 only if the path led to the node among the links that the looker has seen by then. These
 *   include all links that it had seen before. A new looker has seen what the tree says about its live nodes. kt_pin()
 *   counts one more hold, by one step, while the node was linked. It returns an error number only for the cause of that
 *   number.
 * - A file is hidden by one step of a hold that the tree takes. Then kt_hide() looks once. It returns 0 if it saw
 *   nobody inside, and -EAGAIN if it saw somebody. Of the calls on a tree, only kt_unhide() and kt_remove() show the
 *   file again.
 * - A file is opened only if its node is live and its mode allows it. A show begins only if the node was entered and
 *   the event number was taken, at offset 0 or if there is no text. Text is kept only in a call that began a show.
 * - kt_remove() returns 1 only if the node was in the tree before the call and is out after it. It returns 0 only if
 *   the tree once gave out the key and the node was out before; then it does nothing.
 * - kt_unhide() returns 0 only if it saw nobody inside; then one step removed what hides the file.
 * - kt_remove() and kt_claim() mark, unless that was done before. Besides the marks, only kt_remove() logs anything:
 *   that nodes of that subtree were shown and taken out.
 * - All calls on a tree, and kt_notify(), kt_event() and kt_copy(), fail with the number that is documented for the
 *   cause, and only for that cause. (No contract can name a cause for -ENOMEM.) kt_remove() and kt_claim() return
 *   -EMFILE only if a look found that a node of the subtree had the maximum number of holds.
 * - The same holds for kt_enter(), kt_begin_read() and kt_begin_write(). If they return -ENODEV, a hold has tried to
 *   enter. kt_leave(), kt_break(), kt_restore(), kt_changed() and kt_shown() fail only with -EINVAL, and only if there
 *   is no such call.
 * - kt_clear() and kt_delete() fail only with -EBUSY, and only for one of these: a tree with a file whose hiding has
 *   not yet seen that nobody is inside, a gate, or a pass that is inside.
 * - A handle that gets something new had nothing behind it. Otherwise the call returns -EINVAL.
 * - After a negative result, the tree, the handle and `out` are as they were. The exceptions are -EAGAIN of
 *   kt_remove(), kt_hide() and kt_shut(), and all errors of kt_new() and kt_delete(). (A refused try to enter was
 *   counted for a moment.)
 * - No function reads or writes out of bounds or after a free, and each function returns.
 *
 * Nobody runs on a node that is not in the tree, and a key that has left the tree never comes back. These are laws over
 * every run of the steps of these functions. The following is not proved, but `make -C c test` tests it:
 * - that somebody is inside if kt_remove() returns -EAGAIN, and that it shows no other hidden file;
 * - that kt_clear() and kt_delete() free what they should;
 * - that memory was refused if a call returns -ENOMEM;
 * - everything that is C, including the helpers.
 *
 * Rules for programs, which the library cannot check:
 * - A handle comes from kt_new(), is used by one function at a time, and is not used after kt_delete(). It may pass to
 *   another thread through something that orders memory (a lock, a join, an atomic). So each thread that enters a node
 *   has its own hold (kt_dup() makes one from another thread's) or its own pass (kt_pass()). Each thread that notifies
 *   (such as a driver's interrupt thread) has its own post. If two threads share a hold or a pass, a removal may return
 *   with a callback inside. Only one thread at a time shuts a gate: kt_gates.h says more.
 * - Calls that take a tree are made under a lock that the program provides, one lock for each tree, or by one thread
 *   only. This includes kt_clear() and kt_delete() of a tree. Calls that take a hold, a call, a post, an open file, a
 *   looker, a gate or a pass need no lock (but kt_looker() takes the tree).
 * - A key belongs to one tree. In another tree it may name another node (kt_keys.h reports such a use).
 * - Pointers are valid, lengths are those of what is there, a bool is 0 or 1, and no two arguments of a call overlap.
 * - malloc(), realloc() and free() belong to one allocator, which aligns to at least 8 bytes. No function is called in
 *   a signal handler, or between fork() and exec() in a program with threads.
 * - The processor has at least level x86-64-v2 (SSSE3 and SSE4.1 are used).
 * - Wake the threads that wait in a removal, a hiding or kt_shut_wait() after -ENODEV of kt_enter(), kt_begin_read(),
 *   kt_begin_write(), kt_pass_enter() or kt_gate(), and after -ENOMEM of kt_gate(). Wake them also after 1 of
 *   kt_leave(), kt_break(), kt_pass_leave(), kt_shut(), kt_clear() or kt_delete(). The _wake helpers, kt_read() and
 *   kt_write() do so; for kt_delete() there is no helper. (A removal needs a hold for a moment, so if a node has the
 *   maximum number of holds, the removal waits until kt_clear() has released one.) A looker is a hold of the root,
 *   which nobody removes.
 * - After -EAGAIN of kt_hide(), call it again on that file until it returns 0, or call kt_unhide() or kt_remove().
 *   Until then the tree cannot be freed. A callback that waits until its own file is hidden breaks its protection
 *   first. If two threads hide one file, the first kt_unhide() shows it for both, so the threads agree on which of them
 *   calls it. kt_stat() says whether the file is hidden.
 *
 * Built with AddressSanitizer or ThreadSanitizer (gcc, clang), a program gets a report if it uses a handle after
 * kt_delete(), a handle in two threads, a tree without its lock, or a key of another tree (kt_check.h). The compiler
 * warns of unused results, NULL arguments, and lengths larger than their buffers. MemorySanitizer reports everything
 * that the library writes as uninitialized.
 */
#ifndef KERNFS_TREE_H
#define KERNFS_TREE_H

#if !defined(__x86_64__) || defined(__ILP32__)
#error "libkernfs_tree is proved and built for x86-64 (64-bit pointers) only: there is no library for this processor"
#endif
#if !defined(__cplusplus) && (!defined(__STDC_VERSION__) || __STDC_VERSION__ < 199901L)
#error "kernfs_tree.h needs C99 or later, or C++11: compile with -std=c99 or a later standard"
#endif

#include <errno.h>
#include <stdbool.h>
#include <stddef.h>
#include <stdint.h>

#define KT_VERSION_MAJOR 0
#define KT_VERSION_MINOR 4
#define KT_VERSION_PATCH 0

/* The kernel's PAGE_SIZE: a show fills at most this many bytes, and a store takes at most this many. */
#define KT_PAGE_SIZE 4096
/* The maximum number of nodes in a tree, including the root; of holds of a node; of bytes in a name. */
#define KT_SLOTS_MAX 1048576
#define KT_HOLDS_MAX 65535
#define KT_NAME_MAX 255
/* The maximum number of lanes of a gate. */
#define KT_LANES_MAX 65535
/* The maximum number of bytes in a path with this number of names. For a link's text, pass the number of names in the
 * link's path and its target's path together. No text, name or path ends with a zero byte, and -ERANGE does not say
 * which length is needed. */
#define KT_PATH_MAX(names) ((size_t)(names) * (KT_NAME_MAX + 1))

/* With these, compilers warn of an unused result, of NULL for an argument that must not be NULL, and of a text or a
 * buffer that is shorter than its length argument says. The result of a KT_CALL must be used; that of a KT_STEP need
 * not be. The numbers are those of the arguments that must not be NULL. For KT_TEXT and KT_ROOM, the first number is
 * that of a pointer, which may be NULL if the length is 0, and the second that of its length. */
#ifdef __GNUC__
#define KT_CALL(...) __attribute__((warn_unused_result, nonnull(__VA_ARGS__)))
#define KT_STEP(...) __attribute__((nonnull(__VA_ARGS__)))
#else
#define KT_CALL(...)
#define KT_STEP(...)
#endif
#ifdef __has_attribute
#if __has_attribute(access)
#define KT_TEXT(pointer, length) __attribute__((access(read_only, pointer, length)))
#define KT_ROOM(pointer, length) __attribute__((access(write_only, pointer, length)))
#endif
#endif
#ifndef KT_TEXT
#define KT_TEXT(pointer, length)
#define KT_ROOM(pointer, length)
#endif

#ifdef __cplusplus
extern "C" {
#endif

/* Owns what kt_new() made. `at` is private to the library. */
struct kt_handle {
    void *at;
};

/* Names a node. No key is used twice, so the key of a node that is gone names none. No node has the key 0, 0. */
struct kt_key {
    uint32_t slot, generation;
};

enum kt_kind { KT_DIR = 0, KT_FILE = 1, KT_LINK = 2 };

struct kt_node_info {
    uint64_t tag;         /* of a file: what it was created with */
    struct kt_key target; /* of a link */
    uint32_t kind;        /* enum kt_kind */
    uint32_t links;       /* of a directory: 2 plus the number of child directories; otherwise 1 */
    uint16_t mode;        /* of a file: its permission bits, which kt_open() checks */
    bool activated, doomed, hidden; /* doomed: marked for removal; hidden: by kt_hide() */
};

/* How many holds a node has, and how many use it. */
struct kt_node_counts {
    uint32_t holds; /* its holds and open files, including those that are inside, and one more if it is hidden */
    /* those that are inside, and one for each open gate, however many passes are inside; a kt_enter() that fails counts
     * for a moment */
    uint32_t users;
};

/* How many changes a tree has logged. */
struct kt_command_counts {
    uint64_t stored;    /* the commands in the log, 88 bytes each */
    uint64_t compacted; /* how many there would be at most after kt_compact() */
};

/* The version of the library itself: KT_VERSION_MAJOR * 1000 + KT_VERSION_MINOR of its header. */
int32_t kt_version(void);

/* ---- handles ---- */

/* kt_new(&handle.at) makes a handle with nothing behind it. Returns 0 or -ENOMEM. */
KT_CALL(1) int32_t kt_new(void **at);

/* Frees what is behind the handle. A hold is released, and a call is ended first. A tree is freed. In a callback this
 * ends the call of that callback.
 *
 * Returns 0, or 1: then wake the threads that wait in a removal or a hiding. It returns 1 if one of them may be waiting
 * for the end of the call. It also returns 1 if the node had the maximum number of holds until now.
 *
 * Returns -EBUSY, and frees nothing, in three cases:
 * - It is a tree with a file for which kt_hide() has returned -EAGAIN and not 0 since. Call kt_hide(), kt_unhide() or
 *   kt_remove() on that file until it returns 0 or more.
 * - It is a gate for which kt_shut() has not returned 0 or 1.
 * - It is a pass that is inside. kt_pass_leave() ends that.
 *
 * The holds of a freed tree stay valid. They can enter a node that was live, or hidden (the tree shows hidden files
 * when it is freed). They can never enter a node that was marked for removal or was not activated. */
KT_STEP(1) int32_t kt_clear(struct kt_handle *handle);

/* Like kt_clear(), and frees the handle too. The handle must not be used again, so do not call this in a callback that
 * kt_run(), kt_read(), kt_write() or kt_poll() runs with it. After -EBUSY everything is as before. */
int32_t kt_delete(struct kt_handle handle);

/* ---- calls on a tree: under its lock ---- */

/* Makes a tree with only the root (kernfs_create_root), behind a handle with nothing behind it.
 * - `slots`, 1 to KT_SLOTS_MAX: the maximum number of nodes that exist at once. This includes the root, and nodes that
 *   are gone but still held, because their slots are not reused.
 * - `holds`, 1 to KT_HOLDS_MAX: the maximum number of holds and open files of one node at once, plus one for a removal
 *   and one for a hiding.
 * Returns 0, -EINVAL (something is behind the handle, or a limit is out of range) or -ENOMEM. */
KT_CALL(1) int32_t kt_create_root(struct kt_handle *tree, uint32_t slots, uint32_t holds);

/* Makes a tree like kt_create_root(), in which a looker finds paths without the lock. `looks`, 0 to KT_SLOTS_MAX: a
 * node can be found in this way if its slot is below this number; each such slot takes 88 bytes more. (A new node gets
 * the lowest free slot.) Returns 0, -EINVAL (also if `looks` is too large) or -ENOMEM. */
KT_CALL(1)
int32_t kt_create_root_with_looks(struct kt_handle *tree, uint32_t slots, uint32_t holds, uint32_t looks);

/* Gets the root's key: slot 0, generation 1. Returns 0 or -EINVAL. */
KT_CALL(1, 2) int32_t kt_root(struct kt_handle *tree, struct kt_key *out);

/* Creates a node in a directory: kernfs_create_dir_ns, __kernfs_create_file, kernfs_create_link.
 *
 * A node that is not `live` cannot be entered before kt_activate(), so a group of nodes can appear at once. A live node
 * below it can be entered, but is not listed from above. A name is taken until its node is out of the tree. Until then
 * kt_find() finds the node, even while it is being removed. A link keeps neither its target nor the target's slot, and
 * stays when the target is gone.
 *
 * Returns 0. Errors, in this order: -EINVAL (a mode beyond 0777), -ENOENT (no such parent), -ENAMETOOLONG, -EINVAL (the
 * name is empty, has a slash or a zero byte, or is . or ..), -ENOTDIR, -ENOENT (the parent is being removed, or a
 * link's target is not there), -EINVAL (the target is the root), -EEXIST, -ENOSPC, -ENOMEM. */
KT_CALL(1, 6) KT_TEXT(3, 4)
int32_t kt_create_dir(struct kt_handle *tree, struct kt_key parent, const void *name, size_t length, bool live,
                      struct kt_key *out);
KT_CALL(1, 8) KT_TEXT(3, 4)
int32_t kt_create_file(struct kt_handle *tree, struct kt_key parent, const void *name, size_t length, uint16_t mode,
                       uint64_t tag, bool live, struct kt_key *out);
KT_CALL(1, 7) KT_TEXT(3, 4)
int32_t kt_create_link(struct kt_handle *tree, struct kt_key parent, const void *name, size_t length,
                       struct kt_key target, bool live, struct kt_key *out);

/* Makes a node and everything below it live (kernfs_activate). Returns 0, -ENOENT or -ENOMEM. */
KT_CALL(1) int32_t kt_activate(struct kt_handle *tree, struct kt_key key);

/* Moves a node into a directory, under a name (kernfs_rename_ns). Returns 0, even if the node is there already. Errors,
 * in this order: -EINVAL (the root), -ENOENT (no such node or directory), -ENAMETOOLONG, -EINVAL (the name), -ENOTDIR,
 * -ENOENT (the node or the directory is not live, or the node is a hidden file), -EINVAL (the node would move into
 * itself or below), -EEXIST, -ENOMEM. */
KT_CALL(1) KT_TEXT(4, 5)
int32_t kt_rename(struct kt_handle *tree, struct kt_key key, struct kt_key dir, const void *name, size_t length);

/* Finds the child with this name, live or not (kernfs_find_ns). Returns 0, -ENOENT or -ENOTDIR. */
KT_CALL(1, 5) KT_TEXT(3, 4)
int32_t kt_find(struct kt_handle *tree, struct kt_key dir, const void *name, size_t length, struct kt_key *out);

/* Finds the node at a path such as /devices/fan0, live or not (kernfs_walk_ns). Returns 0, -EINVAL (the form of the
 * path), -ENOENT or -ENOTDIR. */
KT_CALL(1, 4) KT_TEXT(2, 3)
int32_t kt_walk(struct kt_handle *tree, const void *path, size_t length, struct kt_key *out);

/* Gets the name of the first live child after the name `after`, in byte order. If `after` is empty, this is the first
 * child. So the last name is the cursor: if nodes are created or removed meanwhile, no other child comes twice or is
 * missed. Returns the length of the name, -ENOENT (no other child, or no such directory), -ENOTDIR, -ERANGE (the name
 * needs more than `size`) or -ENOMEM. */
KT_CALL(1) KT_TEXT(3, 4) KT_ROOM(5, 6)
int64_t kt_next(struct kt_handle *tree, struct kt_key dir, const void *after, size_t length, void *name, size_t size);

/* Describes a node. Returns 0 or -ENOENT. */
KT_CALL(1, 3) int32_t kt_stat(struct kt_handle *tree, struct kt_key key, struct kt_node_info *out);

/* Counts the holds of a node and those that use it, also while a removal waits for the node. Other threads may change
 * both counts meanwhile, so they only help a person to see why something waits. Returns 0 or -ENOENT. */
KT_CALL(1, 3) int32_t kt_counts(struct kt_handle *tree, struct kt_key key, struct kt_node_counts *out);

/* Gets the directory of a node (kernfs_get_parent). Returns 0, -ENOENT or -EINVAL (the root has none). */
KT_CALL(1, 3) int32_t kt_parent(struct kt_handle *tree, struct kt_key key, struct kt_key *out);

/* Gets the name of a node (kernfs_name; but here the root's name is empty, and there it is "/"). Returns its length,
 * -ENOENT, -ERANGE (the name needs more than `size`) or -ENOMEM. */
KT_CALL(1) KT_ROOM(3, 4) int64_t kt_name(struct kt_handle *tree, struct kt_key key, void *name, size_t size);

/* Gets the path that kt_walk() follows to a node (kernfs_path_from_node from the root). Returns its length, -ENOENT,
 * -ERANGE (the path needs more than `size`) or -ENOMEM. */
KT_CALL(1) KT_ROOM(3, 4) int64_t kt_path(struct kt_handle *tree, struct kt_key key, void *path, size_t size);

/* Gets the text of a link (kernfs_get_target_path). Returns its length, -ENOENT (the link or its target is not there),
 * -EINVAL (not a link), -ERANGE (the text needs more than `size`) or -ENOMEM. */
KT_CALL(1) KT_ROOM(3, 4) int64_t kt_readlink(struct kt_handle *tree, struct kt_key key, void *text, size_t size);

/* Takes a hold of a node (kernfs_get), behind a handle with nothing behind it. Returns 0. Errors, in this order:
 * -EINVAL (something is behind the handle), -ENOENT, -EMFILE (the node has the maximum number of holds), -ENOMEM. */
KT_CALL(1, 3) int32_t kt_hold(struct kt_handle *tree, struct kt_key key, struct kt_handle *hold);

/* Makes a looker of the tree, behind a handle with nothing behind it. The looker keeps a hold of the root, and may
 * outlive the tree. Returns 0, -EINVAL (something is behind the handle), -EMFILE (the root has the maximum number of
 * holds) or -ENOMEM. */
KT_CALL(1, 2) int32_t kt_looker(struct kt_handle *tree, struct kt_handle *looker);

/* Removes a node and everything below it (kernfs_remove), as far as it can without waiting. It marks all these nodes,
 * so that kt_enter() no longer succeeds there, and takes each node with nobody inside out of the tree.
 *
 * Returns 1 if this call took the node out, and 0 if the node was out before. The node's holds stay valid, and can
 * never enter again. Returns -EAGAIN if somebody is inside: call it again when a callback has left (kt_remove_wait()
 * does).
 *
 * Errors before anything is marked, in this order: -ENOENT (no node of this tree ever had the key), -EINVAL (the root),
 * -EMFILE (a node has the maximum number of holds), -ENOMEM. The removal takes a hold of each node for a moment. So for
 * a marked node with the maximum number of holds it returns -EAGAIN until one is released. A call that continues what
 * an earlier one has marked may return -ENOMEM too: everything stays marked; call it again. */
KT_CALL(1) int32_t kt_remove(struct kt_handle *tree, struct kt_key key);

/* Hides a file (kernfs_show() with false), as far as it can without waiting. At once kt_enter() fails there, and
 * kt_next() leaves the file out.
 *
 * Returns 0 if the file is hidden, now or before: nobody is inside, and nobody enters until kt_unhide(). Returns
 * -EAGAIN if the file is hidden and somebody is inside: call it again when a callback has left (kt_hide_wait() does).
 * Errors before it is hidden, in this order: -ENOENT, -EISDIR, -EINVAL (a link), -ENOENT (the file is being removed),
 * -EMFILE (the node has the maximum number of holds: a hidden file keeps one), -ENOMEM. A hidden file can be removed
 * like any other. */
KT_CALL(1) int32_t kt_hide(struct kt_handle *tree, struct kt_key key);

/* Shows a hidden file again (kernfs_show() with true). Returns 0 if it is shown; its holds can enter again, if it is
 * live. Returns -EAGAIN if it stays hidden, because somebody is still inside from before it was hidden: call it again
 * (kt_unhide_wait() does). Returns -ENOENT or -EINVAL (it is not hidden). */
KT_CALL(1) int32_t kt_unhide(struct kt_handle *tree, struct kt_key key);

/* Marks a node and everything below it, as kt_remove() does, and claims its removal, from one of its callbacks or
 * elsewhere. Returns 0 to the first claimant, and 1 to all others. A claimant must remove the node. Errors before
 * anything is marked or claimed, in this order: -ENOENT, -EINVAL (the root), -EMFILE, -ENOMEM. */
KT_CALL(1) int32_t kt_claim(struct kt_handle *tree, struct kt_key key);

/* Compacts the log of the tree. The tree logs every command that changed it. This replaces the log by one creation for
 * each node except the root, one mark for each removal that has begun and is not inside another, and one hiding for
 * each hidden file. It takes time linear in the number of nodes. A long-running program calls it, for example, when the
 * log has at least 1,000 more than twice as many commands as it would have at most afterwards (as kt_live.h does).
 * Returns 0 or -ENOMEM. */
KT_STEP(1) int32_t kt_compact(struct kt_handle *tree);

/* Gets the number of commands in the tree's log, and how many there would be at most after kt_compact(), in constant
 * time. Returns 0. */
KT_CALL(1, 2) int32_t kt_commands(struct kt_handle *tree, struct kt_command_counts *out);

/* Opens a post (event counter) of a node's slot, behind a handle with nothing behind it. The number belongs to the
 * slot: it never goes back, not even if the slot is reused. An open file is not a post: kt_notify() and kt_event() of
 * it return -EINVAL. Returns 0. Errors, in this order: -EINVAL (something is behind the handle), -ENOENT, -ENOMEM. */
KT_CALL(1, 3) int32_t kt_event_open(struct kt_handle *tree, struct kt_key key, struct kt_handle *post);

/* Opens a file for reading, writing or both (kernfs_fop_open), behind a handle with nothing behind it. Returns 0.
 * Errors, in this order: -EINVAL (something is behind the handle), -ENOENT, -EISDIR, -EINVAL (a link), -ENODEV (not
 * live), -EACCES (the mode has no bit of 0444 for reading, or of 0222 for writing; this holds for root too, as in
 * sysfs), -EMFILE (the node has the maximum number of holds), -ENOMEM. */
KT_CALL(1, 5) int32_t kt_open(struct kt_handle *tree, struct kt_key key, bool read, bool write, struct kt_handle *file);

/* ---- steps of a hold, a call, a post and an open file: no lock, from any thread ---- */

/* Takes another hold of a hold's node (kernfs_get), behind a handle with nothing behind it, for example for another
 * thread. The node may have left the tree. From an open file this makes a plain hold. Returns 0. Errors, in this order:
 * -EINVAL (something is behind the other handle, or there is no hold behind this one; a call is not a hold), -EMFILE
 * (only one more hold is possible, and a removal needs it), -EBUSY (others changed the count 64 times: call it again),
 * -ENOMEM. */
KT_CALL(1, 2) int32_t kt_dup(struct kt_handle *hold, struct kt_handle *other);

/* Finds the live node at a path such as /devices/fan0 (kernfs_walk_and_get). It takes no lock and never waits. Returns
 * 0 if the path led there at one moment of the call, after all changes that this looker has seen. Returns -EAGAIN if it
 * found nothing: kt_walk() under the lock says whether the node is there. It never finds a node that is hidden or not
 * live, a name of more than 24 bytes, or a node whose slot has no words. It may also find nothing while others change
 * the tree. */
KT_CALL(1, 4) KT_TEXT(2, 3)
int32_t kt_look(struct kt_handle *looker, const void *path, size_t length, struct kt_key *out);

/* Takes a hold of a node of the looker's tree (kernfs_get), without the lock, behind a handle with nothing behind it.
 * Returns 0 if the node was in the tree when the hold was counted; kt_enter() says whether it is live. Errors, in this
 * order: -EINVAL (something is behind the handle, or there is no looker), -ENOENT (the node is out of the tree, or the
 * call that creates it has not returned), -EMFILE (only one more hold is possible, and a removal needs it), -EBUSY
 * (others changed the count 64 times: call it again), -ENOMEM. */
KT_CALL(1, 3) int32_t kt_pin(struct kt_handle *looker, struct kt_key key, struct kt_handle *hold);

/* Enters a node before a callback (kernfs_get_active). Returns 0: the hold is now a call. Returns -ENODEV if the node
 * is not live, or is hidden: then wake the threads that wait in a removal or a hiding, because the refused try was
 * counted for a moment. Returns -EINVAL if there is no hold. */
KT_CALL(1) int32_t kt_enter(struct kt_handle *hold);

/* Leaves a node after the callback (kernfs_put_active): the call is a hold again. Returns 0, or 1: then wake the
 * threads that wait in a removal or a hiding. */
KT_STEP(1) int32_t kt_leave(struct kt_handle *call);

/* Breaks the protection of a call inside its callback, before something that waits for the callback
 * (kernfs_break_active_protection). Returns 0, or 1 like kt_leave(). Returns -EINVAL if there is no call, or if it has
 * broken its protection before. Each call does so only once: not again after kt_restore(). */
KT_STEP(1) int32_t kt_break(struct kt_handle *call);

/* Takes the protection again, whatever became of the node (kernfs_unbreak_active_protection). Returns 0. "Freeing what
 * callbacks use" above says what the callback may use after it. */
KT_STEP(1) int32_t kt_restore(struct kt_handle *call);

/* Makes a gate of a hold's node, for an object that many threads call (percpu_ref_init). It enters by the hold as
 * kt_enter() does, and the gate keeps that call. After that, `hold` is the gate. `lanes`, 1 to KT_LANES_MAX: how many
 * threads can call without a shared cache line; each lane takes 64 bytes. `pass`, which has nothing behind it, gets the
 * first pass, by lane 0.
 *
 * Until kt_shut() has returned 0 or 1, a removal or a hiding of the node returns -EAGAIN. Until kt_shut() is called,
 * passes can enter even while the node is being removed or hidden. Returns 0. Errors, in this order: -EINVAL (`lanes`
 * is out of range, something is behind `pass`, or there is no hold: a call and an open file are not holds), -ENODEV as
 * for kt_enter(), -ENOMEM. */
KT_CALL(1, 3) int32_t kt_gate(struct kt_handle *hold, uint32_t lanes, struct kt_handle *pass);

/* Makes another pass of a pass's gate, for another thread, behind a handle with nothing behind it. Its lane is the one
 * with this number, modulo the number of lanes. A pass does not keep the gate open, and may outlive it. The lanes'
 * memory is freed with the last pass. Returns 0. Errors, in this order: -EINVAL (something is behind the other handle,
 * or there is no pass that is outside), -EMFILE (the gate has had 2^32 - 1 passes), -ENOMEM. */
KT_CALL(1, 3) int32_t kt_pass(struct kt_handle *pass, uint32_t lane, struct kt_handle *other);

/* Goes inside before a callback (percpu_ref_tryget_live). Returns 0: the pass is inside, and kt_shut() waits for it.
 * Returns -ENODEV if the gate is shut, for good: then wake the threads that wait. Returns -EINVAL if there is no pass,
 * or if it is inside. */
KT_CALL(1) int32_t kt_pass_enter(struct kt_handle *pass);

/* Leaves after the callback (percpu_ref_put): the pass is outside again. Returns 0, or 1 if the gate is shut: then wake
 * the threads that wait. Returns -EINVAL if there is no pass that is inside. */
KT_STEP(1) int32_t kt_pass_leave(struct kt_handle *pass);

/* Shuts a gate (percpu_ref_kill), as far as it can without waiting: at once kt_pass_enter() fails, by any pass. Returns
 * 0, or 1 like kt_leave(), if nobody is inside. Then nobody ever enters again, the gate's call is left, and the handle
 * has the hold again. Returns -EAGAIN if the gate is shut and somebody is inside: call it again when a pass has left
 * (kt_shut_wait() does). Returns -EINVAL if there is no gate. */
KT_CALL(1) int32_t kt_shut(struct kt_handle *gate);

/* Raises the event number of a post's slot (kernfs_notify) to one more than it found there, unless another notify has
 * raised it that high already. It does so even if the node is gone. Returns 0 or -EOVERFLOW (the number is 2^64 - 1).
 * The program wakes the threads that poll. */
KT_STEP(1) int32_t kt_notify(struct kt_handle *post);

/* Gets the event number of a post's slot, which begins at 1. Returns 0. */
KT_CALL(1, 2) int32_t kt_event(struct kt_handle *post, uint64_t *out);

/* The two halves of a read and of a write, around the program's show and store. kt_read(), kt_write() and kt_poll() in
 * kt_wait.h consist of these.
 *
 * A read at offset 0, or of a file without a text, needs a show: kt_begin_read() enters the node, takes its event
 * number and returns 1. The program shows, passes the text to kt_shown(), which keeps at most 4,095 bytes of it, and
 * calls kt_leave(). If the show fails, the program calls kt_leave() without kt_shown(), and then there is no text. In
 * all other cases kt_begin_read() returns 0 and needs no live node, so the rest of a text can be read after the removal
 * too. Errors: -EACCES (not opened for reading), -ENODEV (with the wake) or -EINVAL as for kt_enter(). */
KT_CALL(1) int32_t kt_begin_read(struct kt_handle *file, uint64_t offset);

/* Makes this the text of the file, in the call that kt_begin_read() began when it returned 1. Returns 0; anywhere else
 * -EINVAL. */
KT_STEP(1) KT_TEXT(2, 3) int32_t kt_shown(struct kt_handle *file, const void *text, size_t length);

/* Copies the text from an offset, also after the removal. Returns the number of bytes, or -EINVAL if there is no
 * text. */
KT_CALL(1) KT_ROOM(3, 4) int64_t kt_copy(struct kt_handle *file, uint64_t offset, void *out, size_t size);

/* Enters the node for a store. Returns 0. Errors: -EACCES (not opened for writing), -ENODEV (with the wake) or -EINVAL
 * as for kt_enter(). */
KT_CALL(1) int32_t kt_begin_write(struct kt_handle *file);

/* Says whether a file has changed, in a running call of the file. Returns 1 if its event number differs from that of
 * its last show, or if there was no show; otherwise 0. Returns -EINVAL outside a call. */
KT_CALL(1) int32_t kt_changed(struct kt_handle *file);

#ifdef __cplusplus
}
#endif

#include "kt_check.h"
#include "kt_tell.h"
#ifndef KT_NO_PTHREAD
#include "kt_wait.h"
#endif

#endif /* KERNFS_TREE_H */
