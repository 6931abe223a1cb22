/* SPDX-License-Identifier: MIT OR Apache-2.0 */
/* kt_tell.h: error texts and a tree dump for programs that use kernfs_tree.h, which includes this. It is C over the
 * calls there: tested, not proved. A function that takes a tree is called under the tree's lock. */
#include "kernfs_tree.h"
#ifndef KT_TELL_H
#define KT_TELL_H

#include <stdio.h>
#include <string.h>

/* Describes a negative result in a text without a newline. There is a text for every other number too. */
static inline const char *kt_strerror(int64_t number)
{
    switch (number) {
    case -EACCES:
        return "the mode of the file, or how it was opened, does not allow it";
    case -EAGAIN:
        return "somebody is inside (call again when a callback has left), or a look-up without the lock found nothing";
    case -EBADF:
        return "it is not the descriptor of a watch of this tree";
    case -EBUSY:
        return "in use: a file is being hidden, a gate is open, a pass is inside, or others came between";
    case -EDEADLK:
        return "it would wait for its own thread, or callbacks wait for each other";
    case -EEXIST:
        return "the name is taken";
    case -EINVAL:
        return "what lies behind the handle, the kind of node, a name, a path or a number does not fit the call";
    case -EIO:
        return "input or output failed, or the program did not make this file with kt_live.h";
    case -EISDIR:
        return "it is a directory";
    case -EMFILE:
        return "there are as many holds of the node, passes of the gate or descriptors of the program as there can be";
    case -ENAMETOOLONG:
        return "a name has more than 255 bytes";
    case -ENFILE:
        return "the system has as many open files as it can have";
    case -ENODEV:
        return "it is being removed, hidden, or not yet activated, or the gate is shut";
    case -ENOENT:
        return "there is no such node or path, or it is being removed";
    case -ENOMEM:
        return "no memory";
    case -ENOSPC:
        return "the tree has no free slot";
    case -ENOTDIR:
        return "it is not a directory";
    case -EOVERFLOW:
        return "the event number is at its end";
    case -ERANGE:
        return "the buffer is too small";
    case -ETIMEDOUT:
        return "somebody was still inside when the time was over";
    default:
        return number < 0 ? "an error that the library does not return" : "done";
    }
}

/* A child of a directory. */
struct kt_child {
    char name[KT_NAME_MAX + 1]; /* with a zero byte after it */
    struct kt_key key;
    uint32_t kind; /* enum kt_kind */
    uint16_t mode; /* of a file */
};

/* Lists the live children of a directory one after another, in byte order, by kt_next(). `at` is the cursor and the
 * result: its name is empty at first, and later the last name. The lock may be released between two calls.
 *
 *     struct kt_child at = {.name = ""};
 *     while (kt_list(tree, dir, &at) == 1)
 *         puts(at.name);
 *
 * Returns 1, 0 at the end, -ENOENT, -ENOTDIR or -ENOMEM. Unless it returns 1, `at` is as it was. */
static inline int32_t kt_list(struct kt_handle *tree, struct kt_key dir, struct kt_child *at)
{
    char name[KT_NAME_MAX];
    struct kt_node_info stat;
    struct kt_key key;
    int64_t length;
    int32_t answer = kt_stat(tree, dir, &stat);
    if (answer)
        return answer;
    length = kt_next(tree, dir, at->name, strlen(at->name), name, sizeof name);
    if (length < 0)
        return length == -ENOENT ? 0 : (int32_t)length;
    answer = kt_find(tree, dir, name, (size_t)length, &key);
    if (!answer)
        answer = kt_stat(tree, key, &stat);
    if (answer)
        return answer;
    memcpy(at->name, name, (size_t)length);
    at->name[length] = 0;
    at->key = key;
    at->kind = stat.kind;
    at->mode = stat.mode;
    return 1;
}

/* Writes the line of a node, for kt_dump(). */
static inline int32_t kt_dump_line(struct kt_handle *tree, const struct kt_child *at, int depth, FILE *out)
{
    struct kt_node_info stat;
    struct kt_node_counts counts;
    struct kt_child to;
    int64_t length = 0;
    int32_t answer = kt_stat(tree, at->key, &stat);
    if (!answer)
        answer = kt_counts(tree, at->key, &counts);
    if (!answer && stat.kind == KT_LINK)
        length = kt_name(tree, stat.target, to.name, KT_NAME_MAX);
    if (length < 0 && length != -ENOENT)
        answer = (int32_t)length;
    if (answer)
        return answer;
    fprintf(out, "%*s%s", 2 * depth, "", at->name);
    if (stat.kind == KT_DIR)
        fprintf(out, "/");
    else if (stat.kind == KT_FILE)
        fprintf(out, " 0%o tag %llu", (unsigned)stat.mode, (unsigned long long)stat.tag);
    else if (length >= 0)
        fprintf(out, " -> %.*s, slot %lu", (int)length, to.name, (unsigned long)stat.target.slot);
    else
        fprintf(out, " -> what is gone");
    if (counts.holds)
        fprintf(out, ", holds %lu, inside %lu", (unsigned long)counts.holds, (unsigned long)counts.users);
    fprintf(out, "\n");
    return 0;
}

/* Writes the live nodes below a directory, one line for each, indented below the line of its directory: a directory
 * with a slash, a file with its mode and tag, a link with its target's name and slot. If a node is held, its line says
 * how often, and how many of the holds are inside. Returns 0, -ENOENT, -ENOTDIR or -ENOMEM. */
static inline int32_t kt_dump(struct kt_handle *tree, struct kt_key top, FILE *out)
{
    struct kt_key dir = top;
    struct kt_child at;
    int depth = 0;
    int64_t answer;
    at.name[0] = 0;
    for (;;) {
        answer = kt_list(tree, dir, &at);
        if (answer == 1) {
            answer = kt_dump_line(tree, &at, depth, out);
            if (!answer && at.kind == KT_DIR) {
                dir = at.key;
                at.name[0] = 0;
                depth++;
            }
        } else if (!answer && depth--) { /* no other child: go on after this directory, in the one above it */
            answer = kt_name(tree, dir, at.name, KT_NAME_MAX);
            if (answer >= 0) {
                at.name[answer] = 0;
                answer = kt_parent(tree, dir, &dir);
            }
        } else {
            return (int32_t)answer;
        }
        if (answer < 0)
            return (int32_t)answer;
    }
}

#endif /* KT_TELL_H */
