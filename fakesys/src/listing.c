/* SPDX-License-Identifier: MIT OR Apache-2.0 */
/* Listings: the entries of a directory, `.` and `..` first, as they are at each call. A call continues after
 * the last name. So if entries come or go between two calls, no other name is listed twice or missed. */
#include "fakesysfs.h"

/* Stores the name that is listed at an index. */
static int keep_name(struct listing *it, size_t at, const char *name)
{
    if (at >= it->room) {
        size_t room = it->room ? 2 * it->room : 16;
        char **grown = realloc(it->names, room * sizeof *grown);
        if (!grown)
            return -ENOMEM;
        it->names = grown;
        it->room = room;
    }
    char *copy = strdup(name);
    if (!copy)
        return -ENOMEM;
    if (at < it->count)
        free(it->names[at]);
    else
        it->count = at + 1;
    it->names[at] = copy;
    return 0;
}

/* Finds the entry at an index: 0 is the directory, 1 its parent. -ENOENT at the end. */
static int find_entry(struct listing *it, struct names *names, fuse_ino_t dir, size_t at, char *name,
                      struct stat *stat)
{
    struct kt_key key = key_of(dir);
    const char *last = at > 2 ? it->names[at - 3] : "";
    if (at < 2) {
        strcpy(name, at ? ".." : ".");
        if (at)
            (void)!kt_parent(&tree, key, &key); /* the root is its own parent, and so is what is gone */
        return describe(number_of(key), stat);
    }
    int64_t length = next_name(names, key, last, name);
    if (length < 0)
        return (int)length;
    int error = keep_name(it, at - 2, name);
    if (!error)
        error = kt_find(&tree, key, name, (size_t)length, &key);
    return error ? error : describe(number_of(key), stat);
}

int64_t list_entries(struct listing *it, fuse_req_t req, fuse_ino_t dir, size_t offset, char *page,
                     size_t room)
{
    char name[KT_NAME_MAX + 1];
    struct names names = {0};
    struct stat stat;
    size_t used = 0, at = MIN(offset, it->count + 2);
    int error;
    while (!(error = find_entry(it, &names, dir, at, name, &stat))) {
        at++;
        if (at <= offset)
            continue;
        size_t size = fuse_add_direntry(req, page + used, room - used, name, &stat, (off_t)at);
        if (size > room - used)
            break;
        used += size;
    }
    free_names(&names);
    return error && error != -ENOENT && !used ? error : (int64_t)used;
}

void free_listing(struct listing *it)
{
    for (size_t at = 0; at < it->count; at++)
        free(it->names[at]);
    free(it->names);
}
