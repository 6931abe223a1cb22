/* SPDX-License-Identifier: MIT OR Apache-2.0 */
/* Files that are hidden and shown again, with right and wrong uses; and the holds of a tree that is freed. It prints a
 * line for each test; the last line is 'N passed, M failed'. */
#include <kernfs_tree.h>
#include <string.h>

#include "trying.h"

static struct kt_handle own, hold, other, nothing;
static struct kt_lock lock = KT_LOCK_INIT;
static struct kt_key key;
static struct kt_node_info stat;
static char text[64];

/* A file hidden with no caller inside, and shown again. */
static void hidden_alone(struct kt_key top, struct kt_key folder, struct kt_key shy)
{
    struct kt_key none = {3, 9}, far = {UINT32_MAX, 1};
    TRY(kt_create_link(&own, top, "l", 1, shy, true, &key), 0);
    TRY(kt_hide(&hold, shy), -EINVAL);
    TRY(kt_unhide(&hold, shy), -EINVAL);
    TRY(kt_hide(&own, top), -EISDIR);
    TRY(kt_hide(&own, folder), -EISDIR);
    TRY(kt_hide(&own, key), -EINVAL);
    TRY(kt_hide(&own, none), -ENOENT);
    TRY(kt_hide(&own, far), -ENOENT);
    TRY(kt_unhide(&own, none), -ENOENT);
    TRY(kt_unhide(&own, far), -ENOENT);
    TRY(kt_unhide(&own, shy), -EINVAL);
    TRY(kt_unhide(&own, folder), -EINVAL);
    TRY(kt_hide_wait(&own, folder, &lock), -EISDIR);
    TRY(kt_hide_wait(&own, none, &lock), -ENOENT);
    TRY(kt_hold(&own, shy, &hold), 0);
    TRY(kt_hide(&hold, shy), -EINVAL);
    TRY(kt_unhide(&hold, shy), -EINVAL);
    TRY(kt_hide_wait(&hold, shy, &lock), -EINVAL);
    TRY(kt_hide(&own, shy), 0);
    TRY(kt_hide(&own, shy), 0); /* now or before */
    TRY(kt_hide_wait(&own, shy, &lock), 0);
    TRY(kt_stat(&own, shy, &stat), 0);
    TRY(stat.hidden && stat.activated && !stat.doomed, 1);
    TRY(kt_enter(&hold), -ENODEV);
    TRY(kt_open(&own, shy, true, false, &other), -ENODEV);
    TRY(kt_next(&own, folder, "", 0, text, sizeof text), -ENOENT);
    TRY(kt_find(&own, folder, "f", 1, &key), 0);
    TRY(kt_rename(&own, shy, top, "n", 1), -ENOENT);
    TRY(kt_activate(&own, top), 0);
    TRY(kt_compact(&own), 0);
    TRY(kt_stat(&own, shy, &stat), 0);
    TRY(stat.hidden, 1);
    TRY(kt_enter(&hold), -ENODEV);
    TRY(kt_unhide(&own, shy), 0);
    TRY(kt_unhide(&own, shy), -EINVAL);
    TRY(kt_stat(&own, shy, &stat), 0);
    TRY(stat.hidden, 0);
    TRY(kt_enter(&hold), 0);
    TRY(kt_leave(&hold), 0);
}

/* With a reader inside, and in the end with as many holds as there may be. */
static void hidden_in_use(struct kt_key shy)
{
    TRY(kt_enter(&hold), 0);
    TRY(kt_hold(&own, shy, &other), 0);
    TRY(kt_hide(&own, shy), -EAGAIN);
    TRY(kt_enter(&other), -ENODEV);
    TRY(kt_hide(&own, shy), -EAGAIN);
    TRY(kt_unhide(&own, shy), -EAGAIN);
    TRY(kt_stat(&own, shy, &stat), 0);
    TRY(stat.hidden, 1);
    TRY(kt_clear(&own), -EBUSY);
    TRY(kt_delete(own), -EBUSY);
    TRY(kt_leave(&hold), 1); /* the thread that hides waits for this */
    TRY(kt_enter(&hold), -ENODEV);
    TRY(kt_clear(&own), -EBUSY); /* no call has looked since */
    TRY(kt_hide(&own, shy), 0);
    TRY(kt_enter(&hold), -ENODEV);
    TRY(kt_unhide(&own, shy), 0);
    TRY(kt_enter(&other), 0);
    TRY(kt_hide(&own, shy), -EAGAIN);
    TRY(kt_leave(&other), 1);
    TRY(kt_unhide(&own, shy), 0); /* it looks itself */
    TRY(kt_enter(&hold), 0);
    TRY(kt_break(&hold), 0);
    TRY(kt_hide(&own, shy), 0); /* it does not wait for a caller that has broken its protection */
    TRY(kt_restore(&hold), 0);
    TRY(kt_unhide(&own, shy), 0);
    TRY(kt_leave(&hold), 0);
    TRY(kt_hold(&own, shy, &nothing), 0);
    TRY(kt_hide(&own, shy), -EMFILE); /* a hidden file keeps a hold */
    TRY(kt_enter(&hold), 0);
    TRY(kt_leave(&hold), 0);
    TRY(kt_clear(&nothing), 1); /* it had the last place */
    TRY(kt_clear(&other), 0);
}

/* A hidden file removed, with and without a caller inside: its slot is used again. */
static void hidden_and_removed(struct kt_key top, struct kt_key folder, struct kt_key shy)
{
    TRY(kt_hide(&own, shy), 0);
    TRY(kt_remove(&own, folder), 1);
    TRY(kt_hide(&own, shy), -ENOENT);
    TRY(kt_unhide(&own, shy), -ENOENT);
    TRY(kt_enter(&hold), -ENODEV);
    TRY(kt_clear(&hold), 0);
    TRY(kt_create_file(&own, top, "g", 1, 0644, 0, true, &shy), 0);
    TRY(kt_hold(&own, shy, &hold), 0);
    TRY(kt_enter(&hold), 0);
    TRY(kt_hide(&own, shy), -EAGAIN);
    TRY(kt_remove(&own, shy), -EAGAIN);
    TRY(kt_hide(&own, shy), -EAGAIN);
    TRY(kt_leave(&hold), 1);
    TRY(kt_remove(&own, shy), 1);
    TRY(kt_unhide(&own, shy), -ENOENT);
    TRY(kt_clear(&hold), 0);
    for (int i = 0; i < 6; i++)
        TRY(kt_create_file(&own, top, (char[]){(char)('0' + i)}, 1, 0644, 0, true, &shy), 0);
    TRY(kt_create_file(&own, top, "6", 1, 0644, 0, true, &key), -ENOSPC);
    TRY(kt_hide(&own, shy), 0);
}

/* An open file that is hidden: what was shown before is served, and nothing else. */
static void hidden_and_open(struct kt_key top)
{
    TRY(kt_create_file(&own, top, "o", 1, 0644, 0, true, &key), 0);
    TRY(kt_open(&own, key, true, true, &hold), 0);
    TRY(kt_hide(&hold, key), -EINVAL);
    TRY(kt_unhide(&hold, key), -EINVAL);
    TRY(kt_begin_read(&hold, 0), 1);
    TRY(kt_shown(&hold, "text", 4), 0);
    TRY(kt_hide(&own, key), -EAGAIN);
    TRY(kt_shown(&hold, "last", 4), 0);
    TRY(kt_leave(&hold), 1);
    TRY(kt_hide(&own, key), 0);
    TRY(kt_begin_read(&hold, 0), -ENODEV);
    TRY(kt_begin_write(&hold), -ENODEV);
    TRY(kt_poll(&hold, &lock), 1);
    TRY(kt_begin_read(&hold, 1), 0);
    TRY(kt_copy(&hold, 1, text, sizeof text), 3);
    TRY(memcmp(text, "ast", 3), 0);
    TRY(kt_unhide(&own, key), 0);
    TRY(kt_begin_write(&hold), 0);
    TRY(kt_leave(&hold), 0);
    TRY(kt_clear(&hold), 0);
}

/* The holds of a tree that is freed: of a live file, of a hidden one, of one that is being removed and of one that was
 * not activated. */
static void freed(struct kt_key top)
{
    struct kt_handle dark;
    TRY(kt_new(&dark.at), 0);
    TRY(kt_create_file(&own, top, "live", 4, 0644, 0, true, &key), 0);
    TRY(kt_hold(&own, key, &hold), 0);
    TRY(kt_create_file(&own, top, "shy", 3, 0644, 0, true, &key), 0);
    TRY(kt_hold(&own, key, &other), 0);
    TRY(kt_hide(&own, key), 0);
    TRY(kt_enter(&other), -ENODEV);
    TRY(kt_create_file(&own, top, "gone", 4, 0644, 0, true, &key), 0);
    TRY(kt_hold(&own, key, &nothing), 0);
    TRY(kt_enter(&nothing), 0);
    TRY(kt_remove(&own, key), -EAGAIN);
    TRY(kt_create_file(&own, top, "dark", 4, 0644, 0, false, &key), 0);
    TRY(kt_hold(&own, key, &dark), 0);
    TRY(kt_clear(&own), 0);
    TRY(kt_hide(&own, key), -EINVAL);
    TRY(kt_unhide(&own, key), -EINVAL);
    TRY(kt_remove(&own, key), -EINVAL);
    TRY(kt_claim(&own, key), -EINVAL);
    TRY(kt_enter(&hold), 0);
    TRY(kt_leave(&hold), 0);
    TRY(kt_enter(&other), 0); /* the tree has shown it */
    TRY(kt_leave(&other), 0);
    TRY(kt_leave(&nothing), 1);
    TRY(kt_enter(&nothing), -ENODEV);
    TRY(kt_enter(&dark), -ENODEV);
    TRY(kt_clear(&hold), 0);
    TRY(kt_clear(&other), 0);
    TRY(kt_clear(&nothing), 0);
    TRY(kt_delete(dark), 0);
}

int main(void)
{
    struct kt_key top, folder, shy;
    TRY(kt_new(&own.at), 0);
    TRY(kt_new(&hold.at), 0);
    TRY(kt_new(&other.at), 0);
    TRY(kt_new(&nothing.at), 0);
    TRY(kt_hide(&own, (struct kt_key){0, 1}), -EINVAL);
    TRY(kt_unhide(&own, (struct kt_key){0, 1}), -EINVAL);
    TRY(kt_create_root(&own, 8, 3), 0);
    TRY(kt_root(&own, &top), 0);
    TRY(kt_create_dir(&own, top, "d", 1, true, &folder), 0);
    TRY(kt_create_file(&own, folder, "f", 1, 0644, 0, true, &shy), 0);
    hidden_alone(top, folder, shy);
    hidden_in_use(shy);
    hidden_and_removed(top, folder, shy);
    TRY(kt_clear(&own), 0); /* with a hidden file, if no caller is inside */
    TRY(kt_create_root(&own, 8, 3), 0);
    TRY(kt_root(&own, &top), 0);
    hidden_and_open(top);
    freed(top);
    TRY(kt_delete(nothing), 0);
    TRY(kt_delete(other), 0);
    TRY(kt_delete(hold), 0);
    TRY(kt_delete(own), 0);
    return tried();
}
