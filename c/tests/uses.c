/* SPDX-License-Identifier: MIT OR Apache-2.0 */
/* Each call except hiding, with right and wrong uses. It prints a line for each test; the last line is
 * 'N passed, M failed'. */
#include <kernfs_tree.h>
#include <string.h>

#include "trying.h"

static struct kt_handle tree, hold, other, nothing;
static struct kt_key root, dir, file, link_key, key, stale;
static struct kt_node_info stat;
static struct kt_command_counts commands;
static char text[64], longest[300];

static int same(struct kt_key a, struct kt_key b) { return a.slot == b.slot && a.generation == b.generation; }

static void trees(void)
{
    TRY(kt_version(), KT_VERSION_MAJOR * 1000 + KT_VERSION_MINOR);
    TRY(kt_create_root(&tree, 0, 16), -EINVAL);
    TRY(kt_create_root(&tree, 1048577, 16), -EINVAL);
    TRY(kt_create_root(&tree, 16, 0), -EINVAL);
    TRY(kt_create_root(&tree, 16, 65536), -EINVAL);
    TRY(kt_root(&tree, &root), -EINVAL);
    TRY(kt_create_root(&tree, 8, 2), 0);
    TRY(kt_create_root(&tree, 8, 2), -EINVAL);
    TRY(kt_root(&tree, &root), 0);
    TRY(root.slot == 0 && root.generation == 1, 1);
}

static void names(void)
{
    memset(longest, 'x', sizeof longest);
    TRY(kt_create_dir(&tree, root, "d", 1, true, &dir), 0);
    TRY(kt_create_file(&tree, dir, "f", 1, 0644, 7, true, &file), 0);
    TRY(kt_create_link(&tree, root, "l", 1, file, true, &link_key), 0);
    key = file;
    TRY(kt_create_dir(&tree, root, "d", 1, true, &key), -EEXIST);
    TRY(kt_create_dir(&tree, root, "", 0, true, &key), -EINVAL);
    TRY(kt_create_dir(&tree, root, "a/b", 3, true, &key), -EINVAL);
    TRY(kt_create_dir(&tree, root, "a\0b", 3, true, &key), -EINVAL);
    TRY(kt_create_dir(&tree, root, ".", 1, true, &key), -EINVAL);
    TRY(kt_create_dir(&tree, root, "..", 2, true, &key), -EINVAL);
    TRY(kt_create_dir(&tree, root, longest, 256, true, &key), -ENAMETOOLONG);
    TRY(kt_create_dir(&tree, file, "x", 1, true, &key), -ENOTDIR);
    stale = (struct kt_key){3, 9};
    TRY(kt_create_dir(&tree, stale, "x", 1, true, &key), -ENOENT);
    TRY(kt_create_link(&tree, root, "r", 1, root, true, &key), -EINVAL);
    TRY(kt_create_link(&tree, root, "s", 1, stale, true, &key), -ENOENT);
    TRY(kt_create_file(&tree, root, "m", 1, 01000, 0, true, &key), -EINVAL);
    TRY(kt_create_file(&tree, stale, "m", 1, 0177777, 0, true, &key), -EINVAL); /* the mode comes first */
    TRY(same(key, file), 1); /* a refused call writes nothing */
    TRY(kt_create_file(&tree, root, "m", 1, 0777, 0, true, &key), 0);
    TRY(kt_remove(&tree, key), 1);
    TRY(kt_create_dir(&tree, root, longest, 255, true, &key), 0);
    TRY(kt_remove(&tree, key), 1);
}

static void looks(void)
{
    TRY(kt_find(&tree, root, "d", 1, &key), 0);
    TRY(same(key, dir), 1);
    TRY(kt_find(&tree, root, "e", 1, &key), -ENOENT);
    TRY(kt_find(&tree, file, "e", 1, &key), -ENOTDIR);
    TRY(kt_walk(&tree, "/d/f", 4, &key), 0);
    TRY(same(key, file), 1);
    TRY(kt_walk(&tree, "d/f", 3, &key), -EINVAL);
    TRY(kt_walk(&tree, "/d//f", 5, &key), -EINVAL);
    TRY(kt_walk(&tree, "/d/g", 4, &key), -ENOENT);
    TRY(kt_walk(&tree, "/", 1, &key), 0);
    TRY(same(key, root), 1);
    TRY(kt_next(&tree, root, "", 0, text, sizeof text), 1);
    TRY(text[0], 'd');
    TRY(kt_next(&tree, root, "d", 1, text, sizeof text), 1);
    TRY(text[0], 'l');
    TRY(kt_next(&tree, root, "l", 1, text, sizeof text), -ENOENT);
    TRY(kt_next(&tree, file, "", 0, text, sizeof text), -ENOTDIR);
    TRY(kt_next(&tree, root, "", 0, text, 0), -ERANGE);
    TRY(kt_stat(&tree, file, &stat), 0);
    TRY(stat.kind == KT_FILE && stat.mode == 0644 && stat.tag == 7 && stat.links == 1, 1);
    TRY(stat.activated && !stat.doomed && !stat.hidden, 1);
    TRY(kt_stat(&tree, dir, &stat), 0);
    TRY(stat.kind == KT_DIR && stat.links == 2, 1);
    TRY(kt_stat(&tree, link_key, &stat), 0);
    TRY(stat.kind == KT_LINK && same(stat.target, file), 1);
    TRY(kt_stat(&tree, stale, &stat), -ENOENT);
    TRY(kt_readlink(&tree, link_key, text, sizeof text), 3);
    TRY(memcmp(text, "d/f", 3), 0);
    TRY(kt_readlink(&tree, link_key, text, 2), -ERANGE);
    TRY(kt_readlink(&tree, file, text, sizeof text), -EINVAL);
}

static void places(void)
{
    TRY(kt_parent(&tree, file, &key), 0);
    TRY(same(key, dir), 1);
    TRY(kt_parent(&tree, dir, &key), 0);
    TRY(same(key, root), 1);
    TRY(kt_parent(&tree, root, &key), -EINVAL);
    TRY(kt_parent(&tree, stale, &key), -ENOENT);
    TRY(same(key, root), 1);
    memset(text, '-', sizeof text);
    TRY(kt_name(&tree, file, text, 1), 1);
    TRY(memcmp(text, "f-", 2), 0);
    TRY(kt_name(&tree, file, text, 0), -ERANGE);
    TRY(kt_name(&tree, root, text, sizeof text), 0);
    TRY(kt_name(&tree, stale, text, sizeof text), -ENOENT);
    TRY(kt_path(&tree, file, text, 4), 4);
    TRY(memcmp(text, "/d/f-", 5), 0);
    TRY(kt_path(&tree, root, text, sizeof text), 1);
    TRY(memcmp(text, "/d/f-", 5), 0);
    TRY(kt_path(&tree, file, text, 3), -ERANGE);
    TRY(kt_path(&tree, stale, text, sizeof text), -ENOENT);
}

static void changes(void)
{
    TRY(kt_create_file(&tree, dir, "g", 1, 0444, 0, false, &key), 0);
    TRY(kt_hold(&tree, key, &hold), 0);
    TRY(kt_enter(&hold), -ENODEV);
    TRY(kt_activate(&tree, key), 0);
    TRY(kt_activate(&tree, stale), -ENOENT);
    TRY(kt_enter(&hold), 0);
    TRY(kt_leave(&hold), 0);
    TRY(kt_clear(&hold), 0);
    TRY(kt_rename(&tree, key, root, "h", 1), 0);
    TRY(kt_rename(&tree, key, root, "d", 1), -EEXIST);
    TRY(kt_rename(&tree, dir, dir, "d", 1), -EINVAL);
    TRY(kt_rename(&tree, root, dir, "d", 1), -EINVAL);
    TRY(kt_commands(&tree, &commands), 0);
    TRY(commands.stored > commands.compacted, 1);
    TRY(kt_compact(&tree), 0);
    TRY(kt_commands(&tree, &commands), 0);
    TRY(commands.stored == commands.compacted, 1);
    TRY(kt_remove(&tree, key), 1);
    TRY(kt_remove(&tree, key), 0); /* it is out of the tree */
    TRY(kt_remove(&tree, (struct kt_key){key.slot, key.generation + 1}), -ENOENT); /* not used yet */
    TRY(kt_remove(&tree, (struct kt_key){key.slot, 0}), -ENOENT);
    TRY(kt_remove(&tree, (struct kt_key){0, 0}), -ENOENT);
    TRY(kt_remove(&tree, (struct kt_key){8, 1}), -ENOENT); /* no such slot */
    TRY(kt_remove(&tree, (struct kt_key){UINT32_MAX, UINT32_MAX}), -ENOENT);
    TRY(kt_remove(&tree, root), -EINVAL);
    TRY(kt_stat(&tree, key, &stat), -ENOENT);
    TRY(kt_hold(&tree, key, &hold), -ENOENT);
    for (int i = 0; i < 4; i++)
        TRY(kt_create_dir(&tree, root, (char[]){(char)('0' + i)}, 1, true, &stale), 0);
    TRY(kt_create_dir(&tree, root, "4", 1, true, &key), -ENOSPC);
    TRY(kt_remove(&tree, stale), 1);
    TRY(kt_create_dir(&tree, root, "4", 1, true, &key), 0);
    TRY(key.slot == stale.slot && key.generation == stale.generation + 1, 1);
    TRY(kt_remove(&tree, stale), 0); /* its slot has a later node */
    TRY(kt_find(&tree, stale, "x", 1, &key), -ENOENT); /* the old key names nothing */
}

static void holds(void)
{
    TRY(kt_enter(&hold), -EINVAL);
    TRY(kt_hold(&tree, file, &hold), 0);
    TRY(kt_hold(&tree, file, &hold), -EINVAL);
    TRY(kt_leave(&hold), -EINVAL);
    TRY(kt_break(&hold), -EINVAL);
    TRY(kt_restore(&hold), -EINVAL);
    TRY(kt_root(&hold, &root), -EINVAL);
    TRY(kt_create_dir(&hold, root, "x", 1, true, &key), -EINVAL);
    TRY(kt_remove(&hold, file), -EINVAL);
    TRY(kt_compact(&hold), -EINVAL);
    TRY(kt_commands(&hold, &commands), -EINVAL);
    TRY(kt_stat(&hold, file, &stat), -EINVAL);
    TRY(kt_next(&hold, root, "", 0, text, sizeof text), -EINVAL);
    TRY(kt_claim(&hold, file), -EINVAL);
    TRY(kt_parent(&hold, file, &key), -EINVAL);
    TRY(kt_name(&hold, file, text, sizeof text), -EINVAL);
    TRY(kt_path(&hold, file, text, sizeof text), -EINVAL);
    TRY(kt_hold(&hold, file, &other), -EINVAL);
    TRY(kt_create_root(&hold, 8, 8), -EINVAL);
    TRY(kt_enter(&tree), -EINVAL);
    TRY(kt_leave(&nothing), -EINVAL);
    TRY(kt_hold(&tree, file, &other), 0);
    TRY(kt_hold(&tree, file, &nothing), -EMFILE);
    TRY(kt_remove(&tree, dir), -EMFILE);
    TRY(kt_claim(&tree, dir), -EMFILE);
    TRY(kt_stat(&tree, dir, &stat), 0);
    TRY(stat.doomed, 0);
    TRY(kt_enter(&hold), 0);
    TRY(kt_enter(&hold), -EINVAL);
    TRY(kt_begin_read(&hold, 0), -EINVAL);
    TRY(kt_shown(&hold, "x", 1), -EINVAL);
    TRY(kt_copy(&hold, 0, text, sizeof text), -EINVAL);
    TRY(kt_begin_write(&hold), -EINVAL);
    TRY(kt_changed(&hold), -EINVAL);
    TRY(kt_restore(&hold), -EINVAL);
    TRY(kt_break(&hold), 0);
    TRY(kt_break(&hold), -EINVAL);
    TRY(kt_leave(&hold), -EINVAL);
    TRY(kt_restore(&hold), 0);
    TRY(kt_break(&hold), -EINVAL); /* a call breaks its protection once */
    TRY(kt_leave(&hold), 0);
    TRY(kt_clear(&other), 1);
    TRY(kt_clear(&other), 0);
}

static void removal(void)
{
    TRY(kt_enter(&hold), 0);
    TRY(kt_remove(&tree, dir), -EAGAIN);
    TRY(kt_stat(&tree, file, &stat), 0);
    TRY(stat.doomed, 1);
    TRY(kt_create_file(&tree, dir, "n", 1, 0444, 0, true, &key), -ENOENT);
    TRY(kt_hold(&tree, file, &other), 0);
    TRY(kt_enter(&other), -ENODEV);
    TRY(kt_clear(&other), 1);
    TRY(kt_remove(&tree, dir), -EAGAIN);
    TRY(kt_leave(&hold), 1);
    TRY(kt_hold(&tree, file, &other), 0);
    TRY(kt_remove(&tree, dir), -EAGAIN); /* it needs a hold for a moment */
    TRY(kt_clear(&other), 1);
    TRY(kt_remove(&tree, dir), 1);
    TRY(kt_enter(&hold), -ENODEV);
    TRY(kt_stat(&tree, file, &stat), -ENOENT);
    TRY(kt_readlink(&tree, link_key, text, sizeof text), -ENOENT);
    TRY(kt_clear(&hold), 0);
}

static void self_removal(void)
{
    TRY(kt_create_file(&tree, root, "own", 3, 0200, 0, true, &file), 0);
    TRY(kt_hold(&tree, file, &hold), 0);
    TRY(kt_enter(&hold), 0);
    TRY(kt_break(&hold), 0);
    TRY(kt_claim(&tree, file), 0);
    TRY(kt_claim(&tree, file), 1);
    TRY(kt_claim(&tree, root), -EINVAL);
    TRY(kt_remove(&tree, file), 1);
    TRY(kt_claim(&tree, file), -ENOENT);
    TRY(kt_restore(&hold), 0);
    TRY(kt_enter(&hold), -EINVAL);
    TRY(kt_clear(&hold), 1); /* ends the call too */
}

/* Another hold from a hold, without a tree: of a node that exists, that is being removed, that is gone. */
static void doubles(void)
{
    struct kt_handle small = {NULL}, third = {NULL};
    TRY(kt_new(&small.at), 0);
    TRY(kt_new(&third.at), 0);
    TRY(kt_create_root(&small, 4, 3), 0);
    TRY(kt_root(&small, &root), 0);
    TRY(kt_create_file(&small, root, "f", 1, 0644, 0, true, &file), 0);
    TRY(kt_dup(&nothing, &other), -EINVAL);
    TRY(kt_dup(&small, &other), -EINVAL);
    TRY(kt_hold(&small, file, &hold), 0);
    TRY(kt_dup(&hold, &small), -EINVAL);
    TRY(kt_event_open(&small, file, &third), 0);
    TRY(kt_dup(&third, &other), -EINVAL);
    TRY(kt_dup(&hold, &third), -EINVAL);
    TRY(kt_clear(&third), 0);
    for (int i = 0; i < 40; i++) {
        TRY(kt_dup(&hold, &other), 0);
        TRY(kt_dup(&hold, &other), -EINVAL); /* something is behind it */
        TRY(kt_clear(&other), 0);
    }
    TRY(kt_dup(&hold, &other), 0);
    TRY(kt_dup(&hold, &third), -EMFILE); /* the last place is left */
    TRY(kt_dup(&other, &third), -EMFILE);
    TRY(kt_enter(&other), 0);
    TRY(kt_dup(&other, &third), -EINVAL); /* a call is not a hold */
    TRY(kt_enter(&hold), 0);
    TRY(kt_remove(&small, file), -EAGAIN);
    TRY(kt_leave(&hold), 0); /* the other one is inside */
    TRY(kt_remove(&small, file), -EAGAIN);
    TRY(kt_clear(&hold), 0);
    TRY(kt_leave(&other), 1);
    TRY(kt_dup(&other, &hold), 0); /* it is being removed */
    TRY(kt_enter(&hold), -ENODEV);
    TRY(kt_remove(&small, file), 1);
    TRY(kt_clear(&other), 0);
    TRY(kt_dup(&hold, &other), 0); /* it is gone */
    TRY(kt_enter(&other), -ENODEV);
    TRY(kt_clear(&hold), 0);
    for (int i = 0; i < 3; i++) /* three slots: the gone one's is kept by the other hold */
        TRY(kt_create_dir(&small, root, (char[]){(char)('0' + i)}, 1, true, &key), i < 2 ? 0 : -ENOSPC);
    TRY(kt_clear(&other), 0);
    TRY(kt_create_dir(&small, root, "2", 1, true, &key), 0);
    TRY(same(key, (struct kt_key){file.slot, file.generation + 1}), 1);
    TRY(kt_open(&small, key, true, false, &hold), -EISDIR);
    TRY(kt_remove(&small, key), 1);
    TRY(kt_create_file(&small, root, "o", 1, 0444, 0, true, &file), 0);
    TRY(kt_open(&small, file, true, false, &hold), 0);
    TRY(kt_dup(&hold, &other), 0); /* a plain hold, of an open file too */
    TRY(kt_begin_read(&other, 0), -EINVAL);
    TRY(kt_begin_read(&hold, 0), 1);
    TRY(kt_leave(&hold), 0);
    TRY(kt_delete(small), 0);
    TRY(kt_dup(&hold, &third), -EMFILE);
    TRY(kt_clear(&hold), 0);
    TRY(kt_dup(&other, &third), 0); /* its tree is freed */
    TRY(kt_clear(&other), 0);
    TRY(kt_delete(third), 0);
}

static void posts(void)
{
    uint64_t event = 9;
    TRY(kt_create_file(&tree, root, "p", 1, 0644, 0, false, &file), 0);
    TRY(kt_event(&hold, &event), -EINVAL);
    TRY(kt_notify(&hold), -EINVAL);
    TRY((int64_t)event, 9);
    TRY(kt_event_open(&tree, stale, &hold), -ENOENT);
    TRY(kt_event_open(&hold, file, &other), -EINVAL);
    TRY(kt_event_open(&tree, file, &hold), 0);
    TRY(kt_event_open(&tree, file, &hold), -EINVAL);
    TRY(kt_hide(&hold, file), -EINVAL);
    TRY(kt_unhide(&hold, file), -EINVAL);
    TRY(kt_shown(&hold, "x", 1), -EINVAL);
    TRY(kt_event_open(&tree, file, &other), 0);
    TRY(kt_event(&hold, &event), 0);
    TRY((int64_t)event, 1);
    TRY(kt_notify(&other), 0);
    TRY(kt_notify(&other), 0);
    TRY(kt_event(&hold, &event), 0);
    TRY((int64_t)event, 3);
    TRY(kt_enter(&hold), -EINVAL);
    TRY(kt_clear(&hold), 0);
}

static void open_files(void)
{
    char page[5000];
    memset(page, 'x', sizeof page);
    TRY(kt_open(&tree, file, true, true, &hold), -ENODEV);
    TRY(kt_activate(&tree, file), 0);
    TRY(kt_open(&tree, root, true, false, &hold), -EISDIR);
    TRY(kt_open(&tree, link_key, true, false, &hold), -EINVAL);
    TRY(kt_open(&tree, stale, true, false, &hold), -ENOENT);
    TRY(kt_open(&other, file, true, false, &hold), -EINVAL);
    TRY(kt_open(&tree, file, true, true, &other), -EINVAL);
    TRY(kt_begin_read(&hold, 0), -EINVAL);
    TRY(kt_open(&tree, file, true, true, &hold), 0);
    TRY(kt_copy(&hold, 0, text, sizeof text), -EINVAL);
    TRY(kt_shown(&hold, page, 1), -EINVAL);
    TRY(kt_changed(&hold), -EINVAL);
    TRY(kt_enter(&hold), 0);
    TRY(kt_changed(&hold), 1);
    TRY(kt_begin_read(&hold, 0), -EINVAL);
    TRY(kt_begin_write(&hold), -EINVAL);
    TRY(kt_shown(&hold, page, 1), -EINVAL); /* this call began no read */
    TRY(kt_leave(&hold), 0);
    TRY(kt_begin_read(&hold, 7), 1);
    TRY(kt_shown(&hold, page, sizeof page), 0);
    TRY(kt_changed(&hold), 0);
    TRY(kt_notify(&other), 0);
    TRY(kt_changed(&hold), 1);
    TRY(kt_break(&hold), 0);
    TRY(kt_changed(&hold), -EINVAL);
    TRY(kt_restore(&hold), 0);
    TRY(kt_leave(&hold), 0);
    TRY(kt_begin_read(&hold, 4090), 0);
    TRY(kt_copy(&hold, 4090, text, sizeof text), 5); /* 4,095 bytes are kept */
    TRY(kt_copy(&hold, 4095, text, sizeof text), 0);
    TRY(kt_copy(&hold, UINT64_MAX, text, sizeof text), 0);
    TRY(kt_copy(&hold, 0, text, 3), 3);
    TRY(kt_begin_read(&hold, 0), 1);
    TRY(kt_leave(&hold), 0); /* as after a show that failed */
    TRY(kt_copy(&hold, 0, text, sizeof text), -EINVAL);
    TRY(kt_enter(&hold), 0);
    TRY(kt_shown(&hold, page, 1), -EINVAL); /* the call before did */
    TRY(kt_leave(&hold), 0);
    TRY(kt_begin_write(&hold), 0);
    TRY(kt_shown(&hold, page, 1), -EINVAL);
    TRY(kt_leave(&hold), 0);
    TRY(kt_copy(&hold, 0, text, sizeof text), -EINVAL);
    TRY(kt_begin_read(&hold, 0), 1);
    TRY(kt_break(&hold), 0);
    TRY(kt_restore(&hold), 0);
    TRY(kt_shown(&hold, "ab", 2), 0); /* it is the same call */
    TRY(kt_shown(&hold, "abc", 3), 0);
    TRY(kt_leave(&hold), 0);
    TRY(kt_copy(&hold, 0, text, sizeof text), 3);
    TRY(kt_begin_read(&hold, 0), 1);
    TRY(kt_shown(&hold, "abc", 3), 0);
    TRY(kt_remove(&tree, file), -EAGAIN);
    TRY(kt_leave(&hold), 1);
    TRY(kt_remove(&tree, file), 1);
    TRY(kt_begin_read(&hold, 0), -ENODEV);
    TRY(kt_begin_write(&hold), -ENODEV);
    TRY(kt_begin_read(&hold, 1), 0);
    TRY(kt_copy(&hold, 1, text, sizeof text), 2);
    TRY(memcmp(text, "bc", 2), 0);
    TRY(kt_open(&tree, file, true, false, &nothing), -ENOENT);
    TRY(kt_clear(&hold), 0);
    TRY(kt_clear(&other), 0);
    TRY(kt_create_file(&tree, root, "r", 1, 0440, 0, true, &file), 0);
    TRY(kt_open(&tree, file, true, true, &hold), -EACCES);
    TRY(kt_open(&tree, file, false, true, &hold), -EACCES);
    TRY(kt_open(&tree, file, true, false, &hold), 0);
    TRY(kt_begin_write(&hold), -EACCES);
    TRY(kt_clear(&hold), 0);
    TRY(kt_remove(&tree, file), 1);
    TRY(kt_create_file(&tree, root, "w", 1, 0200, 0, true, &file), 0);
    TRY(kt_open(&tree, file, true, false, &hold), -EACCES);
    TRY(kt_open(&tree, file, false, true, &hold), 0);
    TRY(kt_begin_read(&hold, 0), -EACCES);
    TRY(kt_begin_write(&hold), 0);
    TRY(kt_clear(&hold), 0); /* ends the call too */
    TRY(kt_remove(&tree, file), 1);
}

int main(void)
{
    TRY(kt_new(&tree.at), 0);
    TRY(kt_new(&hold.at), 0);
    TRY(kt_new(&other.at), 0);
    TRY(kt_new(&nothing.at), 0);
    trees();
    names();
    looks();
    places();
    changes();
    holds();
    removal();
    self_removal();
    doubles();
    posts();
    open_files();
    TRY(kt_delete(nothing), 0);
    TRY(kt_delete(other), 0);
    TRY(kt_delete(hold), 0);
    TRY(kt_delete(tree), 0);
    return tried();
}
