/* SPDX-License-Identifier: MIT OR Apache-2.0 */
/* The helpers of kt_tell.h and kt_wait.h that no other test covers, and what the header says of holds, slots, links and
 * names. It prints a line for each test; the last line is 'N passed, M failed'. */
#include <kernfs_tree.h>
#include <stdlib.h>
#include <unistd.h>

#include "trying.h"

static struct kt_handle tree, small, hold, other;
static struct kt_lock lock;
static struct kt_key root, dir, file, folder, key;
static struct kt_node_info stat;

static int same(struct kt_key a, struct kt_key b) { return a.slot == b.slot && a.generation == b.generation; }

static void texts(void)
{
    int lines = 0;
    TRY(!strcmp(kt_strerror(0), "done") && !strcmp(kt_strerror(1), "done"), 1);
    TRY(strcmp(kt_strerror(-ENODEV), kt_strerror(-ENOENT)) != 0, 1);
    for (int64_t it = -133; it < 0; it++)
        lines += strchr(kt_strerror(it), '\n') != NULL;
    TRY(lines, 0);
    TRY(kt_strerror(-ELOOP) == kt_strerror(INT64_MIN), 1); /* which the library never returns */
    TRY(kt_strerror(-ENFILE) == kt_strerror(INT64_MIN), 0); /* which kt_live_watch() may return, as -EMFILE */
    TRY(strstr(kt_strerror(-EMFILE), "descriptors") != NULL, 1);
}

static void children(void)
{
    struct kt_child at = {.name = ""};
    char longest[KT_NAME_MAX];
    memset(longest, 'z', sizeof longest);
    TRY(kt_list(&tree, root, &at), 1);
    TRY(!strcmp(at.name, "d") && at.kind == KT_DIR && same(at.key, dir), 1);
    TRY(kt_create_file(&tree, root, "b", 1, 0600, 0, true, &key), 0); /* behind the cursor */
    TRY(kt_create_file(&tree, root, longest, sizeof longest, 0604, 0, true, &key), 0);
    TRY(kt_list(&tree, root, &at), 1);
    TRY(!strcmp(at.name, "l") && at.kind == KT_LINK, 1);
    TRY(kt_list(&tree, root, &at), 1);
    TRY(strlen(at.name) == KT_NAME_MAX && at.kind == KT_FILE && at.mode == 0604 && same(at.key, key), 1);
    TRY(kt_list(&tree, root, &at), 0);
    TRY(strlen(at.name) == KT_NAME_MAX, 1); /* as it was */
    TRY(kt_list(&tree, file, &at), -ENOTDIR);
    TRY(kt_list(&tree, (struct kt_key){0, 0}, &at), -ENOENT);
    TRY(kt_list(&hold, root, &at), -EINVAL);
    TRY(kt_remove(&tree, key) < 0, 0);
    TRY(kt_find(&tree, root, "b", 1, &key), 0);
    TRY(kt_remove(&tree, key) < 0, 0);
}

/* What kt_dump() writes. */
static const char *dumped(struct kt_key top, int32_t wanted)
{
    static char text[1000];
    FILE *out = tmpfile();
    size_t length;
    TRY(kt_dump(&tree, top, out), wanted);
    rewind(out);
    length = fread(text, 1, sizeof text - 1, out);
    text[length] = 0;
    fclose(out);
    return text;
}

static void dumps(void)
{
    TRY(kt_create_dir(&tree, dir, "sub", 3, true, &folder), 0);
    TRY(kt_create_file(&tree, folder, "deep", 4, 0400, 9, true, &key), 0);
    TRY(kt_create_dir(&tree, dir, "zero", 4, true, &key), 0);
    TRY(strcmp(dumped(root, 0), "d/\n  f 0644 tag 7\n  sub/\n    deep 0400 tag 9\n  zero/\nl -> f, slot 2\n"), 0);
    TRY(strcmp(dumped(folder, 0), "deep 0400 tag 9\n"), 0);
    TRY(kt_hold(&tree, folder, &hold), 0);
    TRY(kt_enter(&hold), 0);
    TRY(strcmp(dumped(dir, 0), "f 0644 tag 7\nsub/, holds 1, inside 1\n  deep 0400 tag 9\nzero/\n"), 0);
    TRY(kt_clear(&hold), 0);
    TRY(strcmp(dumped(key, 0), ""), 0);
    TRY(strcmp(dumped(file, -ENOTDIR), ""), 0);
    TRY(kt_remove(&tree, key) < 0, 0);
    TRY(strcmp(dumped(key, -ENOENT), ""), 0);
    TRY(kt_remove(&tree, folder) < 0, 0);
    TRY(kt_hide(&tree, file), 0);
    TRY(strcmp(dumped(root, 0), "d/\nl -> f, slot 2\n"), 0); /* only of live nodes */
    TRY(kt_unhide(&tree, file), 0);
}

static int64_t answers(struct kt_handle *call, void *data)
{
    (void)call;
    return *(int64_t *)data;
}

static void runs(void)
{
    int64_t own = -ENODEV, out = 5;
    TRY(kt_hold(&tree, file, &hold), 0);
    TRY(kt_run_into(&hold, &lock, answers, &own, &out), 0); /* it ran */
    TRY(out, -ENODEV);
    TRY(kt_run(&hold, &lock, answers, &own), -ENODEV);
    out = 5;
    TRY(kt_run_into(&other, &lock, answers, &own, &out), -EINVAL);
    TRY(kt_hide(&tree, file), 0);
    TRY(kt_run_into(&hold, &lock, answers, &own, &out), -ENODEV); /* it did not run */
    TRY(out, 5);
    TRY(kt_unhide_wait(&tree, file, &lock), 0);
    TRY(kt_unhide_wait(&tree, file, &lock), -EINVAL);
}

static void *leaves_later(void *answer)
{
    usleep(50 * 1000);
    *(int32_t *)answer = kt_leave_wake(&hold, &lock);
    return NULL;
}

static void waits(void)
{
    pthread_t thread;
    int32_t left = 1;
    TRY(kt_enter(&hold), 0);
    TRY(kt_hide(&tree, file), -EAGAIN);
    pthread_create(&thread, NULL, leaves_later, &left);
    TRY(kt_unhide_wait(&tree, file, &lock), 0); /* it waits for callers that are inside */
    pthread_join(thread, NULL);
    TRY(left, 0);
    TRY(kt_enter(&hold), 0);
    TRY(kt_remove_wait_for(&tree, dir, &lock, 0), -ETIMEDOUT);
    TRY(kt_remove_wait_for(&tree, dir, &lock, 1020), -ETIMEDOUT);
    TRY(kt_stat(&tree, dir, &stat), 0);
    TRY(stat.doomed, 1);
    pthread_create(&thread, NULL, leaves_later, &left);
    TRY(kt_remove_wait_for(&tree, dir, &lock, 60 * 1000) < 0, 0);
    pthread_join(thread, NULL);
    TRY(kt_stat(&tree, dir, &stat), -ENOENT);
    TRY(kt_remove_wait_for(&tree, root, &lock, 0), -EINVAL);
    TRY(kt_clear_wake(&hold, &lock), 0);
}

/* A node that is being removed has its name until it is out. */
static void names_that_go(void)
{
    TRY(kt_create_dir(&tree, root, "d", 1, true, &dir), 0);
    TRY(kt_create_file(&tree, dir, "f", 1, 0644, 7, true, &file), 0);
    TRY(kt_hold(&tree, file, &hold), 0);
    TRY(kt_enter(&hold), 0);
    TRY(kt_remove(&tree, dir), -EAGAIN);
    TRY(kt_create_dir(&tree, root, "d", 1, true, &key), -EEXIST);
    TRY(kt_find(&tree, root, "d", 1, &key), 0);
    TRY(same(key, dir), 1);
    TRY(kt_create_dir(&tree, dir, "x", 1, true, &key), -ENOENT);
    TRY(kt_leave(&hold), 1);
    TRY(kt_remove(&tree, dir) < 0, 0);
    TRY(kt_create_dir(&tree, root, "d", 1, true, &dir), 0);
    TRY(kt_clear(&hold), 0);
}

/* The slot of a removed node is not used again while it is held. A link does not hold its target: the removal of the
 * target leaves the link. */
static void slots(void)
{
    struct kt_key link_key, next;
    TRY(kt_create_file(&tree, root, "t", 1, 0644, 0, true, &file), 0);
    TRY(kt_create_link(&tree, root, "k", 1, file, true, &link_key), 0);
    TRY(kt_hold(&tree, file, &hold), 0);
    TRY(kt_remove(&tree, file) < 0, 0);
    TRY(kt_create_file(&tree, root, "u", 1, 0644, 0, true, &next), 0);
    TRY(next.slot == file.slot, 0);
    TRY(kt_clear(&hold), 0);
    TRY(kt_create_file(&tree, root, "v", 1, 0644, 0, true, &next), 0);
    TRY(next.slot == file.slot, 1);
    TRY(kt_stat(&tree, link_key, &stat), 0);
    TRY(same(stat.target, file), 1);
    TRY(kt_readlink(&tree, link_key, (char[8]){0}, 8), -ENOENT);
    TRY(kt_remove(&tree, link_key) < 0, 0);
}

/* A live node below one that is not live can be entered, but it is not listed from above. */
static void live_below_what_is_not(void)
{
    struct kt_child at = {.name = "v"};
    TRY(kt_create_dir(&tree, root, "w", 1, false, &dir), 0);
    TRY(kt_create_file(&tree, dir, "f", 1, 0644, 0, true, &file), 0);
    TRY(kt_hold(&tree, file, &hold), 0);
    TRY(kt_enter(&hold), 0);
    TRY(kt_leave(&hold), 0);
    TRY(kt_list(&tree, root, &at), 0);
    TRY(kt_clear(&hold), 0);
    TRY(kt_remove(&tree, dir) < 0, 0);
}

/* KT_PATH_MAX() is exactly enough for the deepest path of names of the greatest length. */
static void paths(void)
{
    enum { NAMES = 5 };
    char name[KT_NAME_MAX], path[KT_PATH_MAX(NAMES)];
    struct kt_key deep = root, first = root;
    memset(name, 'p', sizeof name);
    for (int i = 0; i < NAMES; i++) {
        TRY(kt_create_dir(&tree, deep, name, sizeof name, true, &deep), 0);
        if (!i)
            first = deep;
    }
    TRY(kt_path(&tree, deep, path, sizeof path), KT_PATH_MAX(NAMES));
    TRY(kt_path(&tree, deep, path, sizeof path - 1), -ERANGE);
    TRY(kt_walk(&tree, path, sizeof path, &key), 0);
    TRY(same(key, deep), 1);
    TRY(kt_remove(&tree, first) < 0, 0);
}

static int64_t clears(struct kt_handle *call, void *data)
{
    (void)data;
    return kt_clear_wake(call, &lock); /* ends the call, so that a removal can go on */
}

static void clears_inside(void)
{
    TRY(kt_create_file(&tree, root, "c", 1, 0644, 0, true, &file), 0);
    TRY(kt_hold(&tree, file, &hold), 0);
    TRY(kt_run(&hold, &lock, clears, NULL), 0);
    TRY(kt_enter(&hold), -EINVAL);
    TRY(kt_remove(&tree, file) < 0, 0);
}

/* Of a call that is broken already, and of a handle without a call: the claim is spent, and the caller removes by other
 * calls. */
static void removes_itself_too_late(void)
{
    TRY(kt_create_file(&tree, root, "s", 1, 0644, 0, true, &file), 0);
    TRY(kt_hold(&tree, file, &hold), 0);
    TRY(kt_enter(&hold), 0);
    TRY(kt_break(&hold), 0);
    TRY(kt_remove_self_wait(&tree, &hold, file, &lock), -EINVAL);
    TRY(kt_stat(&tree, file, &stat), 0);
    TRY(stat.doomed, 1);
    TRY(kt_claim(&tree, file), 1);
    TRY(kt_remove_wait(&tree, file, &lock) < 0, 0);
    TRY(kt_remove_self_wait(&tree, &hold, file, &lock), 0); /* it was gone */
    TRY(kt_remove_self_wait(&tree, &hold, (struct kt_key){file.slot, file.generation + 1}, &lock), -ENOENT);
    TRY(kt_remove_self_wait(&tree, &hold, root, &lock), -EINVAL);
    TRY(kt_restore(&hold), 0);
    TRY(kt_leave(&hold) < 0, 0);
    TRY(kt_clear(&hold) < 0, 0);
}

static void *removes(void *result)
{
    *(int32_t *)result = kt_remove_wait_for(&small, file, &lock, 60 * 1000);
    return NULL;
}

/* A marked node has the maximum of holds, which is two here. The removal waits for a place, until one of the holds is
 * cleared. */
static void removes_what_is_full(void)
{
    pthread_t thread;
    int32_t removed = 5;
    time_t start = time(NULL);
    TRY(kt_create_root(&small, 4, 2), 0);
    TRY(kt_root(&small, &root), 0);
    TRY(kt_create_file(&small, root, "f", 1, 0644, 0, true, &file), 0);
    TRY(kt_hold(&small, file, &hold), 0);
    TRY(kt_enter(&hold), 0);
    TRY(kt_remove(&small, file), -EAGAIN);
    TRY(kt_hold(&small, file, &other), 0);
    TRY(kt_leave(&hold), 1);
    TRY(kt_remove(&small, file), -EAGAIN); /* nobody is inside, and there is no place for its hold */
    pthread_create(&thread, NULL, removes, &removed);
    usleep(50 * 1000);
    TRY(kt_clear_wake(&other, &lock), 0);
    pthread_join(thread, NULL);
    TRY(removed, 1);
    TRY(time(NULL) - start < 30, 1); /* by the wake, and not by the end of its time */
    TRY(kt_clear_wake(&hold, &lock), 0);
}

/* The node has this number of holds, and `users` of them are inside. */
static void counted(struct kt_handle *of, uint32_t holds, uint32_t users)
{
    struct kt_node_counts counts = {99, 99};
    TRY(kt_counts(of, file, &counts), 0);
    TRY(counts.holds, holds);
    TRY(counts.users, users);
}

/* What frees a node's last place returns 1: somebody may wait for it. */
static void says_that_a_node_was_full(void)
{
    struct kt_handle third;
    struct kt_node_counts counts = {99, 99};
    TRY(kt_create_file(&small, root, "g", 1, 0644, 0, true, &file), 0);
    counted(&small, 0, 0);
    TRY(kt_hold(&small, file, &hold), 0);
    TRY(kt_dup(&hold, &other), -EMFILE); /* kt_dup() leaves the last place to the tree */
    TRY(kt_hold(&small, file, &other), 0);
    TRY(kt_enter(&other), 0);
    counted(&small, 2, 1);
    TRY(kt_clear(&other), 1); /* nobody waits for its call, but it had the last place */
    counted(&small, 1, 0);
    TRY(kt_clear(&hold), 0);
    TRY(kt_hold(&small, file, &hold), 0);
    TRY(kt_new(&third.at), 0);
    TRY(kt_hold(&small, file, &third), 0);
    TRY(kt_delete(third), 1);
    TRY(kt_clear(&hold), 0);
    TRY(kt_counts(&small, (struct kt_key){file.slot, file.generation + 1}, &counts), -ENOENT);
    TRY(kt_counts(&hold, file, &counts), -EINVAL);
    TRY(counts.holds, 99);
}

/* A marked node is full by what hides it. A removal shows it first, and then has a place. */
static void shows_what_is_full(void)
{
    TRY(kt_clear(&small), 0);
    TRY(kt_create_root(&small, 4, 3), 0);
    TRY(kt_create_file(&small, root, "h", 1, 0644, 0, true, &file), 0);
    TRY(kt_hold(&small, file, &hold), 0);
    TRY(kt_enter(&hold), 0);
    TRY(kt_hide(&small, file), -EAGAIN);
    TRY(kt_remove(&small, file), -EAGAIN);
    TRY(kt_hold(&small, file, &other), 0);
    counted(&small, 3, 1);
    TRY(kt_leave(&hold), 1);
    TRY(kt_remove(&small, file), 1);
    TRY(kt_clear(&other), 0);
    TRY(kt_clear(&hold), 0);
}

int main(void)
{
    TRY(kt_new(&tree.at), 0);
    TRY(kt_new(&hold.at), 0);
    TRY(kt_new(&other.at), 0);
    TRY(kt_new(&small.at), 0);
    TRY(kt_lock_init(&lock), 0);
    TRY(kt_create_root(&tree, 12, 4), 0);
    TRY(kt_root(&tree, &root), 0);
    TRY(kt_create_dir(&tree, root, "d", 1, true, &dir), 0);
    TRY(kt_create_file(&tree, dir, "f", 1, 0644, 7, true, &file), 0);
    TRY(kt_create_link(&tree, root, "l", 1, file, true, &key), 0);
    texts();
    children();
    dumps();
    runs();
    waits();
    names_that_go();
    slots();
    live_below_what_is_not();
    paths();
    clears_inside();
    removes_itself_too_late();
    removes_what_is_full();
    says_that_a_node_was_full();
    shows_what_is_full();
    TRY(kt_delete(small), 0);
    TRY(kt_delete(other), 0);
    TRY(kt_delete(hold), 0);
    TRY(kt_delete(tree), 0);
    kt_lock_destroy(&lock);
    return tried();
}
