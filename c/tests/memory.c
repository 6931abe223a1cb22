/* SPDX-License-Identifier: MIT OR Apache-2.0 */
/* A scenario in which each call is made again if memory was refused once: the output must not depend on that, nor how
 * much memory is in use at the end, which failing.c notes at the last read(). */
#include <pthread.h>

static int wakes; /* of the headers */
static int count_wake(pthread_cond_t *at) { return wakes++, pthread_cond_broadcast(at); }
#define pthread_cond_broadcast count_wake
#include <kernfs_tree.h>
#undef pthread_cond_broadcast
#include <stdio.h>
#include <string.h>
#include <unistd.h>

static struct kt_handle tree, hold, post, open, other, small, all;
static struct kt_key root, dir, file, key;
static struct kt_node_info stat;
static struct kt_lock lock = KT_LOCK_INIT;
static char text[300], long_name[201];

/* Makes the call, and again if memory was refused. */
#define AGAIN(call)                              \
    do {                                         \
        int64_t answer = call;                   \
        if (answer == -ENOMEM)                   \
            answer = call;                       \
        printf(#call ": %lld\n", (long long)answer); \
    } while (0)

/* A call that is refused for another cause is refused for that, whatever memory is refused: lack of memory is last. */
#define REFUSED(call) printf(#call ": %lld\n", (long long)(call))

/* Hides the file; if memory was refused, it is not hidden. */
static void hide(void)
{
    int32_t answer = kt_hide(&tree, file);
    if (answer == -ENOMEM) {
        if (kt_stat(&tree, file, &stat) || stat.hidden || kt_enter(&open) || kt_leave(&open))
            printf("it is hidden where memory was refused\n");
        answer = kt_hide(&tree, file);
    }
    printf("hidden: %d\n", answer);
}

/* A file with as many holds as there may be, in a directory. */
static void full(void)
{
    AGAIN(kt_new(&small.at));
    AGAIN(kt_new(&all.at));
    AGAIN(kt_create_root(&small, 4, 1));
    AGAIN(kt_root(&small, &root));
    AGAIN(kt_create_dir(&small, root, "d", 1, true, &dir));
    AGAIN(kt_create_file(&small, dir, "f", 1, 0644, 0, true, &file));
    AGAIN(kt_hold(&small, file, &all));
    REFUSED(kt_create_root(&small, 4, 1));
    REFUSED(kt_hold(&small, dir, &all));
    REFUSED(kt_event_open(&small, file, &all));
    REFUSED(kt_open(&small, file, true, false, &all));
    REFUSED(kt_hold(&small, file, &open));
    REFUSED(kt_dup(&all, &open));
    REFUSED(kt_open(&small, file, true, false, &open));
    REFUSED(kt_open(&small, root, true, false, &open));
    REFUSED(kt_hide(&small, file));
    REFUSED(kt_hide(&small, root));
    REFUSED(kt_claim(&small, file));
    REFUSED(kt_claim(&small, dir));
    REFUSED(kt_claim(&small, root));
    REFUSED(kt_remove(&small, file));
    REFUSED(kt_remove(&small, dir));
    REFUSED(kt_remove(&small, root));
    REFUSED(kt_unhide(&small, file));
}

static void list(struct kt_key at)
{
    char after[300];
    int64_t length = 0;
    for (;;) {
        int64_t next = kt_next(&tree, at, after, (size_t)length, text, sizeof text);
        if (next == -ENOMEM)
            next = kt_next(&tree, at, after, (size_t)length, text, sizeof text);
        if (next < 0)
            break;
        printf("  %.*s\n", (int)next, text);
        memcpy(after, text, (size_t)next);
        length = next;
    }
}

/* Dumps the tree, again and again until no memory was refused: then each line is as always. */
static void dump(void)
{
    static char lines[1 << 14];
    int32_t answer = -ENOMEM;
    while (answer == -ENOMEM) {
        FILE *out = fmemopen(lines, sizeof lines, "w");
        if (!out)
            continue;
        setvbuf(out, NULL, _IONBF, 0);
        answer = kt_dump(&tree, root, out);
        fclose(out);
    }
    printf("dumped: %d\n%s", answer, lines);
}

/* Removes its own directory; if memory was refused, nothing has changed, or the removal was completed. */
static int64_t remove_self(struct kt_handle *call, void *data)
{
    int32_t answer = kt_remove_self_wait(&tree, call, dir, &lock);
    (void)data;
    if (answer == -ENOMEM) {
        if (kt_stat(&tree, dir, &stat) || stat.doomed)
            printf("it is being removed where memory was refused\n");
        answer = kt_remove_self_wait(&tree, call, dir, &lock);
    }
    return answer;
}

static void own(void)
{
    AGAIN(kt_create_dir(&tree, root, "own", 3, true, &dir));
    AGAIN(kt_create_file(&tree, dir, "delete", 6, 0200, 0, true, &file));
    AGAIN(kt_hold(&tree, file, &hold));
    AGAIN(kt_run(&hold, &lock, remove_self, NULL));
    REFUSED(kt_stat(&tree, dir, &stat));
    AGAIN(kt_clear(&hold));
}

/* A looker of a tree, and a hold that it makes. */
static void look(void)
{
    struct kt_handle seen, sees, held;
    AGAIN(kt_new(&seen.at));
    AGAIN(kt_new(&sees.at));
    AGAIN(kt_new(&held.at));
    REFUSED(kt_create_root_with_looks(&seen, 8, 2, KT_SLOTS_MAX + 1));
    AGAIN(kt_create_root_with_looks(&seen, 8, 2, 8));
    AGAIN(kt_root(&seen, &root));
    AGAIN(kt_create_dir(&seen, root, "d", 1, true, &dir));
    REFUSED(kt_looker(&sees, &held));
    AGAIN(kt_looker(&seen, &sees));
    REFUSED(kt_looker(&seen, &sees));
    REFUSED(kt_look(&sees, "/e", 2, &key));
    REFUSED(kt_look(&sees, "/d", 2, &key));
    AGAIN(kt_pin(&sees, key, &held));
    REFUSED(kt_pin(&sees, key, &held));
    REFUSED(kt_pin(&sees, root, &seen));
    AGAIN(kt_clear(&held));
    kt_delete(held);
    kt_delete(sees);
    kt_delete(seen);
}

/* Makes a gate. If memory was refused, the hold was inside for a moment, so it is a hold and threads are woken. */
static int32_t make_gate(struct kt_handle *hot, struct kt_handle *first)
{
    int32_t answer;
    wakes = 0;
    answer = kt_gate_wake(hot, 3, first, &lock);
    if (answer == -ENOMEM) {
        if (wakes != 1 || kt_enter(hot) || kt_leave(hot))
            printf("it is no hold, or nobody was woken, where memory was refused\n");
        answer = kt_gate_wake(hot, 3, first, &lock);
    }
    return answer;
}

/* A gate of a directory, another pass of it, and its removal. */
static void gate(void)
{
    struct kt_handle hot, first, second;
    AGAIN(kt_new(&hot.at));
    AGAIN(kt_new(&first.at));
    AGAIN(kt_new(&second.at));
    AGAIN(kt_create_dir(&tree, root, "hot", 3, true, &dir));
    AGAIN(kt_create_file(&tree, dir, "f", 1, 0644, 0, true, &file));
    AGAIN(kt_hold(&tree, dir, &hot));
    REFUSED(kt_gate(&hot, 0, &first));
    REFUSED(kt_gate(&hot, 3, &tree));
    REFUSED(make_gate(&hot, &first));
    REFUSED(kt_pass(&first, 1, &hot));
    AGAIN(kt_pass(&first, 1, &second));
    REFUSED(kt_pass_enter(&second));
    REFUSED(kt_pass_leave(&second));
    AGAIN(kt_remove_gated_wait(&tree, &hot, dir, &lock));
    REFUSED(kt_remove_gated_wait(&tree, &hot, dir, &lock));
    REFUSED(kt_pass_enter(&second));
    kt_delete(second);
    kt_delete(first);
    kt_delete(hot);
}

int main(void)
{
    static char buffer[1 << 16];
    setvbuf(stdout, buffer, _IOFBF, sizeof buffer);
    memset(long_name, 'n', 200);
    AGAIN(kt_new(&tree.at));
    AGAIN(kt_new(&hold.at));
    AGAIN(kt_create_root(&tree, 64, 8));
    AGAIN(kt_root(&tree, &root));
    AGAIN(kt_create_dir(&tree, root, long_name, 200, false, &dir));
    for (int i = 0; i < 12; i++) {
        char name[] = {(char)('a' + i)};
        AGAIN(kt_create_file(&tree, dir, name, 1, 0644, (uint64_t)i, false, &file));
    }
    AGAIN(kt_create_link(&tree, root, "link", 4, file, false, &key));
    AGAIN(kt_activate(&tree, root));
    list(root);
    list(dir);
    AGAIN(kt_readlink(&tree, key, text, sizeof text));
    AGAIN(kt_name(&tree, dir, text, sizeof text));
    printf("  %.200s\n", text);
    AGAIN(kt_path(&tree, file, text, sizeof text));
    printf("  %.203s\n", text);
    AGAIN(kt_parent(&tree, file, &key));
    AGAIN(kt_rename(&tree, file, root, long_name, 199));
    AGAIN(kt_compact(&tree));
    dump();
    AGAIN(kt_new(&post.at));
    AGAIN(kt_event_open(&tree, file, &post));
    AGAIN(kt_notify(&post));
    AGAIN(kt_new(&open.at));
    AGAIN(kt_open(&tree, file, true, true, &open));
    AGAIN(kt_begin_read(&open, 0));
    AGAIN(kt_shown(&open, "text", 4));
    AGAIN(kt_leave(&open));
    hide();
    AGAIN(kt_enter(&open));
    AGAIN(kt_unhide(&tree, file));
    AGAIN(kt_hold(&tree, file, &hold));
    AGAIN(kt_new(&other.at));
    REFUSED(kt_dup(&post, &other));
    REFUSED(kt_dup(&open, &other));
    REFUSED(kt_dup(&hold, &post));
    AGAIN(kt_dup(&hold, &other));
    AGAIN(kt_enter(&hold));
    AGAIN(kt_clear(&other));
    AGAIN(kt_stat(&tree, file, &stat));
    AGAIN(kt_claim(&tree, dir));
    AGAIN(kt_remove(&tree, dir));
    AGAIN(kt_remove(&tree, file));
    AGAIN(kt_leave(&hold));
    AGAIN(kt_remove(&tree, file));
    AGAIN(kt_clear(&hold));
    own();
    gate();
    list(root);
    AGAIN(kt_copy(&open, 0, text, sizeof text));
    kt_clear(&open);
    full();
    look();
    kt_delete(all);
    kt_delete(small);
    kt_delete(other);
    kt_delete(post);
    kt_delete(open);
    kt_delete(hold);
    kt_delete(tree);
    (void)!read(-1, text, 0);
    return 0;
}
