/* SPDX-License-Identifier: MIT OR Apache-2.0 */
/* Wrong uses that the library cannot see, each in a new process:  wrong NAME  runs one, for tests/wrong.py, which knows
 * what a sanitizer must report. Uses whose name begins with `right` are right: nothing may be reported. */
#include <kt_live.h>
#include <stdlib.h>
#include <unistd.h>

enum { TURNS = 2000 };

static struct kt_handle tree, hold, file;
static struct kt_lock lock = KT_LOCK_INIT;
static struct kt_key root, dir, dir_file, other;
static char text[16];
static int plain; /* not atomic: its changes must be ordered by something */

static void must(int64_t answer)
{
    if (answer < 0) {
        fprintf(stderr, "%s\n", kt_strerror(answer));
        exit(1);
    }
}

/* A hold of a node, in a new handle. */
static struct kt_handle hold_of(struct kt_key key)
{
    struct kt_handle made;
    must(kt_new(&made.at));
    pthread_mutex_lock(&lock.mutex);
    must(kt_hold(&tree, key, &made));
    pthread_mutex_unlock(&lock.mutex);
    return made;
}

static void start(void)
{
    must(kt_new(&tree.at));
    must(kt_create_root(&tree, 16, 8));
    must(kt_root(&tree, &root));
    must(kt_create_dir(&tree, root, "d", 1, true, &dir));
    must(kt_create_file(&tree, dir, "f", 1, 0644, 0, true, &dir_file));
    must(kt_create_file(&tree, root, "g", 1, 0644, 0, true, &other));
    hold = hold_of(dir_file);
    must(kt_new(&file.at));
    must(kt_open(&tree, other, true, true, &file));
}

static void end(void)
{
    kt_delete(hold);
    kt_delete(file);
    kt_delete(tree);
}

static void two_threads(void *one(void *), void *two(void *))
{
    pthread_t threads[2];
    pthread_create(&threads[0], NULL, one, NULL);
    pthread_create(&threads[1], NULL, two, NULL);
    pthread_join(threads[0], NULL);
    pthread_join(threads[1], NULL);
}

/* ---- after kt_delete() ---- */

static void entered(void) { kt_delete(hold); must(kt_enter(&hold)); }
static void left(void) { kt_delete(hold); kt_leave(&hold); }
static void cleared(void) { kt_delete(hold); kt_clear(&hold); }
static void deleted(void) { kt_delete(hold); kt_delete(hold); }
static void walked(void) { kt_delete(tree); must(kt_walk(&tree, "/d", 2, &dir)); }
static void held(void) { kt_delete(hold); must(kt_hold(&tree, dir_file, &hold)); }
static void doubled(void) { kt_clear(&file); kt_delete(hold); must(kt_dup(&hold, &file)); }
static void copied(void) { kt_delete(file); must(kt_copy(&file, 0, text, sizeof text)); }

static int64_t delete_it(struct kt_handle *call, void *data)
{
    (void)data;
    return kt_delete(*call);
}
static void deleted_inside(void) { must(kt_run(&hold, &lock, delete_it, NULL)); }

/* ---- texts that are shorter than they are said to be ---- */

static volatile size_t beyond = 200; /* (the compiler warns of what it knows to be wrong) */

static char *short_text(void)
{
    char *made = (char *)malloc(2);
    memcpy(made, "/g", 2);
    return made;
}
static void long_path(void) { must(kt_walk(&tree, short_text(), beyond, &other)); }
static void long_name(void) { must(kt_find(&tree, root, short_text() + 1, beyond, &other)); }
static void long_new_name(void) { must(kt_create_dir(&tree, root, short_text() + 1, beyond, true, &other)); }
static void long_shown(void)
{
    must(kt_begin_read(&file, 0));
    kt_shown(&file, short_text(), beyond);
}

/* A handle that kt_new() has not made. */
static void zeroed(void)
{
    struct kt_handle none = {NULL};
    must(kt_enter(&none));
}

/* ---- one handle in two threads, and a tree without its lock ---- */

static void *enters(void *data)
{
    for (int i = 0; i < TURNS; i++)
        if (!kt_enter(&hold))
            kt_leave(&hold);
    return data;
}
static void one_hold(void) { two_threads(enters, enters); }

static void *reads_length(void *data)
{
    for (int i = 0; i < TURNS; i++)
        if (kt_copy(&file, 0, text, 0) > 0)
            return data;
    return data;
}
static void one_file(void) { two_threads(reads_length, reads_length); }

static void *looks(void *data)
{
    struct kt_key found;
    for (int i = 0; i < TURNS; i++)
        must(kt_walk(&tree, "/d/f", 4, &found));
    return data;
}
static void no_lock(void) { two_threads(looks, looks); }

static void *looks_locked(void *data)
{
    struct kt_key found;
    for (int i = 0; i < TURNS; i++) {
        pthread_mutex_lock(&lock.mutex);
        must(kt_walk(&tree, "/d/f", 4, &found));
        pthread_mutex_unlock(&lock.mutex);
    }
    return data;
}
static void half_locked(void) { two_threads(looks, looks_locked); }
static void right_lock(void) { two_threads(looks_locked, looks_locked); }

static void *deletes(void *data)
{
    kt_delete(hold);
    return data;
}
static void *enters_once(void *data)
{
    if (!kt_enter(&hold))
        kt_leave(&hold);
    return data;
}
static void deleted_meanwhile(void) { two_threads(enters_once, deletes); }

/* ---- what callbacks change ---- */

static int64_t change(struct kt_handle *call, void *data)
{
    (void)call;
    ++*(int *)data;
    return 0;
}

static void runs_at(struct kt_key key)
{
    struct kt_handle own = hold_of(key);
    for (int i = 0; i < TURNS; i++)
        if (kt_run(&own, &lock, change, &plain) == -ENODEV)
            break;
    kt_clear_wake(&own, &lock);
    kt_delete(own);
}
static void *runs_here(void *data) { runs_at(dir_file); return data; }
static void *runs_there(void *data) { runs_at(other); return data; }

/* Two callbacks of one node run at once: if both change something, that is a race of the program. */
static void one_node(void) { two_threads(runs_here, runs_here); }

/* So it is for callbacks of two nodes, even if a third node is removed between their steps. */
static void *runs_and_removes(void *data)
{
    struct kt_key gone;
    pthread_mutex_lock(&lock.mutex);
    must(kt_create_file(&tree, root, "h", 1, 0644, 0, true, &gone));
    pthread_mutex_unlock(&lock.mutex);
    usleep(20000); /* the other thread has left its calls */
    struct kt_handle own = hold_of(other);
    must(kt_remove(&tree, gone)); /* (the other thread takes no lock now) */
    must(kt_run(&own, &lock, change, &plain));
    kt_delete(own);
    return data;
}
static void *runs_once(void *data)
{
    if (!kt_enter(&hold)) {
        change(&hold, &plain);
        kt_leave(&hold);
    }
    return data;
}
static void two_nodes(void) { two_threads(runs_once, runs_and_removes); }

static void *runs_alone(void *data)
{
    for (int i = 0; i < TURNS && kt_run(&hold, &lock, change, data) != -ENODEV; i++)
        ;
    kt_clear_wake(&hold, &lock);
    return NULL;
}

/* What callbacks change is freed once a removal is over, of the node and of one above it, also by another name. */
static void removes(struct kt_key key, bool is_moved)
{
    pthread_t thread;
    int *device = (int *)calloc(1, sizeof *device);
    pthread_create(&thread, NULL, runs_alone, device);
    usleep(1000);
    if (is_moved) {
        struct kt_key place;
        pthread_mutex_lock(&lock.mutex);
        must(kt_create_dir(&tree, root, "e", 1, true, &place));
        must(kt_rename(&tree, dir_file, place, "moved", 5));
        pthread_mutex_unlock(&lock.mutex);
        key = place;
    }
    must(kt_remove_wait(&tree, key, &lock));
    *device = -1;
    free(device);
    pthread_join(thread, NULL);
}
static void right_removal(void) { removes(dir_file, false); }
static void right_removal_above(void) { removes(dir, false); }
static void right_removal_moved(void) { removes(dir, true); }
static void right_second_hold(void)
{
    struct kt_handle first = hold;
    must(kt_new(&hold.at));
    must(kt_dup(&first, &hold));
    kt_delete(first);
    removes(dir, false);
}

/* Freed without that, it is a race. */
static void freed_early(void)
{
    pthread_t thread;
    int *device = (int *)calloc(1, sizeof *device);
    pthread_create(&thread, NULL, runs_alone, device);
    usleep(1000);
    *device = -1;
    pthread_join(thread, NULL);
    free(device);
}

/* ---- what callbacks by passes change ---- */

static struct kt_handle pass;

/* A gate of a node, in a new handle; and its first pass. */
static struct kt_handle gate_of(struct kt_key key)
{
    struct kt_handle gate = hold_of(key);
    must(kt_new(&pass.at));
    must(kt_gate(&gate, 2, &pass));
    return gate;
}

static void *passes(void *data)
{
    for (int i = 0; i < TURNS && kt_pass_run(&pass, &lock, change, data) != -ENODEV; i++)
        ;
    return data;
}
static void *enters_by_pass(void *data)
{
    for (int i = 0; i < TURNS; i++)
        if (!kt_pass_enter(&pass))
            kt_pass_leave(&pass);
    return data;
}
static void one_pass(void) { (void)gate_of(dir_file), two_threads(enters_by_pass, enters_by_pass); }
static void passed(void) { (void)gate_of(dir_file), kt_delete(pass), must(kt_pass_enter(&pass)); }

/* It is freed once the gate is shut, or its node is removed, or else too early. */
static void shuts(bool is_removed, bool is_early)
{
    pthread_t thread;
    int *device = (int *)calloc(1, sizeof *device);
    struct kt_handle gate = gate_of(dir_file);
    pthread_create(&thread, NULL, passes, device);
    usleep(1000);
    if (!is_early)
        must(is_removed ? kt_remove_gated_wait(&tree, &gate, dir_file, &lock) : kt_shut_wait(&gate, &lock));
    *device = -1;
    pthread_join(thread, NULL);
    free(device);
    if (is_early)
        must(kt_shut_wait(&gate, &lock));
    kt_delete(gate);
    kt_delete(pass);
}
static void right_shutting(void) { shuts(false, false); }
static void right_gated_removal(void) { shuts(true, false); }
static void shut_early(void) { shuts(false, true); }

/* The shutting of one gate orders nothing about callbacks by passes of another. */
static void *passes_once(void *data)
{
    if (!kt_pass_enter(&pass)) {
        change(&pass, &plain);
        kt_pass_leave(&pass);
    }
    return data;
}
static void *shuts_another(void *data)
{
    struct kt_handle own = hold_of(other), its;
    must(kt_new(&its.at));
    must(kt_gate(&own, 1, &its));
    usleep(20000); /* the other thread has left */
    must(kt_shut(&own));
    change(&own, &plain);
    return data;
}
static void two_gates(void) { (void)gate_of(dir_file), two_threads(passes_once, shuts_another); }

/* What is changed while a file is hidden, and while a node is not activated yet. */
static void right_hiding(void)
{
    pthread_t thread;
    pthread_create(&thread, NULL, runs_alone, &plain);
    usleep(1000);
    must(kt_hide_wait(&tree, dir_file, &lock));
    plain = 7;
    must(kt_unhide_wait(&tree, dir_file, &lock));
    must(kt_remove_wait(&tree, dir_file, &lock));
    pthread_join(thread, NULL);
}

static void *waits_until_live(void *data)
{
    struct kt_handle own = *(struct kt_handle *)data;
    while (kt_run(&own, &lock, change, &plain) == -ENODEV)
        usleep(100);
    return data;
}
static void right_activation(void)
{
    pthread_t thread;
    struct kt_key later;
    must(kt_create_file(&tree, dir, "later", 5, 0644, 0, false, &later));
    struct kt_handle own = hold_of(later);
    pthread_create(&thread, NULL, waits_until_live, &own);
    usleep(1000);
    plain = 7;
    pthread_mutex_lock(&lock.mutex);
    must(kt_activate(&tree, dir));
    pthread_mutex_unlock(&lock.mutex);
    pthread_join(thread, NULL);
    kt_delete(own);
}

static void right_handles(void) /* more than the table of kt_check.h can hold */
{
    static struct kt_handle many[6000];
    for (int i = 0; i < 6000; i++)
        must(kt_new(&many[i].at));
    right_removal();
    for (int i = 0; i < 6000; i++)
        kt_delete(many[i]);
}

/* ---- keys of another tree ---- */

static struct kt_handle second;
static struct kt_key second_dir;

/* A second tree with a directory in it. */
static void start_second(void)
{
    struct kt_key at;
    must(kt_new(&second.at));
    must(kt_create_root(&second, 16, 8));
    must(kt_root(&second, &at));
    must(kt_create_dir(&second, at, "d", 1, true, &second_dir));
}
static void other_key(void)
{
    struct kt_node_info info;
    start_second();
    must(kt_stat(&tree, second_dir, &info));
}
static void other_key_back(void)
{
    struct kt_handle made;
    start_second();
    must(kt_new(&made.at));
    must(kt_hold(&second, dir_file, &made));
}
static void other_parent(void)
{
    start_second();
    must(kt_create_dir(&second, dir, "e", 1, true, &other));
}
static void other_target(void)
{
    start_second();
    must(kt_create_link(&second, second_dir, "l", 1, dir_file, true, &other));
}
static void other_place(void)
{
    start_second();
    must(kt_rename(&tree, dir_file, second_dir, "f", 1));
}
static void freed_tree(void)
{
    struct kt_key before;
    start_second();
    before = second_dir;
    must(kt_delete(second));
    start_second();
    must(kt_remove(&second, before));
}
static void other_live(void)
{
    struct kt_live *one, *two;
    struct kt_key key, key_of_two;
    must(kt_live_new(&one, 16));
    must(kt_live_new(&two, 16));
    must(kt_live_publish(one, "/a", NULL, 0, NULL, &key));
    must(kt_live_publish(two, "/b", NULL, 0, NULL, &key_of_two));
    must(kt_live_unpublish(one, key_of_two));
}

/* Each tree with its own keys, also old ones, and those of no tree; more trees than the table of kt_keys.h can hold. */
static void right_trees(void)
{
    static struct kt_handle many[100];
    struct kt_key keys[100], again, none = {0, 0};
    struct kt_node_info info;
    struct kt_command_counts counts;
    for (int i = 0; i < 100; i++) {
        must(kt_new(&many[i].at));
        must(kt_create_root(&many[i], 1 + (uint32_t)i, 3));
        must(kt_commands(&many[i], &counts));
        if (counts.stored || kt_stat(&many[i], none, &info) != -ENOENT)
            exit(1);
        must(kt_root(&many[i], &keys[i]));
        if (i)
            must(kt_create_file(&many[i], keys[i], "A", 1, 0644, 0, true, &keys[i]));
    }
    for (int i = 1; i < 100; i++) {
        must(kt_remove(&many[i], keys[i]));
        must(kt_create_dir(&many[i], (struct kt_key){0, 1}, "d", 1, true, &again));
        if (kt_stat(&many[i], keys[i], &info) != -ENOENT || kt_stat(&many[i], again, &info))
            exit(1);
    }
    for (int i = 0; i < 100; i++)
        must(kt_delete(many[i]));
}

static const struct use {
    const char *name;
    void (*run)(void);
} uses[] = {
    {"entered", entered}, {"left", left}, {"cleared", cleared}, {"deleted", deleted}, {"walked", walked},
    {"held", held}, {"copied", copied}, {"doubled", doubled}, {"deleted_inside", deleted_inside}, {"zeroed", zeroed},
    {"long_path", long_path}, {"long_name", long_name}, {"long_new_name", long_new_name},
    {"long_shown", long_shown}, {"one_hold", one_hold}, {"one_file", one_file}, {"no_lock", no_lock},
    {"half_locked", half_locked}, {"right_lock", right_lock}, {"deleted_meanwhile", deleted_meanwhile},
    {"other_key", other_key}, {"other_key_back", other_key_back}, {"other_parent", other_parent},
    {"other_target", other_target}, {"other_place", other_place}, {"freed_tree", freed_tree},
    {"other_live", other_live}, {"right_trees", right_trees},
    {"one_node", one_node}, {"two_nodes", two_nodes}, {"freed_early", freed_early},
    {"right_removal", right_removal}, {"right_removal_above", right_removal_above},
    {"right_removal_moved", right_removal_moved}, {"right_second_hold", right_second_hold},
    {"right_hiding", right_hiding},
    {"right_activation", right_activation}, {"right_handles", right_handles},
    {"one_pass", one_pass}, {"passed", passed}, {"right_shutting", right_shutting},
    {"right_gated_removal", right_gated_removal}, {"shut_early", shut_early}, {"two_gates", two_gates},
};

int main(int count, char **words)
{
    (void)runs_there;
    for (size_t i = 0; i < sizeof uses / sizeof *uses; i++)
        if (count == 2 && !strcmp(words[1], uses[i].name)) {
            start();
            uses[i].run();
            if (!strncmp(words[1], "right", 5))
                end();
            return 0;
        }
    return 2;
}
