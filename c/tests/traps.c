/* SPDX-License-Identifier: MIT OR Apache-2.0 */
/* Threads that are cancelled, or that end by pthread_exit(), in callbacks and in waits: no lock stays locked, no call
 * and no pass stays inside, and each removal and each shutting of a gate ends. A signal ends a program that hangs. It prints a line for each test; the last line is 'N passed, M failed'. */
#include <kt_live.h>
#include <sched.h>
#include <stdatomic.h>
#include <unistd.h>

#include "trying.h"

static struct kt_lock lock = KT_LOCK_INIT;
static struct kt_handle tree, hold, file, other, pass;
static struct kt_key root, key;
static struct kt_live *live;
static struct kt_live_file *open_file;
static atomic_int inside;
static bool exits; /* whether a callback ends its thread itself */

/* Waits until it is cancelled; or ends its thread. */
static int64_t stay(void)
{
    atomic_store(&inside, 1);
    if (exits)
        pthread_exit(&inside);
    for (;;)
        poll(NULL, 0, 1000);
    return 0;
}

static int64_t callback(struct kt_handle *call, void *data)
{
    (void)data;
    kt_break_wake(call, &lock); /* a broken call is left too */
    return stay();
}
static int64_t show(struct kt_handle *call, void *data, char *page)
{
    return (void)call, (void)data, (void)page, stay();
}
static int64_t store(struct kt_handle *call, void *data, const char *bytes, size_t length)
{
    return (void)call, (void)data, (void)bytes, (void)length, stay();
}
static int64_t live_show(void *device, const struct kt_attribute *attribute, char *page)
{
    return (void)device, (void)attribute, (void)page, stay();
}
static int64_t live_store(void *device, const struct kt_attribute *attribute, const char *bytes, size_t length)
{
    return (void)device, (void)attribute, (void)bytes, (void)length, stay();
}
static int64_t live_function(void *device, void *data) { return (void)device, (void)data, stay(); }
static const struct kt_attribute attributes[] = {{"speed", 0644, live_show, live_store, 0}};

static void *passes(void *out) { return kt_pass_run(&pass, &lock, callback, NULL) ? out : NULL; }
static void *runs(void *out) { return kt_run(&hold, &lock, callback, NULL) ? out : NULL; }
static void *reads(void *out) { return kt_read(&file, &lock, 0, NULL, 0, show, NULL) ? out : NULL; }
static void *writes(void *out) { return kt_write(&file, &lock, "1", 1, store, NULL) ? out : NULL; }
static void *live_reads(void *out) { return kt_live_read(live, "/d/speed", NULL, 0) ? out : NULL; }
static void *live_writes(void *out) { return kt_live_write(live, "/d/speed", "1", 1) ? out : NULL; }
static void *live_runs(void *out) { return kt_live_run(live, "/d", live_function, NULL) ? out : NULL; }
static void *live_preads(void *out) { return kt_live_pread(open_file, 0, NULL, 0) ? out : NULL; }
static void *live_pwrites(void *out) { return kt_live_pwrite(open_file, "1", 1) ? out : NULL; }

/* Waits for the node that `other` is inside. */
static void *removes(void *out)
{
    atomic_store(&inside, 1);
    return kt_remove_wait(&tree, key, &lock) ? out : NULL;
}
static void *hides(void *out)
{
    atomic_store(&inside, 1);
    return kt_hide_wait(&tree, key, &lock) ? out : NULL;
}

/* Waits for the pass, and for what `other` is inside. (The hold is a gate.) */
static void *shuts(void *out)
{
    atomic_store(&inside, 1);
    return kt_shut_wait(&hold, &lock) ? out : NULL;
}
static void *shuts_long(void *out)
{
    atomic_store(&inside, 1);
    return kt_shut_wait_for(&hold, &lock, 3600 * 1000) ? out : NULL;
}
static void *removes_gated(void *out)
{
    atomic_store(&inside, 1);
    return kt_remove_gated_wait(&tree, &hold, key, &lock) ? out : NULL;
}

/* Runs this in a thread that is cancelled once it is inside, or ends there itself. Whether it did. */
static bool ends(void *(*what)(void *), bool by_itself)
{
    pthread_t thread;
    void *out;
    atomic_store(&inside, 0);
    exits = by_itself;
    pthread_create(&thread, NULL, what, NULL);
    while (!atomic_load(&inside))
        sched_yield();
    if (!by_itself)
        pthread_cancel(thread);
    pthread_join(thread, &out);
    return out == (by_itself ? (void *)&inside : PTHREAD_CANCELED);
}

/* A new tree with a file, a hold, another hold and an open file of it. */
static void begin(void)
{
    alarm(300);
    if (kt_new(&tree.at) || kt_new(&hold.at) || kt_new(&file.at) || kt_new(&other.at) || kt_new(&pass.at) ||
        kt_create_root(&tree, 16, 16) || kt_root(&tree, &root) ||
        kt_create_file(&tree, root, "f", 1, 0644, 0, true, &key) || kt_hold(&tree, key, &hold) ||
        kt_open(&tree, key, true, true, &file) || kt_hold(&tree, key, &other))
        abort();
}

static void end(void)
{
    (void)kt_clear_wake(&hold, &lock);
    (void)kt_clear_wake(&file, &lock);
    (void)kt_clear_wake(&other, &lock);
    TRY(kt_delete(hold) || kt_delete(file) || kt_delete(other) || kt_delete(pass) || kt_delete(tree), 0);
}

static void try_callbacks(bool by_itself)
{
    void *(*each[])(void *) = {runs, reads, writes};
    for (size_t i = 0; i < sizeof each / sizeof *each; i++) {
        begin();
        TRY(ends(each[i], by_itself), true);
        TRY(kt_remove_wait(&tree, key, &lock), 1);
        end();
    }
    begin();
    TRY(kt_gate(&hold, 1, &pass), 0);
    TRY(ends(passes, by_itself), true);
    TRY(kt_remove_gated_wait(&tree, &hold, key, &lock), 1);
    end();
}

static void is_unlocked(void)
{
    TRY(pthread_mutex_trylock(&lock.mutex), 0);
    pthread_mutex_unlock(&lock.mutex);
}

/* A thread that shuts a gate is cancelled while a pass is inside, and then one that waits for a call besides. */
static void try_gate(void *(*what)(void *), bool is_marked)
{
    begin();
    TRY(kt_gate(&hold, 1, &pass), 0);
    TRY(kt_enter(&other), 0);
    TRY(kt_pass_enter(&pass), 0);
    TRY(ends(what, false), true);
    is_unlocked();
    TRY(kt_enter(&file), is_marked ? -ENODEV : 0);
    TRY(kt_pass_leave_wake(&pass, &lock), 0);
    TRY(kt_pass_enter_wake(&pass, &lock), -ENODEV); /* the gate stays shut, and has its call */
    TRY(kt_clear(&hold), -EBUSY);
    TRY(ends(removes_gated, false), true);
    is_unlocked();
    TRY(kt_enter(&hold), -ENODEV); /* it was closed, and is a hold again */
    TRY(kt_leave_wake(&other, &lock), 0);
    (void)kt_clear_wake(&file, &lock);
    TRY(kt_remove_gated_wait(&tree, &hold, key, &lock), 1);
    end();
}

static void try_waits(void)
{
    begin();
    TRY(kt_enter(&other), 0);
    TRY(ends(hides, false), true);
    is_unlocked();
    TRY(ends(removes, false), true);
    is_unlocked();
    TRY(kt_leave_wake(&other, &lock), 0);
    TRY(kt_remove_wait(&tree, key, &lock), 1);
    end();
}

static void try_live(bool by_itself)
{
    void *(*each[])(void *) = {live_reads, live_writes, live_runs, live_preads, live_pwrites};
    struct kt_key dir;
    for (size_t i = 0; i < sizeof each / sizeof *each; i++) {
        TRY(kt_live_new(&live, 16), 0);
        TRY(kt_live_publish(live, "/d", attributes, 1, NULL, &dir), 0);
        TRY(kt_live_open(live, "/d/speed", true, true, &open_file), 0);
        TRY(ends(each[i], by_itself), true);
        TRY(kt_live_inside(live, "/", stdout), 0);
        TRY(kt_live_unpublish(live, dir), 1);
        TRY(kt_live_close(open_file), 0);
        TRY(kt_live_delete(live), 0);
    }
}

int main(void)
{
    for (int by_itself = 0; by_itself < 2; by_itself++) {
        try_callbacks(by_itself);
        try_live(by_itself);
    }
    try_waits();
    try_gate(shuts, false);
    try_gate(shuts_long, false);
    try_gate(removes_gated, true);
    return tried();
}
