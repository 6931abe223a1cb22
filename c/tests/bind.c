/* SPDX-License-Identifier: MIT OR Apache-2.0 */
/* kt_bind.h: each call, with right and wrong uses. It prints a line for each; the last line is 'N passed, M failed'. */
#include "trying.h"
#include <kt_bind.h>
#include <stdatomic.h>
#include <string.h>

static struct kt_bind_lock *lock;
static struct kt_handle tree, hold, second, file;
static struct kt_key root, fan, speed;
static atomic_int entered;

static void start(uint32_t holds)
{
    TRY(kt_bind_new_lock(&lock), 0);
    TRY(kt_new(&tree.at) || kt_new(&hold.at) || kt_new(&second.at) || kt_new(&file.at), 0);
    TRY(kt_create_root(&tree, 16, holds), 0);
    TRY(kt_root(&tree, &root), 0);
    TRY(kt_create_dir(&tree, root, "fan0", 4, true, &fan), 0);
    TRY(kt_create_file(&tree, fan, "speed", 5, 0644, 0, true, &speed), 0);
}

static void end(void)
{
    TRY(kt_bind_delete(hold, lock), 0);
    TRY(kt_bind_delete(second, lock), 0);
    TRY(kt_bind_delete(file, lock), 0);
    TRY(kt_bind_delete(tree, lock), 0);
    kt_bind_delete_lock(lock);
}

static int64_t count(struct kt_handle *call, void *data)
{
    (void)call;
    atomic_fetch_add(&entered, 1);
    return *(int64_t *)data;
}

static int64_t left_broken(struct kt_handle *call, void *data)
{
    (void)data;
    return kt_bind_break(call, lock);
}

static int64_t show(struct kt_handle *call, void *data, char *page)
{
    (void)call, (void)data;
    memcpy(page, "1200\n", 5);
    return 5;
}

static int64_t store(struct kt_handle *call, void *data, const char *bytes, size_t length)
{
    (void)call, (void)data, (void)bytes;
    return (int64_t)length;
}

/* The thread that has the lock may wake, enter, leave and free, and gets -EDEADLK from all that would wait for it. */
static void try_lock(void)
{
    int64_t out = 0;
    char text[8];
    TRY(kt_bind_is_mine(lock), 0);
    TRY(kt_bind_take(lock), 0);
    TRY(kt_bind_is_mine(lock), 1);
    TRY(kt_bind_take(lock), -EDEADLK);
    kt_bind_wake(lock);
    TRY(kt_hold(&tree, speed, &hold), 0);
    TRY(kt_open(&tree, speed, true, true, &file), 0);
    TRY(kt_bind_enter(&hold, lock), 0);
    TRY(kt_bind_leave(&hold, lock), 0);
    TRY(kt_bind_remove(&tree, fan, lock, -1), -EDEADLK);
    TRY(kt_bind_hide(&tree, speed, lock, -1), -EDEADLK);
    TRY(kt_bind_unhide(&tree, speed, lock, -1), -EDEADLK);
    TRY(kt_bind_remove_self(&tree, &hold, speed, lock), -EDEADLK);
    TRY(kt_bind_run(&hold, lock, count, &out, &out), -EDEADLK);
    TRY(kt_bind_read(&file, lock, 0, text, sizeof text, show, NULL), -EDEADLK);
    TRY(kt_bind_write(&file, lock, "7", 1, store, NULL), -EDEADLK);
    TRY(kt_bind_poll(&file, lock), -EDEADLK);
    TRY(kt_bind_clear(&hold, lock), 0);
    TRY(kt_hold(&tree, speed, &hold), 0);
    kt_bind_release(lock);
    TRY(kt_bind_is_mine(lock), 0);
    TRY(atomic_load(&entered), 0);
}

static void try_calls(void)
{
    int64_t seven = 7, out = 0;
    char text[8];
    TRY(kt_bind_run(&hold, lock, count, &seven, &out), 0);
    TRY(out, 7);
    TRY(kt_bind_run(&hold, lock, left_broken, NULL, &out), 0);
    TRY(kt_bind_enter(&hold, lock), 0);
    TRY(kt_bind_enter(&hold, lock), -EINVAL);
    TRY(kt_bind_break(&hold, lock), 0);
    TRY(kt_bind_leave(&hold, lock), 0);
    TRY(kt_bind_leave(&hold, lock), -EINVAL);
    TRY(kt_bind_read(&file, lock, 0, text, sizeof text, show, NULL), 5);
    TRY(memcmp(text, "1200\n", 5), 0);
    TRY(kt_bind_poll(&file, lock), 0);
    TRY(kt_bind_write(&file, lock, "700", 3, store, NULL), 3);
}

/* A hiding and a removal with a limit, with somebody inside and without. */
static void try_limits(void)
{
    TRY(kt_bind_enter(&hold, lock), 0);
    TRY(kt_bind_hide(&tree, speed, lock, 5), -ETIMEDOUT);
    TRY(kt_bind_unhide(&tree, speed, lock, 5), -ETIMEDOUT);
    TRY(kt_bind_leave(&hold, lock), 0);
    TRY(kt_bind_unhide(&tree, speed, lock, 5), 0);
    TRY(kt_bind_hide(&tree, speed, lock, -1), 0);
    TRY(kt_bind_enter(&hold, lock), -ENODEV);
    TRY(kt_bind_unhide(&tree, speed, lock, -1), 0);
    TRY(kt_bind_enter(&hold, lock), 0);
    TRY(kt_bind_remove(&tree, fan, lock, 0), -ETIMEDOUT);
    TRY(kt_bind_remove(&tree, fan, lock, 1001), -ETIMEDOUT);
    TRY(kt_bind_break(&hold, lock), 0);
    TRY(kt_bind_remove(&tree, fan, lock, INT64_MAX), 1);
    TRY(kt_restore(&hold), 0);
    TRY(kt_bind_leave(&hold, lock), 0);
    TRY(kt_bind_remove(&tree, fan, lock, -1), 0);
    TRY(kt_bind_enter(&hold, lock), -ENODEV);
}

static void *remover(void *data)
{
    *(int32_t *)data = kt_bind_remove(&tree, fan, lock, -1);
    return NULL;
}

/* Sleeps until the fan is marked. */
static void wait_until_marked(void)
{
    struct kt_node_info info = {.doomed = false};
    while (!info.doomed) {
        poll(NULL, 0, 1);
        TRY(kt_bind_take(lock), 0);
        TRY(kt_stat(&tree, fan, &info), 0);
        kt_bind_release(lock);
    }
}

/* A removal that sleeps is woken by a leave; and by the end of a hold, if the node was full of holds. */
static void try_wakes(bool is_full)
{
    pthread_t thread;
    int32_t removed = -1;
    start(is_full ? 2 : 8);
    TRY(kt_hold(&tree, speed, &hold), 0);
    TRY(kt_bind_enter(&hold, lock), 0);
    TRY(pthread_create(&thread, NULL, remover, &removed), 0);
    wait_until_marked();
    if (is_full) {
        TRY(kt_bind_take(lock), 0);
        TRY(kt_hold(&tree, speed, &second), 0);
        kt_bind_release(lock);
        TRY(kt_bind_leave(&hold, lock), 0);
        TRY(kt_bind_clear(&second, lock), 0);
    } else {
        TRY(kt_bind_leave(&hold, lock), 0);
    }
    TRY(pthread_join(thread, NULL), 0);
    TRY(removed, 1);
    end();
}

static void try_self_removal(void)
{
    start(8);
    TRY(kt_hold(&tree, speed, &hold), 0);
    TRY(kt_bind_remove_self(&tree, &hold, speed, lock), -EINVAL); /* not in a call: but the node is marked */
    TRY(kt_bind_enter(&hold, lock), -ENODEV);
    TRY(kt_bind_remove(&tree, speed, lock, -1), 1);
    TRY(kt_bind_clear(&hold, lock), 0);
    TRY(kt_hold(&tree, fan, &hold), 0);
    TRY(kt_bind_enter(&hold, lock), 0);
    TRY(kt_bind_remove_self(&tree, &hold, fan, lock), 1);
    TRY(kt_bind_leave(&hold, lock), 0);
    end();
}

int main(void)
{
    start(8);
    try_lock();
    try_calls();
    try_limits();
    end();
    try_wakes(false);
    try_wakes(true);
    try_self_removal();
    return tried();
}
