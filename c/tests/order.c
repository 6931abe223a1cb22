/* SPDX-License-Identifier: MIT OR Apache-2.0 */
/* The most usual deadlock: a callback locks the driver's mutex, and the remover has it locked when it removes. Here one
 * comes after the other, so nothing hangs; ThreadSanitizer reports it all the same (kt_order.h).  order WAY
 *
 *     right    no mutex is locked at the removal         wrong    it is, in kt_remove_wait()
 *     live     it is, in kt_live_unpublish()             self     a callback waits for its own node: the program aborts
 *     call     kt_delete() of a call: with a sanitizer the program aborts
 *
 * The same with a gate, by a callback of a pass:
 *
 *     gated    it is locked, in kt_remove_gated_wait()   own      a callback removes its own node by that call
 *     shut     it is locked, in kt_shut_wait()           door     a callback shuts its own gate
 *     kept     a pass that kt_clear() has refused is still inside, and its callback removes its own node
 *     pass     kt_delete() of a pass that is inside      gate     kt_delete() of an open gate */
#include <kt_live.h>
#include <stdio.h>
#include <unistd.h>

static pthread_mutex_t driver = PTHREAD_MUTEX_INITIALIZER;
static struct kt_lock lock = KT_LOCK_INIT;
static struct kt_handle tree, hold, gate, pass;
static struct kt_key root, dir, file, hot;
static struct kt_live *live;
static const char *way;

static bool is_way(const char *name) { return !strcmp(way, name); }

static int64_t callback(struct kt_handle *call, void *data)
{
    (void)data;
    if (is_way("kept") && call == &pass && kt_clear(&pass) != -EBUSY)
        abort();
    if (is_way("self") || (is_way("kept") && call == &pass))
        return kt_remove_wait(&tree, call == &pass ? hot : dir, &lock);
    if (is_way("own") && call == &pass)
        return kt_remove_gated_wait(&tree, &gate, hot, &lock);
    if (is_way("door") && call == &pass)
        return kt_shut_wait(&gate, &lock);
    pthread_mutex_lock(&driver);
    pthread_mutex_unlock(&driver);
    return 0;
}

/* A callback by a hold may shut the gate of its node: that waits only for passes. */
static int64_t shut(struct kt_handle *call, void *data) { return (void)call, (void)data, kt_shut_wait(&gate, &lock); }

/* A gate that is shut, and one whose node is removed. */
static int gates(void)
{
    if (kt_hold(&tree, hot, &gate) || kt_gate(&gate, 2, &pass))
        return 2;
    if (is_way("pass"))
        return kt_pass_enter(&pass) || kt_delete(pass) ? 2 : 0;
    if (is_way("gate"))
        return kt_delete(gate) ? 2 : 0;
    if (kt_pass_run(&pass, &lock, callback, NULL))
        return 2;
    if (is_way("shut"))
        pthread_mutex_lock(&driver);
    if (is_way("shut") ? kt_shut_wait(&gate, &lock) : kt_hold(&tree, hot, &hold) || kt_run(&hold, &lock, shut, NULL))
        return 2;
    if (is_way("shut"))
        pthread_mutex_unlock(&driver);
    if (kt_clear(&pass) || kt_gate(&gate, 2, &pass) || kt_pass_run(&pass, &lock, callback, NULL))
        return 2;
    if (is_way("gated"))
        pthread_mutex_lock(&driver);
    if (kt_remove_gated_wait(&tree, &gate, hot, &lock) != 1)
        return 2;
    if (is_way("gated"))
        pthread_mutex_unlock(&driver);
    return kt_clear(&hold) || kt_delete(pass) || kt_delete(gate) ? 2 : 0;
}

/* A callback may unpublish itself: it steps aside. */
static int64_t store(void *device, const struct kt_attribute *attribute, const char *bytes, size_t length)
{
    (void)device, (void)bytes;
    pthread_mutex_lock(&driver);
    pthread_mutex_unlock(&driver);
    if (attribute->which && kt_live_unpublish(live, kt_live_self(live)) != 1)
        abort();
    return (int64_t)length;
}
static const struct kt_attribute attributes[] = {{"speed", 0200, NULL, store, 0}, {"remove", 0200, NULL, store, 1}};

static void *user(void *data)
{
    if (kt_run(&hold, &lock, callback, NULL) || kt_live_write(live, "/a/speed", "1", 1) != 1 ||
        kt_live_write(live, "/b/remove", "1", 1) != 1)
        abort();
    return data;
}

int main(int count, char **words)
{
    struct kt_key a, b;
    pthread_t thread;
    way = count > 1 ? words[1] : "right";
    alarm(300); /* it would wait for itself if nothing aborts it */
    if (kt_new(&tree.at) || kt_new(&hold.at) || kt_create_root(&tree, 16, 16) || kt_root(&tree, &root) ||
        kt_create_dir(&tree, root, "fan0", 4, true, &dir) ||
        kt_create_file(&tree, dir, "speed", 5, 0444, 0, true, &file) || kt_hold(&tree, file, &hold) ||
        kt_live_new(&live, 16) || kt_live_publish(live, "/a", attributes, 2, NULL, &a) ||
        kt_live_publish(live, "/b", attributes, 2, NULL, &b) || kt_new(&gate.at) || kt_new(&pass.at) ||
        kt_create_file(&tree, root, "hot", 3, 0444, 0, true, &hot))
        return 2;
    pthread_create(&thread, NULL, user, NULL);
    pthread_join(thread, NULL);
    if (is_way("wrong"))
        pthread_mutex_lock(&driver);
    if (kt_remove_wait(&tree, dir, &lock) != 1)
        return 2;
    if (is_way("live"))
        pthread_mutex_lock(&driver);
    if (kt_live_unpublish(live, a) != 1)
        return 2;
    if (is_way("wrong") || is_way("live"))
        pthread_mutex_unlock(&driver);
    if (is_way("call")) {
        if (kt_clear(&hold) || kt_hold(&tree, root, &hold) || kt_enter(&hold))
            return 2;
        kt_delete(hold);
    }
    (void)kt_clear_wake(&hold, &lock);
    if (gates())
        return 2;
    kt_delete(hold);
    kt_delete(tree);
    return kt_live_delete(live);
}
