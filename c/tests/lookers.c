/* SPDX-License-Identifier: MIT OR Apache-2.0 */
/* Look-ups and holds without the tree's lock: right and wrong uses, and then threads that look up and call a node which
 * another thread removes and creates again. It prints a line for each test; the last line is 'N passed, M failed'. */
#include <kernfs_tree.h>
#include <sched.h>
#include <stdatomic.h>
#include <string.h>

#include "trying.h"

enum { READERS = 3, ROUNDS = 400, SLOTS = 64 };

static struct kt_lock lock = KT_LOCK_INIT; /* of the tree */
static struct kt_handle tree, plain, looker, other, hold, second;
static struct kt_key root, dir, file, key;
static atomic_int inside, late, calls, found;
static atomic_uint gone[SLOTS]; /* by slot, the generation whose removal has returned */
static atomic_bool is_over;

static int same(struct kt_key a, struct kt_key b) { return a.slot == b.slot && a.generation == b.generation; }

static void make(void)
{
    TRY(kt_new(&tree.at) || kt_new(&plain.at) || kt_new(&looker.at) || kt_new(&other.at), 0);
    TRY(kt_new(&hold.at) || kt_new(&second.at), 0);
    TRY(kt_create_root_with_looks(&tree, 0, 8, 8), -EINVAL);
    TRY(kt_create_root_with_looks(&tree, 16, 8, KT_SLOTS_MAX + 1), -EINVAL);
    TRY(kt_looker(&tree, &looker), -EINVAL); /* there is no tree */
    TRY(kt_create_root_with_looks(&tree, 16, 4, 8), 0);
    TRY(kt_create_root_with_looks(&tree, 16, 4, 8), -EINVAL);
    TRY(kt_root(&tree, &root), 0);
    TRY(kt_create_dir(&tree, root, "d", 1, true, &dir), 0);
    TRY(kt_looker(&tree, &looker), 0);
    TRY(kt_looker(&tree, &looker), -EINVAL); /* something is behind it */
    TRY(kt_looker(&looker, &other), -EINVAL);
}

/* What the looker finds, and what it leaves to kt_walk(). */
static void looks(void)
{
    const char *longest = "/a_name_of_26_bytes_exactly";
    TRY(kt_look(&looker, "/d", 2, &key), 0); /* from before the looker */
    TRY(same(key, dir), 1);
    TRY(kt_create_file(&tree, dir, "f", 1, 0644, 7, true, &file), 0);
    TRY(kt_look(&looker, "/d/f", 4, &key), 0);
    TRY(same(key, file), 1);
    TRY(kt_look(&looker, "/", 1, &key), 0);
    TRY(same(key, root), 1);
    TRY(kt_look(&looker, "/d/g", 4, &key), -EAGAIN);
    TRY(kt_look(&looker, "d/f", 3, &key), -EAGAIN);
    TRY(kt_look(&looker, "", 0, &key), -EAGAIN);
    TRY(same(key, root), 1); /* a refused call writes nothing */
    TRY(kt_look(&tree, "/d", 2, &key), -EINVAL);
    TRY(kt_look(&hold, "/d", 2, &key), -EINVAL);
    TRY(kt_create_dir(&tree, root, longest + 1, strlen(longest) - 1, true, &key), 0);
    TRY(kt_look(&looker, longest, strlen(longest), &key), -EAGAIN);
    TRY(kt_walk(&tree, longest, strlen(longest), &key), 0);
    TRY(kt_remove(&tree, key), 1);
    TRY(kt_create_file(&tree, dir, "later", 5, 0444, 0, false, &key), 0);
    TRY(kt_look(&looker, "/d/later", 8, &key), -EAGAIN); /* not live */
    TRY(kt_walk(&tree, "/d/later", 8, &key), 0);
    TRY(kt_activate(&tree, key), 0);
    TRY(kt_look(&looker, "/d/later", 8, &key), 0);
    TRY(kt_rename(&tree, key, root, "moved", 5), 0);
    TRY(kt_look(&looker, "/d/later", 8, &key), -EAGAIN);
    TRY(kt_look(&looker, "/moved", 6, &key), 0);
    TRY(kt_remove(&tree, key), 1);
    TRY(kt_look(&looker, "/moved", 6, &key), -EAGAIN);
    TRY(kt_hide(&tree, file), 0);
    TRY(kt_look(&looker, "/d/f", 4, &key), -EAGAIN);
    TRY(kt_unhide(&tree, file), 0);
    TRY(kt_look(&looker, "/d/f", 4, &key), 0);
}

static void pins(void)
{
    struct kt_key stale = {3, 99}, beyond = {70000, 1};
    TRY(kt_pin(&looker, file, &hold), 0);
    TRY(kt_pin(&looker, file, &hold), -EINVAL); /* something is behind it */
    TRY(kt_pin(&hold, file, &second), -EINVAL); /* there is no looker */
    TRY(kt_pin(&tree, file, &second), -EINVAL);
    TRY(kt_pin(&looker, stale, &second), -ENOENT);
    TRY(kt_pin(&looker, beyond, &second), -ENOENT);
    TRY(kt_enter(&hold), 0);
    TRY(kt_remove(&tree, file), -EAGAIN); /* somebody is inside */
    TRY(kt_look(&looker, "/d/f", 4, &key), -EAGAIN);
    TRY(kt_pin(&looker, file, &second), 0); /* it is in the tree still */
    TRY(kt_enter(&second), -ENODEV);
    TRY(kt_clear(&second), 0);
    TRY(kt_leave(&hold), 1);
    TRY(kt_remove(&tree, file), 1);
    TRY(kt_pin(&looker, file, &second), -ENOENT);
    TRY(kt_enter(&hold), -ENODEV);
    TRY(kt_clear(&hold), 0);
    TRY(kt_pin(&looker, dir, &hold), 0);
    TRY(kt_pin(&looker, dir, &second), 0);
    TRY(kt_dup(&hold, &other), 0);
    TRY(kt_pin(&looker, dir, &plain), -EMFILE); /* the last place is left for a removal */
    TRY(kt_clear(&other) || kt_clear(&second) || kt_clear(&hold), 0);
}

/* A tree without words for look-ups, the end of a looker, and a looker that outlives its tree. */
static void ends(void)
{
    TRY(kt_create_root(&plain, 8, 3), 0);
    TRY(kt_looker(&plain, &other), 0);
    TRY(kt_create_dir(&plain, root, "n", 1, true, &key), 0);
    TRY(kt_look(&other, "/n", 2, &key), -EAGAIN);
    TRY(kt_pin(&other, key, &hold), 0);
    TRY(kt_clear(&hold), 0);
    TRY(kt_pin(&other, root, &hold), 0);
    TRY(kt_hold(&plain, root, &second), 0);
    TRY(kt_clear(&second), 1); /* it had the last place */
    TRY(kt_looker(&plain, &second), 0); /* the third hold of the root */
    TRY(kt_clear(&second) || kt_clear(&hold), 0);
    TRY(kt_clear(&other), 0);
    TRY(kt_looker(&plain, &other), 0);
    TRY(kt_clear(&plain), 0);
    TRY(kt_pin(&other, root, &hold), 0);
    TRY(kt_enter(&hold), 0); /* the root was live */
    TRY(kt_clear(&hold) || kt_clear(&other), 0);
}

/* A callback. Its node's removal has not returned, neither when it begins nor when it ends. */
static int64_t call(struct kt_handle *by, void *data)
{
    const struct kt_key *at = data;
    (void)by;
    atomic_fetch_add(&inside, 1);
    for (int i = 0; i < 2; i++)
        if (atomic_load(&gone[at->slot]) >= at->generation)
            atomic_fetch_add(&late, 1);
    atomic_fetch_add(&calls, 1);
    atomic_fetch_sub(&inside, 1);
    return 0;
}

static void *reader(void *mine)
{
    struct kt_handle *by = mine, held;
    struct kt_key at;
    if (kt_new(&held.at))
        return mine;
    while (!atomic_load(&is_over)) {
        if (kt_look(by, "/d/node", 7, &at))
            continue;
        atomic_fetch_add(&found, 1);
        if (kt_pin(by, at, &held))
            continue;
        kt_run(&held, &lock, call, &at);
        kt_clear_wake(&held, &lock);
    }
    return kt_delete(held) < 0 ? mine : NULL;
}

/* Creates the node in a round, and removes it when it was called or a while has passed. */
static int one_round(void)
{
    struct kt_key node;
    int32_t made;
    pthread_mutex_lock(&lock.mutex);
    made = kt_create_file(&tree, dir, "node", 4, 0444, 0, true, &node);
    pthread_mutex_unlock(&lock.mutex);
    if (made)
        return 1;
    for (int i = 0, before = atomic_load(&calls); i < 2000 && atomic_load(&calls) < before + 3; i++)
        sched_yield();
    if (kt_remove_wait(&tree, node, &lock) != 1)
        return 1;
    atomic_store(&gone[node.slot], node.generation);
    return atomic_load(&inside) != 0;
}

static void threads(void)
{
    struct kt_handle lookers[READERS];
    pthread_t running[READERS];
    int wrong = 0;
    void *left;
    for (int i = 0; i < READERS; i++)
        wrong += kt_new(&lookers[i].at) || kt_looker(&tree, &lookers[i]);
    for (int i = 0; i < READERS; i++)
        wrong += pthread_create(&running[i], NULL, reader, &lookers[i]) != 0;
    for (int i = 0; i < ROUNDS && !wrong; i++)
        wrong += one_round();
    atomic_store(&is_over, true);
    for (int i = 0; i < READERS; i++)
        wrong += pthread_join(running[i], &left) || left;
    for (int i = 0; i < READERS; i++)
        wrong += kt_delete(lookers[i]) != 0;
    TRY(wrong, 0);
    TRY(atomic_load(&late), 0);
    TRY(atomic_load(&calls) > 0 && atomic_load(&found) > 0, 1);
}

int main(void)
{
    make();
    looks();
    pins();
    ends();
    TRY(kt_clear(&looker), 0);
    TRY(kt_clear(&tree), 0);
    TRY(kt_create_root_with_looks(&tree, SLOTS, 64, SLOTS), 0);
    TRY(kt_root(&tree, &root) || kt_create_dir(&tree, root, "d", 1, true, &dir), 0);
    threads();
    TRY(kt_delete(tree) || kt_delete(plain) || kt_delete(looker) || kt_delete(other), 0);
    TRY(kt_delete(hold) || kt_delete(second), 0);
    return tried();
}
