/* SPDX-License-Identifier: MIT OR Apache-2.0 */
/* The tree itself: a file whose tag is the address of an object, and calls of that object that take no lock. */
#include <kernfs_tree.h>
#include <stdio.h>

static struct kt_lock lock = KT_LOCK_INIT; /* of the tree */
static struct kt_handle tree, hold;

/* Runs under a call: the object exists until it returns. */
static int64_t look(struct kt_handle *call, void *object)
{
    (void)call;
    return *(const int *)object;
}

/* Under the lock: makes the tree, a live file in it, and a hold of the file. */
static int32_t make(void *object, struct kt_key *file)
{
    struct kt_key root;
    int32_t made = kt_create_root(&tree, 64, 64); /* at most 64 nodes, and 64 holds of each */
    if (!made)
        made = kt_root(&tree, &root);
    if (!made)
        made = kt_create_file(&tree, root, "fan0", 4, 0444, (uintptr_t)object, true, file);
    return made ? made : kt_hold(&tree, *file, &hold);
}

int main(void)
{
    int fan = 1200;
    struct kt_key key;
    int32_t made = kt_new(&tree.at) || kt_new(&hold.at) ? -ENOMEM : 0;
    pthread_mutex_lock(&lock.mutex);
    if (!made)
        made = make(&fan, &key);
    pthread_mutex_unlock(&lock.mutex);
    if (made)
        return 1;
    printf("in the tree: %lld\n", (long long)kt_run(&hold, &lock, look, &fan)); /* any thread with a hold of its own */
    printf("removed: %d\n", kt_remove_wait(&tree, key, &lock));                 /* waits until nobody is inside */
    printf("gone: %s\n", kt_run(&hold, &lock, look, &fan) == -ENODEV ? "yes" : "no");
    return kt_delete(hold) < 0 || kt_delete(tree) < 0;
}
/* It prints:
in the tree: 1200
removed: 1
gone: yes
*/
