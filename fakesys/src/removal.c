/* SPDX-License-Identifier: MIT OR Apache-2.0 */
/* Removals and hidings, which wait until no caller is inside; and the compaction of the log of commands. */
#include "fakesysfs.h"

typedef int32_t waiting(struct kt_handle *tree, struct kt_key key, struct kt_lock *lock);

/* Waits with a function of the library that takes the lock itself. */
static int wait_without_lock(waiting *wait, struct kt_key key)
{
    unlock_tree();
    int error = wait(&tree, key, &lock);
    lock_tree();
    return error;
}

/* Removes a node of a directory. Marked nodes are no longer live, so the kernel keeps nothing of them any more. */
static int remove_from(struct kt_key dir, struct kt_key key)
{
    forget_node(key);
    int error = kt_remove(&tree, key);
    wake_pollers(number_of(key)); /* even if it waits: marked files can no longer be read */
    if (error == -EAGAIN)
        error = wait_without_lock(kt_remove_wait, key);
    forget_attributes(number_of(dir)); /* how many directories are in it */
    return error < 0 ? error : 0;
}

static struct kt_key parent_of(struct kt_key key)
{
    struct kt_key dir = key;
    (void)!kt_parent(&tree, key, &dir); /* the root has none */
    return dir;
}

int remove_node(struct kt_key key)
{
    return remove_from(parent_of(key), key);
}

/* Marks the links outside a subtree that lead into it. */
static void mark_links(struct kt_key top)
{
    struct node *node;
    for (uint32_t slot = 0; (node = next_node(&slot, S_IFLNK));)
        node->leads_in = is_below(key_of(node->target), top) && !is_below(key_of(node->number), top);
}

/* No caller enters a link, so its removal does not wait. */
static void remove_marked_links(void)
{
    struct node *node;
    for (uint32_t slot = 0; (node = next_node(&slot, S_IFLNK));)
        if (node->leads_in) {
            forget_node(key_of(node->number));
            (void)!kt_remove(&tree, key_of(node->number));
        }
}

/* The links are removed in the turn of the lock in which the node is marked, so that no thread sees one without
 * the other. */
int unplug_node(struct kt_key key)
{
    struct kt_key dir = parent_of(key);
    mark_links(key);
    forget_node(key);
    int error = kt_remove(&tree, key);
    if (error < 0 && error != -EAGAIN)
        return error;
    remove_marked_links();
    return remove_from(dir, key);
}

/* Hides a file that somebody is inside. If a show came between, the wait would hide it again, so shows wait too. */
static int hide_later(struct kt_key key)
{
    struct node *node = node_of(number_of(key));
    node->is_hiding = true;
    int error = wait_without_lock(kt_hide_wait, key);
    if (node->number == number_of(key)) /* else it is gone, and its slot has another node */
        node->is_hiding = false;
    pthread_cond_broadcast(&lock.left);
    return error;
}

int hide_node(struct kt_key key)
{
    struct kt_node_info stat;
    if (!kt_stat(&tree, key, &stat) && stat.hidden)
        return -EBUSY;
    forget_node(key);
    int error = kt_hide(&tree, key);
    wake_pollers(number_of(key));
    return error == -EAGAIN ? hide_later(key) : error;
}

int show_node(struct kt_key key)
{
    const struct node *node = node_of(number_of(key));
    int error;
    while ((node->number == number_of(key) && node->is_hiding) || (error = kt_unhide(&tree, key)) == -EAGAIN)
        pthread_cond_wait(&lock.left, &lock.mutex);
    return error;
}

/* Otherwise a small tree that changes often would store many commands. */
int count_change(void)
{
    struct kt_command_counts commands;
    if (!kt_commands(&tree, &commands) && commands.stored >= 2 * commands.compacted + 1000)
        kt_compact(&tree); /* if memory is refused, the next change tries again */
    return 0;
}
