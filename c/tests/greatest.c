/* SPDX-License-Identifier: MIT OR Apache-2.0 */
/* The greatest tree: a node in each of its slots. Which slots are free is then known only to the search, and the last slots
 * are used as the first are. It prints a line for each test; the last line is 'N passed, M failed'. */
#include <kernfs_tree.h>
#include <stdlib.h>
#include <string.h>

#include "trying.h"

/* Slots that are freed, in no order: at both ends of a block of 64 slots and of a group of 8,192, and the last of all. */
static const uint32_t freed[] = {1048575, 8191, 777777, 64, 65536, 8192, 1048512, 65535, 63, 1048511, 2};
enum { FREED = sizeof freed / sizeof *freed };

static struct kt_handle tree, hold, pass;
static struct kt_key root, key;

static struct kt_key first_of(uint32_t slot) { return (struct kt_key){slot, 1}; }

static int by_number(const void *a, const void *b)
{
    uint32_t one = *(const uint32_t *)a, other = *(const uint32_t *)b;
    return (one > other) - (one < other);
}

/* Creates files until a create fails. Returns how many were made, each in the next slot; else 0. */
static uint32_t fill(struct kt_key dir, int32_t *refusal)
{
    uint32_t count = 0;
    for (;; count++) {
        char name[16];
        int length = snprintf(name, sizeof name, "%u", count + 2);
        *refusal = kt_create_file(&tree, dir, name, (size_t)length, 0644, count, true, &key);
        if (*refusal)
            return count;
        if (key.slot != count + 2 || key.generation != 1)
            return 0;
    }
}

/* Takes a hold, uses it, and gives it back. */
static int32_t use(struct kt_key node)
{
    int32_t status = kt_hold(&tree, node, &hold);
    if (status == 0)
        status = kt_enter(&hold);
    if (status == 0)
        status = kt_leave(&hold);
    return status ? status : kt_clear(&hold);
}

/* Goes through a gate of a node, which is removed meanwhile. */
static void try_gate(struct kt_key node)
{
    TRY(kt_hold(&tree, node, &hold), 0);
    TRY(kt_gate(&hold, 2, &pass), 0);
    TRY(kt_pass_enter(&pass), 0);
    TRY(kt_remove(&tree, node), -EAGAIN);
    TRY(kt_pass_leave(&pass), 0);
    TRY(kt_shut(&hold), 1);
    TRY(kt_pass_enter(&pass), -ENODEV);
    TRY(kt_remove(&tree, node), 1);
    TRY(kt_clear(&hold), 0);
    TRY(kt_clear(&pass), 0);
}

int main(void)
{
    struct kt_key dir;
    struct kt_node_info info;
    uint32_t sorted[FREED];
    int32_t refusal;
    TRY(kt_new(&tree.at) || kt_new(&hold.at) || kt_new(&pass.at), 0);
    TRY(kt_create_root(&tree, KT_SLOTS_MAX, 4), 0);
    TRY(kt_root(&tree, &root), 0);
    TRY(kt_create_dir(&tree, root, "d", 1, true, &dir), 0);
    TRY(fill(dir, &refusal), KT_SLOTS_MAX - 2);
    TRY(refusal, -ENOSPC);
    TRY(use(first_of(KT_SLOTS_MAX - 1)), 0);
    TRY(use(first_of(KT_SLOTS_MAX)), -ENOENT);

    try_gate(first_of(freed[0]));
    for (int i = 1; i < FREED; i++)
        TRY(kt_remove(&tree, first_of(freed[i])), 1);
    TRY(use(first_of(KT_SLOTS_MAX - 1)), -ENOENT);
    memcpy(sorted, freed, sizeof freed);
    qsort(sorted, FREED, sizeof *sorted, by_number);
    for (int i = 0; i < FREED; i++) { /* the lowest free slot is always the next */
        char name[8];
        int length = snprintf(name, sizeof name, "again%d", i);
        TRY(kt_create_file(&tree, dir, name, (size_t)length, 0644, sorted[i], true, &key), 0);
        TRY(key.slot, sorted[i]);
        TRY(key.generation, 2);
    }
    TRY(kt_create_dir(&tree, root, "more", 4, true, &key), -ENOSPC);

    key = (struct kt_key){KT_SLOTS_MAX - 1, 2};
    TRY(kt_stat(&tree, key, &info), 0);
    TRY((int64_t)info.tag, KT_SLOTS_MAX - 1);
    TRY(use(key), 0);
    TRY(kt_hold(&tree, key, &hold), 0); /* a slot that is held is not free, though its node is gone */
    TRY(kt_remove(&tree, key), 1);
    TRY(kt_enter(&hold), -ENODEV);
    TRY(kt_create_dir(&tree, root, "more", 4, true, &key), -ENOSPC);
    TRY(kt_clear(&hold), 0);
    TRY(kt_create_dir(&tree, root, "more", 4, true, &key), 0);
    TRY(key.slot, KT_SLOTS_MAX - 1);
    TRY(key.generation, 3);
    TRY(kt_remove(&tree, dir), 1);
    char name[8];
    TRY(kt_next(&tree, root, "", 0, name, sizeof name), 4); /* only "more" is left */
    TRY(kt_delete(pass), 0);
    TRY(kt_delete(hold), 0);
    TRY(kt_delete(tree), 0);
    return tried();
}
