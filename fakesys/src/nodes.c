/* SPDX-License-Identifier: MIT OR Apache-2.0 */
/* The tree, and what is stored about each node beside it: what stat(2) reports, and what its callbacks show. */
#include "fakesysfs.h"

struct kt_handle tree;
struct kt_lock lock = KT_LOCK_INIT;

static struct node *nodes;   /* by slot */
static uint32_t slots_used;  /* how many were ever used; the rest of `nodes` was never touched */
static uint64_t inodes;      /* how many were used */

static const uint64_t control_inode = 2;

void lock_tree(void)
{
    pthread_mutex_lock(&lock.mutex);
}

void unlock_tree(void)
{
    pthread_mutex_unlock(&lock.mutex);
}

struct node *node_of(fuse_ino_t number)
{
    return &nodes[key_of(number).slot];
}

/* Initializes what is stored about a node. No thread holds the slot's last node any longer, so none uses its
 * text. */
static void keep(struct kt_key key, mode_t mode, struct kt_key target)
{
    struct node *node = &nodes[key.slot];
    free(node->text);
    *node = (struct node){
        .number = number_of(key), .inode = ++inodes, .mode = mode, .links = 1, .target = number_of(target),
        .owner = getuid(), .group = getgid(),
    };
    clock_gettime(CLOCK_REALTIME, &node->changed);
    node->accessed = node->changed;
    slots_used = MAX(slots_used, key.slot + 1);
}

int make_tree(uint32_t slots)
{
    struct kt_key root;
    int error = kt_new(&tree.at);
    if (!error)
        error = kt_create_root(&tree, slots, KT_HOLDS_MAX);
    if (!error)
        error = kt_root(&tree, &root);
    if (error)
        return error;
    nodes = calloc(slots, sizeof *nodes);
    if (!nodes)
        return -ENOMEM;
    keep(root, S_IFDIR | 0755, root);
    inodes = control_inode;
    return 0;
}

int make_node(struct kt_key dir, const char *name, mode_t mode, struct kt_key target, bool live,
              struct kt_key *out)
{
    size_t length = strlen(name);
    int error;
    if (S_ISDIR(mode))
        error = kt_create_dir(&tree, dir, name, length, live, out);
    else if (S_ISLNK(mode))
        error = kt_create_link(&tree, dir, name, length, target, live, out);
    else
        error = kt_create_file(&tree, dir, name, length, (uint16_t)(mode & 0777), 0, live, out);
    if (!error) {
        forget_attributes(number_of(dir)); /* how many directories are in it */
        keep(*out, mode, target);
        node_of(number_of(*out))->is_uevent = S_ISREG(mode) && !strcmp(name, "uevent");
    }
    return error;
}

struct node *next_node(uint32_t *slot, mode_t kind)
{
    struct kt_node_info stat;
    while (*slot < slots_used) {
        struct node *node = &nodes[(*slot)++];
        if ((!kind || (node->mode & S_IFMT) == kind) && !kt_stat(&tree, key_of(node->number), &stat))
            return node;
    }
    return NULL;
}

bool is_live(struct kt_key key)
{
    struct kt_node_info stat;
    return !kt_stat(&tree, key, &stat) && stat.activated && !stat.doomed && !stat.hidden;
}

bool is_below(struct kt_key key, struct kt_key top)
{
    do {
        if (key.slot == top.slot && key.generation == top.generation)
            return true;
    } while (!kt_parent(&tree, key, &key));
    return false;
}

/* The control file has the times of the root. */
static void describe_control(struct stat *out)
{
    *out = (struct stat){
        .st_ino = control_inode, .st_mode = S_IFREG | 0600, .st_nlink = 1,
        .st_uid = getuid(), .st_gid = getgid(), .st_size = KT_PAGE_SIZE, .st_blksize = KT_PAGE_SIZE,
        .st_atim = nodes->changed, .st_mtim = nodes->changed, .st_ctim = nodes->changed,
    };
}

int describe(fuse_ino_t number, struct stat *out)
{
    struct node *node = node_of(number);
    struct kt_node_info stat;
    if (is_control(number)) {
        describe_control(out);
        return 0;
    }
    if (!kt_stat(&tree, key_of(number), &stat))
        node->links = stat.links;
    else if (node->number == number)
        node->links = S_ISDIR(node->mode) ? 2 : 1; /* it is gone, with everything below it */
    else
        return -ENOENT;
    *out = (struct stat){
        .st_ino = node->inode, .st_mode = node->mode, .st_nlink = node->links,
        .st_uid = node->owner, .st_gid = node->group, .st_blksize = KT_PAGE_SIZE,
        .st_size = S_ISREG(node->mode) ? (off_t)MAX(node->length, (size_t)KT_PAGE_SIZE) : 0,
        .st_atim = node->accessed, .st_mtim = node->changed, .st_ctim = node->changed,
    };
    return 0;
}
