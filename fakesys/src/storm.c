/* SPDX-License-Identifier: MIT OR Apache-2.0 */
/* Storms: a node, with everything below it and the links that lead there, disappears and comes back by itself
 * again and again, at moments that follow from a seed. It comes back with the nodes that it had when the storm
 * began, and with their last texts and faults. */
#include "fakesysfs.h"

/* What is created again for a node. */
struct saved {
    enum { INSIDE, LINK_INSIDE, LINK_OUTSIDE } part; /* in the order in which they are created */
    char *path, *target;                              /* the target of a link */
    struct node node;                                 /* with its own copy of the text */
    bool is_hidden;
};

struct storm {
    LIST_ENTRY(storm) link;
    char *path;
    uint64_t lot;         /* the state of its random numbers */
    struct saved *saved;
    size_t count;
    pthread_t thread;
    pthread_cond_t ended;
    bool is_begun, is_over, is_away;
};

static LIST_HEAD(, storm) storms;
static bool are_begun;

/* ---- what disappears and comes back ---- */

static char *path_of(struct kt_key key)
{
    char path[4 * KT_PAGE_SIZE];
    int64_t length = kt_path(&tree, key, path, sizeof path - 1);
    return length < 0 ? NULL : strndup(path, (size_t)length);
}

static void free_saved(struct storm *storm)
{
    for (size_t at = 0; at < storm->count; at++) {
        free(storm->saved[at].path);
        free(storm->saved[at].target);
        free(storm->saved[at].node.text);
    }
    free(storm->saved);
}

/* Saves what a file shows now, if there is memory for it. */
static void save_text(struct saved *saved, const struct node *node)
{
    char *text = malloc(node->length + 1);
    if (!text)
        return;
    memcpy(text, node->length ? node->text : "", node->length);
    free(saved->node.text);
    saved->node = *node;
    saved->node.text = text;
}

static int save(struct storm *storm, const struct node *node, int part)
{
    struct kt_node_info stat;
    struct saved *grown = realloc(storm->saved, (storm->count + 1) * sizeof *grown);
    if (!grown)
        return -ENOMEM;
    storm->saved = grown;
    struct saved *saved = &grown[storm->count++];
    *saved = (struct saved){.part = part, .path = path_of(key_of(node->number))};
    save_text(saved, node);
    saved->is_hidden = !kt_stat(&tree, key_of(node->number), &stat) && stat.hidden;
    if (S_ISLNK(node->mode))
        saved->target = path_of(key_of(node->target));
    return saved->path && saved->node.text && (saved->target || !S_ISLNK(node->mode)) ? 0 : -ENOMEM;
}

/* A directory comes before its contents, since its path is shorter. */
static int compare(const void *left, const void *right)
{
    const struct saved *one = left, *other = right;
    return one->part != other->part ? (int)one->part - (int)other->part : strcmp(one->path, other->path);
}

/* Whether a node is a link whose target is gone. It cannot be created again. */
static bool leads_nowhere(const struct node *node)
{
    struct kt_node_info stat;
    return S_ISLNK(node->mode) && kt_stat(&tree, key_of(node->target), &stat);
}

static int save_all(struct storm *storm, struct kt_key top)
{
    struct node *node;
    int error = 0;
    for (uint32_t slot = 0; !error && (node = next_node(&slot, 0));) {
        bool is_link = S_ISLNK(node->mode);
        if (leads_nowhere(node))
            continue;
        if (is_below(key_of(node->number), top))
            error = save(storm, node, is_link ? LINK_INSIDE : INSIDE);
        else if (is_link && is_below(key_of(node->target), top))
            error = save(storm, node, LINK_OUTSIDE);
    }
    if (!error)
        qsort(storm->saved, storm->count, sizeof *storm->saved, compare);
    return error;
}

/* Removes the node, if it is there. Returns 0 or why it was refused. */
static int go(struct storm *storm)
{
    struct kt_key key;
    int error = 0;
    for (size_t at = 0; at < storm->count; at++)
        if (!find_node(storm->saved[at].path, &key))
            save_text(&storm->saved[at], node_of(number_of(key)));
    if (!find_node(storm->path, &key))
        error = unplug_node(key);
    storm->is_away = true;
    count_change();
    return error;
}

/* Creates one node as it was. Only nodes outside the subtree are live at once. */
static int make_again(struct saved *saved)
{
    struct kt_key dir, target = {0, 0}, made;
    const char *name;
    int error = find_place(saved->path, &dir, &name);
    if (!error && saved->target)
        error = find_node(saved->target, &target);
    if (!error)
        error = make_node(dir, name, saved->node.mode, target, saved->part == LINK_OUTSIDE, &made);
    if (error)
        return error;
    struct node *node = node_of(number_of(made));
    node->late = saved->node.late;
    node->slow = saved->node.slow;
    node->fault = saved->node.fault;
    node->magic = saved->node.magic;
    node->rate = saved->node.rate;
    count_change();
    if (S_ISREG(node->mode))
        error = set_text(node, saved->node.text, saved->node.length);
    return error || !saved->is_hidden ? error : kt_hide(&tree, made); /* nobody is inside: it is not live yet */
}

/* Notes the first error. It is none that a link stays away because its target or its directory is away too, or because
 * there is another node now. */
static void note(int *first, const struct saved *saved, int error)
{
    bool is_allowed = S_ISLNK(saved->node.mode) && (error == -ENOENT || error == -EEXIST);
    if (!*first && !is_allowed)
        *first = error;
}

/* All nodes become live at once. A node that cannot be created now stays away this time. Returns 0 or the first error. */
static int come(struct storm *storm)
{
    struct kt_key top;
    size_t at = 0;
    int error = make_again(&storm->saved[at]);
    if (error)
        return error;
    storm->is_away = false;
    for (at = 1; at < storm->count && storm->saved[at].part != LINK_OUTSIDE; at++)
        note(&error, &storm->saved[at], make_again(&storm->saved[at]));
    if (!find_node(storm->path, &top))
        note(&error, storm->saved, kt_activate(&tree, top));
    for (; at < storm->count; at++)
        note(&error, &storm->saved[at], make_again(&storm->saved[at]));
    count_change();
    return error;
}

/* ---- the moments ---- */

/* The next random number that follows from the seed (splitmix64). */
static uint64_t next_number(struct storm *storm)
{
    uint64_t mixed = storm->lot += 0x9e3779b97f4a7c15;
    mixed = (mixed ^ mixed >> 30) * 0xbf58476d1ce4e5b9;
    mixed = (mixed ^ mixed >> 27) * 0x94d049bb133111eb;
    return mixed ^ mixed >> 31;
}

/* Waits for up to 1, 2, 4 .. or 64 milliseconds, or for the storm's end. Short and long waits are equally
 * likely, so that each step of a reader is met. */
static void wait_a_while(struct storm *storm)
{
    uint64_t number = next_number(storm);
    uint64_t nanoseconds = number % (1000000u << (number >> 32) % 7);
    struct timespec until;
    clock_gettime(CLOCK_MONOTONIC, &until);
    nanoseconds += (uint64_t)until.tv_nsec;
    until.tv_sec += (time_t)(nanoseconds / 1000000000);
    until.tv_nsec = (long)(nanoseconds % 1000000000);
    while (!storm->is_over && pthread_cond_timedwait(&storm->ended, &lock.mutex, &until) != ETIMEDOUT)
        continue;
}

static void *blow(void *data)
{
    struct storm *storm = data;
    lock_tree();
    while (!storm->is_over) {
        wait_a_while(storm);
        if (!storm->is_over)
            go(storm);
        wait_a_while(storm);
        if (storm->is_away)
            come(storm);
    }
    unlock_tree();
    return NULL;
}

/* ---- beginning and end ---- */

static void free_storm(struct storm *storm)
{
    free_saved(storm);
    pthread_cond_destroy(&storm->ended);
    free(storm->path);
    free(storm);
}

static struct storm *new_storm(const char *path, uint64_t seed)
{
    pthread_condattr_t clock;
    struct storm *storm = calloc(1, sizeof *storm);
    if (!storm)
        return NULL;
    storm->path = strdup(path);
    storm->lot = seed;
    pthread_condattr_init(&clock);
    pthread_condattr_setclock(&clock, CLOCK_MONOTONIC);
    pthread_cond_init(&storm->ended, &clock);
    pthread_condattr_destroy(&clock);
    return storm;
}

/* Makes a storm of a node, with all that it will create again. */
static int save_storm(const char *path, uint64_t seed, struct storm **out)
{
    struct kt_key top;
    int error = find_node(path, &top);
    if (error)
        return error;
    if (number_of(top) == FUSE_ROOT_ID || S_ISLNK(node_of(number_of(top))->mode))
        return -EINVAL;
    *out = new_storm(path, seed);
    if (!*out)
        return -ENOMEM;
    error = (*out)->path ? save_all(*out, top) : -ENOMEM;
    if (error)
        free_storm(*out);
    return error;
}

int replug_node(const char *path)
{
    struct storm *storm = NULL;
    struct kt_key half;
    int error = save_storm(path, 0, &storm);
    if (error)
        return error;
    error = go(storm);
    if (!error)
        error = come(storm);
    if (error && !storm->is_away && !find_node(path, &half))
        unplug_node(half); /* half a device would refuse each later plug */
    free_storm(storm);
    return error;
}

static struct storm *find_storm(const char *path)
{
    struct storm *it;
    LIST_FOREACH (it, &storms, link)
        if (!strcmp(it->path, path))
            return it;
    return NULL;
}

static int begin_thread(struct storm *storm)
{
    int error = pthread_create(&storm->thread, NULL, blow, storm);
    storm->is_begun = !error;
    return -error;
}

static int begin_storm(const char *path, uint64_t seed)
{
    struct storm *storm;
    int error = save_storm(path, seed, &storm);
    if (error)
        return error;
    if (are_begun)
        error = begin_thread(storm);
    if (error)
        free_storm(storm);
    else
        LIST_INSERT_HEAD(&storms, storm, link);
    return error;
}

/* Ends a storm, and waits for its thread: without the lock, which that thread takes. */
static void end_storm(struct storm *storm)
{
    LIST_REMOVE(storm, link);
    storm->is_over = true;
    pthread_cond_signal(&storm->ended);
    unlock_tree();
    if (storm->is_begun)
        pthread_join(storm->thread, NULL);
    free_storm(storm);
    lock_tree();
}

int change_storm(const char *path, uint64_t seed)
{
    struct storm *storm = find_storm(path);
    if (seed)
        return storm ? -EBUSY : begin_storm(path, seed);
    if (!storm)
        return -ENOENT;
    end_storm(storm);
    return 0;
}

void begin_storms(void)
{
    struct storm *it;
    lock_tree();
    are_begun = true;
    LIST_FOREACH (it, &storms, link)
        if (begin_thread(it))
            fprintf(stderr, "fakesysfs: storm %s: cannot create a thread\n", it->path);
    unlock_tree();
}

void end_storms(void)
{
    lock_tree();
    while (!LIST_EMPTY(&storms))
        end_storm(LIST_FIRST(&storms));
    unlock_tree();
}
