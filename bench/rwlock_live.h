/* SPDX-License-Identifier: MIT OR Apache-2.0 */
/* What an author would write by hand in place of kt_live.h: devices with attributes in a hash table under one
 * pthread_rwlock_t, and a pthread_rwlock_t in each device, which its callbacks lock for reading and its removal for
 * writing. Devices are counted, so that a thread that has found one may lock it. Nothing here stops a callback from
 * removing its own device (it would wait for itself), nor says who is inside. bench/live.c measures both. */
#ifndef RWLOCK_LIVE_H
#define RWLOCK_LIVE_H

#include <errno.h>
#include <pthread.h>
#include <stdatomic.h>
#include <stdbool.h>
#include <stdint.h>
#include <stdlib.h>
#include <string.h>

enum { RW_PAGE = 4096, RW_NAME = 256, RW_BUCKETS = 1024 };

struct rw_attribute {
    const char *name;
    uint16_t mode;
    int64_t (*show)(void *device, const struct rw_attribute *attribute, char *page);
    int64_t (*store)(void *device, const struct rw_attribute *attribute, const char *bytes, size_t length);
};

struct rw_device {
    struct rw_device *next; /* in its bucket */
    char name[RW_NAME];
    const struct rw_attribute *attributes;
    size_t count;
    void *data;
    _Alignas(64) atomic_int users; /* the tree, threads that found it, open files */
    pthread_rwlock_t inside;
    bool is_gone; /* under `inside` */
};

struct rw_tree {
    pthread_rwlock_t lock;
    struct rw_device *buckets[RW_BUCKETS];
};

struct rw_file {
    struct rw_device *device;
    const struct rw_attribute *attribute;
    size_t length;
    char text[RW_PAGE];
};

static inline struct rw_tree *rw_new(void)
{
    struct rw_tree *tree = calloc(1, sizeof *tree);
    if (tree)
        pthread_rwlock_init(&tree->lock, NULL);
    return tree;
}

static inline struct rw_device **rw_bucket(struct rw_tree *tree, const char *name, size_t length)
{
    uint32_t mixed = 2166136261u;
    for (size_t i = 0; i < length; i++)
        mixed = (mixed ^ (unsigned char)name[i]) * 16777619u;
    return &tree->buckets[mixed % RW_BUCKETS];
}

static inline void rw_put(struct rw_device *device)
{
    if (atomic_fetch_sub(&device->users, 1) != 1)
        return;
    pthread_rwlock_destroy(&device->inside);
    free(device);
}

/* What points to the device of a name, or to NULL. Under the lock. */
static inline struct rw_device **rw_find(struct rw_tree *tree, const char *name, size_t length)
{
    struct rw_device **at = rw_bucket(tree, name, length);
    while (*at && (strncmp((*at)->name, name, length) || (*at)->name[length]))
        at = &(*at)->next;
    return at;
}

static inline int rw_publish(struct rw_tree *tree, const char *path, const struct rw_attribute *attributes,
                             size_t count, void *data)
{
    size_t length = strlen(path + 1);
    struct rw_device *device, **at;
    if (path[0] != '/' || !length || length >= RW_NAME || strchr(path + 1, '/'))
        return -EINVAL;
    device = aligned_alloc(64, sizeof *device);
    if (!device)
        return -ENOMEM;
    memset(device, 0, sizeof *device);
    memcpy(device->name, path + 1, length);
    device->attributes = attributes;
    device->count = count;
    device->data = data;
    atomic_init(&device->users, 1);
    pthread_rwlock_init(&device->inside, NULL);
    pthread_rwlock_wrlock(&tree->lock);
    at = rw_find(tree, device->name, length);
    if (*at) {
        pthread_rwlock_unlock(&tree->lock);
        rw_put(device);
        return -EEXIST;
    }
    *at = device;
    pthread_rwlock_unlock(&tree->lock);
    return 0;
}

/* Takes the device out, and waits for the callbacks that are inside. */
static inline int rw_unpublish(struct rw_tree *tree, const char *path)
{
    struct rw_device *device, **at;
    pthread_rwlock_wrlock(&tree->lock);
    at = rw_find(tree, path + 1, strlen(path + 1));
    device = *at;
    if (device)
        *at = device->next;
    pthread_rwlock_unlock(&tree->lock);
    if (!device)
        return -ENOENT;
    pthread_rwlock_wrlock(&device->inside);
    device->is_gone = true;
    pthread_rwlock_unlock(&device->inside);
    rw_put(device);
    return 1;
}

/* The device and the attribute of a path, counted. */
static inline int rw_get(struct rw_tree *tree, const char *path, struct rw_device **out,
                         const struct rw_attribute **attribute)
{
    const char *slash = path[0] == '/' ? strchr(path + 1, '/') : NULL;
    struct rw_device *device;
    if (!slash)
        return -EINVAL;
    pthread_rwlock_rdlock(&tree->lock);
    device = *rw_find(tree, path + 1, (size_t)(slash - path - 1));
    if (device)
        atomic_fetch_add(&device->users, 1);
    pthread_rwlock_unlock(&tree->lock);
    if (!device)
        return -ENOENT;
    for (size_t i = 0; i < device->count; i++)
        if (!strcmp(device->attributes[i].name, slash + 1)) {
            *attribute = &device->attributes[i];
            *out = device;
            return 0;
        }
    rw_put(device);
    return -ENOENT;
}

/* Runs a show, if the device is there. */
static inline int64_t rw_show(struct rw_device *device, const struct rw_attribute *attribute, char *page)
{
    int64_t length = -ENODEV;
    if (!(attribute->mode & 0444))
        return -EACCES;
    memset(page, 0, RW_PAGE);
    pthread_rwlock_rdlock(&device->inside);
    if (!device->is_gone)
        length = attribute->show(device->data, attribute, page);
    pthread_rwlock_unlock(&device->inside);
    return length < RW_PAGE ? length : RW_PAGE - 1;
}

static inline int64_t rw_read(struct rw_tree *tree, const char *path, void *out, size_t size)
{
    char page[RW_PAGE];
    const struct rw_attribute *attribute;
    struct rw_device *device;
    int64_t length = rw_get(tree, path, &device, &attribute);
    if (length)
        return length;
    length = rw_show(device, attribute, page);
    rw_put(device);
    if (length > 0)
        memcpy(out, page, (size_t)length < size ? (size_t)length : size);
    return length;
}

static inline int rw_open(struct rw_tree *tree, const char *path, struct rw_file **out)
{
    struct rw_file *file = calloc(1, sizeof *file);
    int answer = file ? rw_get(tree, path, &file->device, &file->attribute) : -ENOMEM;
    if (answer)
        free(file);
    else
        *out = file;
    return answer;
}

static inline int64_t rw_pread(struct rw_file *file, size_t offset, void *out, size_t size)
{
    size_t count;
    if (offset == 0) {
        int64_t length = rw_show(file->device, file->attribute, file->text);
        if (length < 0)
            return length;
        file->length = (size_t)length;
    }
    count = offset < file->length ? file->length - offset : 0;
    count = count < size ? count : size;
    memcpy(out, file->text + offset, count);
    return (int64_t)count;
}

static inline void rw_close(struct rw_file *file)
{
    rw_put(file->device);
    free(file);
}

#endif /* RWLOCK_LIVE_H */
