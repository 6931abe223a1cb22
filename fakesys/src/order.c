/* SPDX-License-Identifier: MIT OR Apache-2.0 */
/* The order of listings: by name, or one that follows from a seed. That of sysfs follows from a hash of the names, so
 * a program must not rely on any order. */
#include "fakesysfs.h"

struct place {
    uint64_t hash; /* first, the places are sorted by it */
    char *name;
};

static uint64_t seed;

void set_order(uint64_t number)
{
    seed = number;
}

/* FNV-1a, and then the end of splitmix64, so that names that differ in their last digit are spread too. */
static uint64_t hash_of(const char *name)
{
    uint64_t hash = 0xcbf29ce484222325 ^ seed;
    for (; *name; name++)
        hash = (hash ^ (unsigned char)*name) * 0x100000001b3;
    hash = (hash ^ hash >> 30) * 0xbf58476d1ce4e5b9;
    hash = (hash ^ hash >> 27) * 0x94d049bb133111eb;
    return hash ^ hash >> 31;
}

static int compare(const void *left, const void *right)
{
    const struct place *one = left, *other = right;
    return one->hash < other->hash ? -1 : one->hash > other->hash ? 1 : strcmp(one->name, other->name);
}

static int add_name(struct names *it, const char *name)
{
    if (it->count == it->room) {
        size_t room = it->room ? 2 * it->room : 64;
        struct place *grown = realloc(it->places, room * sizeof *grown);
        if (!grown)
            return -ENOMEM;
        it->places = grown;
        it->room = room;
    }
    char *copy = strdup(name);
    if (!copy)
        return -ENOMEM;
    it->places[it->count++] = (struct place){hash_of(name), copy};
    return 0;
}

static int64_t next_by_name(struct kt_key dir, const char *last, char *out)
{
    int64_t length = kt_next(&tree, dir, last, strlen(last), out, KT_NAME_MAX);
    if (length >= 0)
        out[length] = 0;
    return length;
}

/* Gathers all names of a directory, and sorts them. Returns 0 or a negative errno. */
static int64_t gather(struct names *it, struct kt_key dir)
{
    char last[KT_NAME_MAX + 1] = "", name[KT_NAME_MAX + 1];
    int64_t result;
    while ((result = next_by_name(dir, last, name)) >= 0) {
        int error = add_name(it, name);
        if (error)
            return error;
        strcpy(last, name);
    }
    if (it->count)
        qsort(it->places, it->count, sizeof *it->places, compare);
    return result == -ENOENT ? 0 : result;
}

/* The index of the first name after `last`, which may be gone meanwhile. */
static size_t index_after(const struct names *it, const char *last)
{
    struct place place = {hash_of(last), (char *)last};
    size_t low = 0, high = it->count;
    while (*last && low < high) {
        size_t middle = low + (high - low) / 2;
        if (compare(&it->places[middle], &place) <= 0)
            low = middle + 1;
        else
            high = middle;
    }
    return low;
}

int64_t next_name(struct names *it, struct kt_key dir, const char *last, char *out)
{
    if (!seed)
        return next_by_name(dir, last, out);
    int64_t error = it->places ? 0 : gather(it, dir);
    if (error)
        return error;
    size_t at = index_after(it, last);
    if (at == it->count)
        return -ENOENT;
    strcpy(out, it->places[at].name);
    return (int64_t)strlen(out);
}

void free_names(struct names *it)
{
    for (size_t at = 0; at < it->count; at++)
        free(it->places[at].name);
    free(it->places);
}
