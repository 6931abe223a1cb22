/* SPDX-License-Identifier: MIT OR Apache-2.0 */
/* Each call of kt_live.h, with right uses and with refusals, each three times in a row; many devices, few slots and a
 * deep path. It prints a line for each test; the last line is 'N passed, M failed'. */
#include <kt_live.h>

#include "trying.h"

struct fan {
    struct kt_key key;
    int64_t speed, stores;
    size_t length;
    bool is_ended;
};

static struct kt_live *live;
static struct fan fan, other, inner;
static struct kt_key key, unchanged = {7, 7};
static char text[KT_PAGE_SIZE], longest[KT_NAME_MAX + 2];

static int64_t show(void *device, const struct kt_attribute *attribute, char *page)
{
    struct fan *it = device;
    return snprintf(page, KT_PAGE_SIZE, "%lld %lld\n", (long long)attribute->which, (long long)it->speed);
}

static int64_t store(void *device, const struct kt_attribute *attribute, const char *bytes, size_t length)
{
    struct fan *it = device;
    it->stores++;
    it->length = length;
    it->speed = atoi(bytes) + attribute->which;
    it->is_ended = bytes[length] == 0;
    return (int64_t)length;
}

/* Shows nothing, fails, or fills the page, as its speed is. */
static int64_t show_odd(void *device, const struct kt_attribute *attribute, char *page)
{
    struct fan *it = device;
    (void)attribute;
    if (it->speed > 0)
        memset(page, 'x', it->speed < KT_PAGE_SIZE ? (size_t)it->speed : KT_PAGE_SIZE);
    return it->speed;
}

static int64_t store_fails(void *device, const struct kt_attribute *attribute, const char *bytes, size_t length)
{
    (void)device;
    (void)attribute;
    (void)bytes;
    (void)length;
    return -ERANGE;
}

/* Shows what the other calls return inside a callback. */
static int64_t show_calls(void *device, const struct kt_attribute *attribute, char *page)
{
    struct kt_child at = {.name = ""};
    int64_t answers[] = {
        kt_live_read(live, "/fan0/speed", page, 16), kt_live_write(live, "/fan0/speed", "5", 1),
        kt_live_notify(live, fan.key, "speed"), kt_live_list(live, "/fan0", &at), kt_live_delete(live),
    };
    (void)device;
    (void)attribute;
    return snprintf(page, KT_PAGE_SIZE, "%lld %lld %lld %lld %lld", (long long)answers[0], (long long)answers[1],
                    (long long)answers[2], (long long)answers[3], (long long)answers[4]);
}

static int64_t unpublished, again, second;

static int64_t store_delete(void *device, const struct kt_attribute *attribute, const char *bytes, size_t length)
{
    struct fan *it = device;
    (void)attribute;
    (void)bytes;
    TRY(kt_live_self(live).slot == it->key.slot && kt_live_self(live).generation == it->key.generation, 1);
    unpublished = kt_live_unpublish(live, kt_live_self(live));
    again = kt_live_unpublish(live, it->key);
    TRY(kt_live_self(live).generation, 0);
    return (int64_t)length;
}

/* From a callback of a device inside another: it unpublishes the outer one, and then its own. */
static int64_t store_delete_outer(void *device, const struct kt_attribute *attribute, const char *bytes, size_t length)
{
    struct fan *it = device;
    (void)attribute;
    (void)bytes;
    unpublished = kt_live_unpublish(live, fan.key);
    second = kt_live_unpublish(live, it->key);
    return (int64_t)length;
}

/* A callback that runs another device's callback, which unpublishes the first. */
static int64_t store_round(void *device, const struct kt_attribute *attribute, const char *bytes, size_t length)
{
    (void)device;
    (void)attribute;
    return kt_live_write(live, "/other/delete_outer", bytes, length);
}

static const struct kt_attribute attributes[] = {
    {"speed", 0644, show, store, 1}, {"target", 0200, NULL, store, 2},   {"input", 0444, show, NULL, 3},
    {"none", 0, NULL, NULL, 4},      {"odd", 0444, show_odd, NULL, 5},   {"fails", 0222, NULL, store_fails, 6},
    {"calls", 0444, show_calls, NULL, 7}, {"delete", 0200, NULL, store_delete, 8},
    {"delete_outer", 0200, NULL, store_delete_outer, 9}, {"round", 0200, NULL, store_round, 10},
    {NULL, 0, NULL, NULL, 11},
};
enum { COUNT = sizeof attributes / sizeof *attributes, FILES = COUNT - 2 };

#define PUBLISH(path, it) kt_live_publish(live, path, attributes, COUNT, &(it), &(it).key)
/* A refused call writes no key. */
#define REFUSED(path, table, count, wanted)                                        \
    do {                                                                           \
        key = unchanged;                                                           \
        TRY(kt_live_publish(live, path, table, count, &fan, &key), wanted);        \
        TRY(key.slot == unchanged.slot && key.generation == unchanged.generation, 1); \
    } while (0)

static void trees(void)
{
    struct kt_live *same = live;
    for (int i = 0; i < 3; i++) {
        TRY(kt_live_new(&live, 0), -EINVAL);
        TRY(kt_live_new(&live, KT_SLOTS_MAX + 1), -EINVAL);
        TRY(live == same, 1);
    }
    for (int i = 0; i < 3; i++) {
        TRY(kt_live_new(&live, 1), 0);
        TRY(kt_live_publish(live, "/d", NULL, 0, NULL, &key), -ENOSPC);
        TRY(kt_live_delete(live), 0);
    }
}

static void modes(void)
{
    struct {
        struct kt_attribute it;
        int wanted;
    } tries[] = {
        {{"a", 0644, show, store, 0}, 0}, {{"a", 0444, show, NULL, 0}, 0},
        {{"a", 0200, NULL, store, 0}, 0}, {{"a", 0666, show, store, 0}, 0},
        {{"a", 0, show, store, 0}, 0}, {{NULL, 0, NULL, NULL, 0}, 0},
        {{"a", 0400, show, NULL, 0}, 0}, {{"a", 0444, show, store, 0}, -EINVAL},
        {{"a", 0200, show, store, 0}, -EINVAL}, {{"a", 0644, show, NULL, 0}, -EINVAL},
        {{"a", 0644, NULL, store, 0}, -EINVAL}, {{"a", 0444, NULL, NULL, 0}, -EINVAL},
        {{"a", 0755, show, store, 0}, -EINVAL}, {{"a", 01644, show, store, 0}, -EINVAL},
        {{"a", 0111, NULL, NULL, 0}, -EINVAL}, {{"a", 0xffff, show, store, 0}, -EINVAL},
        {{NULL, 0644, show, store, 0}, -EINVAL}, {{"", 0644, show, store, 0}, -EINVAL},
        {{"a/b", 0644, show, store, 0}, -EINVAL}, {{"..", 0644, show, store, 0}, -EINVAL},
        {{longest, 0644, show, store, 0}, -ENAMETOOLONG},
    };
    for (size_t i = 0; i < sizeof tries / sizeof *tries; i++) {
        key = unchanged;
        TRY(kt_live_publish(live, "/mode", &tries[i].it, 1, &fan, &key), tries[i].wanted);
        if (tries[i].wanted)
            TRY(key.slot == unchanged.slot && kt_live_read(live, "/mode/a", text, sizeof text) == -ENOENT, 1);
        else
            TRY(kt_live_unpublish(live, key), 1);
    }
}

static void publishes(void)
{
    const struct kt_attribute twice[] = {attributes[0], attributes[2], attributes[0]};
    TRY(PUBLISH("/fan0", fan), 0);
    for (int i = 0; i < 3; i++) {
        REFUSED("/fan0", attributes, COUNT, -EEXIST);
        REFUSED("/fan0/speed", attributes, 1, -EEXIST);
        REFUSED("", NULL, 0, -EINVAL);
        REFUSED("/", NULL, 0, -EINVAL);
        REFUSED("fan1", NULL, 0, -EINVAL);
        REFUSED("a/fan1", NULL, 0, -EINVAL);
        REFUSED("/fan1/", NULL, 0, -ENOENT);
        REFUSED("/fan0/", NULL, 0, -EINVAL);
        REFUSED("//fan1", NULL, 0, -EINVAL);
        REFUSED("/..", NULL, 0, -EINVAL);
        REFUSED("/none/fan1", NULL, 0, -ENOENT);
        REFUSED("/fan0/speed/fan1", NULL, 0, -ENOTDIR);
        REFUSED("/fan1", twice, 3, -EEXIST);
        TRY(kt_live_read(live, "/fan1/speed", text, sizeof text), -ENOENT);
    }
    longest[0] = '/';
    TRY(kt_live_publish(live, longest, NULL, 0, NULL, &key), 0);
    TRY(kt_live_unpublish(live, key), 1);
    longest[0] = 'n';
}

static void reads(void)
{
    fan.speed = 12;
    for (int i = 0; i < 3; i++) {
        memset(text, '-', sizeof text);
        TRY(kt_live_read(live, "/fan0/speed", text, sizeof text), 5);
        TRY(strcmp(text, "1 12\n"), 0);
        TRY(kt_live_read(live, "/fan0/input", text, 3), 3);
        TRY(memcmp(text, "3 1", 3) || text[3] != '2', 0); /* cut, and without a zero byte if there is no space */
        TRY(kt_live_read(live, "/fan0/input", NULL, 0), 0);
        TRY(kt_live_read(live, "/fan0/target", text, sizeof text), -EACCES);
        TRY(kt_live_read(live, "/fan0/none", text, sizeof text), -ENOENT);
        TRY(kt_live_read(live, "/fan0", text, sizeof text), -EISDIR);
        TRY(kt_live_read(live, "/", text, sizeof text), -EISDIR);
        TRY(kt_live_read(live, "/fan1/speed", text, sizeof text), -ENOENT);
        TRY(kt_live_read(live, "/fan0/speed/x", text, sizeof text), -ENOTDIR);
        TRY(kt_live_read(live, "fan0/speed", text, sizeof text), -EINVAL);
        TRY(kt_live_read(live, "", text, sizeof text), -EINVAL);
    }
    int64_t lengths[] = {0, 1, KT_PAGE_SIZE - 2, KT_PAGE_SIZE - 1, KT_PAGE_SIZE, KT_PAGE_SIZE + 1, INT64_MAX, -EIO,
                         -EAGAIN, INT64_MIN};
    for (size_t i = 0; i < sizeof lengths / sizeof *lengths; i++) {
        int64_t wanted = fan.speed = lengths[i];
        if (wanted > KT_PAGE_SIZE - 1)
            wanted = KT_PAGE_SIZE - 1;
        memset(text, '-', sizeof text);
        TRY(kt_live_read(live, "/fan0/odd", text, sizeof text), wanted);
        TRY(wanted < 0 ? text[0] == '-' : (int64_t)strlen(text) == wanted, 1);
    }
}

static void writes(void)
{
    char page[KT_PAGE_SIZE + 10];
    memset(page, '1', sizeof page);
    for (int i = 0; i < 3; i++) {
        fan.stores = 0;
        TRY(kt_live_write(live, "/fan0/speed", "12345", 2), 2);
        TRY(fan.speed == 13 && fan.length == 2 && fan.is_ended, 1);
        TRY(kt_live_write(live, "/fan0/target", "40", 2), 2);
        TRY(fan.speed, 42);
        TRY(kt_live_write(live, "/fan0/target", NULL, 0), 0);
        TRY(fan.stores, 2);
        TRY(kt_live_write(live, "/fan0/target", page, KT_PAGE_SIZE), KT_PAGE_SIZE);
        TRY(kt_live_write(live, "/fan0/target", page, sizeof page), KT_PAGE_SIZE);
        TRY(fan.length == KT_PAGE_SIZE && fan.is_ended, 1);
        TRY(kt_live_write(live, "/fan0/fails", "1", 1), -ERANGE);
        TRY(kt_live_write(live, "/fan0/input", "1", 1), -EACCES);
        TRY(kt_live_write(live, "/fan0/none", "1", 1), -ENOENT);
        TRY(kt_live_write(live, "/fan0", "1", 1), -EISDIR);
        TRY(kt_live_write(live, "fan0/target", "1", 1), -EINVAL);
    }
}

/* How often a descriptor was raised since it was asked last; -1: not at all. */
static int64_t raised(int fd)
{
    uint64_t times;
    return read(fd, &times, sizeof times) == sizeof times ? (int64_t)times : -1;
}

static void watches(void)
{
    struct kt_handle file;
    TRY(kt_new(&file.at), 0);
    int one = kt_live_watch(live, "/fan0/speed"), two = kt_live_watch(live, "/fan0/speed");
    int three = kt_live_watch(live, "/fan0");
    TRY(one >= 0 && two >= 0 && three >= 0 && one != two && two != three, 1);
    TRY(kt_walk(&live->tree, "/fan0/speed", 11, &key), 0);
    TRY(kt_open(&live->tree, key, true, false, &file), 0);
    for (int i = 0; i < 3; i++) {
        TRY(raised(one), -1);
        TRY(kt_live_notify(live, fan.key, "input"), 0);
        TRY(raised(one), -1);
        TRY(kt_live_notify(live, fan.key, "speed"), 0);
        TRY(kt_live_notify(live, fan.key, "speed"), 0);
        TRY(raised(one), 2);
        TRY(raised(two), 2);
        TRY(raised(three), -1);
        TRY(kt_poll(&file, &live->lock), 1);
        TRY(kt_live_notify(live, (struct kt_key){0, 1}, "fan0"), 0);
        TRY(raised(three), 1);
        TRY(kt_live_notify(live, fan.key, "none"), -ENOENT);
        TRY(kt_live_notify(live, key, "x"), -ENOTDIR);
        TRY(kt_live_notify(live, unchanged, "speed"), -ENOENT);
        TRY(kt_live_watch(live, "x"), -EINVAL);
        TRY(kt_live_watch(live, ""), -EINVAL);
        TRY(kt_live_unwatch(live, -1), -EBADF);
        TRY(kt_live_unwatch(live, 1), -EBADF);
    }
    TRY(kt_live_unwatch(live, two), 0);
    TRY(kt_live_unwatch(live, two), -EBADF);
    TRY(kt_live_notify(live, fan.key, "speed"), 0);
    TRY(kt_live_delete(live), -EBUSY);
    TRY(kt_live_unpublish(live, fan.key), 1);
    TRY(raised(one), 2); /* the notification and the removal */
    TRY(raised(three), 1);
    TRY(kt_live_delete(live), -EBUSY); /* something is watched */
    two = kt_live_watch(live, "/fan0/speed/x");
    for (int i = 0; i < 3; i++) { /* it comes, changes and goes again */
        TRY(raised(one), -1);
        TRY(PUBLISH("/fan0", fan), 0);
        TRY(raised(one), 1);
        TRY(PUBLISH("/other", other), 0);
        TRY(kt_live_unpublish(live, other.key), 1);
        TRY(raised(one), -1);
        TRY(kt_live_notify(live, fan.key, "speed"), 0);
        TRY(kt_live_unpublish(live, fan.key), 1);
        TRY(raised(one), 2);
        TRY(PUBLISH("/fan0", fan), 0);
        TRY(kt_live_unpublish(live, fan.key), 1);
        TRY(raised(one), 2);
        TRY(raised(two), -1);
    }
    TRY(kt_live_unwatch(live, one), 0);
    TRY(kt_live_unwatch(live, two), 0);
    TRY(kt_live_unwatch(live, three), 0);
    TRY(kt_clear(&file), 0);
    TRY(kt_delete(file), 0);
}

static void lists(void)
{
    const char *wanted[] = {"calls", "delete", "delete_outer", "fails", "input", "odd", "round", "speed", "target"};
    struct kt_child at = {.name = ""};
    TRY(kt_live_list(live, "/", &at), 0);
    TRY(PUBLISH("/fan0", fan), 0);
    for (int i = 0; i < FILES; i++) {
        TRY(kt_live_list(live, "/fan0", &at), 1);
        TRY(strcmp(at.name, wanted[i]) || at.kind != KT_FILE || !at.mode, 0);
    }
    for (int i = 0; i < 3; i++) {
        TRY(kt_live_list(live, "/fan0", &at), 0);
        TRY(strcmp(at.name, "target"), 0);
        TRY(kt_live_list(live, "/none", &at), -ENOENT);
        TRY(kt_live_list(live, "/fan0/speed", &at), -ENOTDIR);
        TRY(kt_live_list(live, "fan0", &at), -EINVAL);
        at.name[0] = 0;
        TRY(kt_live_list(live, "/", &at), 1);
        TRY(strcmp(at.name, "fan0") || at.kind != KT_DIR || at.key.slot != fan.key.slot, 0);
        TRY(kt_live_list(live, "/", &at), 0);
        strcpy(at.name, "target");
    }
}

static void unpublishes(void)
{
    struct kt_key wrong[] = {{0, 0}, {0, 1}, {UINT32_MAX, UINT32_MAX}, {63, 1}, {64, 1}, fan.key};
    wrong[5].generation++;
    for (size_t i = 0; i < sizeof wrong / sizeof *wrong; i++)
        TRY(kt_live_unpublish(live, wrong[i]), -ENOENT);
    TRY(kt_walk(&live->tree, "/fan0/speed", 11, &key), 0);
    TRY(kt_live_unpublish(live, key), -ENOENT); /* a file is not a device */
    TRY(kt_live_delete(live), -EBUSY);
    TRY(kt_live_unpublish(live, fan.key), 1);
    for (int i = 0; i < 3; i++) {
        TRY(kt_live_unpublish(live, fan.key), -ENOENT);
        TRY(kt_live_read(live, "/fan0/speed", text, sizeof text), -ENOENT);
        TRY(kt_live_write(live, "/fan0/speed", "1", 1), -ENOENT);
    }
    for (int i = 0; i < 3; i++) {
        struct kt_key before = fan.key;
        TRY(PUBLISH("/fan0", fan), 0);
        TRY(kt_live_unpublish(live, before), -ENOENT);
        TRY(kt_live_unpublish(live, fan.key), 1);
    }
}

/* From inside callbacks. */
static void inside(void)
{
    TRY(PUBLISH("/fan0", fan), 0);
    for (int i = 0; i < 3; i++) {
        TRY(kt_live_read(live, "/fan0/calls", text, sizeof text), 11);
        TRY(strcmp(text, "5 1 0 1 -16") && strcmp(text, "4 1 0 1 -16"), 0);
    }
    for (int i = 0; i < 3; i++) {
        unpublished = again = -1;
        TRY(kt_live_write(live, "/fan0/delete", "1", 1), 1);
        TRY(unpublished == 1 && again == -ENOENT, 1);
        TRY(kt_live_write(live, "/fan0/delete", "1", 1), -ENOENT);
        TRY(PUBLISH("/fan0", fan), 0);
    }
    /* a device inside another: its callback takes the outer one out, and itself with it */
    TRY(PUBLISH("/fan0/inner", inner), 0);
    TRY(kt_live_write(live, "/fan0/inner/delete_outer", "1", 1), 1);
    TRY(unpublished == 1 && second == 1, 1);
    TRY(kt_live_unpublish(live, inner.key), -ENOENT);
    /* a callback inside a callback, the inner one of which takes out both devices */
    TRY(PUBLISH("/fan0", fan), 0);
    TRY(PUBLISH("/other", other), 0);
    unpublished = second = -1;
    TRY(kt_live_write(live, "/fan0/round", "1", 1), 1);
    TRY(unpublished == 1 && second == 1, 1);
    TRY(kt_live_read(live, "/other/speed", text, sizeof text), -ENOENT);
}

/* A device whose directory went with another's stays published until it is unpublished itself. */
static void nested(void)
{
    struct kt_key plain, below;
    for (int i = 0; i < 3; i++) {
        TRY(kt_live_publish(live, "/plain", NULL, 0, NULL, &plain), 0);
        TRY(kt_live_publish(live, "/plain/below", NULL, 0, NULL, &below), 0);
        TRY(PUBLISH("/plain/below/fan0", fan), 0);
        TRY(kt_live_read(live, "/plain/below/fan0/speed", text, sizeof text) > 0, 1);
        TRY(kt_live_unpublish(live, plain), 1);
        TRY(kt_live_read(live, "/plain/below/fan0/speed", text, sizeof text), -ENOENT);
        TRY(PUBLISH("/other", other), 0); /* (their slots are used again) */
        TRY(kt_live_publish(live, "/plain", NULL, 0, NULL, &plain), 0);
        TRY(kt_live_delete(live), -EBUSY);
        TRY(kt_live_unpublish(live, fan.key), 1);
        TRY(kt_live_unpublish(live, fan.key), -ENOENT);
        TRY(kt_live_unpublish(live, plain), 1);
        TRY(kt_live_unpublish(live, other.key), 1);
        TRY(kt_live_unpublish(live, below), 1);
    }
}

/* The program may also use the lower calls. */
static void beside(void)
{
    struct kt_key root, mine, link;
    TRY(PUBLISH("/fan0", fan), 0);
    pthread_mutex_lock(&live->lock.mutex);
    TRY(kt_root(&live->tree, &root), 0);
    TRY(kt_create_file(&live->tree, root, "mine", 4, 0644, 0, true, &mine), 0);
    TRY(kt_create_link(&live->tree, root, "link", 4, fan.key, true, &link), 0);
    TRY(kt_walk(&live->tree, "/fan0/speed", 11, &key), 0);
    pthread_mutex_unlock(&live->lock.mutex);
    TRY(kt_live_read(live, "/mine", text, sizeof text), -EIO);
    TRY(kt_live_write(live, "/mine", "1", 1), -EIO);
    TRY(kt_live_read(live, "/link", text, sizeof text), -EINVAL);
    TRY(kt_hide_wait(&live->tree, key, &live->lock), 0);
    TRY(kt_live_read(live, "/fan0/speed", text, sizeof text), -ENODEV);
    TRY(kt_unhide(&live->tree, key), 0);
    TRY(kt_live_read(live, "/fan0/speed", text, sizeof text) > 0, 1);
    TRY(kt_hide_wait(&live->tree, key, &live->lock), 0); /* a hidden file is unpublished like any other */
    struct kt_handle call;
    TRY(kt_new(&call.at), 0);
    TRY(kt_hold(&live->tree, mine, &call), 0);
    TRY(kt_enter(&call), 0);
    TRY(kt_hide(&live->tree, mine), -EAGAIN);
    TRY(kt_leave_wake(&call, &live->lock), 0);
    TRY(kt_live_unpublish(live, fan.key), 1);
    TRY(kt_live_delete(live), -EBUSY); /* a file is being hidden */
    TRY(kt_hide(&live->tree, mine), 0);
    kt_clear_wake(&call, &live->lock);
    TRY(kt_delete(call), 0);
    TRY(kt_remove_wait(&live->tree, mine, &live->lock), 1);
    TRY(kt_remove_wait(&live->tree, link, &live->lock), 1);
}

/* Creates a file by the lower calls, removes it, and creates it again with each tag that a published file may have. It
 * has no callback, and its watcher learns of each notification, even if the watch came first. */
static void own_file(struct kt_key dir, const char *path)
{
    struct kt_key mine;
    int fd = kt_live_watch(live, path);
    TRY(fd >= 0, 1);
    for (uint64_t tag = 0; tag <= COUNT; tag++) {
        pthread_mutex_lock(&live->lock.mutex);
        TRY(kt_create_file(&live->tree, dir, "mine", 4, 0666, tag, true, &mine), 0);
        pthread_mutex_unlock(&live->lock.mutex);
        TRY(raised(fd), -1);
        TRY(kt_live_read(live, path, text, sizeof text), -EIO);
        TRY(kt_live_write(live, path, "1", 1), -EIO);
        TRY(kt_live_notify(live, dir, "mine"), 0);
        TRY(raised(fd), 1);
        TRY(kt_live_notify(live, dir, "mine"), 0);
        TRY(kt_live_notify(live, fan.key, "speed"), 0);
        TRY(raised(fd), 1);
        TRY(kt_remove_wait(&live->tree, mine, &live->lock), 1);
        TRY(raised(fd), -1);
    }
    /* a device published there is reported as always: the watched file has gone, and the device comes */
    TRY(kt_live_publish(live, path, NULL, 0, NULL, &mine), 0);
    TRY(raised(fd), 1);
    TRY(kt_live_unpublish(live, mine), 1);
    TRY(raised(fd), 1);
    TRY(kt_live_unwatch(live, fd), 0);
}

static void own_files(void)
{
    struct kt_key root;
    TRY(PUBLISH("/fan0", fan), 0);
    TRY(kt_root(&live->tree, &root), 0);
    int64_t stores = fan.stores;
    own_file(root, "/mine");
    int one = kt_live_watch(live, "/one"), two = kt_live_watch(live, "/two");
    struct kt_key first, second_file;
    pthread_mutex_lock(&live->lock.mutex);
    TRY(kt_create_file(&live->tree, root, "one", 3, 0666, 0, true, &first), 0);
    TRY(kt_create_file(&live->tree, root, "two", 3, 0666, 0, true, &second_file), 0);
    pthread_mutex_unlock(&live->lock.mutex);
    TRY(kt_live_notify(live, root, "one"), 0);
    TRY(raised(one), 1);
    TRY(raised(two), -1); /* of another file */
    TRY(kt_remove_wait(&live->tree, second_file, &live->lock), 1);
    TRY(kt_live_notify(live, root, "one"), 0);
    TRY(raised(one), 1);
    TRY(raised(two), -1);
    TRY(kt_remove_wait(&live->tree, first, &live->lock), 1);
    TRY(kt_live_unwatch(live, one), 0);
    TRY(kt_live_unwatch(live, two), 0);
    own_file(fan.key, "/fan0/mine");
    TRY(fan.stores - stores, 0);
    TRY(kt_live_unpublish(live, fan.key), 1);
}

/* A file with the maximum of holds cannot be read once more, and its device stays. */
static void full(void)
{
    static struct kt_handle all[KT_HOLDS_MAX];
    int wrong = 0;
    TRY(PUBLISH("/fan0", fan), 0);
    TRY(kt_walk(&live->tree, "/fan0/speed", 11, &key), 0);
    int fd = kt_live_watch(live, "/fan0/speed");
    for (size_t i = 0; i < KT_HOLDS_MAX; i++)
        wrong += kt_new(&all[i].at) || kt_hold(&live->tree, key, &all[i]);
    TRY(wrong, 0);
    for (int i = 0; i < 3; i++) {
        TRY(kt_live_read(live, "/fan0/speed", text, sizeof text), -EMFILE);
        TRY(kt_live_write(live, "/fan0/speed", "1", 1), -EMFILE);
        TRY(kt_live_unpublish(live, fan.key), -EMFILE);
        TRY(raised(fd), -1);
        TRY(kt_live_read(live, "/fan0/input", text, sizeof text) > 0, 1);
    }
    TRY(kt_delete(all[0]), 1); /* it had the last place */
    for (size_t i = 1; i < KT_HOLDS_MAX; i++)
        wrong += kt_delete(all[i]);
    TRY(wrong, 0);
    TRY(kt_live_unpublish(live, fan.key), 1);
    TRY(raised(fd), 1);
    TRY(kt_live_unwatch(live, fd), 0);
}

/* ---- several threads ---- */

static int gate; /* 0, 1: a show waits at it; 2: it may go on */

static int64_t show_slowly(void *device, const struct kt_attribute *attribute, char *page)
{
    (void)device;
    (void)attribute;
    __atomic_store_n(&gate, 1, __ATOMIC_SEQ_CST);
    while (__atomic_load_n(&gate, __ATOMIC_SEQ_CST) != 2)
        usleep(1000);
    page[0] = 'x';
    return 1;
}

static void *read_slowly(void *answer)
{
    char room[8];
    *(int64_t *)answer = kt_live_read(live, "/slow/slow", room, sizeof room);
    return NULL;
}

static void *unpublish(void *answer)
{
    *(int64_t *)answer = kt_live_unpublish(live, key);
    return NULL;
}

/* Threads that unpublish one device while a callback is inside: none returns before that has ended, and one returns 1. */
static void together(void)
{
    const struct kt_attribute slow = {"slow", 0444, show_slowly, NULL, 0};
    pthread_t threads[5];
    int64_t answers[5];
    int first = 0, others = 0;
    gate = 0;
    TRY(kt_live_publish(live, "/slow", &slow, 1, NULL, &key), 0);
    for (int i = 0; i < 5; i++) {
        answers[i] = 99;
        pthread_create(&threads[i], NULL, i ? unpublish : read_slowly, &answers[i]);
        while (!__atomic_load_n(&gate, __ATOMIC_SEQ_CST))
            usleep(1000);
    }
    while (kt_live_write(live, "/slow/slow", "1", 1) != -ENODEV)
        usleep(1000);
    usleep(20000);
    TRY(kt_live_delete(live), -EBUSY);
    struct kt_child at = {.name = ""};
    TRY(kt_live_list(live, "/", &at), 0); /* a device that is being removed is not listed */
    TRY(kt_live_publish(live, "/slow", NULL, 0, NULL, &fan.key), -EEXIST); /* until it is gone */
    __atomic_store_n(&gate, 2, __ATOMIC_SEQ_CST);
    for (int i = 0; i < 5; i++)
        pthread_join(threads[i], NULL);
    for (int i = 1; i < 5; i++) {
        first += answers[i] == 1;
        others += answers[i] == 0 || answers[i] == -ENOENT; /* (one that came late) */
    }
    TRY(answers[0], 1);
    TRY(first == 1 && others == 3, 1);
    TRY(kt_live_read(live, "/slow/slow", text, sizeof text), -ENOENT);
}

/* The maximum of devices, one more, and one more again after one is gone. */
static void many(uint32_t slots, uint32_t files)
{
    struct kt_attribute table[8];
    struct kt_key keys[64], last = unchanged;
    struct kt_child at = {.name = ""};
    char path[32], names[8][2];
    uint32_t fit = (slots - 1) / (files + 1), told = 0;
    for (uint32_t i = 0; i < files; i++) {
        table[i] = attributes[0];
        table[i].name = memcpy(names[i], (char[]){(char)('a' + i), 0}, 2);
    }
    TRY(kt_live_new(&live, slots), 0);
    for (uint32_t i = 0; i < fit; i++) {
        snprintf(path, sizeof path, "/fan%02u", i);
        TRY(kt_live_publish(live, path, table, files, &fan, &keys[i]), 0);
    }
    for (int i = 0; i < 3; i++) {
        TRY(kt_live_publish(live, "/more", table, files, &fan, &last), -ENOSPC);
        TRY(last.slot == unchanged.slot, 1);
        TRY(kt_live_unpublish(live, keys[0]), 1);
        TRY(kt_live_publish(live, "/fan00", table, files, &fan, &keys[0]), 0);
    }
    snprintf(path, sizeof path, "/fan%02u/a", fit - 1);
    TRY(!files || kt_live_read(live, path, text, sizeof text) > 0, 1);
    while (kt_live_list(live, "/", &at) == 1)
        told++;
    TRY(told, fit);
    for (uint32_t i = 0; i < fit; i++)
        TRY(kt_live_unpublish(live, keys[i]), 1);
    TRY(kt_live_delete(live), 0);
}

static void deep(void)
{
    enum { DEPTH = 60 };
    static char path[DEPTH * (KT_NAME_MAX + 1) + 16];
    struct kt_key keys[DEPTH];
    size_t length = 0;
    TRY(kt_live_new(&live, 2 * DEPTH), 0);
    for (int i = 0; i < DEPTH; i++) {
        path[length++] = '/';
        memset(path + length, 'd', KT_NAME_MAX);
        length += KT_NAME_MAX;
        TRY(kt_live_publish(live, path, attributes, i == DEPTH - 1 ? 1 : 0, &fan, &keys[i]), 0);
    }
    memcpy(path + length, "/speed", 7);
    for (int i = 0; i < 3; i++)
        TRY(kt_live_read(live, path, text, sizeof text) > 0, 1);
    TRY(kt_live_unpublish(live, keys[0]), 1);
    TRY(kt_live_read(live, path, text, sizeof text), -ENOENT);
    for (int i = DEPTH - 1; i > 0; i--)
        TRY(kt_live_unpublish(live, keys[i]), 1);
    TRY(kt_live_delete(live), 0);
}

/* The tree stores at most twice the commands that it needs, and 1,000; otherwise this would take 40 MB. */
static void tidy(void)
{
    TRY(kt_live_new(&live, 64), 0);
    int wrong = 0;
    for (int i = 0; i < 50000; i++) {
        wrong += PUBLISH("/fan0", fan) != 0;
        wrong += kt_live_unpublish(live, fan.key) != 1;
        struct kt_command_counts commands;
        wrong += kt_commands(&live->tree, &commands) || commands.stored > 1000 + 4 * COUNT;
    }
    TRY(wrong, 0);
    TRY(kt_live_delete(live), 0);
}

int main(void)
{
    memset(longest, 'n', KT_NAME_MAX + 1);
    trees();
    TRY(kt_live_new(&live, 64), 0);
    modes();
    longest[KT_NAME_MAX] = 0;
    longest[0] = 'n';
    publishes();
    reads();
    writes();
    watches();
    lists();
    unpublishes();
    inside();
    nested();
    beside();
    own_files();
    full();
    for (int i = 0; i < 3; i++)
        together();
    TRY(kt_live_delete(live), 0);
    many(8, 0);
    many(9, 1);
    many(11, 2);
    many(201, 4); /* the fortieth device */
    deep();
    tidy();
    return tried();
}
