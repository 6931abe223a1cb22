/* SPDX-License-Identifier: MIT OR Apache-2.0 */
/* Callbacks that unpublish their own device and go on: again and again, by open files, in a function on the device,
 * inside other callbacks, and while the function of kt_live_warn() unpublishes another device. Another callback is
 * inside the same file meanwhile, so that the file is not yet out of the tree. It prints a line for each test; the last
 * line is 'N passed, M failed'. A signal ends it if it hangs. */
#include <kt_live.h>
#include <sched.h>
#include <stdatomic.h>

#include "trying.h"

enum { SOON = 10, LONG = 60000 }; /* milliseconds */

static struct kt_live *live;
static struct kt_key key, other;
static atomic_int is_inside, may_go, is_over, warnings, said, first, second, third, stores;

/* The other callback. */
static int64_t stay(void *device, const struct kt_attribute *attribute, char *page)
{
    (void)device, (void)attribute, (void)page;
    atomic_store(&is_inside, 1);
    while (!atomic_load(&may_go))
        sched_yield();
    return 0;
}

static void wait_for(atomic_int *it)
{
    while (!atomic_load(it))
        sched_yield();
}

/* Whether a line says of a callback that it has stepped aside. */
static bool is_said(void)
{
    char text[1024] = "";
    FILE *out = tmpfile();
    if (kt_live_inside(live, "/", out) >= 2) {
        rewind(out);
        text[fread(text, 1, sizeof text - 1, out)] = 0;
    }
    fclose(out);
    return strstr(text, " is inside and has stepped aside, thread 0x");
}

/* Unpublishes the device too early, twice, and then again. */
static void try_thrice(bool is_limited)
{
    wait_for(&is_inside);
    atomic_store(&first, kt_live_unpublish_for(live, key, SOON, NULL));
    atomic_store(&second, kt_live_unpublish_for(live, key, SOON, NULL));
    atomic_store(&said, is_said());
    atomic_store(&may_go, 1);
    atomic_store(&third, is_limited ? kt_live_unpublish_for(live, key, LONG, NULL) : kt_live_unpublish(live, key));
}

static int64_t thrice(void *device, const struct kt_attribute *attribute, const char *bytes, size_t length)
{
    (void)device, (void)bytes;
    try_thrice(attribute->which == 1);
    return (int64_t)length;
}

static int64_t run_thrice(void *device, void *data)
{
    (void)device, (void)data;
    try_thrice(false);
    return 0;
}

/* Gives up. Unless `which` is 0, it ends once another thread has taken out the nodes: of its device, or of the one above
 * it if `which` is 2. */
static int64_t once(void *device, const struct kt_attribute *attribute, const char *bytes, size_t length)
{
    const char *path = attribute->which == 2 ? "/bus/fan0/below" : "/fan0/outlast";
    char text[8];
    (void)device, (void)bytes;
    wait_for(&is_inside);
    atomic_store(&first, kt_live_unpublish_for(live, attribute->which == 2 ? other : key, SOON, NULL));
    atomic_store(&may_go, 1);
    while (attribute->which && kt_live_read(live, path, text, sizeof text) != -ENOENT)
        sched_yield();
    if (attribute->which)
        usleep(20000); /* the other thread could return meanwhile */
    atomic_store(&is_over, 1);
    return (int64_t)length;
}

/* Runs a callback of the other device inside. */
static int64_t around(void *device, const struct kt_attribute *attribute, const char *bytes, size_t length)
{
    (void)device, (void)attribute;
    return kt_live_write(live, "/other/thrice", bytes, length);
}

/* Unpublishes, while a function of kt_live_warn() does so too. */
static int64_t warned(void *device, const struct kt_attribute *attribute, const char *bytes, size_t length)
{
    (void)device, (void)attribute, (void)bytes;
    wait_for(&is_inside);
    atomic_store(&third, kt_live_unpublish(live, key));
    return (int64_t)length;
}

/* Unpublishes the device between its own and the outer one, and goes on. */
static int64_t middle(void *device, const struct kt_attribute *attribute, const char *bytes, size_t length)
{
    (void)device, (void)attribute, (void)bytes;
    atomic_store(&first, kt_live_unpublish(live, key));
    atomic_store(&may_go, 1);
    usleep(20000);
    atomic_store(&is_over, 1);
    return (int64_t)length;
}

/* One of two that unpublish the outer device. The one that gets it sees whether the other one is over. */
static int64_t both(void *device, const struct kt_attribute *attribute, const char *bytes, size_t length)
{
    (void)device, (void)bytes;
    atomic_fetch_add(&stores, 1);
    wait_for(attribute->which ? &second : &first);
    if (kt_live_unpublish(live, other) == 1) {
        atomic_store(&said, atomic_load(&is_over));
        atomic_fetch_add(&third, 1);
    } else {
        usleep(20000);
        atomic_store(&is_over, 1);
    }
    return (int64_t)length;
}

static const struct kt_attribute attributes[] = {
    {"thrice", 0644, stay, thrice, 0}, {"limited", 0644, stay, thrice, 1}, {"once", 0644, stay, once, 0},
    {"outlast", 0644, stay, once, 1},  {"below", 0644, stay, once, 2},     {"around", 0644, stay, around, 0},
    {"warned", 0644, stay, warned, 0}, {"middle", 0644, stay, middle, 0},  {"one", 0644, stay, both, 0},
    {"two", 0644, stay, both, 1},
};
enum { COUNT = sizeof attributes / sizeof *attributes };

static void warn(const char *text, void *data)
{
    (void)text, (void)data;
    if (atomic_fetch_add(&warnings, 1))
        return;
    TRY(kt_live_unpublish(live, other), 1);
    atomic_store(&may_go, 1);
}

static void *reader(void *path)
{
    char text[8];
    return kt_live_read(live, path, text, sizeof text) == 0 ? path : NULL;
}

static void *open_reader(void *file)
{
    char text[8];
    return kt_live_pread(file, 0, text, sizeof text) == 0 ? file : NULL;
}

static void *writer(void *path) { return kt_live_write(live, path, "1", 1) == 1 ? path : NULL; }

/* Begins what one of the tests needs: the devices, and the other callback. */
static pthread_t begin(struct kt_live_file *file, const char *path)
{
    pthread_t thread;
    atomic_store(&is_inside, 0);
    atomic_store(&may_go, 0);
    atomic_store(&is_over, 0);
    pthread_create(&thread, NULL, file ? open_reader : reader, file ? (void *)file : (void *)(uintptr_t)path);
    return thread;
}

static void publish(void) { TRY(kt_live_publish(live, "/fan0", attributes, COUNT, NULL, &key), 0); }

static void join(pthread_t thread)
{
    void *out;
    pthread_join(thread, &out);
    TRY(out != NULL, 1);
}

/* The callback at a path gets its device at the third try; it is a function on the device if that is the path. */
static void try_path(const char *path)
{
    bool is_device = !strcmp(path, "/fan0");
    pthread_t thread;
    publish();
    thread = begin(NULL, is_device ? "/fan0/thrice" : path);
    if (is_device)
        TRY(kt_live_run(live, path, run_thrice, NULL), 0);
    else
        TRY(kt_live_write(live, path, "1", 1), 1);
    TRY(atomic_load(&first), -ETIMEDOUT);
    TRY(atomic_load(&second), -ETIMEDOUT);
    TRY(atomic_load(&said), 1);
    TRY(atomic_load(&third), 1);
    TRY(kt_live_unpublish(live, key), -ENOENT);
    join(thread);
}

static void try_files(void)
{
    struct kt_live_file *file, *stays;
    pthread_t thread;
    publish();
    TRY(kt_live_open(live, "/fan0/thrice", false, true, &file), 0);
    TRY(kt_live_open(live, "/fan0/thrice", true, false, &stays), 0);
    thread = begin(stays, NULL);
    TRY(kt_live_pwrite(file, "1", 1), 1);
    TRY(atomic_load(&second), -ETIMEDOUT);
    TRY(atomic_load(&third), 1);
    join(thread);
    for (int i = 0; i < 3; i++)
        TRY(kt_live_pwrite(file, "1", 1), -ENODEV); /* its call was left */
    TRY(kt_live_close(file), 0);
    TRY(kt_live_close(stays), 0);
}

/* A callback that gave up is left like any other, and somebody else gets the device. */
static void try_once(bool is_open)
{
    struct kt_live_file *file = NULL;
    pthread_t thread;
    publish();
    TRY(kt_live_open(live, "/fan0/once", false, true, &file), 0);
    thread = begin(NULL, "/fan0/once");
    TRY(is_open ? kt_live_pwrite(file, "1", 1) : kt_live_write(live, "/fan0/once", "1", 1), 1);
    TRY(atomic_load(&first), -ETIMEDOUT);
    join(thread);
    TRY(kt_live_inside(live, "/", stdout), 0);
    TRY(kt_live_unpublish(live, key), 1);
    TRY(kt_live_pwrite(file, "1", 1), -ENODEV);
    TRY(kt_live_close(file), 0);
}

/* The thread that gets the device waits for a callback that gave up and still runs in it. */
static void try_outlast(void)
{
    pthread_t thread, second_thread;
    publish();
    thread = begin(NULL, "/fan0/outlast");
    pthread_create(&second_thread, NULL, writer, "/fan0/outlast");
    wait_for(&may_go);
    TRY(kt_live_unpublish(live, key), 1);
    TRY(atomic_load(&is_over), 1);
    TRY(atomic_load(&first), -ETIMEDOUT);
    join(thread);
    join(second_thread);
}

/* So does the thread that gets the device above, which that callback unpublished. */
static void try_below(void)
{
    pthread_t thread, second_thread;
    struct kt_key inner;
    TRY(kt_live_publish(live, "/bus", NULL, 0, NULL, &other), 0);
    TRY(kt_live_publish(live, "/bus/fan0", attributes, COUNT, NULL, &inner), 0);
    thread = begin(NULL, "/bus/fan0/below");
    pthread_create(&second_thread, NULL, writer, "/bus/fan0/below");
    wait_for(&may_go);
    TRY(kt_live_unpublish(live, other), 1);
    TRY(atomic_load(&is_over), 1);
    TRY(atomic_load(&first), -ETIMEDOUT);
    join(thread);
    join(second_thread);
    TRY(kt_live_unpublish(live, inner), 1);
}

/* Also if the callback has unpublished a device in between. */
static void try_middle(void)
{
    pthread_t thread;
    struct kt_key inner;
    TRY(kt_live_publish(live, "/bus", NULL, 0, NULL, &other), 0);
    TRY(kt_live_publish(live, "/bus/port", NULL, 0, NULL, &key), 0);
    TRY(kt_live_publish(live, "/bus/port/fan0", attributes, COUNT, NULL, &inner), 0);
    atomic_store(&may_go, 0);
    atomic_store(&is_over, 0);
    pthread_create(&thread, NULL, writer, "/bus/port/fan0/middle");
    wait_for(&may_go);
    TRY(kt_live_unpublish(live, other), 1);
    TRY(atomic_load(&is_over), 1);
    TRY(atomic_load(&first), 1);
    join(thread);
    TRY(kt_live_unpublish(live, inner), 1);
}

/* Two callbacks below one device unpublish it while a third one is inside: the one that gets it waits for the other. */
static void try_both(void)
{
    pthread_t stays, one, two;
    struct kt_key keys[2];
    TRY(kt_live_publish(live, "/bus", NULL, 0, NULL, &other), 0);
    TRY(kt_live_publish(live, "/bus/fan1", attributes, COUNT, NULL, &keys[0]), 0);
    TRY(kt_live_publish(live, "/bus/fan2", attributes, COUNT, NULL, &keys[1]), 0);
    atomic_store(&first, 0);
    atomic_store(&second, 0);
    atomic_store(&third, 0);
    atomic_store(&stores, 0);
    stays = begin(NULL, "/bus/fan1/one");
    wait_for(&is_inside);
    pthread_create(&one, NULL, writer, "/bus/fan1/one");
    pthread_create(&two, NULL, writer, "/bus/fan2/two");
    while (atomic_load(&stores) < 2)
        sched_yield();
    atomic_store(&first, 1);
    usleep(2000);
    atomic_store(&second, 1);
    usleep(2000);
    atomic_store(&may_go, 1);
    join(stays);
    join(one);
    join(two);
    TRY(atomic_load(&third), 1);
    TRY(atomic_load(&said), 1);
    for (int i = 0; i < 2; i++)
        TRY(kt_live_unpublish(live, keys[i]), 1);
}

static void try_around(void)
{
    TRY(kt_live_publish(live, "/other", attributes, COUNT, NULL, &other), 0);
    try_path("/fan0/around");
    TRY(kt_live_unpublish(live, other), 1);
}

static void try_warned(void)
{
    pthread_t thread;
    TRY(kt_live_publish(live, "/other", attributes, COUNT, NULL, &other), 0);
    publish();
    thread = begin(NULL, "/fan0/warned");
    kt_live_warn(live, SOON, warn, NULL);
    TRY(kt_live_write(live, "/fan0/warned", "1", 1), 1);
    kt_live_warn(live, 0, NULL, NULL);
    TRY(atomic_load(&warnings) > 0, 1);
    TRY(atomic_load(&third), 1);
    join(thread);
}

int main(void)
{
    alarm(300);
    TRY(kt_live_new(&live, 64), 0);
    try_path("/fan0/thrice");
    try_path("/fan0/limited");
    try_path("/fan0");
    try_files();
    try_once(false);
    try_once(true);
    try_outlast();
    try_below();
    try_middle();
    for (int i = 0; i < 10; i++)
        try_both();
    try_around();
    try_warned();
    TRY(kt_live_delete(live), 0);
    return tried();
}
