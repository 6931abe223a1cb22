/* SPDX-License-Identifier: MIT OR Apache-2.0 */
/* The calls without kt_live.h: a fan with two attributes that readers and a writer use in threads, one removes it
 * while a callback is inside, and another device deletes itself by a write to its own attribute. */
#include <kernfs_tree.h>
#include <pthread.h>
#include <stdatomic.h>
#include <stdio.h>
#include <stdlib.h>
#include <string.h>
#include <unistd.h>

/* What the driver keeps of its device. It is freed once the removal has returned. */
struct fan {
    atomic_int speed;
};

static struct kt_lock lock = KT_LOCK_INIT;
static struct kt_handle tree;
static atomic_int inside, shown, stored;

static void must(int64_t answer, const char *what)
{
    if (answer < 0) {
        fprintf(stderr, "%s: %s\n", what, strerror((int)-answer));
        exit(1);
    }
}

/* A directory with one or two files, none of which is visible before all exist. */
static struct kt_key publish(const char *name, uint64_t tag, const char *files[], int count)
{
    struct kt_key root, dir, file;
    pthread_mutex_lock(&lock.mutex);
    must(kt_root(&tree, &root), "root");
    must(kt_create_dir(&tree, root, name, strlen(name), false, &dir), name);
    for (int i = 0; i < count; i++)
        must(kt_create_file(&tree, dir, files[i], strlen(files[i]), 0644, tag, false, &file), files[i]);
    must(kt_activate(&tree, dir), "activate");
    pthread_mutex_unlock(&lock.mutex);
    return dir;
}

/* Opens an attribute: a handle with a hold of the node at the path, and the node's key. */
static struct kt_handle open_file(const char *path, struct kt_key *key)
{
    struct kt_handle file;
    must(kt_new(&file.at), "new");
    pthread_mutex_lock(&lock.mutex);
    must(kt_walk(&tree, path, strlen(path), key), path);
    must(kt_hold(&tree, *key, &file), "hold");
    pthread_mutex_unlock(&lock.mutex);
    return file;
}

static void close_file(struct kt_handle file)
{
    kt_clear_wake(&file, &lock);
    kt_delete(file);
}

/* ---- callbacks: the fan is there as long as one of them runs ---- */

struct text {
    struct fan *fan;
    char page[KT_PAGE_SIZE];
};

static int64_t show_speed(struct kt_handle *call, void *data)
{
    struct text *text = data;
    (void)call;
    atomic_fetch_add(&inside, 1);
    int length = snprintf(text->page, sizeof text->page, "%d\n", atomic_load(&text->fan->speed));
    if (atomic_fetch_add(&shown, 1) == 0)
        usleep(300 * 1000); /* the first one takes its time */
    atomic_fetch_sub(&inside, 1);
    return length;
}

static int64_t store_speed(struct kt_handle *call, void *data)
{
    struct text *text = data;
    (void)call;
    atomic_fetch_add(&inside, 1);
    atomic_store(&text->fan->speed, atoi(text->page));
    atomic_fetch_add(&stored, 1);
    atomic_fetch_sub(&inside, 1);
    return (int64_t)strlen(text->page);
}

struct user {
    kt_callback *callback;
    const char *path, *value;
    struct fan *fan;
};

/* Uses an attribute until it is gone. */
static void *use(void *data)
{
    struct user *user = data;
    struct text text = {.fan = user->fan};
    struct kt_key key;
    struct kt_handle file = open_file(user->path, &key);
    int64_t answer;
    do {
        if (user->value)
            strcpy(text.page, user->value);
        answer = kt_run(&file, &lock, user->callback, &text);
    } while (answer >= 0);
    printf("%s of %s ends: %s\n", user->value ? "a writer" : "a reader", user->path, strerror((int)-answer));
    close_file(file);
    return NULL;
}

/* ---- a device that deletes itself ---- */

struct own {
    struct kt_key dir;
    int32_t first;
};

static int64_t delete_self(struct kt_handle *call, void *data)
{
    struct own *own = data;
    own->first = kt_remove_self_wait(&tree, call, own->dir, &lock);
    return own->first;
}

int main(void)
{
    const char *files[] = {"speed", "target"}, *switches[] = {"delete"};
    struct fan *fan = calloc(1, sizeof *fan);
    setvbuf(stdout, NULL, _IOLBF, 0);
    must(kt_new(&tree.at), "new");
    must(kt_create_root(&tree, 64, 64), "create_root");

    struct kt_key dir = publish("fan0", 1, files, 2);
    struct user users[] = {
        {show_speed, "/fan0/speed", NULL, fan},
        {show_speed, "/fan0/speed", NULL, fan},
        {store_speed, "/fan0/target", "1200", fan},
    };
    pthread_t threads[3];
    for (int i = 0; i < 3; i++)
        pthread_create(&threads[i], NULL, use, &users[i]);
    while (!atomic_load(&shown) || !atomic_load(&stored))
        usleep(1000);

    printf("the fan is removed while a callback is inside: %s\n", atomic_load(&inside) ? "yes" : "no");
    must(kt_remove_wait(&tree, dir, &lock), "remove");
    free(fan); /* no caller is inside, and none can enter */
    printf("it is gone; inside: %d\n", atomic_load(&inside));
    int before = atomic_load(&shown) + atomic_load(&stored);
    for (int i = 0; i < 3; i++)
        pthread_join(threads[i], NULL);
    printf("callbacks after the removal: %d\n", atomic_load(&shown) + atomic_load(&stored) - before);

    struct own own = {.dir = publish("stick0", 2, switches, 1)};
    struct kt_key key;
    struct kt_handle file = open_file("/stick0/delete", &key);
    must(kt_run(&file, &lock, delete_self, &own), "delete");
    printf("the stick has deleted itself: %s\n", own.first == 1 ? "yes" : "no");
    printf("a second try: %s\n", strerror((int)-kt_run(&file, &lock, delete_self, &own)));
    close_file(file);

    kt_delete(tree);
    return 0;
}
