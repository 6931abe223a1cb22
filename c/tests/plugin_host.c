/* SPDX-License-Identifier: MIT OR Apache-2.0 */
/* Loads and unloads plug-ins while three threads call into them, over kt_live.h:  plugin_host CYCLES PLUGIN.so ..
 *
 * Each plug-in is one device. The threads call it by kt_live_run(). Once kt_live_unpublish() has returned 1, no
 * thread is in the plug-in's code and none enters it, so dlclose() is safe. The last line says how many libraries were
 * seen unmapped after that; the status is 1 if one was still mapped. */
#include "plugin.h"
#include <dlfcn.h>
#include <kt_live.h>
#include <sched.h>
#include <stdatomic.h>
#include <stdio.h>

#define PLUGINS_MAX 8

struct plugin {
    void *library, *object;
    const struct plugin_table *table;
};

struct loader {
    pthread_t thread;
    const char *file;
    char path[16];
};

static struct kt_live *live;
static struct loader loaders[PLUGINS_MAX];
static int count, cycles;
static atomic_bool is_over;
static atomic_llong calls, refused, unmapped;

static int64_t call_plugin(void *device, void *by)
{
    struct plugin *plugin = device;
    return plugin->table->call(plugin->object, *(int64_t *)by);
}

static void *work(void *data)
{
    int64_t one = 1;
    while (!atomic_load(&is_over))
        for (int i = 0; i < count; i++) {
            if (kt_live_run(live, loaders[i].path, call_plugin, &one) >= 0) {
                atomic_fetch_add(&calls, 1);
            } else {
                atomic_fetch_add(&refused, 1);
                sched_yield();
            }
        }
    return data;
}

static void fail(const char *what)
{
    fprintf(stderr, "plugin_host: %s\n", what);
    exit(2);
}

/* Loads a plug-in, publishes it, waits for some calls, unpublishes it and unloads it. */
static void cycle(const struct loader *it)
{
    struct plugin plugin;
    struct kt_key key;
    long long before;
    plugin.library = dlopen(it->file, RTLD_NOW | RTLD_LOCAL);
    if (!plugin.library)
        fail(dlerror());
    plugin.table = dlsym(plugin.library, "PLUGIN");
    plugin.object = plugin.table ? plugin.table->start() : NULL;
    if (!plugin.object || kt_live_publish(live, it->path, NULL, 0, &plugin, &key))
        fail("the plug-in was not started or not published");
    before = atomic_load(&calls);
    for (int i = 0; i < 1000 && atomic_load(&calls) < before + 20; i++)
        sched_yield();
    if (kt_live_unpublish(live, key) != 1)
        fail("the plug-in was not unpublished");
    plugin.table->stop(plugin.object); /* no thread is in its code, and none enters */
    dlclose(plugin.library);
    if (!dlopen(it->file, RTLD_NOW | RTLD_NOLOAD))
        atomic_fetch_add(&unmapped, 1);
}

static void *load(void *data)
{
    for (int i = 0; i < cycles; i++)
        cycle((struct loader *)data);
    return NULL;
}

int main(int words, char **word)
{
    pthread_t workers[3];
    count = words - 2;
    if (count < 1 || count > PLUGINS_MAX || (cycles = atoi(word[1])) < 1 || kt_live_new(&live, 64))
        fail("plugin_host CYCLES PLUGIN.so ..");
    for (int i = 0; i < count; i++) {
        loaders[i].file = word[i + 2];
        snprintf(loaders[i].path, sizeof loaders[i].path, "/p%d", i);
    }
    for (int i = 0; i < 3; i++)
        if (pthread_create(&workers[i], NULL, work, NULL))
            fail("no thread");
    for (int i = 0; i < count; i++)
        if (pthread_create(&loaders[i].thread, NULL, load, &loaders[i]))
            fail("no thread");
    for (int i = 0; i < count; i++)
        pthread_join(loaders[i].thread, NULL);
    atomic_store(&is_over, true);
    for (int i = 0; i < 3; i++)
        pthread_join(workers[i], NULL);
    if (kt_live_delete(live))
        fail("the tree is still used");
    printf("%d loads, %lld calls, %lld refused\n", cycles * count, (long long)calls, (long long)refused);
    printf("%lld unmapped after dlclose()\n", (long long)unmapped);
    return unmapped != (long long)cycles * count || !calls;
}
