/* SPDX-License-Identifier: MIT OR Apache-2.0 */
/* A host of plug-ins that unpublish themselves (self_plugin.c): each is closed when its last callback has returned, and
 * its code is then unmapped. By a path, by an open file, and by the host.  self_host PLUGIN */
#include <kt_live.h>

#include <dlfcn.h>

#include "trying.h"

extern struct kt_live *live;
extern int32_t plugin_unpublished;
struct kt_live *live;
int32_t plugin_unpublished;
static const char *path;
static int closed;

static void release(void *library)
{
    closed += dlclose(library) == 0;
}

/* Whether the plug-in's code is mapped. */
static bool is_mapped(void)
{
    void *library = dlopen(path, RTLD_NOW | RTLD_NOLOAD);
    if (library)
        dlclose(library);
    return library != NULL;
}

static struct kt_key publish(void)
{
    struct kt_key key = {0, 0};
    void *library = dlopen(path, RTLD_NOW);
    if (!library)
        abort();
    TRY(kt_live_publish_plugin(live, "/p", (const struct kt_attribute *)dlsym(library, "plugin_attributes"), 1, NULL,
                               release, library, &key),
        0);
    TRY(is_mapped(), 1);
    return key;
}

static void is_closed(int times)
{
    TRY(closed, times);
    TRY(is_mapped(), 0);
}

int main(int count, char **words)
{
    struct kt_live_file *file;
    path = words[count - 1];
    TRY(kt_live_new(&live, 16), 0);
    for (int turn = 0; turn < 20; turn++) {
        publish();
        TRY(kt_live_write(live, "/p/remove", "1", 1), 1);
        TRY(plugin_unpublished, 1);
        is_closed(3 * turn + 1);
        publish();
        TRY(kt_live_open(live, "/p/remove", false, true, &file), 0);
        TRY(kt_live_pwrite(file, "1", 1), 1);
        TRY(plugin_unpublished, 1);
        is_closed(3 * turn + 2);
        TRY(kt_live_pwrite(file, "1", 1), -ENODEV);
        TRY(kt_live_close(file), 0);
        TRY(kt_live_unpublish(live, publish()), 1);
        is_closed(3 * turn + 3);
    }
    TRY(kt_live_delete(live), 0);
    return tried();
}
