/* SPDX-License-Identifier: MIT OR Apache-2.0 */
/* A plug-in for the plug-in hosts: a counter. After dlclose() its code and data are unmapped. */
#include "plugin.h"
#include <stdatomic.h>
#include <stdlib.h>

struct counter {
    atomic_llong value, inside;
};

/* In the plug-in's own data: a late call would write to a page that is not mapped. */
static atomic_llong calls;

static void *start(void) { return calloc(1, sizeof(struct counter)); }

static int64_t call(void *object, int64_t by)
{
    struct counter *counter = object;
    int64_t before;
    atomic_fetch_add(&counter->inside, 1);
    atomic_fetch_add(&calls, 1);
    before = atomic_fetch_add(&counter->value, by);
    atomic_fetch_sub(&counter->inside, 1);
    return before;
}

static void stop(void *object)
{
    struct counter *counter = object;
    if (atomic_load(&counter->inside))
        abort();
    free(counter);
}

const struct plugin_table PLUGIN = {start, call, stop};
