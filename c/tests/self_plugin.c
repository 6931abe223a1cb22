/* SPDX-License-Identifier: MIT OR Apache-2.0 */
/* A plug-in of self_host.c that unpublishes itself in its own store, and goes on there for a while. */
#include <kt_live.h>

extern struct kt_live *live;
extern int32_t plugin_unpublished;
extern const struct kt_attribute plugin_attributes[];

static int64_t store(void *device, const struct kt_attribute *attribute, const char *bytes, size_t length)
{
    (void)device, (void)attribute, (void)bytes;
    plugin_unpublished = kt_live_unpublish(live, kt_live_self(live));
    poll(NULL, 0, 10); /* if the host closed this library now, what follows would crash */
    return (int64_t)length;
}

const struct kt_attribute plugin_attributes[] = {{"remove", 0200, NULL, store, 0}};
