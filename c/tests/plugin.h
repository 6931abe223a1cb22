/* SPDX-License-Identifier: MIT OR Apache-2.0 */
/* What a plug-in exports, and what the plug-in hosts in C, C++ and Rust call. */
#ifndef PLUGIN_H
#define PLUGIN_H

#include <stdint.h>

struct plugin_table {
    void *(*start)(void);                      /* a new object, or NULL */
    int64_t (*call)(void *object, int64_t by); /* from any thread, several at once */
    void (*stop)(void *object);                /* frees the object; nobody calls it then */
};

#ifdef __cplusplus
extern "C" const struct plugin_table PLUGIN;
#else
extern const struct plugin_table PLUGIN;
#endif

#endif /* PLUGIN_H */
