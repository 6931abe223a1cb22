/* SPDX-License-Identifier: MIT OR Apache-2.0 */
/* What statfs(2) reports: the magic number of sysfs, or of another file system that a directory stands for. The kernel
 * reports that of FUSE instead, so a program that replies to statfs(2) reads these numbers (operations.c). */
#include "fakesysfs.h"

static const struct { const char *name; uint32_t magic; } kinds[] = {
    {"sysfs", 0x62656572}, {"cgroup2", 0x63677270}, {"cgroup", 0x27e0eb}, {"debugfs", 0x64626720},
    {"tracefs", 0x74726163}, {"bpf", 0xcafe4a11}, {"securityfs", 0x73636673}, {"configfs", 0x62656570},
    {"efivarfs", 0xde5e81e4}, {"pstore", 0x6165676c},
};

bool read_magic(const char *kind, uint32_t *out)
{
    for (size_t at = 0; at < sizeof kinds / sizeof *kinds; at++) {
        if (!strcmp(kind, kinds[at].name)) {
            *out = kinds[at].magic;
            return true;
        }
    }
    return false;
}

uint32_t magic_of(fuse_ino_t number)
{
    struct kt_key key = is_control(number) ? key_of(FUSE_ROOT_ID) : key_of(number);
    do {
        struct node *node = node_of(number_of(key));
        if (node->number == number_of(key) && node->magic)
            return node->magic;
    } while (!kt_parent(&tree, key, &key));
    return kinds[0].magic;
}
