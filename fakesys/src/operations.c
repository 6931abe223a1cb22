/* SPDX-License-Identifier: MIT OR Apache-2.0 */
/* The operations of the file system on names and attributes. */
#include "fakesysfs.h"
#pragma GCC diagnostic ignored "-Wunused-parameter" /* an operation need not use each parameter */

static struct kt_key next_control(void)
{
    static uint32_t controls;
    return (struct kt_key){0, 2 + controls++ % 1000000000};
}

static bool names_control(fuse_ino_t dir, const char *name)
{
    return dir == FUSE_ROOT_ID && !strcmp(name, CONTROL);
}

/* Finds a live child. The caller holds the lock. */
static int find_child(fuse_ino_t dir, const char *name, struct kt_key *out)
{
    if (names_control(dir, name)) {
        *out = next_control();
        return 0;
    }
    int error = kt_find(&tree, key_of(dir), name, strlen(name), out);
    return error ? error : is_live(*out) ? 0 : -ENOENT;
}

/* How late a name is found in a directory. The control file is never late, so its lines can end a delay. */
static unsigned lateness(fuse_ino_t dir, const char *name)
{
    lock_tree();
    unsigned late = names_control(dir, name) ? 0 : node_of(dir)->late;
    unlock_tree();
    return late;
}

/* Finds a name, and how long the kernel may keep the reply. The caller holds the lock. */
static int find_entry(fuse_ino_t dir, const char *name, struct fuse_entry_param *out)
{
    struct kt_key key;
    int error = find_child(dir, name, &key);
    if (error)
        return error;
    out->ino = number_of(key);
    error = describe(out->ino, &out->attr);
    if (error || is_control(out->ino))
        return error;
    out->entry_timeout = name_time(dir);
    if (add_lookup(out->ino))
        out->attr_timeout = attribute_time(out->ino);
    return 0;
}

/* Takes back a look-up whose reply the kernel did not take. */
static void take_back_lookup(fuse_ino_t number)
{
    lock_tree();
    remove_lookups(number, 1);
    unlock_tree();
}

static void fs_lookup(fuse_req_t req, fuse_ino_t dir, const char *name)
{
    struct fuse_entry_param entry = {0};
    step(LOOKUP, dir, name, req);
    unsigned late = lateness(dir, name);
    if (late)
        wait_milliseconds(late);
    lock_tree();
    int error = find_entry(dir, name, &entry);
    unlock_tree();
    if (error)
        fuse_reply_err(req, -error);
    else if (fuse_reply_entry(req, &entry))
        take_back_lookup(entry.ino);
}

static void fs_forget(fuse_req_t req, fuse_ino_t number, uint64_t count)
{
    lock_tree();
    remove_lookups(number, count);
    unlock_tree();
    fuse_reply_none(req);
}

/* The kernel passes the open file for lseek(2), which asks for its size, and not for fstat(2). As in sysfs,
 * lseek(2) on a file that is gone fails. */
static void reply_stat(fuse_req_t req, fuse_ino_t number, bool is_open)
{
    struct stat stat;
    lock_tree();
    int error = describe(number, &stat);
    double time = attribute_time(number);
    if (!error && is_open && !is_control(number) && !is_live(key_of(number)))
        error = -ENODEV;
    unlock_tree();
    if (error)
        fuse_reply_err(req, -error);
    else
        fuse_reply_attr(req, &stat, time);
}

static void fs_getattr(fuse_req_t req, fuse_ino_t number, struct fuse_file_info *info)
{
    step(STAT, number, NULL, req);
    reply_stat(req, number, info != NULL);
}

static void set_time(struct timespec *time, const struct timespec *to, bool is_set, bool is_now)
{
    if (is_now)
        clock_gettime(CLOCK_REALTIME, time);
    else if (is_set)
        *time = *to;
}

/* Owners, modes and times are stored, as in sysfs. A truncation, which `echo 1 > FILE` asks for, changes
 * nothing. */
static void change_node(struct node *node, const struct stat *to, int what)
{
    if (what & FUSE_SET_ATTR_MODE)
        node->mode = (node->mode & S_IFMT) | (to->st_mode & 07777);
    if (what & FUSE_SET_ATTR_UID)
        node->owner = to->st_uid;
    if (what & FUSE_SET_ATTR_GID)
        node->group = to->st_gid;
    set_time(&node->accessed, &to->st_atim, what & FUSE_SET_ATTR_ATIME, what & FUSE_SET_ATTR_ATIME_NOW);
    set_time(&node->changed, &to->st_mtim, what & FUSE_SET_ATTR_MTIME, what & FUSE_SET_ATTR_MTIME_NOW);
}

static void fs_setattr(fuse_req_t req, fuse_ino_t number, struct stat *to, int what,
                       struct fuse_file_info *info)
{
    struct stat stat;
    lock_tree();
    int error = describe(number, &stat);
    if (!error && !is_control(number))
        change_node(node_of(number), to, what);
    else if (!error && what & (FUSE_SET_ATTR_MODE | FUSE_SET_ATTR_UID | FUSE_SET_ATTR_GID))
        error = -EPERM;
    unlock_tree();
    if (error)
        fuse_reply_err(req, -error);
    else
        reply_stat(req, number, false);
}

static void fs_readlink(fuse_req_t req, fuse_ino_t number)
{
    char text[KT_PAGE_SIZE];
    step(READLINK, number, NULL, req);
    lock_tree();
    int64_t length = kt_readlink(&tree, key_of(number), text, sizeof text - 1);
    unlock_tree();
    if (length < 0) {
        fuse_reply_err(req, length == -ERANGE ? ENAMETOOLONG : (int)-length);
        return;
    }
    text[length] = 0;
    fuse_reply_readlink(req, text);
}

static void fs_statfs(fuse_req_t req, fuse_ino_t number)
{
    struct statvfs result = {.f_bsize = KT_PAGE_SIZE, .f_frsize = KT_PAGE_SIZE, .f_namemax = KT_NAME_MAX};
    fuse_reply_statfs(req, &result);
}

/* ---- extended attributes: none, except one for a program that replies to statfs(2) (magic.c) ---- */

static void reply_magic(fuse_req_t req, fuse_ino_t number, size_t size)
{
    char text[16];
    lock_tree();
    size_t length = (size_t)snprintf(text, sizeof text, "%u", magic_of(number));
    unlock_tree();
    if (!size)
        fuse_reply_xattr(req, length);
    else if (size < length)
        fuse_reply_err(req, ERANGE);
    else
        fuse_reply_buf(req, text, length);
}

static void fs_getxattr(fuse_req_t req, fuse_ino_t number, const char *name, size_t size)
{
    if (!strcmp(name, "system.fakesys"))
        reply_magic(req, number, size);
    else
        fuse_reply_err(req, strncmp(name, "system.", 7) ? ENODATA : EOPNOTSUPP);
}

static void fs_listxattr(fuse_req_t req, fuse_ino_t number, size_t size)
{
    if (size)
        fuse_reply_buf(req, NULL, 0);
    else
        fuse_reply_xattr(req, 0);
}

static void fs_setxattr(fuse_req_t req, fuse_ino_t number, const char *name, const char *value, size_t size,
                        int flags)
{
    fuse_reply_err(req, EOPNOTSUPP);
}

static void fs_removexattr(fuse_req_t req, fuse_ino_t number, const char *name)
{
    fuse_reply_err(req, EOPNOTSUPP);
}

/* ---- what sysfs refuses: it has no such operation, and open(2) may not create files ---- */

static void fs_create(fuse_req_t req, fuse_ino_t dir, const char *name, mode_t mode,
                      struct fuse_file_info *info)
{
    fuse_reply_err(req, EACCES);
}

static void fs_mkdir(fuse_req_t req, fuse_ino_t dir, const char *name, mode_t mode)
{
    fuse_reply_err(req, EPERM);
}

static void fs_mknod(fuse_req_t req, fuse_ino_t dir, const char *name, mode_t mode, dev_t device)
{
    fuse_reply_err(req, EPERM);
}

static void fs_symlink(fuse_req_t req, const char *text, fuse_ino_t dir, const char *name)
{
    fuse_reply_err(req, EPERM);
}

static void fs_link(fuse_req_t req, fuse_ino_t number, fuse_ino_t dir, const char *name)
{
    fuse_reply_err(req, EPERM);
}

static void fs_unlink(fuse_req_t req, fuse_ino_t dir, const char *name)
{
    fuse_reply_err(req, EPERM);
}

static void fs_rename(fuse_req_t req, fuse_ino_t dir, const char *name, fuse_ino_t to, const char *as,
                      unsigned flags)
{
    fuse_reply_err(req, EPERM);
}

/* Turns off handles (name_to_handle_at(2)), which sysfs does not support, if this libfuse can do so. */
static void fs_init(void *data, struct fuse_conn_info *connection)
{
    limit_keeping(connection);
#ifdef FUSE_CAP_NO_EXPORT_SUPPORT
    if (connection->capable & FUSE_CAP_NO_EXPORT_SUPPORT)
        connection->want |= FUSE_CAP_NO_EXPORT_SUPPORT;
#endif
}

const struct fuse_lowlevel_ops operations = {
    .init = fs_init,
    .lookup = fs_lookup, .forget = fs_forget, .getattr = fs_getattr, .setattr = fs_setattr,
    .readlink = fs_readlink,
    .open = fs_open, .read = fs_read, .write = fs_write, .poll = fs_poll,
    .flush = fs_flush, .release = fs_release,
    .opendir = fs_open, .readdir = fs_readdir, .releasedir = fs_release,
    .statfs = fs_statfs, .getxattr = fs_getxattr, .listxattr = fs_listxattr,
    .setxattr = fs_setxattr, .removexattr = fs_removexattr,
    .create = fs_create, .mkdir = fs_mkdir, .mknod = fs_mknod, .symlink = fs_symlink, .link = fs_link,
    .unlink = fs_unlink, .rmdir = fs_unlink, .rename = fs_rename,
};
