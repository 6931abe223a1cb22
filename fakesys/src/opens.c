/* SPDX-License-Identifier: MIT OR Apache-2.0 */
/* Open files, directories and control files, and how they are read, written, listed and polled. */
#include "fakesysfs.h"
#include <fcntl.h>
#include <poll.h>

static LIST_HEAD(, open) opens;

/* Ends a request with a negative errno. The reply must be the last thing that an operation does: after it,
 * another thread may close the `struct open`, so it must not be used any more. */
static void refuse(fuse_req_t req, int64_t error)
{
    fuse_reply_err(req, (int)-error);
}

void wake_pollers(fuse_ino_t number)
{
    struct open *it;
    LIST_FOREACH (it, &opens, link)
        if (it->poller && (it->number == number || !is_live(key_of(it->number))))
            fuse_lowlevel_notify_poll(it->poller);
}

/* ---- open and close ---- */

static int open_file(struct open *it, int flags)
{
    int how = flags & O_ACCMODE;
    struct node *node = node_of(it->number);
    bool reads = how != O_WRONLY, writes = how != O_RDONLY;
    if ((reads && !(node->mode & 0444)) || (writes && !(node->mode & 0222)))
        return -EACCES; /* even for root, as in sysfs; the library only knows the first mode */
    int error = kt_open(&tree, key_of(it->number), reads, writes, &it->handle);
    if (!error)
        error = kt_event_open(&tree, key_of(it->number), &it->post);
    if (!error && flags & O_TRUNC)
        clock_gettime(CLOCK_REALTIME, &node->changed); /* the only effect of a truncation */
    return error == -ENOENT ? -ENODEV : error; /* it was removed meanwhile */
}

/* The caller holds the lock. A hold of a directory keeps its slot from being used again; a directory that is
 * gone lists nothing. */
static int begin_open(struct open *it, int flags)
{
    struct stat stat;
    int error = describe(it->number, &stat);
    if (error || is_control(it->number))
        return error;
    if (S_ISDIR(stat.st_mode)) {
        error = kt_hold(&tree, key_of(it->number), &it->handle);
        return error == -ENOENT ? 0 : error;
    }
    error = open_file(it, flags);
    return !error && flags & O_DIRECT ? -EINVAL : error;
}

static struct open *new_open(fuse_ino_t number)
{
    struct open *it = calloc(1, sizeof *it);
    if (!it)
        return NULL;
    it->number = number;
    pthread_mutex_init(&it->mutex, NULL);
    if (!kt_new(&it->handle.at) && !kt_new(&it->post.at))
        return it;
    if (it->handle.at)
        kt_delete(it->handle);
    free(it);
    return NULL;
}

static void close_open(struct open *it)
{
    lock_tree();
    LIST_REMOVE(it, link);
    unlock_tree();
    kt_clear_wake(&it->handle, &lock);
    kt_delete(it->handle);
    kt_delete(it->post);
    if (it->poller)
        fuse_pollhandle_destroy(it->poller);
    pthread_mutex_destroy(&it->mutex);
    free_listing(&it->listing);
    free(it->control.part);
    free(it);
}

void fs_open(fuse_req_t req, fuse_ino_t number, struct fuse_file_info *info)
{
    step(OPEN, number, NULL, req);
    struct open *it = new_open(number);
    if (!it) {
        refuse(req, -ENOMEM);
        return;
    }
    lock_tree();
    int error = begin_open(it, info->flags);
    LIST_INSERT_HEAD(&opens, it, link);
    unlock_tree();
    info->fh = (uintptr_t)it;
    info->direct_io = 1; /* every read and write reaches this program */
#if FUSE_VERSION >= FUSE_MAKE_VERSION(3, 11)
    info->noflush = !is_control(number);
#endif
#if FUSE_VERSION >= FUSE_MAKE_VERSION(3, 15)
    info->parallel_direct_writes = 1;
#endif
    if (error)
        refuse(req, error);
    if (error || fuse_reply_open(req, info))
        close_open(it); /* no release will come: it is not open, or its caller is gone */
}

/* Called at each close(2) of a descriptor. A process that has inherited it, such as a command of a shell, may end while
 * the writer is in the middle of a line. */
void fs_flush(fuse_req_t req, fuse_ino_t number, struct fuse_file_info *info)
{
    struct open *it = open_of(info);
    int error = 0;
    if (is_control(number)) {
        pthread_mutex_lock(&it->mutex);
        if (it->control.writer == info->lock_owner)
            error = end_control(&it->control);
        pthread_mutex_unlock(&it->mutex);
    }
    refuse(req, error);
}

/* Called after the last close(2). */
void fs_release(fuse_req_t req, fuse_ino_t number, struct fuse_file_info *info)
{
    if (is_control(number))
        end_control(&open_of(info)->control); /* a line whose writer did not close the last descriptor */
    close_open(open_of(info));
    refuse(req, 0);
}

/* ---- reads, writes, listings ---- */

/* Callers of a late file wait before the library has a call of its node, so that a removal does not wait for
 * them. */
static void be_late(struct open *it)
{
    unsigned late = node_of(it->number)->late;
    if (late)
        wait_milliseconds(late);
}

static int64_t read_anew(struct open *it, size_t offset, char *page, size_t room)
{
    be_late(it);
    int64_t shown = kt_read(&it->handle, &lock, 0, NULL, 0, show, it);
    return shown < 0 ? shown : kt_copy(&it->handle, offset, page, room);
}

/* At the end of the text nothing is shown, but the node must still exist. */
static int64_t read_on(struct open *it, size_t offset, char *page, size_t room)
{
    int64_t length = kt_copy(&it->handle, offset, page, room);
    if (length)
        return length;
    int error = kt_enter_wake(&it->handle, &lock);
    if (!error)
        kt_leave_wake(&it->handle, &lock);
    return error;
}

/* Reads as seq_file does. A read at the end of the last read continues in the text of the last show, even if
 * the file is gone. At any other offset the file is shown again. */
static int64_t read_text(struct open *it, size_t offset, char *page, size_t room)
{
    int64_t result = offset && offset == it->next ? read_on(it, offset, page, room)
                                                  : read_anew(it, offset, page, room);
    it->next = result < 0 ? 0 : offset + (size_t)result;
    return result;
}

/* No text of a binary file is buffered: each read asks for its part. */
static int64_t read_part(struct open *it, size_t offset, char *page, size_t room)
{
    struct part part = {.it = it, .offset = offset, .room = room, .page = page};
    it->next = 0;
    be_late(it);
    return kt_run(&it->handle, &lock, show_part, &part);
}

static int64_t read_file(struct open *it, size_t offset, char *page, size_t room)
{
    pthread_mutex_lock(&it->mutex);
    int64_t result = (node_of(it->number)->is_binary ? read_part : read_text)(it, offset, page, room);
    pthread_mutex_unlock(&it->mutex);
    return result;
}

static int64_t write_file(struct open *it, size_t offset, const char *bytes, size_t size)
{
    struct part part = {.it = it, .offset = offset};
    be_late(it);
    if (node_of(it->number)->is_binary)
        return kt_write(&it->handle, &lock, bytes, size, store_part, &part);
    return kt_write(&it->handle, &lock, bytes, size, store, it);
}

void fs_read(fuse_req_t req, fuse_ino_t number, size_t size, off_t offset, struct fuse_file_info *info)
{
    char page[KT_PAGE_SIZE];
    step(READ, number, NULL, req);
    size_t room = MIN(size, sizeof page);
    int64_t result = is_control(number) ? read_control((size_t)offset, page, room)
                                        : read_file(open_of(info), (size_t)offset, page, room);
    if (result < 0)
        refuse(req, result);
    else
        fuse_reply_buf(req, page, (size_t)result);
}

void fs_write(fuse_req_t req, fuse_ino_t number, const char *bytes, size_t size, off_t offset,
              struct fuse_file_info *info)
{
    struct open *it = open_of(info);
    step(WRITE, number, NULL, req);
    pthread_mutex_lock(&it->mutex);
    it->control.writer = info->lock_owner;
    int64_t result = is_control(number) ? write_control(&it->control, bytes, size)
                                        : write_file(it, (size_t)offset, bytes, size);
    pthread_mutex_unlock(&it->mutex);
    if (result < 0)
        refuse(req, result);
    else
        fuse_reply_write(req, (size_t)result);
}

void fs_readdir(fuse_req_t req, fuse_ino_t number, size_t size, off_t offset, struct fuse_file_info *info)
{
    struct open *it = open_of(info);
    char page[4 * KT_PAGE_SIZE];
    if (!offset)
        step(LIST, number, NULL, req);
    lock_tree();
    int64_t result = list_entries(&it->listing, req, number, (size_t)offset, page, MIN(size, sizeof page));
    unlock_tree();
    if (result < 0)
        refuse(req, result);
    else
        fuse_reply_buf(req, page, (size_t)result);
}

/* ---- poll ---- */

/* Whether the file changed since its last show, or is gone. It reads the event counter (`post`) and not the
 * handle, which a show may use for long. */
static bool is_changed(struct open *it)
{
    uint64_t event = 0;
    return kt_event(&it->post, &event) || event != it->seen || !is_live(key_of(it->number));
}

void fs_poll(fuse_req_t req, fuse_ino_t number, struct fuse_file_info *info, struct fuse_pollhandle *poller)
{
    struct open *it = open_of(info);
    unsigned events = POLLIN | POLLOUT | POLLRDNORM | POLLWRNORM;
    step(POLL, number, NULL, req);
    lock_tree();
    if (!it->poller)
        it->poller = poller; /* before the check, so that no wake is missed */
    else if (poller)
        fuse_pollhandle_destroy(poller); /* one is enough */
    if (!is_control(number) && is_changed(it))
        events |= POLLERR | POLLPRI;
    unlock_tree();
    fuse_reply_poll(req, events);
}
