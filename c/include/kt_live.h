/* SPDX-License-Identifier: MIT OR Apache-2.0 */
/* kt_live.h: a daemon publishes attributes of its devices, and unpublishes them while others use them. The tree has its
 * own lock. Every call may be made from any thread, also from a callback.
 *
 *     kt_live_new(&live, 1024);
 *     kt_live_publish(live, "/fan0", fan_attributes, 2, fan, &fan->key);      its directory and files, or nothing
 *     kt_live_read(live, "/fan0/speed", text, sizeof text);                   runs show, while the fan is published
 *     if (kt_live_unpublish(live, fan->key) == 1) free(fan);                  no callback runs there, and none starts
 *
 * Not proved: this is C over the proved calls of kernfs_tree.h, tested by `make -C c test`. That no callback starts
 * under a node once the node is out rests on what is proved about kt_remove(). That no callback is still in the
 * device's code, even if it has broken its protection, rests on the list of callbacks that this header keeps.
 *
 * The functions are static, in this header and those that it includes, so there is nothing else to compile, link or
 * define. Everything that they keep is in the struct kt_live, and nothing is in file-scope variables. So callbacks and
 * the code that runs them may be in different source files, even in those of a plug-in. They need gcc or clang.
 *
 * Return values: 0 or more on success; a negative errno on failure, and then nothing has changed, not even what `out`
 * points to. There is one exception: after -ETIMEDOUT and -EDEADLK the device is marked. Paths and names are C strings.
 *
 * Threads that end: a callback has ended, like one that returns, if its thread is cancelled in it or ends there by
 * pthread_exit(), or if a C++ exception leaves it. For exceptions this holds in C++, and in C that is compiled with
 * -fexceptions; in other C code no exception may leave a callback. Apart from callbacks, no call here is a cancellation
 * point. (Do not cancel asynchronously, and let no longjmp() leave a callback.) An open file is not closed when its
 * thread ends.
 *
 * fork(): the child of a program with threads must not use the tree. In the child, callbacks of the parent's other
 * threads count as inside for ever, and one of those threads may have had the lock.
 */
#ifndef KT_LIVE_H
#define KT_LIVE_H

#include "kernfs_tree.h"
#include <stdlib.h>
#include <string.h>
#include <sys/eventfd.h>
#include <sys/time.h>
#include <unistd.h>

#ifdef KT_NO_PTHREAD
#error "kt_live.h needs the lock of kernfs_tree.h, which KT_NO_PTHREAD leaves out"
#endif

#ifndef KT_MUST_USE
#ifdef __GNUC__
#define KT_MUST_USE __attribute__((warn_unused_result))
#else
#define KT_MUST_USE
#endif
#endif

/* Defines the functions: one copy in each source file that calls them, and none in a file that does not. (Otherwise gcc
 * would inline some of them, and then also warn about what `out` points to.) src/kt_bind.c defines this macro itself,
 * and so exports the functions. */
#ifdef KT_LIVE_CALL
#elif defined(__GNUC__)
#define KT_LIVE_CALL static __attribute__((unused, noinline))
#else
#define KT_LIVE_CALL static inline
#endif

/* An attribute of a device: a file in its directory, and what runs when the file is read and written (struct
 * device_attribute). The mode has only bits of 0666: bits of 0444 if and only if there is a show, and bits of 0222 if
 * and only if there is a store. A mode of 0 makes no file (is_visible), so one table can serve devices that differ.
 *
 * `show` writes its text into the page, which has KT_PAGE_SIZE bytes, all 0 at first, and returns the number of bytes
 * that it wrote. What is beyond KT_PAGE_SIZE - 1 bytes is cut off. `store` gets 1 to KT_PAGE_SIZE bytes, with a zero
 * byte after them, and returns the number of bytes that it took. If either returns a negative number, the reader or
 * writer gets that number.
 *
 * Callbacks run in the thread that reads or writes, without the lock, and several may run at once. So what they change
 * in the device must be atomic or under a lock of the program. They may call everything here. */
struct kt_attribute {
    const char *name;
    uint16_t mode;
    int64_t (*show)(void *device, const struct kt_attribute *attribute, char *page);
    int64_t (*store)(void *device, const struct kt_attribute *attribute, const char *bytes, size_t length);
    int64_t which; /* for the program: so one callback can serve several attributes */
};

/* The program may use `tree` and `lock` with the calls of kernfs_tree.h: it may look at nodes, hold, open and hide
 * them, and create other links, directories and files. It must remove, rename and activate what was published only with
 * the calls below. The rest is private. */
struct kt_live {
    struct kt_handle tree;
    struct kt_lock lock;
    struct kt_handle post;
    struct kt_live_slot *at;         /* for each slot of the tree */
    struct kt_live_device *remnants; /* directories that were never live, and could not be removed for lack of memory */
    struct kt_live_call *calls;
    struct kt_live_watcher *watches;
    struct kt_live_sleep *sleeps;
    struct kt_live_kept *kept; /* holds for the next callbacks */
    uint32_t slots;
    uint32_t age;   /* how many unpublishings have begun */
    uint64_t nodes; /* how many nodes are published */
    unsigned warn_after; /* milliseconds, or 0 */
    void (*warn)(const char *text, void *data);
    void *warn_data;
};

/* An open attribute. It is private to this header. */
struct kt_live_file;

/* Makes a tree with only the root, for 1 to KT_SLOTS_MAX nodes: the root, and for each device its directory and its
 * files. A file that is gone still counts while a thread reads or writes it, or has it open. Returns 0, -EINVAL
 * (another number of nodes) or -ENOMEM. */
KT_MUST_USE KT_LIVE_CALL int32_t kt_live_new(struct kt_live **out, uint32_t slots);

/* Frees the tree. Returns 0. After that, `live` must not be used, by any thread. Returns -EBUSY if a device is
 * published, something is watched, a callback runs, or a file is open or is being hidden (kt_clear()); then everything
 * is as it was. */
KT_LIVE_CALL int32_t kt_live_delete(struct kt_live *live);

/* ---- devices ---- */

/* Publishes a device (device_add): a directory at the path with a file for each attribute. It appears all at once: no
 * file can be read or listed before all exist, and after an error there is none. A device without attributes is a plain
 * directory in which others can be published. The parent of "/fan0" is the root.
 *
 * `out` gets the directory's key, with which the device is unpublished, before the first callback can run. The program
 * owns the device, the attributes and their names, and leaves them as they are until kt_live_unpublish() has returned
 * 1. If a callback may unpublish the device, the device can be freed before this call has returned, so keep its key
 * outside of it.
 *
 * Returns 0. Errors, in this order: -EINVAL (an attribute without a name, or with a mode that does not fit it; the form
 * of the path), -ENOENT and -ENOTDIR (for what the path names above its last name); then, for that name and each
 * attribute's name, as for kt_create_dir(): -ENAMETOOLONG, -EINVAL, -ENOENT (the directory above is being removed),
 * -EEXIST, -ENOSPC (no free slot). -ENOMEM may come before these. */
KT_MUST_USE KT_LIVE_CALL int32_t kt_live_publish(struct kt_live *live, const char *path,
                                                 const struct kt_attribute *attributes, size_t count, void *device,
                                                 struct kt_key *out);

/* Publishes a device of a plug-in. Once it is unpublished and none of its callbacks is on any stack, `release` runs
 * with `data`, once: it may dlclose() the plug-in. It runs in the thread of the kt_live_unpublish() that returns 1, at
 * the end of that call. But if a callback of this device made that call, `release` runs later: at the end of the
 * kt_live_write() or other call that began the outermost such callback. So this outermost call must be in the host's
 * code, not in the plug-in's. No C++ exception whose type the plug-in defines may leave a callback of such a device. */
typedef void kt_live_release(void *data);
KT_MUST_USE KT_LIVE_CALL int32_t kt_live_publish_plugin(struct kt_live *live, const char *path,
                                                        const struct kt_attribute *attributes, size_t count,
                                                        void *device, kt_live_release *release, void *data,
                                                        struct kt_key *out);

/* Unpublishes a device (device_del). When this returns 0 or 1, the device's directory and everything below it is out of
 * the tree, and no callback ever starts there. It sleeps until then. Watches of a node there become readable before
 * that.
 *
 * Returns 1 if this call was the first to ask for it, and no callback is in the device's code: the caller may free the
 * memory of the device and the attributes. Returns 0 if another call was first, and gets the 1: this caller frees
 * nothing. Returns -ENOENT if no device has this key, because it was unpublished before, or never published. Returns
 * -ENOMEM, or -EMFILE if other calls hold a node there KT_HOLDS_MAX times: then nothing has changed; call it again.
 *
 * A callback may unpublish its own device, or one above it (device_remove_file_self). It then gets 1 when all callbacks
 * there have ended, except those that its thread runs. It still runs in the device's code, so after the free() it must
 * no longer touch the device. Once it has made this call, devices above may be freed too. So it must not touch them
 * either, except one for which it gets the 1. And nobody may unload its code before it has returned
 * (kt_live_publish_plugin() says when that is). If several callbacks do this at once, one of them gets 1, when the
 * others have returned. A callback may try again after -ETIMEDOUT. If it returns instead, the call that gets 1 waits
 * until it has returned.
 *
 * A device that was published below this one is out of the tree too, but it stays published: its own
 * kt_live_unpublish() says whether its memory may be freed.
 *
 * Returns -EDEADLK if this call would never end, because callbacks in different threads unpublish each other's device.
 * The device is marked and stays so: nobody can enter. Call this again after the callback has returned: the first such
 * call gets 1. If a callback waits in another way for a thread that unpublishes the callback's device, it waits for
 * ever, as in the kernel; kt_live_inside() shows it. */
KT_MUST_USE KT_LIVE_CALL int32_t kt_live_unpublish(struct kt_live *live, struct kt_key key);

/* Like kt_live_unpublish(). If this returns 1, `device` gets what was published; otherwise `device` stays as it was. So
 * a program needs no list of its devices. */
KT_MUST_USE KT_LIVE_CALL int32_t kt_live_take(struct kt_live *live, struct kt_key key, void **device);

/* Like kt_live_take(), for the device whose directory is at a path. Also returns -EINVAL (the form of the path),
 * -ENOENT or -ENOTDIR. */
KT_MUST_USE KT_LIVE_CALL int32_t kt_live_unpublish_at(struct kt_live *live, const char *path, void **device);

/* Like kt_live_take(), with a time limit by the system's clock. `device` may be NULL. Returns -ETIMEDOUT if somebody is
 * still inside then: everything is marked and stays so. Call this or kt_live_unpublish() again: the first such call
 * gets 1. */
KT_MUST_USE KT_LIVE_CALL int32_t kt_live_unpublish_for(struct kt_live *live, struct kt_key key, unsigned milliseconds,
                                                       void **device);

/* Runs a function on the device whose directory is at a path, like a callback: the device exists until the function
 * returns. So a program needs no other lock to do something with each device: kt_live_list() lists their names, and
 * this function leaves out the devices that are gone meanwhile.
 *
 * Returns what the function returned. If it did not run, returns -EINVAL or -ENOTDIR (the path), -ENOENT (no device is
 * there, or it is being removed), -ENODEV, -EMFILE or -ENOMEM. */
typedef int64_t kt_live_function(void *device, void *data);
KT_LIVE_CALL int64_t kt_live_run(struct kt_live *live, const char *path, kt_live_function *function, void *data);

/* In a callback, returns the key of its device (the innermost, if this thread's callbacks nest). Elsewhere, or once the
 * device is unpublished, returns 0, 0. */
KT_LIVE_CALL struct kt_key kt_live_self(struct kt_live *live);

/* ---- attributes ---- */

/* Reads the attribute at a path: runs its show, and copies the text (open, pread at offset 0, close). Returns the
 * number of bytes. A text that is longer than the buffer is cut. If there is room, a zero byte follows, which is not
 * counted. KT_PAGE_SIZE bytes are always enough.
 *
 * If the show failed, returns the negative number that it returned. If it did not run, returns -EINVAL (the path, or a
 * link), -ENOENT, -ENOTDIR, -EISDIR, -ENODEV (the file is being removed, or hidden), -EACCES (no bit of 0444), -EIO (a
 * file that the program created with other calls), -EMFILE (KT_HOLDS_MAX threads use it) or -ENOMEM. */
KT_LIVE_CALL int64_t kt_live_read(struct kt_live *live, const char *path, void *out, size_t size);

/* Writes to the attribute at a path: runs its store with at most the first KT_PAGE_SIZE bytes (open, write, close).
 * Returns what the store returned. Without any byte it returns 0, and the store does not run. Fails like
 * kt_live_read(), with -EACCES if the mode has no bit of 0222. */
KT_LIVE_CALL int64_t kt_live_write(struct kt_live *live, const char *path, const char *bytes, size_t length);

/* Opens the attribute at a path, for a thread that reads or writes it often. The calls on an open file take no lock and
 * look up no path, so threads with their own files do not slow each other down. An open file is used by one thread at a
 * time, and not by its own callbacks. Once the device is unpublished, the file fails with -ENODEV for ever: what is
 * published there later must be opened again. The file's slot is not reused before the file is closed.
 *
 * Returns 0. Fails like kt_live_read(), with -EACCES if it is opened for reading and the mode has no bit of 0444, or
 * opened for writing and the mode has no bit of 0222. */
KT_MUST_USE KT_LIVE_CALL int32_t kt_live_open(struct kt_live *live, const char *path, bool read, bool write,
                                              struct kt_live_file **out);

/* Reads an open file from an offset (pread). At offset 0, or before its first show, this runs the show. Otherwise it
 * goes on with the text of the last show, even after the device is gone. Returns the number of bytes, with a zero byte
 * after them as for kt_live_read(); the negative number that the show returned; or -EACCES, -ENODEV or -EINVAL (in its
 * own callback, if it would show). */
KT_LIVE_CALL int64_t kt_live_pread(struct kt_live_file *file, uint64_t offset, void *out, size_t size);

/* Writes to an open file. Returns what the store returned, or 0 without any byte, as kt_live_write() does; or -EACCES,
 * -ENODEV or -EINVAL (in its own callback). */
KT_LIVE_CALL int64_t kt_live_pwrite(struct kt_live_file *file, const char *bytes, size_t length);

/* Returns 1 if an open file has changed since its last show (kt_live_notify()), was never shown, or is gone, and
 * otherwise 0. Returns -EINVAL in its own callback. */
KT_LIVE_CALL int32_t kt_live_changed(struct kt_live_file *file);

/* Closes the file. Returns 0, and after that the file must not be used. Returns -EBUSY in its own callback, and the
 * file stays open. */
KT_LIVE_CALL int32_t kt_live_close(struct kt_live_file *file);

/* ---- changes ---- */

/* Reports that an attribute of a device has changed (sysfs_notify). In a callback the device may be kt_live_self(live).
 * Raises the event number of the attribute, which kt_live_changed() looks at, and makes its watches readable. Returns
 * 0, -ENOENT (the device or a file with this name is not there), -ENOTDIR (the key is a file's), -EOVERFLOW (of the
 * number) or -ENOMEM. */
KT_LIVE_CALL int32_t kt_live_notify(struct kt_live *live, struct kt_key device, const char *name);

/* Watches the node at a path, a file or a directory, even if it comes later. Returns a new eventfd(2), which is
 * non-blocking and closed on exec. It becomes readable with each kt_live_notify() of the node, when the node is being
 * removed, and whenever it is published. Wait for it with poll(2) or a similar call. A thread that wakes reads the
 * descriptor's 8 bytes first and then the attribute, so that no change is missed. If this read fails with -ENODEV or
 * -ENOENT, the attribute is gone. What the program creates or removes with other calls raises nothing. Only
 * kt_live_unwatch() closes the descriptor.
 *
 * Fails with -EINVAL (the form of the path), -ENOMEM, or like eventfd(2). */
KT_MUST_USE KT_LIVE_CALL int kt_live_watch(struct kt_live *live, const char *path);

/* Ends a watch and closes its descriptor. Returns 0 or -EBADF (it is not the descriptor of a watch of this tree). */
KT_LIVE_CALL int32_t kt_live_unwatch(struct kt_live *live, int fd);

/* ---- names ---- */

/* Lists the names in the directory at a path, one after another in byte order (readdir). `at` is the cursor and the
 * result: its name is empty at first, and later the last name. If names are published or unpublished meanwhile, no
 * other name comes twice or is missed. kt_live_path() returns the path that kt_live_read() needs:
 *
 *     struct kt_child at = {.name = ""};
 *     while (kt_live_list(live, "/fan0", &at) == 1)
 *         if (kt_live_path(live, at.key, path, sizeof path) >= 0 && kt_live_read(live, path, text, sizeof text) >= 0)
 *             printf("%s: %s", path, text);
 *
 * Returns 1, or 0 at the end, and then `at` is as it was. Errors: -EINVAL (the path), -ENOENT, -ENOTDIR, -ENOMEM. */
KT_LIVE_CALL int32_t kt_live_list(struct kt_live *live, const char *path, struct kt_child *at);

/* Gets the path of a node, with a zero byte after it. Returns its length, -ENOENT (the node is gone), -ERANGE (the path
 * and the zero byte need more than `size`; KT_PATH_MAX() is an upper bound) or -ENOMEM. */
KT_LIVE_CALL int64_t kt_live_path(struct kt_live *live, struct kt_key key, char *path, size_t size);

/* ---- which thread is inside ---- */

/* Writes a line for each callback that runs at a path or below it, and one for each unpublishing that sleeps there.
 * Each line names the thread as gdb does, and says for how long:
 *
 *     /fan0/speed: a show is inside, thread 0x7f80c47d86c0 reader, 0.090 s
 *
 * If the path is "/", this includes those whose node is out of the tree. A line says "has stepped aside" for a callback
 * that has unpublished its own device or one above it, so that no removal waits for this callback. (The thread's name
 * needs _GNU_SOURCE, and is left out for an open file.) Nothing is written under the lock. Returns the number of
 * callbacks, -EINVAL (the path), -ENOENT, -ENOTDIR or -ENOMEM. */
KT_LIVE_CALL int32_t kt_live_inside(struct kt_live *live, const char *path, FILE *out);

/* Makes unpublishings report that they wait. From now on, a thread that has slept for this many milliseconds in an
 * unpublishing reports it, and again each time that this time has passed. It calls the function, without the lock,
 * with the lines of kt_live_inside() for its device. If the function is NULL, the lines go to standard error. If
 * `milliseconds` is 0, the reports end.
 *
 * The function must return: it lets no exception or longjmp() leave it. It may make any call here, but must not end its
 * thread. A function that was replaced may still run for a moment, with its old data, so free these only once no
 * unpublishing sleeps. */
KT_LIVE_CALL void kt_live_warn(struct kt_live *live, unsigned milliseconds,
                               void (*function)(const char *text, void *data), void *data);

/* ---- what these are made of ---- */

#include "kt_live_tree.h"
#include "kt_live_watch.h"
#include "kt_live_calls.h"
#include "kt_live_removal.h"

#endif /* KT_LIVE_H */
