# SPDX-License-Identifier: MIT OR Apache-2.0
"""Wrong variants of the daemon (mutants), and the check that must find each."""
from tree import polled, removal

# A right variant, in which a hide that waits wakes late.
LATE_HIDE = """
static inline int32_t late_hide(struct kt_handle *of, struct kt_key key, struct kt_lock *owner)
{
    for (;;) {
        usleep(300000);
        pthread_mutex_lock(&owner->mutex);
        int32_t result = kt_hide(of, key);
        pthread_mutex_unlock(&owner->mutex);
        if (result != -EAGAIN)
            return result;
    }
}
#define kt_hide_wait late_hide"""

# What a variant replaces, and the check that must find it.
FAULTS = {
    "a removal that does not wait": (removal, """
static inline int32_t hasty(struct kt_handle *of, struct kt_key key, struct kt_lock *owner)
{
    pthread_mutex_lock(&owner->mutex);
    int32_t result = kt_remove(of, key);
    pthread_mutex_unlock(&owner->mutex);
    return result == -EAGAIN ? 0 : result;
}
#define kt_remove_wait hasty"""),
    "a show without enter": (removal, """
static inline int64_t bare(struct kt_handle *file, struct kt_lock *owner, uint64_t offset, void *out,
                           size_t room, kt_show *show, void *data)
{
    char page[KT_PAGE_SIZE];
    int64_t length = show(file, data, page), rest = length > (int64_t)offset ? length - (int64_t)offset : 0;
    (void)owner;
    __builtin_memcpy(out, page + offset, (size_t)rest < room ? (size_t)rest : room);
    return (size_t)rest < room ? rest : (int64_t)room;
}
#define kt_read bare"""),
    "a leave that wakes no removal": (removal, """
static inline int64_t silent(struct kt_handle *file, struct kt_lock *owner, uint64_t offset, void *out,
                             size_t room, kt_show *show, void *data)
{
    char page[KT_PAGE_SIZE];
    int32_t begun = kt_begin_read(file, offset);
    (void)owner;
    if (begun == 1) {
        kt_shown(file, page, (size_t)show(file, data, page));
        kt_leave(file);
    }
    return begun < 0 ? begun : kt_copy(file, offset, out, room);
}
#define kt_read silent
#define kt_clear_wake(handle, owner) kt_clear(handle)"""),
    "a poll that nobody wakes": (polled, "#define fuse_lowlevel_notify_poll(poller) (void)(poller)"),
}
