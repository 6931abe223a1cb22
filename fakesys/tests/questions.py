# SPDX-License-Identifier: MIT OR Apache-2.0
"""The system calls that are compared between kernfs and fakesysfs, on an attribute file: `questions(attribute,
remove)` yields the name of each and the call, in the order in which they must run. The file is a writable
file of a device."""
import ctypes, fcntl, mmap, os, select, stat, struct, time

from questions_base import GETDENTS64, File, call, getdents, opened
from questions_removal import about_removal, about_watches


def about_stat(it):
    of, top = os.stat(it.path), os.stat(it.top)
    yield "write, read", lambda: (it.write(b"hello\n"), it.value())
    yield "mode, size, links, block size", lambda: (
        oct(of.st_mode), of.st_size, of.st_nlink, of.st_blksize, of.st_blocks,
    )
    yield "of a directory", lambda: (oct(top.st_mode), top.st_size, top.st_blksize)
    yield "links of a directory", lambda: top.st_nlink - 2 == sum(
        entry.is_dir(follow_symlinks=False) for entry in os.scandir(it.top)
    )
    yield "inode number stays", lambda: os.stat(it.path).st_ino == of.st_ino
    yield "inode number fits 32 bits", lambda: of.st_ino < 2**32
    yield "times are recent", lambda: time.time() - of.st_mtime < 600
    yield "access for R, W, X", lambda: [os.access(it.path, how) for how in (os.R_OK, os.W_OK, os.X_OK)]


def about_listings(it):
    yield "d_ino is st_ino", lambda: all(
        entry.inode() == entry.stat(follow_symlinks=False).st_ino for entry in os.scandir(it.top)
    )
    yield "first entries", lambda: [name for name, _ in getdents(it.top)[:2]]
    yield "kinds of entries", lambda: sorted({kind for _, kind in getdents(it.top)})
    yield "getdents by 300 bytes", lambda: sorted(getdents(it.top, 300)) == sorted(getdents(it.top))
    yield "getdents by 24 bytes", lambda: getdents(it.top, 24)[:2]
    yield "getdents by 8 bytes", lambda: getdents(it.top, 8)

    def rewound(file):
        room = ctypes.create_string_buffer(65536)
        first = call("syscall", GETDENTS64, file, room, ctypes.c_size_t(65536))
        os.lseek(file, 0, os.SEEK_SET)
        return first == call("syscall", GETDENTS64, file, room, ctypes.c_size_t(65536))

    def from_13(file):
        os.lseek(file, 13, os.SEEK_SET)
        return (
            call("syscall", GETDENTS64, file, ctypes.create_string_buffer(4096), ctypes.c_size_t(4096)) >= 0
        )

    yield "getdents after lseek to 0", lambda: it.in_top(rewound)
    yield "getdents after lseek to 13", lambda: it.in_top(from_13)
    yield "read of a directory", lambda: it.in_top(lambda file: os.read(file, 10))
    yield "write-only open of a directory", lambda: opened(it.top, os.O_WRONLY, lambda file: 1)


def changed_between(it, file):
    first = os.read(file, 99)
    it.write(b"other\n")
    second = os.read(file, 99)
    os.lseek(file, 0, os.SEEK_SET)
    third = os.read(file, 99)
    it.write(b"hello\n")
    return first, second, third


def parts(it, file):
    first = os.pread(file, 2, 0)
    it.write(b"other\n")
    second = os.pread(file, 99, 2)
    it.write(b"hello\n")
    return first, second


def vector(file):
    one, two = bytearray(3), bytearray(9)
    return os.preadv(file, [one, two], 0), bytes(one), bytes(two)


def read_whole(it, file):
    first = os.read(file, 99), os.read(file, 99)
    it.write(b"longer\n")
    second = os.read(file, 99), os.pread(file, 99, 2)
    it.write(b"hello\n")
    return first, second


def about_reads(it):
    for size, at in ((99, 2), (99, 6), (99, 5000), (99, 1 << 40), (1 << 20, 0), (0, 0)):
        yield f"pread of {size} at {at}", lambda size=size, at=at: it.open(
            os.O_RDONLY, lambda file: os.pread(file, size, at)
        )
    yield "reads of one byte", lambda: it.open(os.O_RDONLY, lambda file: [os.read(file, 1) for _ in range(8)])
    yield "read whole, a change, read on, pread at 2", lambda: it.open(os.O_RDONLY, lambda file: read_whole(it, file))
    yield "read, a change, read, lseek to 0, read", lambda: it.open(os.O_RDONLY, lambda file: changed_between(it, file))
    yield "pread of 2, a change, pread at 2", lambda: it.open(os.O_RDONLY, lambda file: parts(it, file))
    yield "preadv", lambda: it.open(os.O_RDONLY, vector)
    yield "read of a file open for writing", lambda: it.open(os.O_WRONLY, lambda file: os.read(file, 9))
    for name, way in (("end", os.SEEK_END), ("data", os.SEEK_DATA), ("hole", os.SEEK_HOLE)):
        yield f"lseek to the {name}", lambda way=way: it.open(
            os.O_RDONLY, lambda file: os.lseek(file, 0, way)
        )
    yield "lseek to -1", lambda: it.open(os.O_RDONLY, lambda file: os.lseek(file, -1, os.SEEK_SET))


def about_writes(it):
    def two(file):
        return os.write(file, b"12"), os.write(file, b"34")

    yield "write of no bytes", lambda: it.write(b"")
    for name, do in (
        ("write without a newline", lambda: it.write(b"abc")),
        ("write at 100", lambda: it.open(os.O_WRONLY, lambda file: os.pwrite(file, b"zz\n", 100))),
        ("two writes", lambda: it.open(os.O_WRONLY, two)),
        ("writev", lambda: it.open(os.O_WRONLY, lambda file: os.writev(file, [b"ab", b"cd\n"]))),
        ("write by O_APPEND", lambda: it.write(b"app\n", os.O_WRONLY | os.O_APPEND)),
        ("write by O_TRUNC", lambda: it.write(b"tru\n", os.O_WRONLY | os.O_TRUNC)),
        ("open by O_TRUNC", lambda: it.open(os.O_WRONLY | os.O_TRUNC, lambda file: os.fstat(file).st_size)),
        ("truncate", lambda: os.truncate(it.path, 0)),
        ("ftruncate to 10", lambda: it.open(os.O_WRONLY, lambda file: os.ftruncate(file, 10))),
    ):
        yield name, lambda do=do: (do(), it.value(), os.stat(it.path).st_size)
    yield "write, read by O_RDWR", lambda: it.open(
        os.O_RDWR, lambda file: (os.write(file, b"rw\n"), os.read(file, 99), os.pread(file, 99, 0))
    )
    yield "write of a file open for reading", lambda: it.open(os.O_RDONLY, lambda file: os.write(file, b"1"))


def about_opens(it):
    read = lambda file: os.read(file, 99)
    yield "open by O_DIRECT", lambda: it.open(os.O_RDONLY | os.O_DIRECT, read)
    yield "open by O_CREAT", lambda: it.open(os.O_RDONLY | os.O_CREAT, read)
    yield "open by O_CREAT and O_EXCL", lambda: it.open(os.O_RDONLY | os.O_CREAT | os.O_EXCL, read)
    yield "open by O_CREAT of a new name", lambda: opened(
        it.top + "/no_such_name", os.O_RDWR | os.O_CREAT, read
    )
    yield "open by O_TMPFILE", lambda: opened(it.top, os.O_RDWR | os.O_TMPFILE, read)
    yield "open by O_DIRECTORY", lambda: it.open(os.O_RDONLY | os.O_DIRECTORY, read)
    yield "open by O_PATH, fstat", lambda: it.open(os.O_PATH, lambda file: os.fstat(file).st_size)
    yield "open by O_NONBLOCK, read", lambda: it.open(os.O_RDONLY | os.O_NONBLOCK, read)
    yield "open by O_SYNC, write", lambda: it.write(b"s\n", os.O_WRONLY | os.O_SYNC)


def locked(file):
    fcntl.flock(file, fcntl.LOCK_EX)
    fcntl.lockf(file, fcntl.LOCK_EX)
    return True


def sent(file):
    receiver = os.memfd_create("results")
    try:
        return os.sendfile(receiver, file, 0, 4096), os.pread(receiver, 4096, 0)
    finally:
        os.close(receiver)


def copied(file):
    receiver = os.memfd_create("results")
    try:
        return os.copy_file_range(file, receiver, 4096), os.pread(receiver, 4096, 0)
    finally:
        os.close(receiver)


def spliced(file):
    out, into = os.pipe()
    try:
        length = call("splice", file, None, into, None, ctypes.c_size_t(4096), 0)
        return length, os.read(out, 4096)
    finally:
        os.close(out)
        os.close(into)


def waiting(file):
    room = ctypes.create_string_buffer(4)
    call("ioctl", file, ctypes.c_ulong(0x541B), room)
    return struct.unpack("i", room.raw)


def about_descriptors(it):
    yield "flock, lockf", lambda: it.open(os.O_RDWR, locked)
    yield "lease", lambda: it.open(
        os.O_RDONLY, lambda file: fcntl.fcntl(file, fcntl.F_SETLEASE, fcntl.F_RDLCK)
    )
    yield "fsync", lambda: it.open(os.O_RDONLY, os.fsync)
    yield "fallocate", lambda: it.open(
        os.O_RDWR, lambda file: call("fallocate", file, 0, ctypes.c_long(0), ctypes.c_long(10))
    )
    yield "FIONREAD", lambda: it.open(os.O_RDONLY, waiting)
    yield "an unknown ioctl", lambda: it.open(
        os.O_RDONLY, lambda file: call("ioctl", file, ctypes.c_ulong(0x1234), 0)
    )
    yield "sendfile", lambda: it.open(os.O_RDONLY, sent)
    yield "splice", lambda: it.open(os.O_RDONLY, spliced)
    yield "copy_file_range", lambda: it.open(os.O_RDONLY, copied)
    yield "readahead", lambda: it.open(
        os.O_RDONLY, lambda file: call("readahead", file, ctypes.c_long(0), ctypes.c_size_t(4096))
    )
    yield "fadvise", lambda: it.open(
        os.O_RDONLY, lambda file: os.posix_fadvise(file, 0, 4096, os.POSIX_FADV_WILLNEED)
    )
    yield "shared mmap", lambda: it.open(os.O_RDWR, lambda file: len(mmap.mmap(file, 4096, mmap.MAP_SHARED)))
    yield "private mmap", lambda: it.open(
        os.O_RDONLY, lambda file: len(mmap.mmap(file, 4096, mmap.MAP_PRIVATE, mmap.PROT_READ))
    )


def about_polls(it):
    every = select.POLLIN | select.POLLPRI | select.POLLERR | select.POLLOUT | select.POLLRDHUP

    def polled(file):
        poller = select.poll()
        poller.register(file, every)
        before = [events for _, events in poller.poll(0)]
        os.read(file, 99)
        return before, [events for _, events in poller.poll(0)]

    def by_epoll(file):
        with select.epoll() as poller:
            poller.register(file, select.EPOLLPRI | select.EPOLLET)
            return [events for _, events in poller.poll(0)], [events for _, events in poller.poll(0)]

    yield "poll, before a read and after", lambda: it.open(os.O_RDONLY, polled)
    yield "select", lambda: it.open(
        os.O_RDONLY, lambda file: [len(ready) for ready in select.select([file], [file], [file], 0)]
    )
    yield "epoll, once by its edge", lambda: it.open(os.O_RDONLY, by_epoll)


def about_attributes(it):
    """Extended attributes, modes, owners and times."""
    mode = stat.S_IMODE(os.stat(it.path).st_mode)
    listed = lambda: os.listxattr(it.path)
    yield "listxattr", listed
    yield "getxattr user.a", lambda: os.getxattr(it.path, "user.a")
    yield "setxattr user.a", lambda: os.setxattr(it.path, "user.a", b"1")
    yield "removexattr user.a", lambda: os.removexattr(it.path, "user.a")
    yield "getxattr of an access list", lambda: os.getxattr(it.path, "system.posix_acl_access")
    yield "getxattr security.capability", lambda: os.getxattr(it.path, "security.capability")
    yield "setxattr trusted.a", lambda: os.setxattr(it.path, "trusted.a", b"1")
    yield "getxattr trusted.a", lambda: os.getxattr(it.path, "trusted.a")
    yield "listxattr after that", listed
    yield "chmod", lambda: (os.chmod(it.path, 0o600), oct(os.stat(it.path).st_mode))
    yield "open by root of mode 000", lambda: (os.chmod(it.path, 0), it.value())
    yield "write by root of mode 444", lambda: (os.chmod(it.path, 0o444), it.write(b"1\n"))
    yield "chmod back", lambda: os.chmod(it.path, mode)
    yield "chmod of a directory", lambda: (
        os.chmod(it.top, 0o700), oct(os.stat(it.top).st_mode), os.chmod(it.top, 0o755),
    )
    yield "chown", lambda: (
        os.chown(it.path, 1, 2), os.stat(it.path).st_uid, os.stat(it.path).st_gid, os.chown(it.path, 0, 0),
    )
    yield "utime", lambda: (os.utime(it.path, (1, 2)), os.stat(it.path).st_atime, os.stat(it.path).st_mtime)
    yield "a write changes the time", lambda: (it.write(b"x\n"), os.stat(it.path).st_mtime == 2)[1]
    yield "an open by O_TRUNC changes the time", lambda: (
        os.utime(it.path, (1, 2)), it.open(os.O_WRONLY | os.O_TRUNC, lambda file: 0), os.stat(it.path).st_mtime == 2,
    )[2]
    yield "utime of the same", lambda: (os.utime(it.path, (1, 2)), os.stat(it.path).st_mtime)
    yield "a truncation changes the time", lambda: (os.truncate(it.path, 0), os.stat(it.path).st_mtime == 2)[
        1
    ]


def about_changes(it):
    new = it.top + "/new"
    yield "mkdir", lambda: os.mkdir(new)
    yield "rmdir", lambda: os.rmdir(it.top)
    yield "unlink", lambda: os.unlink(it.path)
    yield "rename", lambda: os.rename(it.path, it.path + "2")
    yield "symlink", lambda: os.symlink("a", new)
    yield "link", lambda: os.link(it.path, new)
    yield "mknod", lambda: os.mknod(new, 0o600 | stat.S_IFIFO)


def about_names(it):
    def handle():
        room, number = ctypes.create_string_buffer(8 + 128), ctypes.c_int()
        struct.pack_into("I", room, 0, 128)
        call("name_to_handle_at", -100, it.path.encode(), room, ctypes.byref(number), 0)
        return "given"

    def magic():
        room = ctypes.create_string_buffer(256)
        call("statfs", it.path.encode(), room)
        return hex(struct.unpack_from("l", room)[0])

    def of_statvfs():
        of = os.statvfs(it.path)
        return of.f_bsize, of.f_frsize, of.f_blocks, of.f_files, of.f_namemax

    yield "a name of 255 bytes", lambda: os.stat(it.top + "/" + "n" * 255)
    yield "a name of 256 bytes", lambda: os.stat(it.top + "/" + "n" * 256)
    yield "a file's name and a slash", lambda: os.stat(it.path + "/")
    yield "a name in a file", lambda: os.stat(it.path + "/x")
    yield "name_to_handle_at", handle
    yield "statfs: kind", magic
    yield "statfs: sizes", of_statvfs


def questions(path, remove):
    it = File(path)
    for group in (
        about_stat, about_listings, about_reads, about_writes, about_opens, about_descriptors, about_polls,
        about_attributes, about_changes, about_names, about_watches,
    ):
        yield from group(it)
    yield from about_removal(it, remove)
