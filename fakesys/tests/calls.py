# SPDX-License-Identifier: MIT OR Apache-2.0
"""System calls whose results are those of sysfs."""
import ctypes, errno, os, stat, struct, time
from pathlib import Path

from mounted import error_of, must, read_path

LIBC = ctypes.CDLL(None, use_errno=True)


def getdents(file, size=32768):
    """The entries that one getdents64(2) returns: name, inode number, kind."""
    room = ctypes.create_string_buffer(size)
    length = LIBC.syscall({"x86_64": 217}.get(os.uname().machine, 61), file, room, ctypes.c_size_t(size))
    must(length >= 0, f"getdents64: {os.strerror(ctypes.get_errno())}")
    entries, at = [], 0
    while at < length:
        inode, _, size, kind = struct.unpack_from("<QqHB", room.raw, at)
        entries.append((room.raw[at + 19 : at + size].split(b"\0")[0].decode(), inode, kind))
        at += size
    return entries


def listings(mount):
    """A listing has `.` and `..` first, restarts when it is rewound, continues from any offset, and has the
    right inode numbers."""
    mount.done("mkdir /d", "mkdir /d/b", "file /d/c 444", "link /d/a /d/b", "mkdir /devices/fan0/d")
    with mount.opened("/d", os.O_RDONLY | os.O_DIRECTORY) as file:
        entries = getdents(file)
        must([name for name, _, _ in entries] == [".", "..", "a", "b", "c"], entries)
        must([kind for _, _, kind in entries] == [4, 4, 10, 4, 8], "kinds")
        for name, inode, _ in entries:
            must(inode == os.lstat(mount.path(f"/d/{name}")).st_ino < 2**32, f"inode number of {name}")
        must(getdents(file) == [], "it has ended")
        mount.done("mkdir /d/later")
        os.lseek(file, 0, os.SEEK_SET)
        must(
            [it[0] for it in getdents(file)] == [".", "..", "a", "b", "c", "later"], "rewound, it lists everything again"
        )
        os.lseek(file, 3, os.SEEK_SET)
        must([it[0] for it in getdents(file)] == ["b", "c", "later"], "from an offset")
        os.lseek(file, 13, os.SEEK_SET)
        must(getdents(file) == [], "from an offset past the end")
        os.lseek(file, 0, os.SEEK_SET)
        short = [entry for _ in range(6) for entry in getdents(file, 32)]
        must(len(short) == 6, f"one by one: {short}")
    mount.done(*(f"mkdir /devices/n{number:04d}" for number in range(900)))
    with mount.opened("/devices", os.O_RDONLY | os.O_DIRECTORY) as file:
        seen = getdents(file, 3000)
        mount.done("rm /devices/n0001", "rm /devices/n0500", "mkdir /devices/n0000a", "mkdir /devices/n0600a")
        while more := getdents(file, 3000):
            seen += more
        names = [name for name, _, _ in seen]
        must(
            "n0001" in names and "n0500" not in names and "n0000a" not in names and "n0600a" in names,
            "as they are at each call",
        )
        must(len(set(names)) == len(names) == 903, "each once")


def refused_calls(mount):
    """Operations that sysfs does not have are refused as in sysfs."""
    top, file = mount.path("/devices/fan0"), mount.path("/devices/fan0/speed")
    for wanted, call, *words in (
        (errno.EPERM, os.mkdir, top + "/x"), (errno.EPERM, os.rmdir, top), (errno.EPERM, os.unlink, file),
        (errno.EPERM, os.rename, file, top + "/x"), (errno.EPERM, os.symlink, "a", top + "/x"),
        (errno.EPERM, os.link, file, top + "/x"), (errno.EPERM, os.mknod, top + "/x", 0o600 | stat.S_IFIFO),
        (errno.EACCES, os.open, top + "/x", os.O_CREAT | os.O_RDWR),
        (errno.EEXIST, os.open, file, os.O_CREAT | os.O_EXCL), (errno.EISDIR, os.open, top, os.O_WRONLY),
        (errno.EINVAL, os.open, file, os.O_RDONLY | os.O_DIRECT), (errno.ENODATA, os.getxattr, file, "user.a"),
        (errno.EOPNOTSUPP, os.setxattr, file, "user.a", b"1"), (errno.ENOENT, os.stat, top + "/" + "n" * 256),
        (errno.ENOTDIR, os.stat, file + "/x"),
    ):
        must(
            error_of(call, *words) == wanted, f"{call.__name__} {words[1:]}: {os.strerror(error_of(call, *words))}",
        )
    must(os.listxattr(file) == [], "no extended attributes")
    must(sorted(os.listdir(top)) == ["limit", "speed"], "nothing has changed")


def kept(mount):
    """Modes, owners and times that chmod(2) and similar calls set are stored, and decide who may open a file."""
    path = mount.path("/devices/fan0/speed")
    before = os.stat(path)
    must(
        abs(before.st_mtime - time.time()) < 60
        and (before.st_uid, before.st_size, before.st_nlink) == (os.getuid(), 4096, 1),
        before,
    )
    os.chmod(path, 0o200)
    must(error_of(read_path, path) == errno.EACCES, "without a bit for reading, even for root")
    os.chmod(path, 0o600)
    os.utime(path, (1, 2))
    owner = (1, 2) if os.geteuid() == 0 else (os.geteuid(), os.getegid())
    os.chown(path, *owner)
    os.chmod(mount.path("/devices"), 0o750)
    of = os.stat(path)
    must((of.st_mode, of.st_atime, of.st_mtime, of.st_uid, of.st_gid) == (0o100600, 1, 2, *owner), of)
    must(os.stat(mount.path("/devices")).st_mode == 0o40750 and of.st_ino == before.st_ino, "of a directory")
    mount.done("file /r 444 1", "file /w 200 1", "file /n 000 1")
    must(
        [
            error_of(os.open, mount.path(name), how)
            for name, how in (("/r", os.O_WRONLY), ("/w", os.O_RDONLY), ("/n", os.O_RDONLY))
        ]
        == [errno.EACCES] * 3,
        "as they were created",
    )
    os.chmod(mount.path("/r"), 0o644)
    must(error_of(os.open, mount.path("/r"), os.O_WRONLY) == errno.EACCES, "a file without a store accepts no write")


def gone(mount):
    """If a node is removed while open, stat(2) still reports it; it lists nothing and cannot be opened again;
    the next node in its slot is another one."""
    here = os.getcwd()
    inode = os.stat(mount.path("/devices/fan0")).st_ino
    with mount.opened("/devices/fan0/speed") as file, mount.opened(
        "/devices/fan0", os.O_RDONLY | os.O_DIRECTORY
    ) as top:
        os.chdir(top)
        try:
            mount.done("rm /devices/fan0")
            must(
                (os.fstat(top).st_ino, os.stat(".").st_nlink) == (inode, 2)
                and stat.S_ISREG(os.fstat(file).st_mode),
                "fstat(2)",
            )
            must(error_of(os.lseek, file, 0, os.SEEK_END) == errno.ENODEV, "lseek(2) to its end")
            must(os.listdir(top) == [] == os.listdir("."), "it lists nothing")
            must([it[0] for it in getdents(top)][:1] in ([], ["."]), "getdents64(2)")
            must(
                error_of(os.stat, "speed") == errno.ENOENT == error_of(os.open, "speed", os.O_RDONLY),
                "no name is found in it",
            )
            must(
                error_of(os.open, f"/proc/self/fd/{file}", os.O_RDONLY) == errno.ENODEV, "it cannot be opened again",
            )
            mount.done("mkdir /devices/fan0", "file /devices/fan0/speed 644 2")
            must(
                os.fstat(top).st_ino == inode != os.stat(mount.path("/devices/fan0")).st_ino,
                "another node has its name",
            )
            must(
                error_of(os.pread, file, 9, 0) == errno.ENODEV
                and read_path(mount.path("/devices/fan0/speed")) == b"2\n",
                "and another text",
            )
        finally:
            os.chdir(here)


def numbers_fit(mount):
    """After 3,000 nodes that came and went, inode numbers still fit in 32 bits."""
    for number in range(3000):
        mount.done("mkdir /t", "rm /t")
    mount.done("mkdir /t")
    must(
        3000 < os.stat(mount.path("/t")).st_ino < 2**32,
        "numbers fit in 32 bits",
    )


def reads_and_writes(mount):
    """Offsets, truncations, appends; texts that are written whole and in parts."""
    path = mount.path("/devices/fan0/speed")
    with mount.opened("/devices/fan0/speed", os.O_RDWR | os.O_APPEND) as file:
        must(
            [os.pread(file, size, at) for size, at in ((2, 0), (99, 2), (99, 5), (9, 5000))]
            == [b"12", b"00\n", b"", b""],
            "parts",
        )
        must(
            os.pwrite(file, b"zz\n", 100) == 3 and os.pread(file, 9, 0) == b"zz\n",
            "a write is the whole text, wherever it goes",
        )
        must(os.write(file, b"") == 0 and os.read(file, 0) == b"", "of no bytes")
    os.truncate(path, 0)
    Path(path).write_text("7")
    must(read_path(path) == b"7\n" and os.stat(path).st_size == 4096, "a truncation changes nothing")
    with mount.opened("/devices/fan0/speed", os.O_WRONLY) as file:
        must(
            [os.write(file, text) for text in (b"1", b"\n", b"23\n")] == [1, 1, 3]
            and read_path(path) == b"23\n",
            "the last write stays",
        )
        must(os.write(file, b"\n") == 1 and read_path(path) == b"", "an empty line")
