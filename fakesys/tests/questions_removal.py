# SPDX-License-Identifier: MIT OR Apache-2.0
"""The system calls on an attribute file that was removed while it was open, and what inotify reports; see questions.py."""
import mmap, os, select, signal, struct, time

from questions_base import call, opened


def watched(path, do):
    """What inotify(7) reports about a file meanwhile."""
    watcher = call("inotify_init1", os.O_NONBLOCK)
    try:
        call("inotify_add_watch", watcher, path.encode(), 0xFFF)
        do()
        time.sleep(0.1)
        try:
            reported = os.read(watcher, 4096)
        except BlockingIOError:
            return []
        events = []
        while reported:
            _, mask, _, length = struct.unpack_from("iIII", reported)
            events.append(hex(mask))
            reported = reported[16 + length :]
        return events
    finally:
        os.close(watcher)


def about_watches(it):
    yield "inotify of a read", lambda: watched(it.path, it.value)
    yield "inotify of a write", lambda: watched(it.path, lambda: it.write(b"x\n"))


class Held:
    """What is open when the device is removed."""

    def __init__(self, it, remove):
        it.write(b"last\n")
        self.read, self.poller, self.fresh, self.sender = (
            os.open(it.path, how) for how in (os.O_RDWR, os.O_RDONLY, os.O_RDONLY, os.O_RDONLY)
        )
        self.path, self.top = os.open(it.path, os.O_PATH), os.open(it.top, os.O_RDONLY | os.O_DIRECTORY)
        self.part, self.whole = os.open(it.path, os.O_RDONLY), os.open(it.path, os.O_RDONLY)
        os.pread(self.read, 2, 0)
        os.read(self.part, 2)
        os.read(self.whole, 99)
        os.pread(self.poller, 99, 0)
        try:
            self.map = it.open(
                os.O_RDONLY, lambda file: mmap.mmap(file, 4096, mmap.MAP_PRIVATE, mmap.PROT_READ)
            )
            self.map[:4]
        except OSError:
            self.map = None
        self.polled = select.poll()
        self.polled.register(self.poller, select.POLLPRI)
        os.chdir(it.top)
        self.events = watched(it.path, remove)

    def mapped(self):
        """What the mapping shows, to a child, since it may die of it."""
        if not self.map:
            return None
        out, into = os.pipe()
        child = os.fork()
        if not child:
            os.write(into, self.map[:4])
            os._exit(0)
        os.close(into)
        text = os.read(out, 4)
        os.close(out)
        status = os.waitstatus_to_exitcode(os.waitpid(child, 0)[1])
        return text if not status else signal.Signals(-status).name


def about_removal(it, remove):
    held = Held(it, remove)
    yield "inotify of the removal", lambda: held.events
    yield "read on of what was read in part, after", lambda: os.read(held.part, 99)
    yield "read at the end of what was read whole, after", lambda: os.read(held.whole, 99)
    yield "pread at another place of it, after", lambda: os.pread(held.whole, 99, 2)
    yield "what a private mmap shows, after", held.mapped
    yield "pread at 0, after", lambda: os.pread(held.read, 99, 0)
    yield "pread at 2 of what was read, after", lambda: os.pread(held.read, 99, 2)
    yield "pread at 0 of what was not read, after", lambda: os.pread(held.fresh, 99, 0)
    yield "pread at 2 of what was not read, after", lambda: os.pread(held.fresh, 99, 2)
    yield "read of no bytes, after", lambda: os.pread(held.read, 0, 0)
    yield "write, after", lambda: os.pwrite(held.read, b"1", 0)
    yield "write of no bytes, after", lambda: os.pwrite(held.read, b"", 0)
    yield "sendfile, after", lambda: os.sendfile(os.memfd_create("results"), held.sender, 0, 4096)
    yield "poll, after", lambda: [events for _, events in held.polled.poll(0)]
    yield from about_what_stays(it, held)


def about_what_stays(it, held):
    """Metadata, names and descriptors of what was removed."""
    again = lambda file: opened(f"/proc/self/fd/{file}", os.O_RDONLY, lambda new: os.read(new, 99))
    yield "fstat, after", lambda: (
        oct(os.fstat(held.read).st_mode), os.fstat(held.read).st_size, os.fstat(held.read).st_nlink,
    )
    yield "fstat of a directory, after", lambda: (
        oct(os.fstat(held.top).st_mode), os.fstat(held.top).st_nlink,
    )
    yield "fstat by O_PATH, after", lambda: os.fstat(held.path).st_nlink
    yield "fchmod, after", lambda: os.fchmod(held.read, 0o600)
    yield "listing of a directory, after", lambda: os.listdir(held.top)
    yield "listing of where one is, after", lambda: os.listdir(".")
    yield "stat of where one is, after", lambda: os.stat(".").st_nlink
    yield "getcwd, after", lambda: os.getcwd().replace(it.top, "TOP")
    yield "stat of the path, after", lambda: os.stat(it.path)
    yield "stat of the name where one is, after", lambda: os.stat(os.path.basename(it.path))
    yield "open by /proc/self/fd, after", lambda: again(held.read)
    yield "open by /proc/self/fd of O_PATH, after", lambda: again(held.path)
    yield "the link /proc/self/fd, after", lambda: os.readlink(f"/proc/self/fd/{held.read}").replace(
        it.top, "TOP"
    )
    yield "openat, after", lambda: os.open(os.path.basename(it.path), os.O_RDONLY, dir_fd=held.top)
    yield "fsync, after", lambda: os.fsync(held.read)
    for name, way in ("start", os.SEEK_SET), ("end", os.SEEK_END), ("next byte", os.SEEK_DATA):
        yield f"lseek to the {name}, after", lambda way=way: os.lseek(held.read, 0, way)
    yield "close, after", lambda: [
        os.close(file)
        for file in (
            held.read, held.poller, held.fresh, held.sender, held.part, held.whole, held.path, held.top,
        )
    ]
