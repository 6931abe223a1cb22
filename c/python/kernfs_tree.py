# SPDX-License-Identifier: MIT OR Apache-2.0
"""The attribute tree of Linux sysfs (kernfs) for Python, over the shared library by ctypes. Tested, not proved.

    tree = Tree(slots=64)
    fan = tree.create_dir(tree.root, "fan0")
    speed = tree.create_file(fan, "speed", 0o444)
    with tree.open(speed) as file:
        file.read(lambda: b"1200\\n")       # runs the show, as long as the fan is there
    tree.remove_wait(fan)                   # no callback runs there any more, and none starts

A Tree has its own lock, and each call on it takes that; any thread may make any call. A Hold, Post or File is used by
one thread at a time: two that share one get EINVAL, and hold.dup() makes another. A call that fails raises KtError, an
OSError with the library's error number. It is also the OSError that Python has for that number, so `except
FileNotFoundError` and `except TimeoutError` work; Gone is that of a node that cannot be entered (ENODEV). Names and paths
are str or bytes. KERNFS_TREE may have the path of libkernfs_tree.so, with libkernfs_tree_bind.so beside it; otherwise both
are found by their names. kernfs_tree.h documents each call, and kernfs_live.py has devices with attributes."""

import ctypes
import errno
import os
import time

from kernfs_c import DIR, FILE, LINK, NAME_MAX, PAGE_SIZE, VERSION  # noqa: F401 (for who imports this module)
from kernfs_c import Commands, Gone, Handle, Key, KtError, Stat, error, library, must

SLICE = 100  # milliseconds that a wait sleeps in C, until Python looks for signals again


class _Lock:
    """A tree's lock, which knows the thread that has it. `with lock:` takes it; a finalizer or a signal handler that
    runs in a thread which has it goes on under it."""

    def __init__(self):
        self.at = ctypes.c_void_p()
        must(library.kt_bind_new_lock(ctypes.byref(self.at)))
        self._depth = 0  # written under the lock

    def __enter__(self):
        library.kt_bind_take(self.at)  # EDEADLK: this thread has it
        self._depth += 1

    def __exit__(self, *_):
        self._depth -= 1
        if not self._depth:
            library.kt_bind_release(self.at)

    def __del__(self):
        if self.at.value and library:
            library.kt_bind_delete_lock(self.at)


class _Owner:
    """Owns a handle, from kt_new() to kt_delete()."""

    def __init__(self):
        at = ctypes.c_void_p()
        self._handle = Handle(None)
        must(library.kt_new(ctypes.byref(at)))
        self._handle = Handle(at.value)

    def _call(self, name, *words):
        if not self._handle.at:
            raise error(errno.EBADF)
        return must(getattr(library, f"kt_{name}")(self._handle, *words))

    def close(self):
        """Frees what is behind the handle."""
        if self._handle.at:
            must(self._delete(self._handle))
        self._handle = Handle(None)

    def _delete(self, handle):
        return library.kt_delete(handle)

    def __del__(self):
        try:
            self.close()
        except (KtError, AttributeError, TypeError):  # (the interpreter may be ending)
            pass

    def __exit__(self, *_):
        self.close()


class Tree(_Owner):
    """A tree, at first with only the root, with these maxima of nodes and of holds of each node."""

    def __init__(self, slots=1024, holds=64):
        super().__init__()
        self._lock = _Lock()
        self._call("create_root", slots, holds)
        self.root = self._key("root")

    def __enter__(self):
        return self

    def _call(self, name, *words):
        with self._lock:
            return super()._call(name, *words)

    def _key(self, name, *words):
        key = Key()
        self._call(name, *words, key)
        return key

    def _text(self, name, key):
        size = 4096
        while True:
            text = ctypes.create_string_buffer(size)
            try:
                length = self._call(name, key, text, size)
                return os.fsdecode(text.raw[:length])
            except KtError as refused:
                if refused.errno != errno.ERANGE:
                    raise
                size *= 4

    @staticmethod
    def _named(name):
        name = os.fsencode(name)
        return name, len(name)

    def create_dir(self, parent, name, live=True):
        return self._key("create_dir", parent, *self._named(name), live)

    def create_file(self, parent, name, mode=0o644, tag=0, live=True):
        return self._key("create_file", parent, *self._named(name), mode, tag, live)

    def create_link(self, parent, name, target, live=True):
        return self._key("create_link", parent, *self._named(name), target, live)

    def activate(self, key):
        self._call("activate", key)

    def rename(self, key, parent, name):
        self._call("rename", key, parent, *self._named(name))

    def find(self, parent, name):
        return self._key("find", parent, *self._named(name))

    def walk(self, path):
        return self._key("walk", *self._named(path))

    def stat(self, key):
        told = Stat()
        self._call("stat", key, told)
        return told

    def parent(self, key):
        return self._key("parent", key)

    def name(self, key):
        return self._text("name", key)

    def path(self, key):
        return self._text("path", key)

    def readlink(self, key):
        return self._text("readlink", key)

    def list(self, parent):
        """The names of the live children, one after another in byte order."""
        self.stat(parent)
        last, text = b"", ctypes.create_string_buffer(NAME_MAX)
        while True:
            try:
                length = self._call("next", parent, last, len(last), text, NAME_MAX)
            except KtError as refused:
                if refused.errno != errno.ENOENT:
                    raise
                return
            last = text.raw[:length]
            yield os.fsdecode(last)

    def hold(self, key):
        return self._behind(Hold(self, key), "hold", key)

    def post(self, key):
        return self._behind(Post(), "event_open", key)

    def open(self, key, how="r"):
        """Opens a file for reading, writing or both: r, w, rw."""
        return self._behind(File(self, key), "open", key, "r" in how, "w" in how)

    def _behind(self, made, name, *words):
        self._call(name, *words, made._handle)
        return made

    def _wait(self, name, key, seconds):
        """Sleeps in C, and again after each slice, so that Ctrl-C ends it."""
        end = None if seconds is None else time.monotonic() + seconds
        step = getattr(library, f"kt_bind_{name}")
        while True:
            if not self._handle.at:
                raise error(errno.EBADF)
            left = SLICE if end is None else max(0, min(SLICE, int((end - time.monotonic()) * 1000) + 1))
            answer = step(self._handle, key, self._lock.at, left)
            if answer != -errno.ETIMEDOUT or (end is not None and time.monotonic() >= end):
                return must(answer)

    def remove(self, key):
        """One step of a removal: 1 (this call took the node out), 0 (it was out before), KtError with EAGAIN while
        somebody is inside, and with ENOENT if this tree never gave out the key."""
        return self._call("remove", key)

    def remove_wait(self, key, seconds=None):
        """Removes a node and everything below it, and waits until no callback runs there; after `seconds` it raises
        KtError with ETIMEDOUT. Returns 1 if this call took the node out, and 0 if it was out before. (If a callback
        calls `remove_self` meanwhile, that may return True too, or instead: `claim` says which thread frees.)"""
        return self._wait("remove", key, seconds)

    def hide(self, key):
        self._call("hide", key)

    def hide_wait(self, key, seconds=None):
        self._wait("hide", key, seconds)

    def unhide_wait(self, key, seconds=None):
        self._wait("unhide", key, seconds)

    def remove_self(self, call, key=None):
        """In a callback of a Hold or File: removes its node, or one above it. Whether this was the first to do so."""
        words = self._handle, call._handle, call.key if key is None else key, self._lock.at
        return must(library.kt_bind_remove_self(*words)) == 1

    def claim(self, key):
        """Marks a node and everything below it. Whether this is the first to claim the node's removal."""
        return self._call("claim", key) == 0

    def compact(self):
        self._call("compact")

    def commands(self):
        """How many commands the tree keeps, and how many it would after `compact`, at most."""
        found = Commands()
        self._call("commands", ctypes.byref(found))
        return found

    def close(self):
        if hasattr(self, "_lock"):
            with self._lock:
                super().close()


class Hold(_Owner):
    """A hold of a node. `with hold:` is a call: KtError with ENODEV if the node is not live."""

    def __init__(self, tree, key):
        super().__init__()
        self.key, self._lock = key, tree._lock

    def _step(self, name):
        """A step with the wake that is due after it."""
        return self._call(f"bind_{name}", self._lock.at)

    def _begin(self, name, *words):
        try:
            return self._call(name, *words)
        except Gone:
            library.kt_bind_wake(self._lock.at)  # the refused try was counted for a moment
            raise

    def dup(self):
        """Another hold of the node, even if the node is gone, for another thread. It needs no lock."""
        other = Hold(self, self.key)
        while True:
            try:
                self._call("dup", other._handle)
                return other
            except KtError as refused:
                if refused.errno != errno.EBUSY:  # (others changed the count: it is called again)
                    raise

    def enter(self):
        self._step("enter")

    def leave(self):
        self._step("leave")

    def break_protection(self):
        self._step("break")

    def restore(self):
        self._call("restore")

    def __enter__(self):
        self.enter()
        return self

    def __exit__(self, *_):
        self.leave()

    def _delete(self, handle):
        return library.kt_bind_delete(handle, self._lock.at)


class Post(_Owner):
    """Reads and raises the event number of a node's slot."""

    def __enter__(self):
        return self

    def notify(self):
        self._call("notify")

    @property
    def event(self):
        number = ctypes.c_uint64()
        self._call("event", number)
        return number.value


class File(Hold):
    """An open file. `with file:` closes it at the end."""

    def __enter__(self):
        return self

    def __exit__(self, *_):
        self.close()

    def read(self, show, offset=0, size=PAGE_SIZE):
        """What show() returns, from an offset, as bytes; if it raises an exception, there is no text."""
        if self._begin("begin_read", offset) == 1:
            try:
                text = show()
                self._call("shown", text, len(text))
            finally:
                self._step("leave")
        out = ctypes.create_string_buffer(size)
        length = self._call("copy", offset, out, size)
        return out.raw[:length]

    def write(self, data, store):
        """What store(data) returns, for at most 4,096 bytes; without any byte it does not run."""
        self._begin("begin_write")
        try:
            return store(data[:PAGE_SIZE]) if data else 0
        finally:
            self._step("leave")

    def poll(self):
        """Whether the file has changed since its last read, was never read, or is not live."""
        try:
            self.enter()
        except Gone:
            return True
        try:
            return self._call("changed") == 1
        finally:
            self.leave()
