# SPDX-License-Identifier: MIT OR Apache-2.0
"""kt_live.h for Python: a program publishes objects as directories of attributes, and takes them back while other threads
use them. Tested, not proved.

    live = Live()
    live.publish("/fan0", fan, {"speed": Attribute(show=lambda fan: f"{fan.speed}\\n"),
                                "target": Attribute(show=Fan.target, store=Fan.set_target)})
    live.read("/fan0/speed")          # runs the show, as long as the fan is published
    live.unpublish("/fan0")           # the fan: no callback runs in it, and none starts

Any thread may make any call, also from a callback. A call that fails raises KtError, which is an OSError of Python's own
kind (FileNotFoundError ..). What a show or a store raises is raised by the read() or write() that ran it."""

import ctypes
import errno
import math
import os
import select
import sys
import threading
import time

from kernfs_c import NAME_MAX, PAGE_SIZE, Gone, Key, KtError, error, library, must  # noqa: F401

SLICE = 100  # milliseconds that an unpublishing sleeps in C, until Python looks for signals again

_SHOW = ctypes.CFUNCTYPE(ctypes.c_int64, ctypes.c_void_p, ctypes.c_void_p, ctypes.c_void_p)
_STORE = ctypes.CFUNCTYPE(ctypes.c_int64, ctypes.c_void_p, ctypes.c_void_p, ctypes.c_void_p, ctypes.c_size_t)
_RUN = ctypes.CFUNCTYPE(ctypes.c_int64, ctypes.c_void_p, ctypes.c_void_p)
_RELEASE = ctypes.CFUNCTYPE(None, ctypes.c_void_p)


class _Attribute(ctypes.Structure):
    _fields_ = [
        ("name", ctypes.c_char_p),
        ("mode", ctypes.c_uint16),
        ("show", _SHOW),
        ("store", _STORE),
        ("which", ctypes.c_int64),
    ]


class _Child(ctypes.Structure):
    _fields_ = [
        ("name", ctypes.c_char * (NAME_MAX + 1)),
        ("key", Key),
        ("kind", ctypes.c_uint32),
        ("mode", ctypes.c_uint16),
    ]


def _declare():
    live, path, key, text = ctypes.c_void_p, ctypes.c_char_p, ctypes.POINTER(Key), ctypes.c_char_p
    place, size, i32, i64 = ctypes.POINTER(ctypes.c_void_p), ctypes.c_size_t, ctypes.c_int32, ctypes.c_int64
    attributes, file, yes = ctypes.POINTER(_Attribute), ctypes.c_void_p, ctypes.c_bool
    for name, answer, *takes in (
        ("new", i32, place, ctypes.c_uint32),
        ("delete", i32, live),
        ("publish", i32, live, path, attributes, size, ctypes.c_void_p, key),
        ("publish_plugin", i32, live, path, attributes, size, ctypes.c_void_p, _RELEASE, ctypes.c_void_p, key),
        ("unpublish_for", i32, live, Key, ctypes.c_uint, place),
        ("run", i64, live, path, _RUN, ctypes.c_void_p),
        ("self", Key, live),
        ("read", i64, live, path, ctypes.c_void_p, size),
        ("write", i64, live, path, text, size),
        ("notify", i32, live, Key, path),
        ("watch", ctypes.c_int, live, path),
        ("unwatch", i32, live, ctypes.c_int),
        ("list", i32, live, path, ctypes.POINTER(_Child)),
        ("open", i32, live, path, yes, yes, place),
        ("pread", i64, file, ctypes.c_uint64, ctypes.c_void_p, size),
        ("pwrite", i64, file, text, size),
        ("changed", i32, file),
        ("close", i32, file),
        ("inside", i32, live, path, ctypes.c_void_p),
        ("path", i64, live, Key, ctypes.c_void_p, size),
    ):
        function = getattr(library, f"kt_live_{name}")
        function.restype, function.argtypes = answer, takes
    system.open_memstream.restype, system.open_memstream.argtypes = ctypes.c_void_p, (place, ctypes.POINTER(size))
    system.fclose.argtypes = system.free.argtypes = (ctypes.c_void_p,)


system = ctypes.CDLL(None)
_declare()


class Attribute:
    """An attribute: show(device) returns its text, as str or bytes; store(device, data) gets 1 to 4,096 bytes, and returns
    how many it took, or None for all. Without a mode it is 0444, 0200 or 0644, by what is there."""

    def __init__(self, show=None, store=None, mode=None):
        self.show, self.store = show, store
        self.mode = (0o444 if show else 0) | (0o200 if store else 0) if mode is None else mode


class _Published:
    """A device, as long as it is published. (A callback that unpublishes its own device still has this.)"""

    def __init__(self, device, attributes, release):
        self.device, self.attributes, self.table = device, list(attributes.values()), None
        self.key, self.release = Key(), release


class _Raised(threading.local):
    """What a callback of this thread has raised, until the call that ran it returns."""

    error = None


class Watch:
    """Becomes readable when a node changes, comes or goes. It can be given to select, poll and selectors."""

    def __init__(self, live, fd):
        self._live, self._fd = live, fd

    def fileno(self):
        return self._fd

    def wait(self, seconds=None):
        """Whether something happened, within these seconds. Read the attribute after it."""
        poll = select.poll()
        poll.register(self._fd, select.POLLIN)
        if not poll.poll(None if seconds is None else seconds * 1000):
            return False
        try:
            os.read(self._fd, 8)
        except BlockingIOError:  # another thread has read it
            return False
        return True

    def close(self):
        if self._fd >= 0:
            must(library.kt_live_unwatch(self._live._at, self._fd))
        self._fd = -1

    def __enter__(self):
        return self

    def __exit__(self, *_):
        self.close()


class File:
    """An open attribute, for one thread that reads or writes it often: its calls take no lock and look up no path. Once the
    device is unpublished they raise Gone, for ever. Its own callback must not use it."""

    def __init__(self, live, at):
        self._live, self._at = live, at

    def read(self):
        """The text of the attribute, as bytes: runs its show."""
        page = ctypes.create_string_buffer(PAGE_SIZE)
        length = self._live._call_on(self._open(), library.kt_live_pread, 0, page, PAGE_SIZE)
        return page.raw[:length]

    def write(self, data):
        """Writes bytes or text: runs the store. Returns how many bytes it took."""
        data = data.encode() if isinstance(data, str) else bytes(data)
        return self._live._call_on(self._open(), library.kt_live_pwrite, data, len(data))

    def changed(self):
        """Whether it has changed since the last read(), was never read, or is gone."""
        return must(library.kt_live_changed(self._open())) == 1

    def _open(self):
        if not self._at:
            raise error(errno.EBADF)
        return self._at

    def close(self):
        if self._at:
            must(library.kt_live_close(self._at))
        self._at = None

    def __enter__(self):
        return self

    def __exit__(self, *_):
        self.close()


class Live:
    """A tree of devices, with this maximum of nodes: the root, and each device's directory and files."""

    def __init__(self, slots=1024):
        self._at = ctypes.c_void_p()
        must(library.kt_live_new(ctypes.byref(self._at), slots))
        self._published, self._count = {}, 0
        self._lock, self._raised = threading.Lock(), _Raised()
        self._show, self._store, self._release = _SHOW(self._shows), _STORE(self._stores), _RELEASE(self._releases)
        self._warn_after, self._warn = None, None

    def close(self):
        """Frees the tree. KtError with EBUSY: a device is published, something is watched or open, or a callback runs."""
        if self._at:
            must(library.kt_live_delete(self._at))
        self._at = ctypes.c_void_p()

    def __enter__(self):
        return self

    def __exit__(self, *_):
        self.close()

    def _open(self):
        if not self._at:
            raise error(errno.EBADF)
        return self._at

    # ---- callbacks, which C calls ----

    def _guarded(self, body):
        """What a callback returns to C. No exception passes through C: it is raised again when the C call returns."""
        try:
            return body()
        except BaseException as raised:  # (also KeyboardInterrupt)
            self._raised.error = raised
            number = raised.errno if isinstance(raised, OSError) else None
            return -(number or errno.EIO)

    def _attribute(self, number, attribute):
        of = self._published[number]
        which = ctypes.cast(attribute, ctypes.POINTER(_Attribute)).contents.which
        return of.device, of.attributes[which]

    def _shows(self, number, attribute, page):
        def body():
            device, it = self._attribute(number, attribute)
            text = it.show(device)
            data = (text.encode() if isinstance(text, str) else bytes(text))[:PAGE_SIZE]
            ctypes.memmove(page, data, len(data))
            return len(data)

        return self._guarded(body)

    def _stores(self, number, attribute, data, length):
        def body():
            device, it = self._attribute(number, attribute)
            taken = it.store(device, ctypes.string_at(data, length))
            return length if taken is None else taken

        return self._guarded(body)

    def _releases(self, number):
        self._published.pop(number).release()

    def _call(self, function, *words):
        return self._call_on(self._open(), function, *words)

    def _call_on(self, at, function, *words):
        """Calls C, which may call back. What a callback of it raised is raised here."""
        outer, self._raised.error = self._raised.error, None
        try:
            answer = function(at, *words)
            raised = self._raised.error
        finally:
            self._raised.error = outer
        if raised is not None and answer < 0:
            raise raised
        return must(answer)

    # ---- devices ----

    def publish(self, path, device=None, attributes=None, release=None):
        """Publishes an object as a directory at a path, with these attributes by their names. All files appear at once.
        Without attributes it is a plain directory, in which others can be published. Returns the directory's key.
        `release` is called without arguments once the device is unpublished and none of its callbacks runs any more, not
        even the one that has unpublished it. What it raises is only printed."""
        of = _Published(device, attributes or {}, release)
        table = (_Attribute * max(1, len(of.attributes)))()
        for which, (name, it) in enumerate((attributes or {}).items()):
            show, store = self._show if it.show else _SHOW(), self._store if it.store else _STORE()
            table[which] = _Attribute(os.fsencode(name), it.mode, show, store, which)
        of.table = table
        with self._lock:
            self._count += 1
            number = self._count
            self._published[number] = of
        words = [self._open(), os.fsencode(path), table, len(of.attributes), ctypes.c_void_p(number)]
        try:
            if release:
                must(library.kt_live_publish_plugin(*words, self._release, ctypes.c_void_p(number), of.key))
            else:
                must(library.kt_live_publish(*words, of.key))
        except BaseException:
            del self._published[number]
            raise
        return Key(of.key.slot, of.key.generation)

    def unpublish(self, where, seconds=None):
        """Unpublishes the device with this key or at this path, and waits until no callback is in its code. Returns the
        device to the first that asks for it, and None to every other. A callback may unpublish its own device.
        TimeoutError: after these seconds somebody is still inside. Then nobody can enter any more, no path leads there,
        and unpublish() with the key goes on."""
        key = where if isinstance(where, Key) else self.key(where)
        path, began, warned = self._path(key), time.monotonic(), 0
        number, of = next(((it, of) for it, of in list(self._published.items()) if of.key == key), (None, None))
        while True:
            left = SLICE if seconds is None else max(0, (began + seconds - time.monotonic()) * 1000)
            answer = library.kt_live_unpublish_for(self._open(), key, math.ceil(min(SLICE, left)), None)
            passed = time.monotonic() - began
            if answer in (-errno.ENOMEM, -errno.EMFILE):
                time.sleep(0.01)  # it asks again, because the device cannot stay
            elif answer != -errno.ETIMEDOUT or (seconds is not None and passed >= seconds):
                break
            elif self._warn_after and passed >= (warned + 1) * self._warn_after:
                warned = passed // self._warn_after
                self._warn("\n".join(it for it in self.inside() if it.startswith(f"{path}/")))
        if must(answer) != 1:
            return None
        if not of.release:  # (otherwise the release does this)
            del self._published[number]
        return of.device

    def _path(self, key):
        path = ctypes.create_string_buffer(PAGE_SIZE)
        return os.fsdecode(path.value) if library.kt_live_path(self._open(), key, path, PAGE_SIZE) > 0 else ""

    def inside(self, path="/"):
        """A line for each callback and each waiting unpublishing at a path or below it: its thread, and for how long."""
        text, size = ctypes.c_void_p(), ctypes.c_size_t()
        out = system.open_memstream(text, size)
        if not out:
            raise error(errno.ENOMEM)
        answer = library.kt_live_inside(self._open(), os.fsencode(path), out)
        system.fclose(out)
        lines = ctypes.string_at(text, size.value)
        system.free(text)
        must(answer)
        return os.fsdecode(lines).splitlines()

    def warn(self, seconds, function=None):
        """From now on, an unpublish() that has waited these seconds calls the function with the lines of inside() for its
        device, and again each time. Without a function they go to standard error. None ends it."""
        self._warn = function or (lambda text: print("an unpublish() still waits:", text, sep="\n", file=sys.stderr))
        self._warn_after = seconds

    def key(self, path):
        """The key of the device at a path."""
        found = []
        self._run(path, lambda number: found.append(self._published[number].key))
        return found[0]

    def run(self, path, function):
        """What function(device) returns, for the device at a path: it exists until the function returns."""
        found = []
        self._run(path, lambda number: found.append(function(self._published[number].device)))
        return found[0]

    def _run(self, path, body):
        callback = _RUN(lambda number, _: self._guarded(lambda: body(number) or 0))
        self._call(library.kt_live_run, os.fsencode(path), callback, None)

    def self(self):
        """In a callback, the key of its device; otherwise None."""
        key = library.kt_live_self(self._open())
        return key if key != Key(0, 0) else None

    # ---- attributes ----

    def read(self, path):
        """The text of the attribute at a path, as bytes: runs its show."""
        page = ctypes.create_string_buffer(PAGE_SIZE)
        length = self._call(library.kt_live_read, os.fsencode(path), page, PAGE_SIZE)
        return page.raw[:length]

    def write(self, path, data):
        """Writes bytes or text to the attribute at a path: runs its store. Returns how many bytes it took."""
        data = data.encode() if isinstance(data, str) else bytes(data)
        return self._call(library.kt_live_write, os.fsencode(path), data, len(data))

    def notify(self, device, name):
        """Reports that an attribute of the device with this key has changed."""
        must(library.kt_live_notify(self._open(), device, os.fsencode(name)))

    def open(self, path, read=True, write=False):
        """Opens the attribute at a path."""
        at = ctypes.c_void_p()
        must(library.kt_live_open(self._open(), os.fsencode(path), read, write, at))
        return File(self, at)

    def watch(self, path):
        """Watches the node at a path, even if it comes later."""
        return Watch(self, must(library.kt_live_watch(self._open(), os.fsencode(path))))

    def list(self, path="/"):
        """The names in the directory at a path, one after another in byte order."""
        at = _Child()
        while must(library.kt_live_list(self._open(), os.fsencode(path), at)) == 1:
            yield os.fsdecode(at.name)
