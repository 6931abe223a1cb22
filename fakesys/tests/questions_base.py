# SPDX-License-Identifier: MIT OR Apache-2.0
"""The attribute file that the questions are about, and system calls that Python does not have; see questions.py."""
import ctypes, os, struct

LIBC = ctypes.CDLL(None, use_errno=True)
GETDENTS64 = {"x86_64": 217}.get(os.uname().machine, 61)


def call(name, *words):
    """Calls a function of the C library."""
    result = getattr(LIBC, name)(*words)
    if result < 0:
        raise OSError(ctypes.get_errno(), "")
    return result


def opened(path, flags, do):
    file = os.open(path, flags)
    try:
        return do(file)
    finally:
        os.close(file)


def getdents(path, size=32768):
    """The names and kinds of a directory, read with buffers of a size."""

    def read(file):
        entries = []
        while True:
            room = ctypes.create_string_buffer(size)
            length = call("syscall", GETDENTS64, file, room, ctypes.c_size_t(size))
            if length == 0:
                return entries
            at = 0
            while at < length:
                _, _, step, kind = struct.unpack_from("<QqHB", room.raw, at)
                entries.append((room.raw[at + 19 : at + step].split(b"\0")[0].decode(), kind))
                at += step

    return opened(path, os.O_RDONLY | os.O_DIRECTORY, read)


class File:
    """The attribute file, and short ways to ask of it."""

    def __init__(self, path):
        self.path, self.top = path, os.path.dirname(path)

    def open(self, flags, do):
        return opened(self.path, flags, do)

    def write(self, text, flags=os.O_WRONLY):
        return self.open(flags, lambda file: os.write(file, text))

    def value(self):
        return self.open(os.O_RDONLY, lambda file: os.read(file, 4096))

    def in_top(self, do):
        return opened(self.top, os.O_RDONLY | os.O_DIRECTORY, do)
