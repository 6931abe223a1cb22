# SPDX-License-Identifier: MIT OR Apache-2.0
"""The C functions below kernfs_tree.py and kernfs_live.py, by ctypes, with their structs and their errors. kernfs_tree.h,
kt_bind.h and kt_live.h document them."""

import ctypes
import errno
import os

VERSION = "0.4.0"
DIR, FILE, LINK = 0, 1, 2
PAGE_SIZE, NAME_MAX = 4096, 255


class KtError(OSError):
    """A call failed: `errno` says why."""


class Gone(KtError):
    """ENODEV: the node is not live. It is removed, being removed, hidden, or not activated."""


_kinds = {errno.ENODEV: Gone}


def error(number):
    """The exception for an error number: a KtError, and the kind of OSError that Python has for it."""
    kind = _kinds.get(number)
    if kind is None:
        standard = type(OSError(number, ""))
        kind = KtError if standard is OSError else type(standard.__name__, (KtError, standard), {})
        _kinds[number] = kind
    return kind(number, os.strerror(number))


class Key(ctypes.Structure):
    """Names a node of a tree."""

    _fields_ = [("slot", ctypes.c_uint32), ("generation", ctypes.c_uint32)]

    def __eq__(self, other):
        return isinstance(other, Key) and (self.slot, self.generation) == (other.slot, other.generation)

    def __hash__(self):
        return hash((self.slot, self.generation))

    def __repr__(self):
        return f"Key({self.slot}, {self.generation})"


class Stat(ctypes.Structure):
    """Describes a node."""

    _fields_ = [
        ("tag", ctypes.c_uint64),
        ("target", Key),
        ("kind", ctypes.c_uint32),
        ("links", ctypes.c_uint32),
        ("mode", ctypes.c_uint16),
        ("activated", ctypes.c_bool),
        ("doomed", ctypes.c_bool),
        ("hidden", ctypes.c_bool),
    ]


class Commands(ctypes.Structure):
    """How many commands the log of a tree has, and would have at most after a compaction."""

    _fields_ = [("stored", ctypes.c_uint64), ("compacted", ctypes.c_uint64)]


class Handle(ctypes.Structure):
    _fields_ = [("at", ctypes.c_void_p)]


def _load():
    path = os.environ.get("KERNFS_TREE")
    if path:
        ctypes.CDLL(path)  # so the other library, which needs it by its name, finds it
        path = os.path.join(os.path.dirname(path), os.path.basename(path).replace("_tree.", "_tree_bind."))
    library = ctypes.CDLL(path or f"libkernfs_tree_bind.so.{VERSION.rpartition('.')[0]}")
    handle, key, size, text = ctypes.POINTER(Handle), ctypes.POINTER(Key), ctypes.c_size_t, ctypes.c_char_p
    i32, i64, u32, u64, yes = ctypes.c_int32, ctypes.c_int64, ctypes.c_uint32, ctypes.c_uint64, ctypes.c_bool
    new, lock = [handle, Key, text, size], ctypes.c_void_p
    for name, answer, *takes in (
        ("new", i32, ctypes.POINTER(ctypes.c_void_p)),
        ("delete", i32, Handle),
        ("create_root", i32, handle, u32, u32),
        ("root", i32, handle, key),
        ("create_dir", i32, *new, yes, key),
        ("create_file", i32, *new, ctypes.c_uint16, u64, yes, key),
        ("create_link", i32, *new, Key, yes, key),
        ("activate", i32, handle, Key),
        ("rename", i32, handle, Key, Key, text, size),
        ("find", i32, *new, key),
        ("walk", i32, handle, text, size, key),
        ("next", i64, *new, text, size),
        ("stat", i32, handle, Key, ctypes.POINTER(Stat)),
        ("commands", i32, handle, ctypes.POINTER(Commands)),
        ("version", i32),
        ("parent", i32, handle, Key, key),
        ("name", i64, *new),
        ("path", i64, *new),
        ("readlink", i64, *new),
        ("hold", i32, handle, Key, handle),
        ("dup", i32, handle, handle),
        ("event_open", i32, handle, Key, handle),
        ("open", i32, handle, Key, yes, yes, handle),
        *((it, i32, handle, Key) for it in ("remove", "hide", "claim")),
        *((it, i32, handle) for it in ("compact", "restore", "notify", "changed", "begin_write")),
        ("event", i32, handle, ctypes.POINTER(u64)),
        ("begin_read", i32, handle, u64),
        ("shown", i32, handle, text, size),
        ("copy", i64, handle, u64, text, size),
        ("bind_new_lock", i32, ctypes.POINTER(ctypes.c_void_p)),
        *((f"bind_{it}", None, lock) for it in ("delete_lock", "release", "wake")),
        ("bind_take", i32, lock),
        ("bind_delete", i32, Handle, lock),
        *((f"bind_{it}", i32, handle, lock) for it in ("enter", "leave", "break")),
        *((f"bind_{it}", i32, handle, Key, lock, i64) for it in ("remove", "hide", "unhide")),
        ("bind_remove_self", i32, handle, handle, Key, lock),
    ):
        function = getattr(library, f"kt_{name}")
        function.restype, function.argtypes = answer, takes
    return library


library = _load()


def must(answer):
    if answer < 0:
        raise error(-answer)
    return answer
