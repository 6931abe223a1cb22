# SPDX-License-Identifier: MIT OR Apache-2.0
"""Replies to statfs(2) for the processes of a run, since the kernel reports the magic number of FUSE for each tree.

A seccomp filter passes statfs(2) and fstatfs(2) of the command, and of everything that it starts, to this process. If the
file is of a tree, the caller gets what the kernel reports, except that the magic number is that of sysfs, or of the
file system that a line `filesystem` names. All other calls go on to the kernel. This works for static programs too."""
import contextlib
import ctypes
import fcntl
import os
import platform
import re
import signal
import struct
import threading

import fakesys

SYSFS = 0x62656572
ATTRIBUTE = "system.fakesys"  # of each node of a tree: the magic number, in decimal digits
# Of a machine: its number for the filter, and the numbers of seccomp(2), statfs(2) and fstatfs(2).
MACHINES = {
    "x86_64": (0xC000003E, 317, 137, 138),
    "aarch64": (0xC00000B7, 277, 43, 44),
    "riscv64": (0xC00000F3, 277, 43, 44),
}
LOAD, JUMP_IF_EQUAL, RETURN = 0x20, 0x15, 0x06  # instructions of the filter
ALLOW, ASK = 0x7FFF0000, 0x7FC00000  # what the filter returns
SET_FILTER, NEW_LISTENER = 1, 8
RECEIVE, SEND, IS_VALID = 0xC0502100, 0xC0182101, 0x40082102
GO_ON = 1  # the kernel continues the call
CALL, REPLY = struct.Struct("=QIIiIQ6Q"), struct.Struct("=QqiI")
LONGEST = 4096


def filter_of(machine):
    """The instructions of the filter, as the kernel reads them."""
    number, _, *calls = machine
    lines = [
        (LOAD, 0, 0, 4),
        (JUMP_IF_EQUAL, 0, 3, number),
        (LOAD, 0, 0, 0),
        (JUMP_IF_EQUAL, 2, 0, calls[0]),
        (JUMP_IF_EQUAL, 1, 0, calls[1]),
        (RETURN, 0, 0, ALLOW),
        (RETURN, 0, 0, ASK),
    ]
    return b"".join(struct.pack("=HBBI", *line) for line in lines)


def install(machine):
    """Sets the filter of this thread, which all processes and threads inherit that it starts. Returns the descriptor
    from which their calls are read; None if the system does not allow it."""
    code = ctypes.create_string_buffer(filter_of(machine))
    program = ctypes.create_string_buffer(struct.pack("@HP", len(code) // 8, ctypes.addressof(code)))
    listener = fakesys.LIBC.syscall(machine[1], SET_FILTER, NEW_LISTENER, program)
    return listener if listener >= 0 else None


def magic_of(file):
    """The magic number of a file of a tree. OSError if it is of no tree."""
    return int(os.getxattr(f"/proc/self/fd/{file}", ATTRIBUTE))


class Replies(threading.Thread):
    """Reads the calls, and replies to each in a thread, since a look-up in a tree may be late. It begins before the filter
    is set, so that its own calls are not filtered."""

    def __init__(self, others):
        super().__init__(daemon=True)
        self.machine = MACHINES.get(platform.machine())
        self.others = others  # magic numbers of other file systems, by device
        self.is_set, self.listener = threading.Event(), None

    def begin(self):
        """Sets the filter of the calling thread, if this is possible here. (A /proc of other processes cannot be used.)"""
        if not self.machine or os.readlink("/proc/self") != str(os.getpid()):
            return
        # (no signal may go to these threads: Python's handlers run in the main thread, which would not wake up)
        mask = signal.pthread_sigmask(signal.SIG_BLOCK, signal.valid_signals())
        self.start()
        signal.pthread_sigmask(signal.SIG_SETMASK, mask)
        self.listener = install(self.machine)
        self.is_set.set()

    def run(self):
        self.is_set.wait()
        while self.listener is not None:
            call = bytearray(CALL.size)
            try:
                fcntl.ioctl(self.listener, RECEIVE, call)
            except InterruptedError:
                continue
            except FileNotFoundError:  # the caller is gone
                continue
            threading.Thread(target=self.reply, args=CALL.unpack(call), daemon=True).start()

    def reply(self, call, process, _, number, *words):
        """Replies to one call. Whatever fails here is left to the kernel."""
        flags = GO_ON
        with contextlib.suppress(OSError, ValueError):
            first, second = words[2:4]
            file = self.open_path(process, first) if number == self.machine[2] else self.open_file(process, first)
            try:
                flags = self.fill(call, process, file, second)
            finally:
                os.close(file)
        with contextlib.suppress(OSError):  # the caller may be gone
            fcntl.ioctl(self.listener, SEND, REPLY.pack(call, 0, 0, flags))

    def fill(self, call, process, file, address):
        """Writes the result into the memory of a process."""
        device = os.fstat(file).st_dev
        magic = self.others[device] if device in self.others else magic_of(file)
        result = ctypes.create_string_buffer(120)
        fakesys.system_call("fstatfs", file, result)
        with open(f"/proc/{process}/mem", "r+b", buffering=0) as memory:
            fcntl.ioctl(self.listener, IS_VALID, struct.pack("=Q", call))  # (otherwise it is another process)
            os.pwrite(memory.fileno(), struct.pack("=q", magic) + result.raw[8:120], address)
        return 0

    def open_path(self, process, address):
        with open(f"/proc/{process}/mem", "rb", buffering=0) as memory:
            path = os.pread(memory.fileno(), LONGEST, address).split(b"\0", 1)[0]
        path = re.sub(rb"/proc/(thread-)?self(?=/|$)", b"/proc/%d" % process, path)
        if not path:
            raise FileNotFoundError
        top = b"root" if path.startswith(b"/") else b"cwd"
        return os.open(b"/proc/%d/%s/%s" % (process, top, path), os.O_PATH | os.O_CLOEXEC)

    @staticmethod
    def open_file(process, number):
        return os.open(f"/proc/{process}/fd/{number}", os.O_PATH | os.O_CLOEXEC)
