#!/usr/bin/env python3
# SPDX-License-Identifier: MIT OR Apache-2.0
"""A fake /sys for tests in Python. This file and fakesys_tree.py can be copied into a test suite. They need the program
fakesysfs.

    with FakeSys(description) as sys:                  # a description, or the name of its file
        sys.set("/class/hwmon/hwmon0/temp1_input", "91000")
        assert "+91.0" in sys.run(["sensors"], capture_output=True, text=True).stdout
        sys.unplug("/class/hwmon/hwmon0")

A command that sys.run() or sys.popen() starts sees the tree in place of the directories of /sys, in new namespaces.
sys.path() returns the path at which the test itself finds a node. A line that is refused raises OSError. In a test that
runs inside `fakesys DESCRIPTION pytest`, FakeSys() is the tree of that run, which is also at /sys.
"""
import contextlib
import ctypes
import os
import re
import shutil
import signal
import subprocess
import sys
import tempfile
import threading
import time
from pathlib import Path

# (other programs import these from here)
from fakesys_tree import (  # noqa: F401
    Description,
    Tree,
    escaped_path,
    escaped_text,
    printable,
    text_of_file,
    unescaped_path,
    write_lines,
)

VERSION = "0.4.0"
LIBC = ctypes.CDLL(None, use_errno=True)
NEW_MOUNTS, NEW_USERS, NEW_PROCESSES, NEW_NETWORK = 0x20000, 0x10000000, 0x20000000, 0x40000000
READ_ONLY, REMOUNT, BIND, RECURSIVE, PRIVATE = 0x1, 0x20, 0x1000, 0x4000, 0x40000
SPACES = "--spaces"  # the first word of this program, if it enters namespaces and becomes another one
NO_SUID, NO_DEVICES, NO_PROGRAMS = 2, 4, 8
PATIENCE = 60  # seconds for a mount to appear, on a busy machine
# Removes the directory of a tree as soon as the process that made it closes a pipe, or is killed. If a process is in the
# directory, or the daemon was killed, it is still mounted.
GUARD = 'read _; for _ in $(seq 100); do rmdir "$0" 2> /dev/null && exit; fusermount3 -uqz "$0"; sleep 0.05; done'


# ---- namespaces ----


def system_call(name, *words):
    """A system call, by its name in the C library. OSError if it fails."""
    if getattr(LIBC, name)(*words) < 0:
        raise OSError(ctypes.get_errno(), f"{name}: {os.strerror(ctypes.get_errno())}")


def mount(source, target, kind="none", flags=0, options=""):
    words = [os.fsencode(word) for word in (source, target, kind)]
    system_call("mount", *words, ctypes.c_ulong(flags), os.fsencode(options))


def enter_spaces(kinds=0):
    """Enters a mount namespace, and namespaces of these other kinds; without privilege as root of a user namespace."""
    ways = [enter_users, lambda kinds: system_call("unshare", kinds)]
    if os.geteuid() == 0 and not kinds & NEW_USERS:
        ways.reverse()
    try:
        ways[0](NEW_MOUNTS | kinds & ~NEW_USERS)
    except OSError:
        ways[1](NEW_MOUNTS | kinds & ~NEW_USERS)
    mount("none", "/", flags=RECURSIVE | PRIVATE)


def enter_users(kinds):
    """Enters namespaces, including one of users. A child outside it maps the users: for root each user to itself,
    for any other user only that user, to root."""
    entered, says = os.pipe()
    child = os.fork()
    if not child:
        os.close(says)
        os._exit(map_users(os.getppid()) if os.read(entered, 1) else 1)
    try:
        system_call("unshare", NEW_USERS | kinds)
        os.write(says, b"!")
    finally:
        os.close(entered)
        os.close(says)
        status = os.waitpid(child, 0)[1]
    if status:
        raise PermissionError(1, "users cannot be mapped in the namespace")


def map_users(process):
    """Maps the users in the namespace of another process. 0, or 1 if that is refused."""
    user, group = os.geteuid(), os.getegid()
    maps = [("setgroups", "deny"), ("uid_map", f"0 {user} 1"), ("gid_map", f"0 {group} 1")]
    try:
        for name, text in maps if user else [(name, same_ids(name)) for name in ("uid_map", "gid_map")]:
            Path(f"/proc/{process}/{name}").write_text(text, "ascii")
    except OSError:
        return 1
    return 0


def same_ids(name):
    """A map of all users that are known here, each to itself."""
    ranges = [line.split() for line in Path(f"/proc/self/{name}").read_text("ascii").splitlines()]
    return "\n".join(f"{first} {first} {count}" for first, _, count in ranges)


def cover_sys(tree):
    """Binds each directory at the root of a tree over the one of that name in /sys, which is created there if the machine
    lacks it. OSError if nothing can be covered."""
    entries = list(os.scandir(tree))
    tops = [entry for entry in entries if entry.is_dir(follow_symlinks=False)]
    for entry in entries:
        if entry not in tops:
            print(f"fakesys: {printable(entry.name)} is no directory, so it is left out", file=sys.stderr)
    if not tops:
        raise OSError("the description has no directory that could cover one of /sys (-a covers all of /sys)")
    if not os.path.isdir("/sys"):
        raise OSError("this machine has no directory /sys")
    names = [entry.name for entry in tops]
    there = [name for name in names if os.path.isdir(f"/sys/{name}")]
    is_inner = os.path.exists("/sys/.control") or any(os.stat(f"/sys/{it}").st_dev != os.stat("/sys").st_dev for it in there)
    if is_inner or there != names:
        remake_sys(names, there if is_inner else [])
    for entry in tops:
        mount(entry.path, f"/sys/{entry.name}", flags=BIND)


def remake_sys(names, left_out):
    """Covers /sys with a file system that has its directories, and those of these names. Some are left out, so that they are
    empty: those of a run around this one. (What is mounted on a directory of that run's tree would vanish as soon as the
    kernel forgets its names.)"""
    others = [entry.name for entry in os.scandir("/sys") if entry.is_dir(follow_symlinks=False)]
    before = os.open("/sys", os.O_PATH)
    mount("tmpfs", "/sys", "tmpfs", NO_SUID | NO_DEVICES | NO_PROGRAMS, "mode=755")
    for name in {*others, *names}:
        os.mkdir(f"/sys/{name}", 0o755)
    for name in others:
        if name not in left_out:
            mount(f"/proc/self/fd/{before}/{name}", f"/sys/{name}", flags=BIND | RECURSIVE)
    os.close(before)
    mount("none", "/sys", flags=REMOUNT | BIND | READ_ONLY | NO_SUID | NO_DEVICES | NO_PROGRAMS)


def daemon_of(folder):
    """The program fakesysfs: the one in $FAKESYSFS, the one near this file, or the one on the path."""
    near = [os.path.join(folder, way) for way in ("../out/fakesysfs", "fakesysfs", "../../bin/fakesysfs")]
    found = os.environ.get("FAKESYSFS") or next(filter(os.path.isfile, near), None)
    return found or shutil.which("fakesysfs") or "fakesysfs"


def end_with_parent():
    """Asks the kernel to send this process a SIGTERM when the thread that started it is gone."""
    LIBC.prctl(1, signal.SIGTERM)


def start_daemon(description, at, options=(), name=None, said=None, has_spaces=False):
    """Mounts a description: a text, which the file `name` may have too. Returns the process once the tree is there;
    otherwise raises ValueError. What the daemon prints goes to the file `said`, if given, and into the error. With
    `has_spaces` it mounts the tree in new namespaces, which seen_at() looks into."""
    before, program = os.stat(at).st_dev, daemon_of(os.path.dirname(os.path.realpath(__file__)))
    is_main = threading.current_thread() is threading.main_thread()
    first = [sys.executable, os.path.realpath(__file__), SPACES] if has_spaces else []
    process = subprocess.Popen(
        [*first, program, *options, "-f", name or "-", at],
        stdin=subprocess.PIPE,
        stderr=said,
        start_new_session=True,
        preexec_fn=end_with_parent if is_main else None,
    )
    with contextlib.suppress(BrokenPipeError), process.stdin:
        process.stdin.write(b"" if name else os.fsencode(description))
    until = time.monotonic() + PATIENCE
    while device_of(seen_at(process, at) if has_spaces else at, before) == before:
        if process.poll() is not None or time.monotonic() > until:
            process.kill()
            raise ValueError(text_of(said) or f"fakesysfs did not mount it: status {process.wait()}")
        time.sleep(0.002)
    return process


def device_of(path, otherwise):
    """The number of the file system at a path, unless it cannot be seen now."""
    with contextlib.suppress(OSError):
        return os.stat(path).st_dev
    return otherwise


def seen_at(process, path):
    """The path at which this process finds a path of the mount namespace of another process."""
    return f"/proc/{process.pid}/root{path}"


def enter_spaces_of(number):
    """Enters the namespaces of users and of mounts in which another process is, and stays in its directory."""
    here = os.getcwd()
    for name, kind in ("user", NEW_USERS), ("mnt", NEW_MOUNTS):
        if os.readlink(f"/proc/{number}/ns/{name}") != os.readlink(f"/proc/self/ns/{name}"):
            with open(f"/proc/{number}/ns/{name}", "rb") as space:
                system_call("setns", space.fileno(), kind)
    os.chdir(here)


def text_of(file):
    """What was written to a file, if it is one."""
    return os.pread(file.fileno(), 1 << 20, 0).decode(errors="replace").strip() if file else ""


# ---- for tests ----


def sender():
    """The function that sends uevents inside `fakesys -n`, if its module is beside this one."""
    with contextlib.suppress(ImportError, KeyError):
        return os.environ["FAKESYS_EVENTS"] and __import__("fakesys_uevent").send
    return None


def library_file(name):
    """The file of a description, which may be one of the library, if its module is beside this one."""
    with contextlib.suppress(ImportError):
        return name if "\n" in name else __import__("fakesys_library").file_of(name)
    return name


class FakeSys(Tree):
    """A tree that is mounted inside a `with`. Paths are those of /sys without /sys; they may go through links."""

    def __init__(self, description=None, options=()):
        self.is_here, self.options, self.process = description is None, options, None
        name = os.environ["FAKESYS_DESCRIPTION"] if self.is_here else library_file(os.fspath(description))
        self.text = name if "\n" in name else Path(name).read_text("utf-8", "surrogateescape")
        control = os.environ["FAKESYS"] if self.is_here else "/.control"
        super().__init__(control, Description(self.text), sender() if self.is_here else None)

    def __enter__(self):
        if not self.is_here:
            self.folder = self.at = os.path.realpath(tempfile.mkdtemp(prefix="fakesys-"))
            self.guard = subprocess.Popen(["sh", "-c", GUARD, self.at], stdin=subprocess.PIPE, start_new_session=True)
            try:
                self.start()
            except BaseException:
                self.guard.communicate()
                raise
            self.control = self.at + "/.control"
        return self

    def start(self):
        """Mounts the tree here, or if that is forbidden, in new namespaces."""
        try:
            self.process = start_daemon(self.text, self.folder, self.options, said=tempfile.TemporaryFile())
        except ValueError:
            said = tempfile.TemporaryFile()
            self.process = start_daemon(self.text, self.folder, self.options, said=said, has_spaces=True)
            self.at = seen_at(self.process, self.folder)

    def __exit__(self, *_):
        if self.process:
            self.process.terminate()
            try:
                self.process.wait(PATIENCE)
            except subprocess.TimeoutExpired:
                self.process.kill()
                self.process.wait()
            self.guard.communicate()

    def path(self, path):
        """The path at which this process finds a node."""
        return self.at + path

    def read(self, path):
        return Path(self.path(path)).read_bytes()

    def set(self, path, text):
        """Sets a file's text. Bytes are taken as they are; a str gets a newline at its end, as drivers write it."""
        data = text if isinstance(text, bytes) else os.fsencode(f"{text}\n")
        self.give(f"set {self.real(path)} {escaped_text(data)}")

    def fail(self, path, number):
        """Lets each read and write of a file fail with this error number; 0 ends that."""
        self.give(f"fail {self.real(path)} {number}")

    def late(self, path, milliseconds):
        """Lets each read and write begin this much later: a removal does not wait for it."""
        self.give(f"late {self.real(path)} {milliseconds}")

    def count(self, path, rate):
        """Lets the number at the beginning of a file's text grow by this much each second; 0 ends that."""
        self.give(f"count {self.real(path)} {rate}/s")

    def slow(self, path, milliseconds):
        """Lets each read and write take this long: a removal waits for it."""
        self.give(f"slow {self.real(path)} {milliseconds}")

    def hide(self, path):
        self.give(f"hide {self.real(path)}")

    def show(self, path):
        self.give(f"show {self.real(path)}")

    def notify(self, path):
        """Wakes those that poll a file, as sysfs_notify() does."""
        self.give(f"notify {self.real(path)}")

    def unplug(self, path):
        """Removes a device, everything below it, and the links that lead into it."""
        self.give(f"unplug {self.real(path)}")

    def plug(self, path):
        """Creates a device again, as the description has it."""
        self.give(f"plug {self.description.real(escaped_path(path))}")

    def inside(self, command):
        return [*([] if self.is_here else [sys.executable, os.path.realpath(__file__), self.at]), *command]

    def popen(self, command, **more):
        """Starts a command that sees the tree in place of the directories of /sys: a subprocess.Popen."""
        return subprocess.Popen(self.inside(command), **more)

    def run(self, command, check=False, **more):
        """Runs such a command to its end, as subprocess.run() does."""
        return subprocess.run(self.inside(command), check=check, **more)


def run_inside(tree, command):
    """Becomes a command that sees a tree, mounted by another process, in place of the directories of /sys."""
    far = re.fullmatch(r"/proc/(\d+)/root(/.*)", tree)
    if far:
        enter_spaces_of(int(far[1]))
        tree = far[2]
        system_call("unshare", NEW_MOUNTS)
        mount("none", "/", flags=RECURSIVE | PRIVATE)
    else:
        enter_spaces()
    cover_sys(tree)
    os.environ["FAKESYS"] = os.path.join(tree, ".control")
    for name in ("FAKESYS_DESCRIPTION", "FAKESYS_EVENTS"):
        os.environ.pop(name, None)  # (those of a run around this one)
    os.execvp(command[0], command)


if __name__ == "__main__":
    if len(sys.argv) < 3:
        sys.exit("usage: fakesys.py TREE COMMAND ..")
    try:
        if sys.argv[1] == SPACES:
            enter_spaces()
            end_with_parent()
            os.execvp(sys.argv[2], sys.argv[2:])
        run_inside(sys.argv[1], sys.argv[2:])
    except OSError as problem:
        print(f"fakesys: {problem}", file=sys.stderr)
        sys.exit(127 if isinstance(problem, FileNotFoundError) else 125)
