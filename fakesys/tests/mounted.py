# SPDX-License-Identifier: MIT OR Apache-2.0
"""A mounted tree for a test, and what the tests share."""
import contextlib, errno, os, select, subprocess, tempfile, threading, time
from pathlib import Path

HERE = Path(__file__).resolve().parent.parent
TOP = HERE.parent
PATIENCE = 20  # seconds for anything that must happen, on a busy machine
EVENTS = select.POLLPRI | select.POLLERR
# The replies for errors of system calls. docs/SCRIPTS.md says what differs by choice: a file that was not opened for
# the operation (EBADF). A link that is opened gives ELOOP, since it is not followed.
NAMES = {
    errno.ENOENT: "NoEntry 2",
    errno.EACCES: "Access 13",
    errno.EBADF: "Access 13",
    errno.ENODEV: "NoDevice 19",
    errno.ENOTDIR: "NotDir 20",
    errno.EINVAL: "Invalid 22",
    errno.ELOOP: "Invalid 22",
    errno.EEXIST: "Exists 17",
    errno.EISDIR: "IsDir 21",
    errno.ENOSPC: "NoSpace 28",
    errno.ENAMETOOLONG: "NameTooLong 36",
    errno.EBADMSG: "Line 22",
    errno.EBUSY: "Busy 16",
}
FAN = (HERE / "tests/fan.kf").read_text().splitlines()


class Wrong(Exception):
    """A test failed."""


def must(is_well, what):
    if not is_well:
        raise Wrong(what)


def error_of(call, *words):
    """The error number of a call that must fail, or 0 if it does not."""
    try:
        call(*words)
        return 0
    except OSError as error:
        return error.errno


# ---- a mount ----


class Mount:
    """A tree that is mounted inside a `with`."""

    def __init__(self, program, folder, script=(), slots=1024, options=()):
        self.program, self.slots, self.script = program, slots, "".join(f"{line}\n" for line in script)
        self.options = options
        self.at = Path(tempfile.mkdtemp(prefix="mount-", dir=folder))
        self.log = Path(f"{self.at}.log")

    def __enter__(self):
        Path(f"{self.at}.kf").write_text(self.script, encoding="latin-1")
        slots = ["--slots", str(self.slots)] if self.slots else []
        command = [self.program, *slots, *self.options, f"{self.at}.kf", self.at, "-f"]
        self.process = subprocess.Popen(command, stderr=self.log.open("w"), stdin=subprocess.DEVNULL)
        until = time.monotonic() + PATIENCE
        while not os.path.ismount(self.at):
            if self.process.poll() is not None or time.monotonic() > until:
                self.end(force=True)
                raise Wrong(f"it is not mounted: {self.log.read_text()[-800:].strip()}")
            time.sleep(0.005)
        return self

    def end(self, force):
        """Unmounts the tree. Returns the program's status. With `force` it does so even if a process is inside."""
        if not force:
            subprocess.run(["fusermount3", "-u", self.at], capture_output=True, timeout=PATIENCE, check=False)
            with contextlib.suppress(subprocess.TimeoutExpired):
                self.process.wait(5)
            # (if it goes on, a namespace that was created meanwhile has the mount too)
            self.process.terminate()
            with contextlib.suppress(subprocess.TimeoutExpired):
                self.process.wait(PATIENCE)
        if self.process.poll() is None:
            self.process.kill()
        status = self.process.wait()
        subprocess.run(["fusermount3", "-uqz", self.at], capture_output=True, timeout=PATIENCE, check=False)
        with contextlib.suppress(OSError):
            self.at.rmdir()
        return status

    def said(self):
        """What the daemon printed, except for expected messages: refused lines, and a failed unmount in another
        namespace."""
        expected = ("fakesysfs: .control, line ", "fuse: failed to unmount")
        lines = self.log.read_text(errors="replace").split("\n")
        return "\n".join(line for line in lines if not line.startswith(expected)).strip()

    def __exit__(self, kind, *_):
        status = self.end(force=kind is not None)
        said = self.said()
        must(kind or (status == 0 and not said), f"it ended with status {status} and printed {said[-2000:]!r}")

    def path(self, path):
        return f"{self.at}{path}"

    def tell(self, line):
        """Writes a line, or several, to the control file. Returns `ok`, or the error."""
        file = os.open(self.path("/.control"), os.O_WRONLY)
        try:
            os.write(file, line.encode("latin-1") + b"\n")
            return "ok"
        except OSError as error:
            return f"err {NAMES.get(error.errno, error.strerror)}"
        finally:
            os.close(file)

    def ask(self, *lines):
        return [self.tell(line) for line in lines]

    def done(self, *lines):
        replies = self.ask(*lines)
        must(replies == ["ok"] * len(lines), f"{lines} -> {replies}")

    @contextlib.contextmanager
    def opened(self, path, flags=os.O_RDONLY):
        file = os.open(self.path(path), flags)
        try:
            yield file
        finally:
            os.close(file)


class Beside(threading.Thread):
    """A call in another thread: when it ended, on the monotonic clock, and what it returned or raised."""

    def __init__(self, what, *words):
        super().__init__(daemon=True)
        self.what, self.words, self.ended, self.result, self.error = what, words, None, None, None
        self.start()

    def run(self):
        try:
            self.result = self.what(*self.words)
        except (OSError, Wrong) as error:
            self.error = error
        self.ended = time.monotonic()

    def given(self, patience=PATIENCE):
        self.join(patience)
        must(not self.is_alive(), f"it does not end: {self.what.__name__} {self.words}")
        if self.error:
            raise self.error
        return self.result


def read_path(path):
    file = os.open(path, os.O_RDONLY)
    try:
        return os.pread(file, 4096, 0)
    finally:
        with contextlib.suppress(OSError):  # if the mount has ended meanwhile
            os.close(file)


def eventually(is_so):
    """Whether it becomes true: the kernel reports a close(2) some time later."""
    until = time.monotonic() + 5
    while not is_so():
        if time.monotonic() > until:
            return False
        time.sleep(0.02)
    return True
