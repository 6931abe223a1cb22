# SPDX-License-Identifier: MIT OR Apache-2.0
"""The command of a storm, which runs again and again, and the queries that poke a daemon meanwhile."""
import contextlib
import os
import select
import signal
import subprocess
import tempfile
import threading
import time

import fakesys_run
from fakesys_verdict import Ending

OF_THIS_THREAD = 0x20000000  # __WNOTHREAD
POKERS = 2
HANG = 10  # seconds that a run may take
MOST = 1 << 20  # bytes of output that are looked at: the last ones
QUIET = {"stdin": subprocess.DEVNULL, "stdout": subprocess.DEVNULL, "stderr": subprocess.DEVNULL}


class Poke:
    """Runs a shell line again and again, by two threads at a time, as clients of a daemon do."""

    def __init__(self, line, limit):
        self.words, self.limit, self.count, self.well = ["sh", "-c", line], limit, 0, 0
        self.late, self.says = os.pipe()  # a byte for each run that takes too long
        self.waited, self.is_over = 0, threading.Condition()
        self.check()

    def check(self):
        """Checks before the storm that the shell finds the command."""
        with contextlib.suppress(subprocess.TimeoutExpired):
            poked = subprocess.run(
                self.words, stdin=subprocess.DEVNULL, capture_output=True, timeout=self.limit or None, check=False
            )
            if poked.returncode in (126, 127):
                raise fakesys_run.Refused(f"--poke: {poked.stderr.decode(errors='replace').strip()}")

    def start(self):
        for _ in range(POKERS):
            threading.Thread(target=self.poke, daemon=True).start()

    def poke(self):
        while True:
            poker = subprocess.Popen(self.words, **QUIET)
            try:
                poker.wait(self.limit or None)
            except subprocess.TimeoutExpired:
                self.wait_on(poker)
            self.count += 1
            self.well += not poker.returncode
            time.sleep(0.01 if poker.returncode else 0)

    def wait_on(self, poker):
        """Reports that a run takes too long, and waits on for it."""
        with self.is_over:
            self.waited += 1
        os.write(self.says, b"!")
        poker.wait()
        with self.is_over:
            self.waited -= 1
            self.is_over.notify_all()

    def ends(self, seconds):
        """Whether all runs that took too long end within some more seconds."""
        os.read(self.late, 4096)
        with self.is_over:
            return self.is_over.wait_for(lambda: not self.waited, seconds)

    def summary(self):
        return f"poked {self.count} times{' (each failed)' * (self.count > self.well == 0)}, "


class Lost(Exception):
    """The daemon has ended, so there is no tree."""


class Reader:
    """The command: each start() runs it once."""

    def __init__(self, options, daemon):
        self.options, self.daemon, self.runs, self.process = options, daemon, 0, None
        self.daemon_descriptor = os.pidfd_open(daemon.pid)

    def start(self):
        self.output = tempfile.TemporaryFile(dir="/dev/shm" if os.path.isdir("/dev/shm") else None)
        self.process, status = fakesys_run.start_command(
            self.options.command,
            stdin=subprocess.DEVNULL,
            stdout=self.output,
            stderr=self.output,
            start_new_session=True,
        )
        if not self.process:
            raise fakesys_run.Refused(f"the command cannot be started: status {status}")
        self.runs, self.began = self.runs + 1, time.monotonic()
        self.descriptor = os.pidfd_open(self.process.pid)

    def wait(self, seconds, other=None):
        """What happened in these seconds: `ended`; `late` if the other descriptor can be read; or None. Lost if the daemon
        ends."""
        waited = [self.descriptor, self.daemon_descriptor] + ([other] if other is not None else [])
        came = select.select(waited, [], [], max(0, seconds))[0]
        if self.daemon_descriptor in came:
            raise Lost
        if self.descriptor in came:
            self.process.wait()
            os.close(self.descriptor)
            reap(self.daemon.pid)
            return "ended"
        return "late" if came else None

    def ending(self):
        """How the run ended, or, if it still runs, that it hangs."""
        return Ending(self.process.poll(), self.said())

    def said(self):
        size = os.fstat(self.output.fileno()).st_size
        return os.pread(self.output.fileno(), MOST, max(0, size - MOST))

    def end(self):
        """Kills the command, if it still runs."""
        if self.process.poll() is None:
            os.killpg(self.process.pid, signal.SIGKILL)
            self.process.wait()
            os.close(self.descriptor)
            reap(self.daemon.pid)


def reap(daemon):
    """Reaps background processes that have ended, as process 1 has to. (A poke is the child of another thread.)"""
    own = os.WEXITED | os.WNOHANG | os.WNOWAIT | OF_THIS_THREAD
    with contextlib.suppress(ChildProcessError):
        while (ended := os.waitid(os.P_ALL, 0, own)) and ended.si_pid != daemon:
            os.waitpid(ended.si_pid, 0)
