# SPDX-License-Identifier: MIT OR Apache-2.0
"""Rooms: trees side by side, in each of which a command runs once for each job, and which are whole again after it."""
import contextlib
import json
import os
import select
import signal
import socket
import subprocess
import sys
import tempfile
import time
import typing

import fakesys
import fakesys_run
from fakesys_points import Healing, Trace
from fakesys_reader import reap

MOST = 1 << 20  # bytes of output that are kept
SHORTLY = 0.05  # seconds for a daemon to die after a query that went well
LATER = 2  # .. and after one that failed
MOST_FAILED = 3  # starts of a daemon, one after the other: then no more are tried
END_WITH_PARENT = 1


class Program:
    """The command in a room: one that ends, or a daemon with a shell line that queries it."""

    def __init__(self, options, tree_daemon):
        self.options, self.tree_daemon, self.process, self.seen = options, tree_daemon, None, 0
        self.patience = options.hang  # seconds
        self.ready = None  # seconds from a daemon's start to its first reply, once there was one
        self.failed = []  # why its last starts failed, one after the other

    def start(self):
        self.output = os.memfd_create("output")
        self.process, status = fakesys_run.start_command(
            self.options.command,
            stdin=subprocess.DEVNULL,
            stdout=self.output,
            stderr=self.output,
            start_new_session=True,
        )
        if not self.process:
            raise fakesys_run.Refused(f"the command cannot be started: status {status}")
        self.seen = 0

    def said(self):
        """What it printed since the last call."""
        length = os.fstat(self.output).st_size
        start, self.seen = max(self.seen, length - MOST), length
        return os.pread(self.output, MOST, start).decode(errors="replace")

    def wait(self, seconds):
        with contextlib.suppress(subprocess.TimeoutExpired):
            self.process.wait(seconds)
        return self.process.returncode

    def end(self):
        if not self.process:
            return
        with contextlib.suppress(ProcessLookupError):
            os.killpg(self.process.pid, signal.SIGKILL)
        self.process.wait()
        os.close(self.output)
        self.process = None
        reap(self.tree_daemon.pid)

    def run(self, heal):
        """Runs it once. If that takes too long, the tree is healed, and it gets the same time again. Returns the code, or
        None if it hung, and the output."""
        self.start()
        if self.wait(self.patience) is None:
            heal()
            self.wait(self.patience)
        code, said = self.process.returncode, self.said()
        self.end()
        return code, said

    # ---- a daemon ----

    def begin(self):
        """Starts the daemon, and waits until a query succeeds."""
        self.start()
        start = time.monotonic()
        until = start + self.options.calm
        while (asked := self.ask()) and time.monotonic() < until and self.wait(0.05) is None:
            pass
        if self.process.returncode is not None:
            words = "\n".join(self.said().split("\n")[-12:])
            raise fakesys_run.Refused(f"the daemon ends before a query: status {self.process.returncode}\n{words}")
        if asked:
            raise fakesys_run.Refused(f"--poke: it fails though nothing is wrong: status {asked}")
        self.ready = max(self.ready or 0, time.monotonic() - start)
        self.failed = []
        self.said()

    def ask(self):
        """Queries it: the status, or None if there is no end in time."""
        poke = subprocess.Popen(
            ["sh", "-c", self.options.poke],
            stdin=subprocess.DEVNULL,
            stdout=subprocess.DEVNULL,
            stderr=subprocess.DEVNULL,
            start_new_session=True,
        )
        try:
            return poke.wait(self.patience)
        except subprocess.TimeoutExpired:
            with contextlib.suppress(ProcessLookupError):
                os.killpg(poke.pid, signal.SIGKILL)
            poke.wait()
            return -1

    def poke(self, heal):
        """Queries a daemon once, as run() runs a command. A daemon that lives has no code but 0."""
        asked = self.ask()
        if asked == -1 and self.process.poll() is None:
            heal()
            asked = self.ask()
        code = self.wait(LATER if asked else SHORTLY)
        said = self.said()
        if code is not None or asked == -1:
            self.end()
            return code, said
        reap(self.tree_daemon.pid)
        return 0, said


class Room:
    """A tree in its own namespaces."""

    def __init__(self, options, place):
        self.options, self.complaints = options, tempfile.TemporaryFile()
        self.daemon, self.tree = fakesys_run.open_tree(options, place, self.complaints)
        self.healing = Healing(self.tree.description)
        self.trace = os.memfd_create("trace")
        self.trace_line = f"trace /proc/{os.readlink('/proc/self')}/fd/{self.trace}"
        self.program = Program(options, self.daemon)

    def heal(self, lines):
        """Makes the tree whole again after these lines."""
        self.tree.give("at off")
        for line in (it for given in lines for it in self.healing.after(given)):
            if not line.startswith("plug ") or not os.path.lexists(self.tree.at + fakesys.unescaped_path(line[5:])):
                with contextlib.suppress(OSError):
                    self.tree.give(line)

    def run(self, job):
        """Gives the lines of a job, and runs the command. Returns what happened as a dictionary. A daemon goes on from job to
        job; with `restart` it starts anew, with `fresh` it even starts after the lines, and ends after the job."""
        lines, begins = job["lines"], self.options.poke and not job.get("fresh")
        if begins and len(self.program.failed) >= MOST_FAILED:
            return {"refused": self.program.failed[-1], "is_dead": True}
        if job.get("fresh") or job.get("restart"):
            self.program.end()
        try:
            if begins and not self.program.process:
                self.program.begin()
            for line in lines:
                self.tree.give(line)
        except OSError as error:
            self.heal(lines)
            return {"refused": error.strerror or str(error)}
        except fakesys_run.Refused as problem:
            if self.program.ready is None:
                raise  # it has never started here
            self.program.end()
            self.program.failed.append(str(problem))
            return {"refused": str(problem), "is_dead": True}
        happened = self.run_under(lines, job)
        if job.get("fresh"):
            self.program.end()
        return happened

    def run_under(self, lines, job):
        self.tree.give(self.trace_line)
        self.program.patience = job["patience"]
        heal, start = lambda: self.heal(lines), time.monotonic()
        if self.options.poke and not self.program.process:
            self.program.start()
            self.program.wait(SHORTLY + 3 * (self.program.ready or 0))  # (it may never reply, since devices are absent)
        code, said = (self.program.poke if self.options.poke else self.program.run)(heal)
        seconds = time.monotonic() - start
        self.tree.give("trace off")
        text = os.pread(self.trace, os.fstat(self.trace).st_size, 0).decode(errors="surrogateescape")
        trace = Trace(text)
        self.heal(lines)
        for line in self.healing.written(trace.written()):
            self.tree.give(line)
        return {
            "code": code,
            "said": said,
            "seconds": seconds,
            "is_reached": trace.is_reached,
            "steps": trace.with_calls() if job.get("steps") else [],
        }

    def serve(self, channel):
        """Runs the jobs that come, until the channel is closed."""
        with channel.makefile("rw", encoding="utf-8", errors="surrogateescape") as lines:
            self.say(lines, {"is_ready": True})
            for line in lines:
                self.say(lines, self.run(json.loads(line)))
                if self.daemon.poll() is not None:
                    raise OSError(f"fakesysfs itself ended, with status {self.daemon.returncode}")
        self.program.end()
        return 0

    @staticmethod
    def say(lines, what):
        lines.write(json.dumps(what) + "\n")
        lines.flush()


def live_in(options, place, channel):
    """What process 1 of a room does."""
    room = Room(options, place)
    os.setsid()
    if not options.ignores_interrupts:
        signal.signal(signal.SIGINT, signal.SIG_DFL)  # for the command: the terminal reaches it no longer
    try:
        return room.serve(channel)
    except fakesys_run.Refused as problem:
        Room.say(channel.makefile("w", encoding="utf-8"), {"problem": str(problem)})
        return fakesys_run.WRONG
    finally:
        room.program.end()


class Door(typing.NamedTuple):
    """How the main process reaches a room: its process, and the socket with its lines."""

    child: int
    socket: socket.socket
    lines: typing.TextIO

    def close(self):
        self.lines.close()
        self.socket.close()


class Rooms:
    """Several rooms for one command, each in a process."""

    def __init__(self, options):
        self.options, self.rooms, self.patience = options, [], options.hang
        self.busy, self.heard = {}, {}  # the job of each room that has one; what happened in jobs that ended
        self.is_stopped = False
        options.ignores_interrupts = signal.getsignal(signal.SIGINT) == signal.SIG_IGN
        self.open()

    def open(self):
        """Opens one more room, and waits until it is ready."""
        ours, theirs = socket.socketpair()
        child = os.fork()
        if not child:
            ours.close()
            for room in self.rooms:
                room.close()  # or that room would never see its end
            fakesys.system_call("prctl", END_WITH_PARENT, signal.SIGKILL)
            signal.signal(signal.SIGINT, signal.SIG_IGN)  # Ctrl-C is for the main process
            os._exit(self.live(theirs))
        theirs.close()
        lines = ours.makefile("rw", encoding="utf-8", errors="surrogateescape")
        room = Door(child, ours, lines)
        self.rooms.append(room)
        self.hear(room)

    def live(self, channel):
        try:
            return fakesys_run.with_tree(self.options, lambda place: live_in(self.options, place, channel), True)
        except fakesys_run.Refused as problem:
            print(f"fakesys: {problem}", file=sys.stderr)
            return fakesys_run.WRONG
        except OSError as error:
            print(f"fakesys: {error.strerror or error}", file=sys.stderr)
            return fakesys_run.CANNOT
        finally:
            sys.stderr.flush()

    def hear(self, room):
        """The next words of a room. If it has ended, it has printed why, and this raises SystemExit with its status."""
        line = room.lines.readline()
        if not line:
            status = os.waitpid(room.child, 0)[1]
            sys.exit(os.WEXITSTATUS(status) if os.WIFEXITED(status) and status else fakesys_run.CANNOT)
        heard = json.loads(line)
        if "problem" in heard:
            raise fakesys_run.Refused(heard["problem"])
        return heard

    def run(self, lines, **more):
        """Runs the command under these lines in the first room. If that room has a job, it ends it first."""
        if self.rooms[0].child in self.busy:
            self.finish(self.rooms[0])
        Room.say(self.rooms[0].lines, {"lines": lines, "patience": self.patience, **more})
        return self.hear(self.rooms[0])

    def run_all(self, jobs, count, until):
        """Runs jobs in `count` rooms, until a time. Yields the number of each and what happened, in order. Meanwhile the
        caller may run other lines."""
        while len(self.rooms) < min(count, len(jobs)):
            self.open()
        waiting, following = iter(enumerate(jobs)), 0
        while True:
            for room in self.rooms:
                if room.child not in self.busy:
                    self.hand_out(room, waiting, until)
            if following in self.heard:
                yield following, self.heard.pop(following)
                following += 1
            elif self.busy:
                self.finish_some()
            else:
                return

    def finish(self, room):
        """Waits until a room has ended its job."""
        heard = self.hear(room)
        self.heard[self.busy.pop(room.child)] = heard

    def finish_some(self):
        busy = [room for room in self.rooms if room.child in self.busy]
        ready = select.select([room.socket for room in busy], [], [])[0]
        for room in busy:
            if room.socket in ready:
                self.finish(room)

    def stop(self, number, _):
        """Handles a signal: no further job of run_all() begins. A second signal ends the program."""
        self.is_stopped = True
        signal.signal(number, signal.SIG_DFL)

    def hand_out(self, room, waiting, until):
        job = next(waiting, None) if time.monotonic() < until and not self.is_stopped else None
        if job:
            self.busy[room.child] = job[0]
            Room.say(room.lines, {"lines": job[1], "patience": self.patience})

    def close(self):
        for room in self.rooms:
            room.close()
        for room in self.rooms:
            os.waitpid(room.child, 0)
