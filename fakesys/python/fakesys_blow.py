# SPDX-License-Identifier: MIT OR Apache-2.0
"""Gives the lines of a storm to a tree at their times; what these lines changed, and what makes the tree whole again."""
import contextlib
import threading
import time

from fakesys_schedule import FAULTS, faults_of, is_in

LATE = 1  # seconds: a line that comes later than this is reported


class Changes:
    """What lines changed in a tree: the devices that are absent, and the faults and delays of its nodes."""

    def __init__(self, description):
        self.described = faults_of(description)
        self.gone, self.faults = [], {}

    def copy(self):
        copied = Changes.__new__(Changes)
        copied.described, copied.gone, copied.faults = self.described, list(self.gone), dict(self.faults)
        return copied

    def note(self, line):
        """Notes a line that the tree took."""
        word, _, rest = line.partition(" ")
        path, _, value = rest.partition(" ")
        if word in ("plug", "unplug", "rm"):
            self.gone = [it for it in self.gone if not is_in(it, path)] + [path] * (word != "plug")
            self.faults = {key: it for key, it in self.faults.items() if not is_in(key[1], path)}
        elif word in FAULTS:
            self.faults[word, path] = value
            if value == self.described.get((word, path), "0"):
                del self.faults[word, path]

    def undo(self):
        """The lines that make the tree whole again."""
        before = [f"{word} {path} {self.described.get((word, path), '0')}" for word, path in self.faults]
        return before + [f"plug {path}" for path in self.gone]

    def redo(self):
        """The lines that change a whole tree in this way again."""
        after = [f"{word} {path} {value}" for (word, path), value in self.faults.items()]
        return after + [f"unplug {path}" for path in self.gone]


def give_all(tree, lines):
    """Gives lines to a tree, and skips those that it refuses."""
    for line in lines:
        with contextlib.suppress(OSError):
            tree.give(line)


@contextlib.contextmanager
def changed(tree, lines):
    """A whole tree, changed by some lines inside a `with`."""
    changes = Changes(tree.description)
    for line in lines:
        changes.note(line)
    give_all(tree, lines)
    try:
        yield
    finally:
        give_all(tree, changes.undo())


class Blow(threading.Thread):
    """Gives the lines of a storm at their times, and keeps the lines that were given."""

    def __init__(self, tree, lines, until):
        super().__init__(daemon=True)
        self.tree, self.lines, self.until = tree, lines, until
        self.given, self.refused, self.latest, self.late = [], 0, 0, 0
        self.changes, self.turn = Changes(tree.description), threading.Lock()
        self.is_broken, self.is_over, self.start_time = False, threading.Event(), time.monotonic()

    def run(self):
        try:
            self.blow()
        except BaseException:
            self.is_broken = True
            raise

    def blow(self):
        """If a line had to wait, the next ones are late. Half of each pause remains, so that readers see the changes."""
        before, free = 0, self.start_time
        for at, line in self.lines:
            if not self.wait_for(at, free + (at - before) / 2000) or at > self.until:
                return
            with self.turn:
                if self.is_over.is_set():
                    return
                late = time.monotonic() - self.start_time - at / 1000
                self.latest, self.late = max(self.latest, late), self.late + (late > LATE)
                self.given.append((at, line))
                self.give(line)
            before, free = at, time.monotonic()

    def wait_for(self, at, earliest):
        """Waits for the time of a line, which may move meanwhile. False if the storm is over."""
        while (left := max(self.start_time + at / 1000, earliest) - time.monotonic()) > 0:
            if self.is_over.wait(left):
                return False
        return not self.is_over.is_set()

    def give(self, line):
        if line.startswith("#"):
            return
        try:
            self.tree.give(line)
            self.changes.note(line)
        except OSError:
            self.refused += 1

    def now(self):
        """What the tree lacks now, and how many lines were given."""
        with self.turn:
            return self.changes.copy(), len(self.given)

    def since(self, moment):
        """The devices that were absent, and the files that failed, at some time since a moment of now()."""
        changes, count = moment
        gone, failed = list(changes.gone), {path: it for (word, path), it in changes.faults.items() if word == "fail"}
        for _, line in self.given[count:]:
            word, _, rest = line.partition(" ")
            path, _, value = rest.partition(" ")
            if word == "unplug":
                gone.append(path)
            elif word == "fail" and value != changes.described.get((word, path), "0"):
                failed[path] = value
        return list(dict.fromkeys(gone)), failed

    @contextlib.contextmanager
    def paused(self):
        """A whole tree inside a `with`. Afterwards the storm continues with its next line."""
        with self.turn:
            begun = time.monotonic()
            give_all(self.tree, self.changes.undo())
            try:
                yield
            finally:
                give_all(self.tree, self.changes.redo())
                self.start_time += time.monotonic() - begun

    def summary(self):
        """What was given, in words."""
        unplugs = sum(line.startswith("unplug ") for _, line in self.given)
        late = f" ({self.late} lines more than {LATE} s late: try a lower --rate)" if self.late else ""
        return (
            f"{len(self.given)} lines, {unplugs} unplugs, {self.refused} refused,"
            f" at most {1000 * self.latest:.0f} ms late{late}"
        )
