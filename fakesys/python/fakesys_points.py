# SPDX-License-Identifier: MIT OR Apache-2.0
"""The points of a program: moments at which a device can go, or a file can fail, and the program may see it.

A step is a request of the program to the tree: the daemon's line `trace` writes each one, as KIND PATH N. A point is an
`at` line: right before a step something changes. Of two changes of a device with no step on that device between them
the program sees no difference, so a change right before each of its steps is all there is to try."""
import collections
import os
import re
import typing

from fakesys import escaped_path, text_of_file, unescaped_path

ERRORS = {"EIO": 5, "ENODEV": 19, "EBUSY": 16, "EINVAL": 22}
TEXTS = {"empty": "\\c", "word": "zebra", "huge": "99999999999999999999", "bytes": "\\xff\\xfeA\\n\\c"}
DEVICES = ("unplug", "replug")
ACTIONS = (*DEVICES, *ERRORS, *TEXTS)
HEALED = (*DEVICES, "fail", "late", "slow", "set", "hide", "notify")  # lines after which a tree can be made whole
WALKS = ("lookup", "stat", "readlink")  # how the kernel goes along a path


def is_in(path, top):
    return path == top or path.startswith(top + "/")


def shape_of(path):
    """A path without its numbers, which is the same for all devices of a kind."""
    return re.sub(r"[0-9a-f]*\d[0-9a-f]*", "N", path)


class Step(typing.NamedTuple):
    """The `number`-th step of a kind at a path, which is a word of a line. `call` is the last step of the system call that
    this one is part of, as (kind, path, number): an open of /class/x/y begins with look-ups of /class and /class/x."""

    kind: str
    path: str
    number: int
    call: tuple

    def name(self):
        return self[:3]


class Trace:
    """What a run did: its steps in order, as (kind, path, number), and whether the lines of a point ran."""

    def __init__(self, text):
        words = [line.split(" ") for line in text.split("\n")[:-1]]
        self.steps = [(kind, path, int(number)) for kind, path, number, *_ in words]
        self.threads = [it[3] for it in words]
        self.is_reached = any(it[-1] == "!" for it in words)

    def written(self):
        return sorted({path for kind, path, _ in self.steps if kind == "write"})

    def with_calls(self):
        """The steps, each with its call."""
        found, following = [], {}
        for step, thread in zip(reversed(self.steps), reversed(self.threads)):
            after = following.get(thread)
            following[thread] = Step(*step, after.call if after and is_same_call(step, after) else step)
            found.append(following[thread])
        return found[::-1]


def is_same_call(step, after):
    """Whether a step and the one after it, of the same thread, are on the way along one path."""
    kind, path, _ = step
    if kind not in WALKS:
        return False
    if after.kind in ("lookup", "stat") and after.path.startswith(path + "/"):
        return True
    return after.path == path and after.kind in ("stat", "open", "readlink")


class Point(typing.NamedTuple):
    """A line to try, with what it changes: a device, or a file."""

    action: str
    place: str
    step: Step

    def change(self):
        """What happens right before the step."""
        if self.action in DEVICES:
            return f"{self.action} {self.place}"
        if self.action in ERRORS:
            return f"fail {self.place} {ERRORS[self.action]}"
        return f"set {self.place} {TEXTS[self.action]}"

    def line(self):
        return f"at {self.step.kind} {self.step.path} {self.step.number} {self.change()}"

    def family(self):
        return "device" if self.action in DEVICES else "file" if self.action in ERRORS else "text"

    def kind(self):
        """The kind of device or file: all processors are of one kind."""
        return shape_of(self.place)

    def group(self):
        """Which points are alike enough that the same end is the same find: what goes or fails, of which kind."""
        return self.family(), self.kind()

    def of_call(self):
        """The kind of the call that meets the change, and of its path."""
        return self.step.call[0], shape_of(self.step.call[1]), self.kind()

    def is_near(self):
        """Whether that call is on the device itself, or on a list or link of it, and not on something inside it."""
        return self.action in DEVICES and not self.step.call[1].startswith(self.place + "/")


class Places:
    """Which devices of a description a step depends on."""

    def __init__(self, description, devices=None):
        word = lambda path: escaped_path(unescaped_path(path))
        self.devices = {word(path) for path in devices or description.devices()}
        self.files = {word(path) for path in description.files() if not devices or self.above(word(path))}
        self.of_link, self.of_list = collections.defaultdict(set), collections.defaultdict(set)
        for path in self.devices:
            self.of_list[os.path.dirname(path)].add(path)
        for path, target in description.links():
            owners = self.above(word(target))
            self.of_link[word(path)] |= owners
            self.of_list[os.path.dirname(word(path))] |= owners

    def above(self, path):
        """The devices that a path is in."""
        found = set()
        while len(path) > 1:
            if path in self.devices:
                found.add(path)
            path = os.path.dirname(path)
        return found

    def of_step(self, step):
        """The devices whose absence this step shows."""
        found = self.above(step.path) | self.of_link.get(step.path, set())
        return found | self.of_list.get(step.path, set()) if step.kind == "list" else found


def points_of(steps, places, actions=ACTIONS):
    """All points of a run. Of the steps of one call only the first one counts that depends on a device, besides the last
    one, which opens or reads something: if a name on the way is gone, the whole path is."""
    seen = set()
    for step in steps:
        for device in sorted(places.of_step(step)):
            if (device, step.call) not in seen or step.kind not in ("lookup", "stat"):
                yield from (Point(action, device, step) for action in DEVICES if action in actions)
            seen.add((device, step.call))
        if step.kind == "read" and step.path in places.files:
            yield from (Point(action, step.path, step) for action in ERRORS if action in actions)
            if step.number == 1:
                yield from (Point(action, step.path, step) for action in TEXTS if action in actions)


# What points have in common, from coarse to fine. Bugs are between a call that saw a device and the next one that takes
# it for granted, so what counts is the call at which something changes, and not the step of this call. Numbers are left
# out of paths, so that 64 processors are tried as one before each of them is.
SORTS = (
    lambda it: (it.family(), it.step.call[0], it.kind()),
    lambda it: it.is_near() and (it.family(), *it.of_call(), it.step.call[2]),
    lambda it: (it.family(), *it.of_call()),
    lambda it: (it.action, it.step.kind, *it.of_call()),
    lambda it: (it.family(), *it.of_call(), it.step.call[2]),
    lambda it: (it.family(), it.step.call[0], it.place),
)


def in_order(points):
    """Points in the order in which they are tried: the first ones of each sort, from coarse to fine, then the rest. The
    order does not depend on the order in which threads made the steps."""
    points = sorted(points, key=lambda it: (it.step.name()[::-1], it.place, ACTIONS.index(it.action)))
    seen, ranks = [set() for _ in SORTS], [[] for _ in range(len(SORTS) + 1)]
    for point in points:
        sorts = [sort(point) for sort in SORTS]
        rank = next((at for at, it in enumerate(sorts) if it and it not in seen[at]), len(SORTS))
        for known, it in zip(seen, sorts):
            known.add(it)
        ranks[rank].append(point)
    return [point for rank in ranks for point in by_turns(rank, Point.family, Point.kind, lambda it: it.action)]


def by_turns(points, sort, *others):
    """Points by turns, one of each sort, and those of a sort again by turns of the other sorts. So a budget that ends
    early has tried something of each, however many points one of them has."""
    queues = {}
    for point in points:
        queues.setdefault(sort(point), []).append(point)
    turns = [iter(by_turns(queue, *others) if others else queue) for queue in queues.values()]
    while turns:
        left = []
        for turn in turns:
            point = next(turn, None)
            if point:
                yield point
                left.append(turn)
        turns = left


class Healing:
    """The lines that make a tree whole again after what a line changed."""

    def __init__(self, description):
        self.texts, self.faults, self.made = {}, {}, {}  # of each path; of a line's word and path; of each file and link
        for word, path, rest in description.words:
            path = escaped_path(unescaped_path(path))
            if word in ("file", "link"):
                self.made[path] = f"{word} {path} {rest}"
            if word == "file":
                self.texts[path] = f"set {path} {text_of_file(rest) or chr(92) + 'c'}"
            elif word == "set":
                self.texts[path] = f"set {path} {rest}"
            elif word in ("fail", "late", "slow"):
                self.faults[word, path] = rest

    def after(self, line):
        """The lines after a line, which may be an `at` line. A line that changes no node needs none."""
        if line.startswith("at "):
            lines = line.split(" ", 4)[-1].split(";;")
            return list(dict.fromkeys(it for change in lines for it in self.after(change)))
        word, _, rest = line.partition(" ")
        path = rest.split(" ", 1)[0]
        if word in DEVICES and path in self.made:
            faults = [f"{it} {at} {value}" for (it, at), value in self.faults.items() if at == path]
            return [self.made[path], *self.written([path]), *faults]
        if word in DEVICES:
            return [f"plug {path}"]
        if word in ("fail", "late", "slow"):
            return [f"{word} {path} {self.faults.get((word, path), 0)}"]
        if word == "hide":
            return [f"show {path}"]
        return self.written([path]) if word == "set" else []

    def written(self, paths):
        return [self.texts[path] for path in paths if path in self.texts]
