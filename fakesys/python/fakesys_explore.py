# SPDX-License-Identifier: MIT OR Apache-2.0
"""fakesys explore [OPTION ..] DESCRIPTION -- COMMAND ..

Looks for bugs in a program that reads sysfs, by trying each of its steps in turn. It runs COMMAND three times to see
which steps it makes: look-ups, opens, reads, listings .. Then it runs COMMAND once for each step, and right before that
step a device disappears or is replaced, or a file fails or has another text. A program that is killed by a signal,
panics, hangs, or exits with a status that no calm run had, is a find. Each find has one line `at ..` that repeats it.
The same command finds the same in a second run. The status is 0 if nothing is found, 1 if something is; 2 for a usage
error; 125 if nothing can be mounted. Ctrl-C ends the search, which then reports what it found (130 if that is nothing)."""
import argparse
import math
import os
import signal
import time
import typing

import fakesys
import fakesys_library
import fakesys_report
import fakesys_run
from fakesys_points import ACTIONS, ERRORS, HEALED, Places, Step, in_order, points_of, shape_of
from fakesys_rooms import Rooms
from fakesys_verdict import Ending, Verdict

FOUND = 1
INTERRUPTED = 128 + signal.SIGINT
RUNS = 1000
MOST_TRIED = 3  # points of a find that are repeated until one does it again
MOST_CALM = 60  # calm runs that look for a status, besides those with a point's own change
TIMES_CALM = 10  # a run may take this many times as long as the slowest calm one, so that a busy machine makes no find


class Find:
    """A fault, the points at which it came, and the one of these that is reported."""

    def __init__(self, ending, key):
        self.ending, self.key, self.points = ending, key, []
        self.best, self.again, self.is_known = None, 0, False

    def line(self):
        return self.best.line()

    def is_sure(self):
        return self.again == fakesys_report.TIMES


class Given(typing.NamedTuple):
    """The line of `--at`, in place of a point."""

    line: str

    def change(self):
        return self.line.split(" ", 4)[-1]


class Search:
    """The runs of one exploration."""

    def __init__(self, options, rooms, known):
        self.options, self.rooms, self.known, self.verdict = options, rooms, known, Verdict(options.ok)
        self.description = fakesys.Description(options.text)
        self.places = Places(self.description, options.device)
        self.calm_lines, self.others, self.steps = set(), 0, []  # (others: those that are no point's own change)
        self.tried, self.found, self.finds = [], {}, []

    # ---- calm runs ----

    def see_steps(self):
        """Runs the command twice with nothing wrong. Its steps are those that both runs made."""
        calm = [self.calm_run([]), self.calm_run([], steps=True), self.calm_run([], steps=True)]
        self.rooms.patience = max(self.options.hang, TIMES_CALM * max(it["seconds"] for it in calm))
        _, first, second = calm
        made = {tuple(it[:3]) for it in second["steps"]}
        steps = [Step(*it[:3], tuple(it[3])) for it in first["steps"]]
        self.steps = [step for step in steps if step.name() in made]

    def calm_run(self, lines, **more):
        happened = self.rooms.run(lines, **more)
        if "refused" in happened:
            raise fakesys_run.Refused(happened["refused"])
        ending = Ending(happened["code"], happened["said"])
        if ending.code is None:
            raise fakesys_run.Refused(f"the command does not end in {self.options.hang:g} s: a daemon needs --poke LINE")
        if ending.signal() is not None or ending.code in (126, 127):
            words = "\n".join(ending.telling())
            raise fakesys_run.Refused(f"with nothing wrong the command is a fault: {ending.what()}\n{words}")
        self.verdict.accept(ending)
        return happened

    def is_fault(self, point, ending):
        """Judges a run. If only its status is strange, calm runs show first whether that is deliberate."""
        if not self.verdict.is_fault(ending):
            return False
        if ending.is_plain():
            for at, lines in enumerate(self.calm_changes(point)):
                self.learn(lines, is_own=not at)
                if not self.verdict.is_fault(ending):
                    return False
        return True

    def learn(self, lines, is_own):
        if lines in self.calm_lines or self.others >= MOST_CALM and not is_own:
            return
        self.calm_lines.add(lines)
        self.others += not is_own
        happened = self.rooms.run(lines, fresh=True)
        if "refused" not in happened:
            self.verdict.learn(Ending(happened["code"], happened["said"]))

    def calm_changes(self, point):
        """Lines before the start of a calm run: first what this point changes, then all devices absent, all files failing,
        and each kind of device absent or file failing."""
        yield tuple(it.replace("replug", "unplug") for it in point.change().split(";;"))
        devices = {device for step in self.steps for device in self.places.of_step(step)}
        outer = sorted(it for it in devices if not self.places.above(os.path.dirname(it)) & devices)
        read = dict.fromkeys(step.path for step in self.steps if step.kind == "read" and step.path in self.places.files)
        unplugs, fails = [f"unplug {it}" for it in outer], [f"fail {it} {ERRORS['EIO']}" for it in read]
        yield from (tuple(lines) for lines in (unplugs, fails) if lines)
        kinds = {shape_of(line): line for line in [*(f"unplug {it}" for it in sorted(devices)), *fails][::-1]}
        yield from ((line,) for line in list(kinds.values())[::-1])

    # ---- the search ----

    def points(self):
        """All points, in the order in which they are tried. Those of known finds are first, so that what is like them is
        known too."""
        points = in_order(points_of(self.steps, self.places, self.options.actions))
        return sorted(points, key=lambda point: point.line() not in self.known)

    def explore(self, show):
        """Tries the points within the budget, and shows each find as soon as it is sure. Returns all points."""
        until = time.monotonic() + self.options.seconds
        self.see_steps()
        points = self.points()
        if not points:
            raise fakesys_run.Refused("the command makes no step that depends on a device")
        chosen = points[: self.options.runs or None]
        for at, happened in self.rooms.run_all([[point.line()] for point in chosen], self.options.jobs, until):
            self.tried.append((chosen[at], happened))
            if find := self.find_at(chosen[at], happened):
                if find.is_sure() and find not in self.finds:
                    self.keep(find, show)
        for find in self.found.values():
            if find not in self.finds:
                self.keep(find, show)
        return points

    def keep(self, find, show):
        find.is_known = any(point.line() in self.known for point in find.points)
        self.finds.append(find)
        show(find)

    def find_at(self, point, happened):
        """The find that a run belongs to, or None. Runs are alike if they end alike after a like change."""
        if "refused" in happened:
            return None
        ending = Ending(happened["code"], happened["said"])
        if not self.is_fault(point, ending):
            return None
        key = (ending.kind(), shape_of(ending.headline()), *point.group())
        find = self.found.setdefault(key, Find(ending, key))
        find.points.append(point)
        if not find.is_sure() and len(find.points) <= MOST_TRIED:
            self.repeat(find, point)
        return find

    def repeat(self, find, point):
        """Repeats a find at a point. If its first point does not do it each time, another one may."""
        again = sum(self.is_again(find, point) for _ in range(fakesys_report.TIMES))
        if not find.best or again > find.again:
            find.best, find.again = point, again

    def is_again(self, find, point):
        happened = self.rooms.run([point.line()], restart=True)
        if "refused" in happened:
            return False
        ending = Ending(happened["code"], happened["said"])
        return self.verdict.is_fault(ending) and ending.kind() == find.key[0]

    # ---- one line ----

    def try_line(self):
        """Runs the command under one line, some times. Returns how it ended each time, in words."""
        self.see_steps()
        given, ends = Given(self.options.at), []
        for _ in range(self.options.times):
            happened = self.rooms.run([self.options.at], restart=True)
            if "refused" in happened:
                raise fakesys_run.Refused(f"--at: {happened['refused']}")
            ending = Ending(happened["code"], happened["said"])
            what = ending.what() if self.is_fault(given, ending) else None
            ends.append(what if happened["is_reached"] else f"{what or 'no fault'}, but the step was not made")
        return ends


def try_at(options, search):
    """`--at LINE`: prints how often each end came."""
    ends = search.try_line()
    for what in dict.fromkeys(ends):
        print(f"{ends.count(what)} of {len(ends)}: {what or 'no fault'}")
    return FOUND if any(what and "the step was not made" not in what for what in ends) else 0


def explore(options, parser):
    """`fakesys explore`: its exit status."""
    check(options, parser)
    known = read_known(options.known)
    with fakesys_report.Files(options) as files:
        rooms = Rooms(options)
        search = Search(options, rooms, known)
        if options.at:
            status = try_at(options, search)
        else:
            if not options.ignores_interrupts:
                signal.signal(signal.SIGINT, rooms.stop)
            points = search.explore(lambda find: fakesys_report.show(options, find))
            report = fakesys_report.Report(options, points, search.tried, search.finds)
            report.print()
            files.write(report)
            is_dead = any("is_dead" in happened for _, happened in search.tried)
            status = FOUND if report.failing() else INTERRUPTED if rooms.is_stopped else fakesys_run.WRONG if is_dead else 0
        rooms.close()
    return status


def check(options, parser):
    """Checks the options, and reads the description: once, since it may be a pipe."""
    if not options.command:
        parser.error("COMMAND is missing")
    if options.runs < 0 or options.jobs < 1 or options.times < 1 or not options.seconds > 0 or not options.hang > 0:
        parser.error("a number is out of range")
    if options.at and not options.at.startswith("at "):
        parser.error("--at: the line must begin with `at `")
    if options.at and (options.json or options.junit):
        parser.error("--at only prints how the runs end: it writes no --json and no --junit")
    for line in options.at.split(" ", 4)[-1].split(";;") if options.at else ():
        if line.split(" ")[0] not in HEALED:
            parser.error(f"--at: no line {line.split(' ')[0]}, since nothing makes the tree whole again after it")
    if options.poke and not options.network:
        options.jobs = 1  # the daemons would share their ports
    options.text = fakesys_run.read_text(options.description)
    description = fakesys.Description(options.text)
    options.device = [description.real(path) for path in options.device or ()] or None
    for path in set(options.device or ()) - description.directories():
        raise fakesys_run.Refused(f"--device: the description has no directory {path}")


def read_known(name):
    """The lines of a file of known finds: those that begin with `at `. The others are notes."""
    lines = fakesys_run.read_text(name).split("\n") if name else []
    return {line.strip() for line in lines if line.strip().startswith("at ")}


# ---- options ----


def actions_of(text):
    actions = text.split(",")
    if set(actions) - set(ACTIONS):
        raise argparse.ArgumentTypeError(f"not an action: {', '.join(sorted(set(actions) - set(ACTIONS)))}")
    return actions


def statuses_of(text):
    return [int(it) for it in text.split(",")]


def add_words(words):
    words.usage = "fakesys explore [OPTION ..] DESCRIPTION -- COMMAND .."
    add = words.add_argument
    add("--seconds", type=float, default=math.inf, help="stop after these seconds (default: no limit)")
    add("--runs", type=int, default=RUNS, help=f"try at most this many points (default {RUNS}; 0: all)")
    add("-j", "--jobs", type=int, default=1, help="trees side by side (default 1)")
    add("--poke", metavar="LINE", help="COMMAND is a daemon, and this shell line queries it: what is tried is one query")
    add("--device", action="append", metavar="PATH", help="a directory that disappears or whose files fail (default: each)")
    add("--actions", type=actions_of, default=ACTIONS, metavar="NAME,..", help=f"of {','.join(ACTIONS)} (default: all)")
    add("--hang", type=float, default=10, help="seconds that a run may take (default 10; at least ten times a calm run)")
    add("--calm", type=float, default=10, help="seconds until a daemon's first query must succeed (default 10)")
    add("--ok", type=statuses_of, default=[0], metavar="N,..", help="statuses that are no fault, besides those of calm runs")
    add("--known", metavar="FILE", help="finds that are reported and do not count: their `at` lines")
    add("--json", metavar="FILE", help="write the finds to FILE, as JSON")
    add("--junit", metavar="FILE", help="write all runs to FILE, as JUnit's XML")
    add("--at", metavar="LINE", help="only try this line, --times times")
    add("--times", type=int, default=20, help="how often --at tries its line (default 20)")
    add("description", metavar="DESCRIPTION", type=fakesys_library.file_of)
    add("command", metavar="COMMAND", nargs="...")
    return words
