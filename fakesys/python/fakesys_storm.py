# SPDX-License-Identifier: MIT OR Apache-2.0
"""fakesys storm [OPTION ..] DESCRIPTION -- COMMAND ..

Looks for bugs in a program that reads sysfs. It runs COMMAND on a fake /sys, again and again, while devices disappear and
come back, and reads and writes fail or come late. All of this follows from a seed. It stops if COMMAND crashes, hangs, or
ends with a status that it does not have when a device is absent, or a file fails, from the start. Then the status is 1,
and the seed and the last lines are printed. The status is 0 if the time is over before; 2 for a usage error, or if COMMAND
fails without a storm; 125 if nothing can be mounted."""
import argparse
import contextlib
import itertools
import os
import shlex
import tempfile
import time

import fakesys
import fakesys_library
import fakesys_run
import fakesys_shrink
from fakesys_blow import Blow, changed
from fakesys_points import ERRORS, Trace, shape_of
from fakesys_reader import HANG, Lost, Poke, Reader
from fakesys_schedule import KINDS, Schedule, repeated
from fakesys_verdict import Ending, Verdict

FOUND = 1
LONGEST = 2e6  # seconds: poll(2) has a limit in milliseconds
LEARNING = 30, 20  # seconds, and runs, for the calm runs that show whether a status is deliberate: the longer of both
SHOWN = 12  # lines of a report


class Storm:
    """A storm over a command, which runs again and again; each end is judged."""

    def __init__(self, options, lines, daemon, tree):
        self.options, self.daemon, self.tree = options, daemon, tree
        self.limit = HANG if options.hang is None else options.hang
        self.verdict, self.reader, self.calm_seconds = Verdict(options.ok), Reader(options, daemon), options.calm
        self.try_calm()
        self.poke = Poke(options.poke, self.limit) if options.poke else None
        self.blow = Blow(tree, lines, options.time * 1000)

    def try_calm(self):
        """Waits for a first run, or for the first second of a daemon, without a storm. Notes which files it reads."""
        with traced(self.tree) as self.steps:
            self.reader.start()
            has_ended = self.reader.wait(self.options.calm) == "ended"
        if not has_ended:
            return
        ending = self.reader.ending()
        if self.verdict.is_fault(ending):
            words = "\n".join(ending.telling())
            raise fakesys_run.Refused(f"without a storm: {ending.what()} (--ok accepts more statuses):\n{words}")
        self.calm_seconds = min(self.limit or LONGEST, 5 * (time.monotonic() - self.reader.began) + 1)
        self.reader.process = None

    def run(self):
        """Runs the storm, and returns the fault that it found, or None."""
        self.began = time.monotonic()
        self.blow.start()
        if self.poke:
            self.poke.start()
        try:
            return self.watch(self.began + self.options.time)
        finally:
            self.seconds = time.monotonic() - self.began
            self.blow.is_over.set()

    def watch(self, until):
        """Watches the command until it has a fault or the time is over."""
        is_known = self.options.hang is not None  # a command that still runs may be a daemon
        moment = self.blow.now()
        while True:
            if not self.reader.process:
                moment, is_known = self.blow.now(), True
                self.reader.start()
            is_timed = self.limit and is_known and not self.poke
            end = min(until, self.reader.began + self.limit) if is_timed else until
            came = self.reader.wait(end - time.monotonic(), self.poke.late if self.poke else None)
            if came != "ended" and end >= until and not (came and self.poke):
                return self.last_fault()
            if came != "ended" and self.hangs(came):
                return Ending(None, self.reader.said())
            if self.reader.process.returncode is None:
                continue
            ending, self.reader.process = self.reader.ending(), None
            self.be_patient(time.monotonic() - self.reader.began)
            if self.verdict.is_fault(ending) and not self.is_deliberate(ending, moment):
                return ending
            if time.monotonic() > until:
                return None

    def be_patient(self, seconds):
        """Gives a calm run twice as long as a run has just taken. (The end of a daemon shows no such time, and a first run
        that takes longer than this may be one.)"""
        if not self.poke and (self.reader.runs > 1 or seconds <= HANG):
            self.calm_seconds = max(self.calm_seconds, min(self.limit or LONGEST, 2 * seconds + 1))

    def last_fault(self):
        """The fault that a command which still runs has printed, or None."""
        ending = Ending(0, self.reader.said())
        return ending if ending.panic() and self.verdict.is_fault(ending) else None

    def hangs(self, came):
        """Whether what took too long does not end with a whole tree either."""
        with self.blow.paused():
            return not self.poke.ends(self.limit) if came else self.reader.wait(self.limit) != "ended"

    # ---- which statuses are deliberate ----

    def is_deliberate(self, ending, moment):
        """Whether a run ends with the same status if nothing changes while it runs: with devices absent, or files failing,
        that were absent or failed in this run, or with files failing that the command reads."""
        if not ending.is_plain():
            return False
        until = time.monotonic() + max(LEARNING[0], LEARNING[1] * self.calm_seconds)
        with self.blow.paused():
            reads = [path for kind, path, _ in self.steps if kind == "read"]
            for lines in conditions(*self.blow.since(moment), list(dict.fromkeys(reads))):
                if time.monotonic() > until:
                    break
                self.learn(lines)
                if not self.verdict.is_fault(ending):
                    return True
        return False

    def learn(self, lines):
        """Runs the command calmly in a tree that some lines changed before."""
        with changed(self.tree, lines):
            self.reader.start()
            if self.reader.wait(self.calm_seconds) == "ended":
                self.verdict.learn(self.reader.ending())
            else:
                self.reader.end()
            self.reader.runs, self.reader.process = self.reader.runs - 1, None


@contextlib.contextmanager
def traced(tree):
    """A list that has, after a `with`, the steps that were made in a tree inside it."""
    steps, file = [], os.memfd_create("trace")
    tree.give(f"trace /proc/{os.readlink('/proc/self')}/fd/{file}")
    yield steps
    with contextlib.suppress(OSError):  # if the daemon has ended
        tree.give("trace off")
    text = os.pread(file, os.fstat(file).st_size, 0)
    os.close(file)
    steps += Trace(text.decode(errors="surrogateescape")).steps


def conditions(gone, failed, read):
    """Lists of lines, each of which changes a tree in a way in which it may be for good. Of the files that the command
    reads, all fail, or one of each kind."""
    unplugs = [f"unplug {path}" for path in gone]
    fails = [f"fail {path} {error}" for path, error in failed.items()]
    yield unplugs
    yield from ([line] for line in unplugs + fails)
    if fails:
        yield fails
        yield fails + unplugs
    if read:
        yield [f"fail {path} {ERRORS['EIO']}" for path in read]
        for path in {shape_of(path): path for path in read}.values():
            yield [f"fail {path} {ERRORS['EIO']}"]


def blow_on(options, lines, place):
    """Runs a storm in its namespaces. Returns the exit status."""
    said = tempfile.TemporaryFile()  # the daemon prints each line that is refused
    daemon, tree = fakesys_run.open_tree(options, place, said)
    os.setsid()
    try:
        storm = Storm(options, lines, daemon, tree)
        fault = storm.run()
    except Lost:
        print(fakesys.printable(fakesys.text_of(said)))
        fakesys_run.is_alive(daemon)
        return fakesys_run.CANNOT
    if storm.blow.is_broken:
        return fakesys_run.CANNOT  # the reason was printed
    if storm.reader.process:
        storm.reader.end()
    keep(options, storm.blow)
    report(options, fault, storm)
    return FOUND if fault else 0


def line_text(at, line):
    return f"{at / 1000:.3f} {line}"


def keep(options, blow):
    if options.file:
        with options.file as file:
            with contextlib.suppress(OSError):  # if it is a pipe
                file.truncate(0)
            file.writelines(f"# {line}\n" for line in shlex.join(again(options)).split("\n"))
            file.writelines(line_text(*it) + "\n" for it in list(blow.given))


def again(options):
    """The words of the command that repeats this storm."""
    source = ["--replay", options.replay] if options.replay else ["--seed", str(options.seed)]
    return ["fakesys", "storm", *source, *options.repeated, options.description, "--", *options.command]


def report(options, fault, storm):
    if not fault:
        statuses = sorted(storm.verdict.deliberate - set(options.ok))
        learned = f"; status {', '.join(map(str, statuses))} in calm runs too" if statuses else ""
        print(f"fakesys storm: no fault in {storm.seconds:.1f} s: {summary(storm)}{learned}; {source_of(options)}")
        return
    limit = f"{storm.limit:g} s"
    hangs = f": {'a query' if storm.poke else 'it'} did not end in {limit}, nor in {limit} more with a whole tree"
    print(f"fakesys storm: FOUND after {storm.seconds:.3f} s: {fault.what()}{hangs if fault.code is None else ''}")
    print("".join(f"    {line}\n" for line in fault.telling()), end="")
    print(f"  {summary(storm)}; the last lines:")
    print("".join(f"    {fakesys.printable(line_text(*it))}\n" for it in storm.blow.given[-SHOWN:]), end="")
    print(f"  again: {fakesys.printable(shlex.join(again(options)))}")


def summary(storm):
    """What was done, in words."""
    runs = f"{storm.reader.runs} run{'s' * (storm.reader.runs > 1)}, "
    return runs + (storm.poke.summary() if storm.poke else "") + storm.blow.summary()


def source_of(options):
    """The name of what the lines come from."""
    return f"lines of {options.replay}" if options.replay else f"seed {options.seed}"


# ---- options ----


def kinds_of(text):
    kinds = text.split(",")
    for kind in set(kinds) - set(KINDS):
        raise argparse.ArgumentTypeError(f"not a kind of lines: {kind} (the kinds are {', '.join(KINDS)})")
    return kinds


def statuses_of(text):
    if not all(it.isdecimal() for it in text.split(",")):
        raise argparse.ArgumentTypeError(f"not a list of exit statuses: {text}")
    return [int(it) for it in text.split(",")]


def add_words(words):
    words.usage = "fakesys storm [OPTION ..] DESCRIPTION -- COMMAND .."
    words.add_argument(
        "--seed", type=int, help="the number from which the lines follow (default: one is chosen and printed)"
    )
    words.add_argument("--time", type=float, default=60, help="seconds that the storm lasts at most (default 60)")
    words.add_argument(
        "--poke", metavar="LINE", help="a shell line to run again and again, such as a query to a daemon"
    )
    words.add_argument("--hang", type=float, help="seconds that a run, or LINE, may take (default 10; 0: any time)")
    words.add_argument("--calm", type=float, default=1, help="seconds to run without a storm first, at most (default 1)")
    words.add_argument(
        "--ok",
        type=statuses_of,
        default=[0],
        metavar="N,..",
        help="accepted exit statuses (default 0)",
    )
    words.add_argument(
        "--device", action="append", metavar="PATH", help="a device that disappears and comes back (default: all)"
    )
    words.add_argument(
        "--kinds", type=kinds_of, default=KINDS, metavar="KIND,..", help=f"kinds of lines: {','.join(KINDS)} (default: all)"
    )
    words.add_argument("--rate", type=int, default=100, help="lines per second, 1 to 1000 (default 100)")
    words.add_argument("-o", "--output", metavar="FILE", help="write the lines with their times to FILE")
    words.add_argument(
        "--replay", metavar="FILE", help="use the lines of FILE, again and again, instead of those of a seed"
    )
    words.add_argument(
        "--shrink",
        type=float,
        metavar="SECONDS",
        help="make the lines of what is found few, and explore the devices that are left, in up to SECONDS more",
    )
    words.add_argument("--print", action="store_true", help="print the lines and run nothing")
    words.add_argument("description", metavar="DESCRIPTION", type=fakesys_library.file_of)
    words.add_argument("command", metavar="COMMAND", nargs="...")
    return words


def repeated_options(options, parser):
    """The options that were given, except for those that a repetition has otherwise."""
    left_out, words = ("seed", "replay", "output", "print", "help", "shrink"), []
    for action in (it for it in parser._actions if it.option_strings and it.dest not in left_out):
        value, name = getattr(options, action.dest), action.option_strings[-1]
        if value == action.default:
            continue
        if action.dest in ("ok", "kinds"):
            words += [name, ",".join(map(str, value))]
        elif value is True:
            words.append(name)
        else:
            words += [
                text for it in (value if isinstance(value, list) else [value]) for text in (name, str(it))
            ]
    return words


def storm(options, parser):
    """`fakesys storm`: its exit status."""
    if not options.command and not options.print:
        parser.error("COMMAND is missing")
    times = options.time, options.calm, options.hang or 0, options.shrink or 0
    if not all(0 <= it <= LONGEST for it in times) or not 1 <= options.rate <= 1000:
        parser.error("a time or the rate is out of range")
    options.file = open_output(options.output)
    options.repeated = repeated_options(options, parser)
    options.text = fakesys_run.read_text(options.description)
    options.seed = int.from_bytes(os.urandom(4), "little") if options.seed is None else options.seed
    lines = lines_of(options)
    if options.print:
        print_lines(lines, options.time)
        return 0
    if options.shrink:
        return shrunk(options)
    print(f"fakesys storm: {source_of(options)}", flush=True)
    return fakesys_run.with_tree(options, lambda place: blow_on(options, lines, place), True)


def shrunk(options):
    if options.description == "-":
        raise fakesys_run.Refused("--shrink: the description is read again and again, so it must be a file")
    return fakesys_shrink.storm_and_shrink(options, again(options)[2:])


def open_output(name):
    """Opens the file that will keep the lines, if any, so that a failure shows before the storm. Its text stays until
    the storm is over, since it may be what is replayed."""
    try:
        return open(name, "a", encoding="utf-8", errors="surrogateescape") if name else None
    except OSError as error:
        raise fakesys_run.Refused(f"{name}: {error.strerror}") from None


def lines_of(options):
    """The lines of a storm with their milliseconds: those of a file, again and again, or those of the seed."""
    description = fakesys.Description(options.text)
    if not options.replay:
        return Schedule(description, options).lines()
    lines = [(round(at * 1000), line) for at, line in fakesys_run.read_timeline(options.replay)]
    named = {line.partition(" ")[2] for _, line in lines if line.startswith(("plug ", "unplug "))}
    return repeated(lines, sorted({*description.devices(), *named & description.directories()}))


def print_lines(lines, seconds):
    for at, line in itertools.takewhile(lambda it: it[0] <= seconds * 1000, lines):
        print(line_text(at, line))
