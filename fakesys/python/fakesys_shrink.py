# SPDX-License-Identifier: MIT OR Apache-2.0
"""fakesys shrink [OPTION ..] LINES DESCRIPTION -- COMMAND ..

Makes the lines of a storm few that COMMAND failed in (`fakesys storm -o LINES`). It replays parts of them, and keeps a part
in which COMMAND fails as before. The unplug of a device and its plug go together. Then it explores the devices that are
left, so that what the storm found ends as one line `at ..` that repeats it. The lines that are left are printed, or
written to a file that `fakesys storm --replay` and `fakesys -t` read. The status is 0 if COMMAND fails again; 1 if it
does not; 2 for a usage error; 125 if nothing can be mounted."""
import argparse
import os
import re
import signal
import subprocess
import sys
import time

import fakesys
import fakesys_library
import fakesys_run
from fakesys_points import shape_of
from fakesys_reader import HANG

FEWEST = 8  # lines that are tried first: the last ones
LONG = 3  # the first tries take this much longer, so that a rare fault comes again
HALF = 0.5  # of the time is for the exploration
RUNS = 400  # points that it tries
CALM = 0.3  # seconds without a storm before each try
FIRST_CALM = 1  # .. and before the first ones
REPLAYED = 3  # seconds of each try
ON_DEATH_OF_PARENT = 1
FOUND, NOT_AGAIN = 1, 1


def groups_of(lines):
    """Lines that stay or go together: an unplug and the plug of that device after it, a fault and its end."""
    groups, begun = [], {}
    for at, line in lines:
        word, _, rest = line.partition(" ")
        path, _, value = rest.partition(" ")
        key = ("plug" if word in ("plug", "unplug") else word, path)
        begins = word == "unplug" or word in ("fail", "late", "slow") and value != "0"
        if not begins and key in begun:
            begun.pop(key).append((at, line))
            continue
        groups.append([(at, line)])
        if begins:
            begun[key] = groups[-1]
    return groups


def together(groups):
    return sorted((line for group in groups for line in group), key=lambda it: it[0])


def reduced(groups, fails, is_time):
    """Fewer groups that still fail: halves first, then smaller and smaller parts, and what is left without them (delta
    debugging)."""
    parts = 2
    while len(groups) > 1 and is_time():
        size = -(-len(groups) // parts)
        pieces = [groups[at : at + size] for at in range(0, len(groups), size)]
        rests = [[it for other in pieces if other is not piece for it in other] for piece in pieces]
        tried = pieces + (rests if len(pieces) > 2 else [])
        kept = next((it for it in tried if is_time() and fails(it)), None)
        if kept is not None:
            groups, parts = kept, 2 if kept in pieces else max(len(pieces) - 1, 2)
        elif parts >= len(groups):
            break
        else:
            parts = min(2 * parts, len(groups))
    return groups


class Shrinker:
    """Replays parts of a storm's lines."""

    def __init__(self, options, words):
        self.options, self.words, self.tries, self.what = options, words, 0, None
        self.limit = HANG if options.hang is None else options.hang
        self.until = time.monotonic() + options.time * HALF
        self.part = memory_file("part")

    def is_time(self):
        return time.monotonic() < self.until

    def times(self):
        """The times of a try, as options of a storm. A run hangs only after a limit, so a try in which one may hang takes
        longer by that. If it is known that the command hangs, and so that it is no daemon, its first run is timed too."""
        seconds, limit = self.options.seconds, self.limit
        if not self.what:
            return ["--time", str(max(LONG * seconds, seconds + limit)), "--calm", str(FIRST_CALM)]
        if not self.what.startswith("hangs"):
            return ["--time", str(seconds), "--calm", str(CALM)]
        return ["--time", str(seconds + limit), "--calm", str(CALM), "--hang", str(limit)]

    def end_of(self, lines):
        """How the command ends while these lines are replayed, in words; None if nothing happens."""
        self.tries += 1
        write(lines, self.part)
        words = ["storm", "--replay", self.part, *self.words, *self.times()]
        with fakesys_again([*words, self.options.description, "--", *self.options.command]) as storm:
            said = storm.stdout.read()
        if storm.returncode not in (0, FOUND):
            problem = f"the storm cannot be replayed: {said.strip()[-500:]}"
            raise OSError(problem) if storm.returncode == fakesys_run.CANNOT else fakesys_run.Refused(problem)
        found = re.search(r"FOUND after [\d.]+ s: (?:it )?(.*)", said)
        return found[1] if found else None

    def fails(self, lines):
        """Whether the command fails in the same way under these lines."""
        return bool(lines) and self.what == alike(self.end_of(lines))

    def shrink(self, lines):
        """Fewer lines under which the command fails, or None if it does not fail again."""
        count = FEWEST
        while True:
            found = self.end_of(lines[-count:])
            if found or count >= len(lines) or not self.is_time():
                break
            count *= 2
        if not found:
            return None
        self.what, lines = alike(found), lines[-count:]
        print(f"fakesys shrink: {found} under the last {len(lines)} lines", flush=True)
        groups = reduced(groups_of(lines), lambda some: self.fails(together(some)), self.is_time)
        lines = together(groups)
        for line in list(lines) if len(lines) > 1 else ():
            rest = [it for it in lines if it != line]
            if self.is_time() and self.fails(rest):
                lines = rest
        return lines


def alike(end):
    """How a command ended, without what differs from run to run."""
    return end if not end or end.startswith("status ") else shape_of(end)


def timeline(lines):
    return [f"{at - lines[0][0]:.3f} {line}\n" for at, line in lines]


def write(lines, name):
    with open(name, "w", encoding="utf-8", errors="surrogateescape") as file:
        file.writelines(timeline(lines))


def memory_file(name):
    """The path of a file that ends with this process, even if a signal ends it."""
    return f"/proc/{os.readlink('/proc/self')}/fd/{os.memfd_create(name)}"


def fakesys_again(words, **more):
    """Starts this program with other words. It ends if this process does."""
    program = os.path.realpath(sys.argv[0])
    more = {"stdout": subprocess.PIPE, "stderr": subprocess.STDOUT, **more}
    return subprocess.Popen(
        [sys.executable, program, *words],
        stdin=subprocess.DEVNULL,
        text=True,
        errors="replace",
        preexec_fn=lambda: fakesys.system_call("prctl", ON_DEATH_OF_PARENT, signal.SIGTERM),
        **more,
    )


def devices_in(lines, description):
    """The devices that these lines change, or in which they change a file."""
    devices, found = set(description.devices()), []
    for _, line in lines:
        path = line.split(" ")[1] if " " in line else ""
        while len(path) > 1 and path not in devices and not line.startswith(("plug", "unplug")):
            path = os.path.dirname(path)
        if path in description.directories() and path not in found:
            found.append(path)
    return found


def explored(options, words, lines, seconds):
    """Explores the devices in these lines, or all if there are none, which prints each find at once. Returns whether there
    is one."""
    devices = devices_in(lines, fakesys.Description(options.text))
    if seconds <= 0:
        return False
    limits = ["--seconds", f"{max(seconds, 0.1):.1f}", "--runs", str(RUNS)]
    named = [word for device in devices for word in ("--device", device)]
    # (an exploration needs a limit, or a daemon or a point that hangs would never end; it is ten times a calm run anyway)
    words += ["--hang", f"{max(seconds / 2, HANG):.1f}"] * (options.hang == 0)
    words = ["explore", *limits, *named, *words, options.description, "--", *options.command]
    with fakesys_again(words, stdout=None, stderr=None) as exploration:
        return exploration.wait() == FOUND


def shrink_and_explore(options, lines):
    """Shrinks lines, explores what is left, and prints both. Returns the lines that are left, or None."""
    started, words = time.monotonic(), words_of(options)
    shrinker = Shrinker(options, words)
    left = shrinker.shrink(lines)
    if not left:
        print(f"fakesys shrink: it does not fail again in {shrinker.tries} tries")
        return None
    print(f"fakesys shrink: {len(left)} of {len(lines)} lines are left after {shrinker.tries} tries", flush=True)
    if not explored(options, words, left, options.time - (time.monotonic() - started)):
        print("fakesys shrink: no single step repeats it")
    return left


def words_of(options):
    """The options that a storm and an exploration share."""
    words = ["-a"] * options.all + ["-n"] * options.network
    for name in "slots", "order", "keep", "poke", "hang":
        if getattr(options, name) is not None:
            words += [f"--{name}", str(getattr(options, name))]
    return [*words, "--ok", ",".join(map(str, options.ok))]


def shrink(options, parser):
    """`fakesys shrink`: its exit status."""
    if not options.command:
        parser.error("COMMAND is missing")
    if not options.seconds > 0 or not options.time > 0:
        parser.error("a number is out of range")
    if options.description == "-":
        parser.error("the description is read again and again, so it must be a file")
    options.text = fakesys_run.read_text(options.description)
    lines = lines_of(options.lines)
    if not lines:
        raise fakesys_run.Refused(f"{options.lines}: no lines")
    if options.output:
        check_output(options.output)
    left = shrink_and_explore(options, lines)
    if left:
        if options.output:
            write(left, options.output)
        else:
            print("".join(timeline(left)), end="")
    return 0 if left else NOT_AGAIN


def check_output(name):
    try:
        with open(name, "a", encoding="utf-8"):
            pass
    except OSError as error:
        raise fakesys_run.Refused(f"{name}: {error.strerror}") from None


def lines_of(name):
    return [it for it in fakesys_run.read_timeline(name) if not it[1].startswith("#")]


def storm_and_shrink(options, words):
    """`fakesys storm --shrink SECONDS`: runs the storm with the words that are given, and shrinks what it finds. Returns the
    storm's exit status."""
    kept = options.output or memory_file("kept")
    with fakesys_again(["storm", "-o", kept, *words], stdout=None, stderr=None) as storm:
        status = storm.wait()
    lines = lines_of(kept) if status == FOUND else None
    if lines:
        print(f"fakesys storm: shrinking {len(lines)} lines for up to {options.shrink:g} s", flush=True)
        given = argparse.Namespace(**{**vars(options), "time": options.shrink, "seconds": REPLAYED})
        left = shrink_and_explore(given, lines) or ()
        print("".join(f"    {line}" for line in timeline(left)), end="")
    return status


def add_words(words):
    words.usage = "fakesys shrink [OPTION ..] LINES DESCRIPTION -- COMMAND .."
    add = words.add_argument
    add("--seconds", type=float, default=REPLAYED, help=f"how long a part is replayed (default {REPLAYED})")
    add("--time", type=float, default=180, help="seconds in all, half of them for the exploration (default 180)")
    add("--poke", metavar="LINE", help="as for the storm")
    add("--hang", type=float, help="as for the storm")
    add("--ok", type=lambda text: [int(it) for it in text.split(",")], default=[0], metavar="N,..", help="as for the storm")
    add("-o", "--output", metavar="FILE", help="write the lines that are left to FILE")
    add("lines", metavar="LINES", help="a file of lines, as `fakesys storm -o` writes it")
    add("description", metavar="DESCRIPTION", type=fakesys_library.file_of)
    add("command", metavar="COMMAND", nargs="...")
    return words
