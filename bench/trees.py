#!/usr/bin/env python3
# SPDX-License-Identifier: MIT OR Apache-2.0
"""Measures trees of each shape and size beside a plain program:  trees.py PROGRAM PLAIN [SHAPE..]

Each of the two may have words behind it, and both must reply the same. Times are those that a program has the processor
from one read that finds no more to the next one, the best of 7 runs, taken in turn (RUNS=N: of N)."""
import fcntl
import itertools
import os
import random
import select
import shlex
import subprocess
import sys
import termios
import time

# no file is left beside the scripts
sys.dont_write_bytecode = True
import workloads

SIZES = 1_000, 16_000, 256_000
MOST_SLOTS = 1_048_576
LOOKED_UP, LISTED = 200_000, 256_000
# What a script with workers has at most: 16,000 nodes fit into it.
LONGEST_SCRIPT, WITH_WORKERS = 1 << 20, 16_000
ONE_WORKER = "--workers", "1"


class Running:
    """A program that runs while a `with` is inside, and is given scripts."""

    def __init__(self, program, slots, *options, told=subprocess.DEVNULL):
        self.words, self.told = [*shlex.split(program), "--slots", str(slots), *options], told

    def __enter__(self):
        self.child = subprocess.Popen(self.words, stdin=-1, stdout=self.told)
        fcntl.fcntl(self.child.stdin, fcntl.F_SETPIPE_SZ, 1 << 20)
        return self

    def __exit__(self, *_):
        self.child.stdin.close()
        self.child.wait()

    def clock(self):
        """The nanoseconds that it had the processor: the clock of a process has this number."""
        return time.clock_gettime_ns(~self.child.pid << 3 | 2)

    def waits(self):
        """Whether it has read all that it was given, and sleeps."""
        with open(f"/proc/{self.child.pid}/stat", encoding="ascii") as stat:
            sleeps = stat.read().rpartition(")")[2].split()[0] == "S"
        return sleeps and not any(fcntl.ioctl(self.child.stdin, termios.FIONREAD, b"\0\0\0\0"))

    def time_of(self, script=None):
        """The nanoseconds that it takes for a script, or for its start."""
        before, after = self.clock() if script else 0, -1
        self.child.stdin.write(script or b"")
        self.child.stdin.flush()
        while not self.waits() or after != self.clock():
            after = self.clock()
            time.sleep(0.001)
        return after - before

    def memory(self):
        """The bytes that it has in memory, and has had at most, without its code; and at most with it."""
        with open(f"/proc/{self.child.pid}/status", encoding="ascii") as status:
            kilobytes = {line.split()[0]: int(line.split()[1]) for line in status if line.startswith(("Vm", "Rss"))}
        now, most, code = (1024 * kilobytes[it] for it in ("RssAnon:", "VmHWM:", "RssFile:"))
        return {"now": now, "most": most - code, "with code": most}


def parts_of(shape, nodes):
    """The parts of a run with a tree of this many nodes: name, number of nodes, and script."""
    rng = random.Random(shape.__name__)
    made = list(itertools.islice(shape(rng), nodes))
    paths = [line.split(" ")[1] for line in made]
    directories = [line.split(" ")[1] for line in made if line.startswith("mkdir")]
    rounds = LISTED // nodes
    for part, count, lines in (
        ("create", nodes, made),
        ("stat", LOOKED_UP, (f"stat {rng.choice(paths)}" for _ in range(LOOKED_UP))),
        ("list", nodes * rounds, [f"ls {path}" for path in directories] * rounds),
        ("remove", nodes, (f"rm {path}" for path in paths if path.count("/") == 1)),
    ):
        yield part, count, "".join(f"{line}\n" for line in lines).encode()


def same_replies(programs, slots, script):
    """Ends the run if the programs give different replies."""
    told = [subprocess.run([*shlex.split(it), "--slots", str(slots)], input=script, capture_output=True, check=True).stdout
            for it in programs]
    if any(it != told[0] for it in told) or b"err" in told[0]:
        sys.exit(f"the replies differ, or lines are refused: {script[:80]!r} ..")


def measure(programs, slots, parts):
    """By program and part the least nanoseconds a node, and the least of what it had in memory at most until then."""
    times, most = {}, {}
    for _ in range(int(os.environ.get("RUNS", "7"))):
        for program in programs:
            with Running(program, slots) as running:
                running.time_of()
                for part, count, script in parts:
                    took, it = running.time_of(script) / count, (program, part)
                    times[it] = min(took, times.get(it, took))
                    taken = running.memory()["most"]
                    most[it] = min(taken, most.get(it, taken))
    return times, most


def root_alone(program):
    with Running(program, 1) as running:
        running.time_of()
        return running.memory()["now"]


def compacted(program, slots, script):
    """The memory of a tree whose commands are compacted."""
    with Running(program, slots) as running:
        running.time_of(script + b"compact\n")
        return running.memory()["now"]


def with_worker(program, slots, script):
    """The memory of a tree with a worker, and its time. All is done when the first reply comes; the pipe takes few."""
    with Running(program, slots, *ONE_WORKER, told=-1) as running:
        fcntl.fcntl(running.child.stdout, fcntl.F_SETPIPE_SZ, 4096)
        running.child.stdin.write(script)
        running.child.stdin.close()
        select.select([running.child.stdout], [], [])
        told = running.memory(), running.clock()
        running.child.kill()
        running.child.stdout.close()
        return told


def beside_worker(program, nodes, script):
    """The memory of a tree with a worker over that of lines as long that make nothing, for a short script."""
    if len(script) > LONGEST_SCRIPT or nodes < WITH_WORKERS:
        return ""
    nothing = b"".join(b"stat /".ljust(len(line), b"x") + b"\n" for line in script.splitlines())
    with_tree, without = (with_worker(program, *it)[0]["most"] for it in ((nodes + 1, script), (1, nothing)))
    return f"{(with_tree - without) / nodes:.0f}"


def in_microseconds(nanoseconds):
    return f"{nanoseconds / 1000:.{2 if nanoseconds >= 100 else 3}f}"


def tell_shape(programs, shape):
    """Prints a line for each size of a shape."""
    bare = {program: root_alone(program) for program in programs}
    for nodes in SIZES:
        parts = list(parts_of(shape, nodes))
        same_replies(programs, nodes + 1, b"".join(script for _, _, script in parts))
        times, most = measure(programs, nodes + 1, parts)
        cells = [" / ".join(in_microseconds(times[it, part]) for it in programs) for part, *_ in parts]
        cells.append(" / ".join(f"{(most[it, 'create'] - bare[it]) / nodes:.0f}" for it in programs))
        made = parts[0][2]
        cells.append(" / ".join(f"{(compacted(it, nodes + 1, made) - bare[it]) / nodes:.0f}" for it in programs))
        cells.append(beside_worker(programs[0], nodes, made))
        print("|", " | ".join([f"`{shape.__name__}`", f"{nodes:,}", *cells]), "|", flush=True)


def tell_empty(programs):
    """Prints what a tree takes that has only the root, and room for the most nodes."""
    for program in programs:
        with Running(program, MOST_SLOTS) as running:
            took = running.time_of()
            print(f"| {os.path.basename(program)} | {took / 1e6:.1f} | {running.memory()['with code'] / 1e6:.1f} |")
    memory, took = with_worker(programs[0], MOST_SLOTS, b"stat /\n" * 1000)
    print(f"| {os.path.basename(programs[0])} {' '.join(ONE_WORKER)} | {took / 1e6:.1f} | {memory['with code'] / 1e6:.1f} |")


def main():
    if len(sys.argv) < 3:
        sys.exit("trees.py PROGRAM PLAIN [SHAPE..]")
    programs, names = sys.argv[1:3], sys.argv[3:]
    print("Microseconds a node, and bytes a node; the program / the plain one:\n")
    print("| Tree | Nodes | create | stat | list | remove | Bytes at most | Bytes, compacted | Bytes, one worker |")
    print("|---|---|---|---|---|---|---|---|---|")
    for shape in workloads.TREES:
        if not names or shape.__name__ in names:
            tell_shape(programs, shape)
    print(f"\n| A tree of the root alone, with room for {MOST_SLOTS:,} slots | Start, ms | MB at most |\n|---|---|---|")
    tell_empty(programs)


if __name__ == "__main__":
    main()
