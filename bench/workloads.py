#!/usr/bin/env python3
# SPDX-License-Identifier: MIT OR Apache-2.0
"""Writes the scripts that bench/run measures: `workloads.py FOLDER [NAME..]` makes FOLDER/NAME.kf for these
names, or for all, and prints them; of scripts for workers FOLDER/NAME_1.kf, NAME_2.kf and NAME_4.kf, by how many
workers they have, and of those for one worker beside other nodes FOLDER/NAME_10.kf and NAME_4000.kf, by how many of
these there are, and NAME_10_alone.kf and NAME_4000_alone.kf, which make these nodes and end. Scripts for workers have a
megabyte at most. Each script is the same wherever Python is the same. They need 4,096 slots. The scripts of trees, which
may be larger, trees.py makes."""
import itertools
import os
import random
import sys


def churn(rng):
    """Directories with files, made and removed again, among a few hundred nodes that stay."""
    for parent in range(20):
        yield f"mkdir /bus{parent}"
        for device in range(10):
            yield f"mkdir /bus{parent}/device{device}"
    for turn in range(100_000):
        top = f"/bus{rng.randrange(20)}/device{rng.randrange(10)}/function{turn % 1000}"
        yield f"mkdir {top}"
        yield f"file {top}/state 644 running"
        yield f"file {top}/power 444 on"
        yield f"stat {top}"
        yield f"rm {top}"


def wide(rng):
    """One directory of 3,000 names: random stats, and one name that goes and comes back for every eight."""
    names = [f"attribute_{number:x}" for number in rng.sample(range(1 << 32), 3000)]
    yield "mkdir /wide"
    for name in names:
        yield f"file /wide/{name} 644 x"
    for _ in range(60_000):
        for _ in range(8):
            yield f"stat /wide/{rng.choice(names)}"
        name = rng.choice(names)
        yield f"rm /wide/{name}"
        yield f"file /wide/{name} 644 x"


def deep(rng):
    """Paths of 60 names, with a few siblings at each step."""
    path = ""
    tops = []
    for depth in range(60):
        for sibling in ("left", "right", f"level{depth}"):
            yield f"mkdir {path}/{sibling}"
        path += f"/level{depth}"
        tops.append(path)
    yield f"file {path}/value 644 deep"
    for _ in range(40_000):
        yield f"stat {path}/value"
        yield f"open d {path}/value r"
        yield "read d 0 16"
        yield "close d"
        yield f"stat {rng.choice(tops)}/left"


def attributes(rng):
    """26 open files, read, written, polled and notified, and opened anew now and then."""
    letters = "abcdefghijklmnopqrstuvwxyz"
    for letter in letters:
        yield f"file /value_{letter} 644 0"
        yield f"open {letter} /value_{letter} rw"
    for turn in range(600_000):
        letter = rng.choice(letters)
        yield f"write {letter} {turn}"
        yield f"read {letter} 0 64"
        yield f"poll {letter}"
        yield f"notify /value_{letter}"
        yield f"poll {letter}"
        if turn % 16 == 0:
            yield f"close {letter}"
            yield f"open {letter} /value_{letter} rw"


def pages(rng):
    """Whole pages read and written."""
    for letter in "abcd":
        yield f"file /page_{letter} 666 {letter * 4096}"
        yield f"open {letter} /page_{letter} rw"
    for _ in range(40_000):
        letter = rng.choice("abcd")
        yield f"read {letter} 0 4096"
        yield f"read {letter} 0 4096"
        yield f"read {letter} 4000 4096"
        yield f"write {letter} {rng.choice('0123456789') * 4096}"


def openings(rng):
    """A file opened and closed a million times."""
    yield "mkdir /device"
    yield "file /device/value 644 1"
    for _ in range(1_000_000):
        yield "open v /device/value rw"
        yield "close v"


def listings(rng):
    """A directory of 4,000 names, listed."""
    yield "mkdir /many"
    for number in range(4000):
        yield f"file /many/name_{number * 7919 % 4000} 444 x"
    for _ in range(5000):
        yield "ls /many"


def links(rng):
    """Links at a depth of 1,000, read, to targets at a depth of 1,000 and to near ones."""
    left = right = ""
    for _ in range(1000):
        left += "/l"
        right += "/r"
        yield f"mkdir {left}"
        yield f"mkdir {right}"
    yield f"link {left}/far {right}"
    yield f"link {left}/near {left[:-2]}"
    yield f"link {right}/up /l"
    for _ in range(10_000):
        yield f"readlink {left}/far"
        yield f"readlink {left}/near"
        yield f"readlink {right}/up"


def forests(rng):
    """A forest of 4,000 nodes, made, activated and removed at once, over and over."""
    yield "mkdir /forest"
    for _ in range(60):
        yield "mkdir /forest/all off"
        for tree in range(40):
            yield f"mkdir /forest/all/tree{tree}"
            for branch in range(9):
                yield f"mkdir /forest/all/tree{tree}/branch{branch}"
                for leaf in range(10):
                    yield f"file /forest/all/tree{tree}/branch{branch}/leaf{leaf} 444 green"
        yield "activate /forest/all"
        yield "rm /forest/all"


def hiding(rng):
    """100 files, hidden and shown again."""
    yield "mkdir /device"
    for number in range(100):
        yield f"file /device/value{number} 644 {number}"
    for turn in range(400_000):
        path = f"/device/value{rng.randrange(100)}"
        yield f"hide {path}"
        yield f"stat {path}"
        yield f"show {path}"


def compaction(rng):
    """A tree of 400 nodes, and a compaction after each 100 changes of it."""
    for parent in range(20):
        yield f"mkdir /group{parent}"
        for child in range(19):
            yield f"file /group{parent}/member{child} 644 {child}"
    for _ in range(12_000):
        for _ in range(50):
            path = f"/group{rng.randrange(20)}/member{rng.randrange(19)}"
            yield f"rm {path}"
            yield f"file {path} 644 again"
        yield "compact"
        yield "commands"


def retained(rng):
    """3,400 names moved through 600 directories, one after another, with a compaction after each."""
    for number in range(600):
        yield f"mkdir /directory{number}"
    names = [f"{number:08x}" for number in rng.sample(range(1 << 32), 3400)]
    for name in names:
        yield f"mkdir /directory0/{name}"
    for number in range(1, 600):
        for name in names[:3400 - number]:
            yield f"mv /directory{number - 1}/{name} /directory{number} {name}"
        yield "compact"


def beside(nodes):
    """This many nodes that stay."""
    yield "mkdir /old"
    yield "mkdir /many"
    for number in range(nodes - 2):
        yield f"mkdir /many/{number}"
    yield "wait"


def makes(nodes):
    """A directory created and removed again by one worker, beside this many nodes."""
    yield from beside(nodes)
    for _ in range(36_000):
        yield "@1 mkdir /new"
        yield "@1 rm /new"


def refusals(nodes):
    """An existing directory, whose creation by one worker is refused, beside this many nodes."""
    yield from beside(nodes)
    for _ in range(65_000):
        yield "@1 mkdir /old"


def readers(workers, spacing):
    """Workers that read: the first an attribute in slot 1, each further one this many slots on. 60,000 reads in all."""
    for number in range(3 * spacing + 1):
        yield f"file /value{number} 444 {number}"
    yield "wait"
    for worker in range(workers):
        yield f"@{worker + 1} open {'abcd'[worker]} /value{worker * spacing} r"
    yield "wait"
    for turn in range(60_000):
        worker = turn % workers
        yield f"@{worker + 1} read {'abcd'[worker]} 0 9"


def like_sys(_):
    """The nodes of a tree like /sys: 10 names in a directory, three of them directories, breadth first."""
    directories = ["/sys"]
    yield "mkdir /sys"
    for directory in directories:  # it grows meanwhile
        for number in range(3):
            directories.append(f"{directory}/dev{number}")
            yield f"mkdir {directories[-1]}"
        for number in range(7):
            yield f"file {directory}/attr{number} 644 v"


def one_directory(rng):
    """Files of one directory, whose names come in any order."""
    yield "mkdir /wide"
    for number in itertools.count():
        yield f"file /wide/{rng.randrange(1 << 32):08x}_{number} 644 v"


def chains(_):
    """Chains of 60 directories."""
    for number in itertools.count():
        path = f"/chain{number}"
        yield f"mkdir {path}"
        for depth in range(1, 60):
            path += f"/at{depth}"
            yield f"mkdir {path}"


WORKLOADS = [churn, wide, deep, attributes, pages, openings, listings, links, forests, hiding, compaction, retained]

# What trees.py makes, as large as it wants them.
TREES = [like_sys, one_directory, chains]

# One worker, beside few nodes and beside many.
BESIDE = [makes, refusals]

# How many slots lie between those of two readers.
READERS = {"readers_of_one": 0, "readers_of_distant": 16}


def scripts_of(names):
    """By the name of each workload that is asked for, the names and lines of its scripts."""
    for workload in WORKLOADS:
        name = workload.__name__
        if not names or name in names:
            yield name, [(name, workload(random.Random(name)))]
    for workload in TREES:
        if not names or workload.__name__ in names:
            yield workload.__name__, []
    for workload in BESIDE:
        name = workload.__name__
        if not names or name in names:
            yield name, [it for nodes in (10, 4000)
                         for it in ((f"{name}_{nodes}", workload(nodes)), (f"{name}_{nodes}_alone", beside(nodes)))]
    for name, spacing in READERS.items():
        if not names or name in names:
            yield name, [(f"{name}_{workers}", readers(workers, spacing)) for workers in (1, 2, 4)]


def main():
    if len(sys.argv) < 2 or sys.argv[1].startswith("-"):
        sys.exit("workloads.py FOLDER [NAME..]")
    folder, names = sys.argv[1], sys.argv[2:]
    known = [*(it.__name__ for it in WORKLOADS + TREES + BESIDE), *READERS]
    if unknown := [it for it in names if it not in known]:
        sys.exit(f"no workload {' '.join(unknown)}; there are {' '.join(known)}")
    os.makedirs(folder, exist_ok=True)
    for workload, scripts in scripts_of(names):
        for name, lines in scripts:
            with open(f"{folder}/{name}.kf", "w", encoding="ascii") as script:
                script.writelines(f"{line}\n" for line in lines)
        print(workload)


if __name__ == "__main__":
    main()
