#!/usr/bin/env python3
# SPDX-License-Identifier: MIT OR Apache-2.0
"""Compares two programs on random scripts:  tests/fuzz.py PROGRAM PROGRAM COUNT [SEED]

Their replies must be the same bytes. PROGRAM may have arguments after it. A script with different replies is kept in a
temporary file."""
import random
import subprocess
import sys
import tempfile

NAMES = ["a", "b", "ab", "B", "c", "x" * 255]
ODD_NAMES = ["", ".", "..", "\0", "x" * 256, "a/b", "\xff"]
ODD_LINES = [
    "frob /a", "mkdir", "mkdir ", "mkdir  /a", "mkdir /a on", "mkdir /a off now", "file", "file /a",
    "file /a 648 x", "file  644 x", "file /a 0644 x", "link /a", "ls", "ls / /", "commands ", "compact now",
    "@1 ls /", " ls /", "LS /", "read a 0", "read a 4294967296 1", "read a 00000000000 1", "read a 0 65536",
    "read a 0 000001", "read A 0 1", "read ab 0 1", "read a -1 1", "write", "write A x", "open a /a x",
    "open a /a wr", "open 1 /a r", "poll aa", "close ", "\0", "", "x" * 8192, "x" * 8193,
    "file /a 644 " + "t" * 8180, "file /a 644 " + "t" * 8181, "write a " + "w" * 20_000,
]
# For a program with workers: the back end for one caller replies to these lines without workers.
WORKER_LINES = [
    "plug", "plug d0", "plug d0 on and on", "plug  x", "unplug d0", "unplug", "unplug d0 now", "wait",
    "wait 1",
]


def name(rng):
    return rng.choice(ODD_NAMES if rng.random() < 0.04 else NAMES)


def path(rng):
    odd = rng.random()
    if odd < 0.02:
        return rng.choice(["/", "", "a", "//", "/a/", "/a//b", "a/b"])
    return "".join(f"/{name(rng)}" for _ in range(rng.choice([1, 1, 1, 2, 2, 3, 4])))


def text(rng):
    length = rng.choice([0, 1, 5, 20, 4094, 4095, 4096, 4097, 5000])
    return "".join(rng.choice("ab c") for _ in range(min(length, 30))).ljust(length, "z")


def line(rng, odd_lines):
    letter = rng.choice("abcd")
    kind = rng.randrange(26)
    if kind < 4:
        return f"mkdir {path(rng)}{rng.choice(['', '', ' off'])}"
    if kind < 8:
        return f"file {path(rng)} {rng.choice(['644', '644', '444', '222', '000', '777'])} {text(rng)}"
    if kind < 11:
        return f"open {letter} {path(rng)} {rng.choice(['r', 'w', 'rw'])}"
    if kind < 13:
        offset, most = rng.choice([0, 0, 0, 1, 4, 4000, 4294967295]), rng.choice([0, 1, 16, 4096, 65535])
        return f"read {letter} {offset} {most}"
    calls = [
        lambda: f"link {path(rng)} {path(rng)}",
        lambda: f"write {letter} {text(rng)}",
        lambda: f"mv {path(rng)} {rng.choice([path(rng), '/'])} {name(rng)}",
        lambda: f"rm {path(rng)}",
        lambda: f"{rng.choice(['activate', 'stat'])} {path(rng)}",
        lambda: f"ls {rng.choice([path(rng), '/'])}",
        lambda: f"readlink {path(rng)}",
        lambda: f"notify {path(rng)}",
        lambda: f"poll {letter}",
        lambda: f"close {letter}",
        lambda: f"hide {path(rng)}",
        lambda: f"show {path(rng)}",
        lambda: rng.choice(["commands", "compact", rng.choice(odd_lines)]),
    ]
    return calls[kind - 13]()


def script(rng, odd_lines):
    lines = [line(rng, odd_lines) for _ in range(rng.randrange(1, 300))]
    return "\n".join(lines).encode("latin-1") + rng.choice([b"\n", b""])


def run(program, slots, lines):
    ran = subprocess.run([*program.split(), "--slots", str(slots)], input=lines, capture_output=True, check=False)
    return ran.returncode, ran.stdout, ran.stderr


def main():
    if len(sys.argv) not in (4, 5):
        sys.exit("tests/fuzz.py PROGRAM PROGRAM COUNT [SEED]")
    first, second = sys.argv[1:3]
    seed = sys.argv[4] if len(sys.argv) == 5 else "0"
    knows_workers = all(run(it, 2, b"wait\n")[1] == b"ok\n" for it in (first, second))
    odd_lines = ODD_LINES + (WORKER_LINES if knows_workers else [])
    for number in range(int(sys.argv[3])):
        rng = random.Random(f"{seed}.{number}")
        slots = rng.choice([1, 2, 3, 5, 8, 16, 64, 4096])
        lines = script(rng, odd_lines)
        if run(first, slots, lines) != run(second, slots, lines):
            with tempfile.NamedTemporaryFile(suffix=".kf", delete=False) as kept:
                kept.write(lines)
            sys.exit(f"script {number} of seed {seed} has other replies, with --slots {slots}: {kept.name}")
    print(f"{sys.argv[3]} random scripts have the same replies")


if __name__ == "__main__":
    main()
