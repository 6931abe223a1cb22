#!/usr/bin/env python3
# SPDX-License-Identifier: MIT OR Apache-2.0
"""Looks whether the commands that documents show can be given.

    tools/commands.py             prints each program, target and option there that is not in the repository, and ends with 1 if
                                  there is one

A command is a line of an indented block, or a text in backticks, that begins with `make` (in backticks, `make -C`), or with the path
or the name of a program of this repository. Its program must be a file that can be run, a target one of that Makefile, and an option must occur in the
program's sources. tools/documents calls this. It also looks whether each program in tools explains itself with --help."""

import glob
import os
import re
import shlex
import subprocess
import sys

os.chdir(os.path.join(os.path.dirname(os.path.abspath(__file__)), ".."))
HISTORY = "CHANGELOG.md"  # may name what is no longer there
FOLDERS = re.compile(r"(\./kernfs_run|(\.ci|tools|tests|bench|c|fakesys)/[\w./-]+)$")
# The files in which a program's options are written, besides its own.
SOURCES = {"./kernfs_run": "crates/kf_run/src/*.rt", "fakesys/bin/": "fakesys/bin/* fakesys/python/*.py",
           "fakesys/test": "fakesys/test* fakesys/tests/*", "fakesys/machines/": "fakesys/machines/*", "c/test": "c/test*"}


def text_of(path):
    with open(path, encoding="utf-8", errors="replace") as file:
        return file.read()


def commands_in(path):
    """The commands that a document shows, each with its place."""
    is_code = False
    for at, line in enumerate(text_of(path).split("\n"), 1):
        is_code ^= line.startswith("```")
        if not is_code and line.startswith("    "):
            for part in re.split(r"&&|\||;", re.sub(r"(^|\s)#.*", "", line.strip().removeprefix("$ "))):
                yield f"{path}:{at}", part
        elif not is_code:
            yield from ((f"{path}:{at}", text) for text in re.findall(r"`(?!make [a-z])([^`]+)`", line))


def words_of(command):
    """The words of a command, without what stands before its program."""
    try:
        words = shlex.split(command)
    except ValueError:
        return []
    while words and (words[0] in ("sudo", "nice", "time", "rlwrap", "cd") or re.match(r"[A-Z_]+=", words[0])):
        words = words[1:]
    return words


def program_of(word):
    """The file of a program of this repository, or None."""
    if FOLDERS.match(word) and not re.search(r"\.\.|/out/|\.(md|c|h|hpp|kf|txt|edit|rs|tl|1|3)$", word):
        return word
    return f"fakesys/bin/{word}" if os.path.isfile(f"fakesys/bin/{word}") else None


def options_known(program):
    patterns = [program, *(more for start, them in SOURCES.items() if program.startswith(start) for more in them.split())]
    return "\n".join(text_of(path) for pattern in patterns for path in glob.glob(pattern) if os.path.isfile(path))


def wrong_target(words):
    """The first target of a `make` command that its Makefile does not have, or None."""
    folder = words[words.index("-C") + 1] if "-C" in words[:-1] else "."
    named = [it for at, it in enumerate(words) if at and re.fullmatch(r"[a-z][a-z-]*", it) and words[at - 1] != "-C"]
    files = [path for it in ("Makefile", "install.mk") if os.path.isfile(path := f"{folder}/{it}")]
    if not files:
        return None
    known = "".join(map(text_of, files))
    return next((f"make -C {folder} {it}" for it in named if not re.search(rf"^{it}:", known, re.M)), None)


def mistake_in(command):
    """What is wrong with a command, or None."""
    words = words_of(command)
    if words[:1] == ["make"]:
        target = wrong_target(words)
        return target and f"no target: {target}"
    program = program_of(words[0]) if words else None
    if not program or glob.has_magic(program):
        return None
    if not os.path.exists(program):
        return f"no program {program}"
    if os.path.isdir(program) or len(words) == 1:
        return None
    if not os.access(program, os.X_OK):
        return f"{program} cannot be run"
    known = options_known(program)
    own = words[1 : words.index("--")] if "--" in words else words[1:]
    options = [it.partition("=")[0].rstrip(":,.") for it in own if re.match(r"--[a-z]", it)]
    return next((f"{program} has no option {it}" for it in options if not re.search(rf"{it}(?![\w-])", known)), None)


def wrong_commands(documents):
    return [f"{place}: {wrong}" for path in documents if path != HISTORY
            for place, command in commands_in(path) if (wrong := mistake_in(command))]


def programs_without_help():
    """The programs in tools that do not explain themselves."""
    for path in sorted(glob.glob("tools/*")):
        if os.access(path, os.X_OK) and os.path.isfile(path):
            ran = subprocess.run([path, "--help"], capture_output=True, text=True, check=False)
            if ran.returncode or path not in ran.stdout or not re.match(r"(# |\"\"\")[A-Z]", text_of(path).split("\n")[2]):
                yield f"{path}: --help does not explain it, or its third line does not"


def main():
    if {"-h", "--help"} & set(sys.argv[1:]):
        print(__doc__)
        return 0
    findings = wrong_commands(sorted(glob.glob("*.md") + glob.glob("docs/*.md"))) + list(programs_without_help())
    print("\n".join(findings) or "commands: those in the documents can be given, and each program in tools explains itself")
    return 1 if findings else 0


if __name__ == "__main__":
    sys.exit(main())
