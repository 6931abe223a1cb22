# SPDX-License-Identifier: MIT OR Apache-2.0
"""The reports of an exploration: on standard output, as JSON, and as the XML of JUnit."""
import contextlib
import json
import os
import shlex
import signal
from xml.sax.saxutils import escape, quoteattr

import fakesys_run

SHOWN = 4  # lines of a program's output in a find
TIMES = 3  # how often a find is repeated


def again(options, line):
    """The command line that repeats a find."""
    words = ["fakesys", "explore", "--at", line]
    words += ["-a"] * options.all + ["-n"] * options.network
    for name in "slots", "order", "keep", "poke":
        value = getattr(options, name)
        words += [f"--{name}", str(value)] if value is not None else []
    for name, default in ("hang", 10), ("calm", 10), ("ok", [0]):
        value = getattr(options, name)
        words += [f"--{name}", ",".join(map(str, value)) if name == "ok" else f"{value:g}"] if value != default else []
    return shlex.join([*words, options.description, "--", *options.command])


def show(options, find):
    """Prints a find at once, since the exploration may take long. If nobody reads on, as after `| head`, the program ends."""
    lines = [
        f"{'KNOWN' if find.is_known else 'FOUND'}: {find.ending.what()}",
        f"    {find.line()}",
        *(f"      | {line}" for line in find.ending.excerpt(SHOWN) if line),
        f"  repeated {find.again} of {TIMES} times:",
        f"  {again(options, find.line())}",
    ]
    try:
        print("\n".join(lines), flush=True)
    except BrokenPipeError:
        os._exit(128 + signal.SIGPIPE)


class Files:
    """The files of the reports. They are opened before the first run, so that a bad name is noticed then."""

    def __init__(self, options):
        self.options, self.stack, self.opened = options, contextlib.ExitStack(), {}

    def __enter__(self):
        for kind in ("json", "junit"):
            if name := getattr(self.options, kind):
                try:
                    # (its text stays until there is a new one)
                    file = open(name, "a", encoding="utf-8", errors="backslashreplace")
                except OSError as error:
                    raise fakesys_run.Refused(f"{name}: {error.strerror}") from None
                self.opened[kind] = self.stack.enter_context(file)
        return self

    def __exit__(self, *_):
        self.stack.close()

    def write(self, report):
        for kind, file in self.opened.items():
            with contextlib.suppress(OSError):  # if it is a pipe
                file.truncate(0)
            file.write(getattr(report, kind)())


class Report:
    def __init__(self, options, points, tried, finds):
        self.options, self.points, self.tried, self.finds = options, points, tried, finds

    def failing(self):
        """The finds that count."""
        return [find for find in self.finds if not find.is_known]

    def print(self):
        """Prints what is known only at the end."""
        for find in self.finds:
            if len(find.points) > 1:
                print(f"{len(find.points)} points end like this one: {find.line()}")
        refused = [happened["refused"] for _, happened in self.tried if "refused" in happened]
        if refused:
            print(f"{len(refused)} points could not be tried: {readable(refused[0].splitlines()[0])}")
        if missed := sum(not happened.get("is_reached", True) for _, happened in self.tried):
            print(f"in {missed} runs the program did not make the step")
        if left := len(self.points) - len(self.tried):
            print(f"{left} points were not tried: --runs or --seconds sets the limit")
        print(f"{len(self.points)} points, {len(self.tried)} runs, {len(self.failing())} finds")

    def json(self):
        finds = [
            {
                "what": find.ending.what(),
                "line": find.line(),
                "points": len(find.points),
                "repeated": find.again,
                "known": find.is_known,
                "output": find.ending.telling(),
                "again": again(self.options, find.line()),
            }
            for find in self.finds
        ]
        whole = {
            "description": self.options.description,
            "command": self.options.command,
            "points": len(self.points),
            "runs": len(self.tried),
            "finds": finds,
        }
        return json.dumps(whole, indent=2) + "\n"

    def junit(self):
        """A test case for each run. One that is part of a find fails, or is skipped if that find is known."""
        find_of = {point: find for find in self.finds for point in find.points}
        failures = sum(not find_of[point].is_known for point, _ in self.tried if point in find_of)
        known = sum(find_of[point].is_known for point, _ in self.tried if point in find_of)
        lines = [f'<testsuite name="fakesys explore" tests="{len(self.tried)}" failures="{failures}" skipped="{known}">']
        for point, happened in self.tried:
            lines.append(f"  <testcase classname={quoteattr(point.action)} name={quoteattr(readable(point.line()))}>")
            if point in find_of:
                lines.append(outcome(find_of[point], happened))
            lines.append("  </testcase>")
        return '<?xml version="1.0" encoding="UTF-8"?>\n' + "\n".join([*lines, "</testsuite>", ""])


def outcome(find, happened):
    message = quoteattr(readable(find.ending.what()))
    if find.is_known:
        return f"    <skipped message={message}/>"
    return f"    <failure message={message}>{escape(readable(happened['said'][-2000:]))}</failure>"


def readable(text):
    """A text without the bytes that XML may not have."""
    return "".join(letter if letter.isprintable() or letter in "\n\t" else "?" for letter in text)
