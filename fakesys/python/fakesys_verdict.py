# SPDX-License-Identifier: MIT OR Apache-2.0
"""How a run of a program ended, and whether that is a fault.

A fault is a signal that killed the program, a panic or a traceback in its output, a hang, or an exit status that no calm
run had. In a calm run nothing changes while the program runs, but a device may be absent from the start, or a file may
fail for good. So a status of a calm run is deliberate: the program noticed what is wrong, and says so."""
import re
import signal

from fakesys_points import shape_of

# A shell ends with 128 + N if signal N killed its command. These are the signals of a crash.
CRASHES = (
    signal.SIGILL,
    signal.SIGTRAP,
    signal.SIGABRT,
    signal.SIGBUS,
    signal.SIGFPE,
    signal.SIGSEGV,
    signal.SIGSYS,
)
# Lines with which a program reports its own crash, whatever its status is: Go, Rust, C with sanitizers.
PANIC = re.compile(
    r"^(?:panic: .*|fatal error: .*|thread '.*' panicked at .*|.*\bpanic serving .*"
    r"|.*\bERROR: \w+Sanitizer: .*|.*: runtime error: .*)$",
    re.MULTILINE,
)
# .. and Python: the line after the stack names the exception.
TRACEBACK = re.compile(r"^Traceback \(most recent call last\):\n(?:[ \t].*\n)*(.*)", re.MULTILINE)
NOTABLE = re.compile(
    r"panic:|panicked|panic serving|Traceback|fatal|Sanitizer|runtime error|[Aa]ssert|Segmentation|error while"
    r"|stack smashing|free\(\)|malloc|double free|corrupt"
)
ADDRESS = re.compile(r"\b0x[0-9a-f]+\b|\bpid \d+\b|\bgoroutine \d+\b")  # each run has others
SHOWN = 12  # lines of a report
WIDTH = 160  # bytes of a line of a report


class Ending:
    """How one run ended: with a code, as subprocess.Popen has it, or None if it hung; and what the program printed."""

    def __init__(self, code, said=b""):
        self.code, self.said = code, said.decode(errors="replace") if isinstance(said, bytes) else said

    def signal(self):
        """The number of the signal that killed it, or that killed the command of a shell; else None."""
        if self.code is None or 0 <= self.code and self.code - 128 not in CRASHES:
            return None
        return -self.code if self.code < 0 else self.code - 128

    def panic(self):
        """The line in which it reports a panic or an exception that nothing caught; else None."""
        if found := PANIC.search(self.said):
            return shown(found[0])
        if found := TRACEBACK.search(self.said):
            return shown(f"traceback: {found[1]}")
        return None

    def is_plain(self):
        """Whether it just ended with a status, so that only calm runs can show if the status is deliberate."""
        return self.code is not None and self.signal() is None and not self.panic()

    def what(self):
        """How it ended, in words."""
        if self.code is None:
            return "hangs"
        number = self.signal()
        if number is not None:
            return f"killed by {name_of(number)}"
        return self.panic() or f"status {self.code}"

    def kind(self):
        """The same, without the numbers that differ from run to run. A status is none of these."""
        return self.what() if self.is_plain() else shape_of(self.what())

    def telling(self):
        """The most notable lines of its output: from the first notable one on, or the last ones."""
        lines = self.said.rstrip().split("\n")
        first = next((at for at, line in enumerate(lines) if NOTABLE.search(line)), max(0, len(lines) - SHOWN))
        return [ADDRESS.sub("..", shown(line)) for line in lines[first : first + SHOWN]]

    def excerpt(self, count):
        """The first of these lines; of a traceback the last ones, which are the innermost call and the exception."""
        lines = self.telling()
        if lines[0].startswith("Traceback") and (found := TRACEBACK.search(self.said)):
            marks = set(" ^~")  # (Python marks a part of a line by a line of these)
            lines = [ADDRESS.sub("..", shown(line)) for line in found[0].split("\n") if set(line) - marks][-count:]
        return lines[:count]

    def headline(self):
        """The line of its output by which two crashes differ, or nothing."""
        first = self.telling()[0]
        return first if NOTABLE.search(first) else ""


class Verdict:
    """What counts as a fault: all but the accepted statuses, and what calm runs showed."""

    def __init__(self, accepted=(0,)):
        self.deliberate, self.panics = set(accepted), set()

    def learn(self, ending):
        """Takes the status of a calm run as deliberate. A crash is a fault even if a device is absent from the start."""
        if ending.is_plain():
            self.deliberate.add(ending.code)

    def accept(self, ending):
        """Takes all of a run for sound in which nothing at all was wrong with the tree."""
        self.learn(ending)
        if ending.panic():
            self.panics.add(ending.panic())
            self.deliberate.add(ending.code)

    def is_fault(self, ending):
        if ending.code is None or ending.signal() is not None:
            return True
        panic = ending.panic()
        return panic not in self.panics if panic else ending.code not in self.deliberate


def name_of(number):
    try:
        return signal.Signals(number).name
    except ValueError:  # a real-time signal
        return f"signal {number}"


def shown(line):
    """A line of a program as a report prints it: without control bytes, which a terminal would act on, and not too long."""
    return "".join(letter if letter.isprintable() or letter == "\t" else "?" for letter in line)[:WIDTH]
