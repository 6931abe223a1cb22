# SPDX-License-Identifier: MIT OR Apache-2.0
"""Scripts whose names, texts, lines and listings have each length around each bound, with the expected replies."""

from heapq import heappop, heappush
from zlib import crc32

NAME, PAGE, LINE, TEXT = 255, 4096, 8192, b"err Line 22"
ONE_CALLER, ONE_WORKER = (), ("--workers", "1")
# The runner of a script's lines: the arguments that ask for it, and the prefix of each line.
SEATS = {"one caller": (ONE_CALLER, b""), "one worker": (ONE_WORKER, b""), "a worker's lines": (ONE_WORKER, b"@1 ")}
# A script for workers is read whole, so its size has a bound.
LONGEST_SCRIPT = 1_048_576
# Bytes in which neighbours always differ, so that a text that was cut or moved is another one.
BYTES = bytes(33 + 7 * at % 89 for at in range(89)) * 800


class Run:
    """A script that grows, and its replies. It knows the slot and the generation of each new node."""

    def __init__(self, slots=1024, seat="one caller"):
        self.lines, self.replies, self.size = [], [], 0
        self.options, self.ahead = SEATS[seat]
        # how long a line may be without its prefix
        self.line = LINE - len(self.ahead)
        self.unused, self.generations = list(range(1, slots)), [0] * slots

    def ask(self, line, reply):
        self.lines.append(self.ahead + line)
        self.replies.append(reply if len(line) <= self.line else TEXT)
        self.size += len(self.lines[-1]) + 1

    def make(self, line):
        """A line that creates a node. Returns the slot that it takes: the lowest free one, with its next generation."""
        slot = heappop(self.unused)
        self.generations[slot] += 1
        self.ask(line, b"ok %d.%d" % (slot, self.generations[slot]))
        return slot

    def free(self, line, slots):
        """A line that is accepted and leaves these slots free."""
        self.ask(line, b"ok")
        for slot in slots:
            heappush(self.unused, slot)

    def script(self):
        return b"".join(line + b"\n" for line in self.lines)

    def output(self):
        return b"".join(reply + b"\n" for reply in self.replies)


def cut(piece, lengths, slots, seat):
    """Runs that each have some of the lengths, within the bound for workers."""
    run = Run(slots, seat)
    for length in lengths:
        next_one = Run(slots, seat)
        piece(next_one, length)
        if run.size > 0 and run.size + next_one.size > LONGEST_SCRIPT:
            yield run
            run = Run(slots, seat)
        piece(run, length)
    yield run


def names(run, length):
    """The length is checked first, and a name of no bytes is not a name."""
    name = BYTES.replace(b"/", b"_")[:length]
    for command in (b"mkdir /%s", b"file /%s 644 x", b"link /%s /a", b"mv /a / %s"):
        slot = run.make(b"mkdir /a")
        line = command % name
        if 1 <= length <= NAME:
            made = [slot]
            if line.startswith(b"mv"):
                run.ask(line, b"ok")
                run.ask(b"ls /", name)
            else:
                made.append(run.make(line))
                run.ask(b"ls /", b" ".join(sorted([name, b"a"])))
                run.free(b"rm /a", made[:1])
            run.free(b"rm /" + name, made[-1:])
        else:
            # words are never empty; a path may end in a slash, and the name after it is not allowed
            refusal = b"err NameTooLong 36" if length else TEXT if line.startswith(b"mv") else b"err Invalid 22"
            run.ask(line, refusal)
            run.free(b"rm /a", [slot])


def names_in_order(run, length):
    """Names of this length that differ in one byte, and each with one more byte, in byte order."""
    same = b"k" * length
    chosen = {same} | {same[:at] + bytes([byte]) + same[at + 1 :] for at in range(length) for byte in (1, 127, 128, 255)}
    chosen = [name + more for name in chosen for more in (b"", b"\1")]
    slots = [run.make(b"mkdir /d")] + [run.make(b"file /d/%s 444" % name) for name in sorted(chosen, key=crc32)]
    run.ask(b"ls /d", b" ".join(sorted(chosen)))
    run.free(b"rm /d", slots)


def first_texts(run, length):
    """A file's first text is kept whole, and shown up to one byte less than a page."""
    line = b"file /t 666 " + BYTES[:length]
    if len(line) > run.line:
        run.ask(line, TEXT)
        run.ask(b"stat /t", b"err NoEntry 2")
        return
    slot = run.make(line)
    run.ask(b"open f /t r", b"ok")
    run.ask(b"read f 0 65535", BYTES[: min(length, PAGE - 1)])
    run.ask(b"close f", b"ok")
    run.free(b"rm /t", [slot])


def writes(run, length):
    """A write passes at most one page, which becomes the whole text; a write of no bytes changes nothing."""
    if not run.lines:
        run.make(b"file /t 666 old")
        run.ask(b"open f /t rw", b"ok")
        run.ask(b"read f 0 65535", b"old")
        run.is_old = True
    line = b"write f " + BYTES[:length]
    run.ask(line, b"%d" % min(length, PAGE))
    if 0 < length and len(line) <= run.line:
        run.text = BYTES[: min(length, PAGE - 1)]
        run.is_old = False
    run.ask(b"read f 0 65535", b"old" if run.is_old else run.text)


def stored(run, length):
    """A text of this length replaces the longest one, and a text of one byte replaces that."""
    if not run.lines:
        run.make(b"file /t 666 old")
        run.ask(b"open f /t rw", b"ok")
    for size in (PAGE, length, 1):
        run.ask(b"write f " + BYTES[:size], b"%d" % size)
        run.ask(b"read f 0 65535", BYTES[: min(size or PAGE, PAGE - 1)])


def reads(run, length):
    """A read returns the bytes from its offset on, but not more than it asks for."""
    shown = BYTES[: PAGE - 1]
    if not run.lines:
        run.make(b"file /t 444 " + BYTES[: PAGE + 1])
        run.ask(b"open f /t r", b"ok")
    run.ask(b"read f 0 %d" % length, shown[:length])
    run.ask(b"read f %d 65535" % length, shown[length:])
    run.ask(b"read f 5 %d" % length, shown[5 : 5 + length])


def lines(run, length):
    """A path that leads nowhere, in a line of this length."""
    line = b"ls /" + b"n" * max(length - 4 - len(run.ahead), 1)
    run.ask(line, b"err NoEntry 2")


def names_of(length):
    """Names of this length in total, with a space between two, in byte order."""
    chosen = []
    while length > NAME:
        # (the rest must be enough for a space and one more byte)
        size = NAME - 1 if length == NAME + 1 else NAME
        chosen.append((b"%04d" % len(chosen)).ljust(size, b"n"))
        length -= size + 1
    return chosen + [b"z" * length]


def listings(run, length):
    """A listing is whole, however long."""
    chosen = names_of(length)
    slots = [run.make(b"mkdir /d")] + [run.make(b"file /d/%s 444" % name) for name in reversed(chosen)]
    run.ask(b"ls /d", b" ".join(chosen))
    run.free(b"rm /d", slots)


def link_texts(run, length):
    """A link's text has the names on the way to its target, which fit in a line."""
    chosen = names_of(min(length, run.line - len(b"link /l /")))
    slots = [run.make(b"mkdir /" + b"/".join(chosen[: count + 1])) for count in range(len(chosen))]
    slots.append(run.make(b"link /l /" + b"/".join(chosen)))
    run.ask(b"readlink /l", b"/".join(chosen))
    run.free(b"rm /l", slots[-1:])
    run.free(b"rm /" + chosen[0], slots[:-1])


def ways_up(run, length):
    """A link in a directory of this depth, to a directory beside the topmost one above it."""
    slots = [run.make(b"mkdir /t")] + [run.make(b"mkdir " + b"/a" * count) for count in range(1, length + 1)]
    slots.append(run.make(b"link %s/l /t" % (b"/a" * length)))
    run.ask(b"readlink %s/l" % (b"/a" * length), b"../" * length + b"t")
    run.free(b"rm /t", slots[:1])
    run.free(b"rm /a", slots[1:])


def many_names(run, length):
    """A directory that takes all slots, in a listing. For workers the names are short enough to fit."""
    if run.options:
        length = min(length, (LONGEST_SCRIPT - 100) // 4095 - len(run.ahead + b"mkdir /\n"))
    chosen = [b"%04d" % (at * 2039 % 4095) for at in range(4095)]
    chosen = [name.ljust(length, b"n") for name in chosen]
    for name in chosen:
        run.make(b"mkdir /" + name)
    run.ask(b"ls /", b" ".join(sorted(chosen)))
    run.ask(b"mkdir /one_more", b"err NoSpace 28")


def around(*bounds, by=6):
    return sorted({at for bound in bounds for at in range(max(bound - by, 0), bound + by + 1)})


# The tests, by name: a piece of a script, its lengths, and the slots of its tree.
TRIED = {
    "names of 0 to 300 bytes": (names, range(301), 1024),
    "names that differ in one byte, in byte order": (names_in_order, range(1, 26), 1024),
    "first texts of each length that a line can have, and more": (first_texts, range(LINE - 8), 1024),
    "writes of each length that a line can have, and more": (writes, range(LINE - 4), 1024),
    "reads of each length up to a page, at each offset": (reads, range(PAGE + 4), 1024),
    "texts that grow and shrink": (stored, [at for most in (4096, 4095, 2000, 40) for at in (most, 1, most - 1, 0, 10)], 1024),
    "reads of the greatest lengths": (reads, [8191, 8192, 16_384, 65_534, 65_535], 1024),
    "lines of each length up to the longest, and more": (
        lines,
        [*range(5, 8300), *around(16_384, 65_536, 131_072, 1_000_000, by=2)],
        1024,
    ),
    "listings around each bound": (listings, [*range(1, 300), *around(4096, 8192, 16_384, 65_536)], 1024),
    "texts of links around each bound": (link_texts, [*range(1, 4), *around(256, 4096), *range(8170, 8184)], 1024),
    "texts of links that go up": (ways_up, [1, 2, 100, 600], 1024),
    "4,095 names, listed": (many_names, [4], 4096),
    "4,095 names of 200 bytes, listed": (many_names, [200], 4096),
    "4,095 names of the greatest length, listed": (many_names, [NAME], 4096),
}


def runs(name, seat):
    """The runs of one of these, each with its arguments."""
    piece, chosen, slots = TRIED[name]
    for run in cut(piece, chosen, slots, seat):
        yield run, ("--slots", str(slots), *run.options)
