# SPDX-License-Identifier: MIT OR Apache-2.0
"""Crowds of workers. Four work on six shared paths whose directories come and go, and each on its own file, directory and link:
some order of the lines must explain each reply. Sixteen check that each round ends before the next."""

from random import Random

WORKERS, ROUNDS, STEPS, SLOTS = (1, 2, 3, 4), 100, 20, 64
PATHS = (b"/a", b"/a/x", b"/a/y", b"/b", b"/b/x", b"/b/y")
OK, KEY = b"ok", b"ok KEY"
BUSY, EXISTS, INVALID, IS_DIR = b"err Busy 16", b"err Exists 17", b"err Invalid 22", b"err IsDir 21"
NO_DEVICE, NO_ENTRY, NO_SPACE, NOT_DIR = b"err NoDevice 19", b"err NoEntry 2", b"err NoSpace 28", b"err NotDir 20"
DIR, FILE = b"dir subdirs=0 nlink=2 ", b"file mode=666 "


class Worker:
    """What is known of a worker: the rounds in which it opened its open shared files; the text of its file, whether that
    is hidden and whether it is in the worker's directory; whether its link exists."""

    def __init__(self):
        self.opened, self.own = {}, b"new"
        self.is_hidden = self.is_moved = self.is_linked = False

    def about_a_path(self, kind, path, removed):
        """The replies that some order explains for a line about a shared path, if a node there was last removed in the round
        `removed`, or in this one."""
        is_dir, opened = len(path) == 2, self.opened.get(path)
        if kind in ("read", "write", "close") and not opened:
            return (INVALID,)
        if kind in ("read", "write") and removed > opened:
            return (NO_DEVICE,)
        if kind == "open" and opened:
            return (BUSY,)
        return {
            "make": (KEY, EXISTS, NO_ENTRY),
            "rm": (OK, NO_ENTRY),
            "open": (IS_DIR, NO_ENTRY) if is_dir else (OK, NO_ENTRY, NO_DEVICE),
            "read": (path, NO_DEVICE),
            "write": (b"4", NO_DEVICE),
            "close": (OK,),
            "ls": (b"", b"x", b"y", b"x y", NO_ENTRY) if is_dir else (NOT_DIR, NO_ENTRY),
            "stat": (*((DIR if is_dir else FILE) + it for it in (b"live", b"removing")), NO_ENTRY),
            "notify": (IS_DIR if is_dir else OK, NO_ENTRY),
            "activate": (OK, NO_ENTRY),
            "link": (EXISTS if self.is_linked else KEY, NO_ENTRY),
        }.get(kind)

    def about_its_own(self, kind):
        """The reply to a line about the worker's own nodes."""
        if kind == "hide":
            return NO_ENTRY if self.is_moved else BUSY if self.is_hidden else OK
        if kind == "show":
            return NO_ENTRY if self.is_moved else OK if self.is_hidden else INVALID
        if kind in ("write z", "read z"):
            return NO_DEVICE if self.is_hidden else b"3" if kind == "write z" else self.own
        may_be = {
            "move": not self.is_hidden and not self.is_moved,
            "move back": self.is_moved,
            "rm link": self.is_linked,
            "compact": True,
        }
        return OK if may_be[kind] else NO_ENTRY

    def note(self, kind, path, number, reply, now):
        """Keeps what a line with this reply has changed."""
        if kind == "open" and reply == OK:
            self.opened[path] = now
        elif kind == "close":
            self.opened.pop(path, None)
        elif kind in ("hide", "show") and not self.is_moved:
            self.is_hidden = kind == "hide"
        elif kind == "move" and not self.is_hidden:
            self.is_moved = True
        elif kind == "move back":
            self.is_moved = False
        elif kind == "link" and reply == KEY:
            self.is_linked = True
        elif kind == "rm link":
            self.is_linked = False
        elif kind == "write z" and not self.is_hidden:
            self.own = number


def line_of(own, kind, path, number):
    """The line of a worker, whose number is `own`."""
    letter = b"abcdef"[PATHS.index(path) :][:1]
    return b"@%d " % own + {
        "make": b"mkdir " + path if len(path) == 2 else b"file %s 666 %s" % (path, path),
        "open": b"open %s %s rw" % (letter, path),
        "read": b"read %s 0 99" % letter,
        "write": b"write %s %s" % (letter, path),
        "close": b"close " + letter,
        "hide": b"hide /own%d" % own,
        "show": b"show /own%d" % own,
        "write z": b"write z " + number,
        "read z": b"read z 0 9",
        "move": b"mv /own%d /dir%d moved" % (own, own),
        "move back": b"mv /dir%d/moved / own%d" % (own, own),
        "link": b"link /link%d %s" % (own, path),
        "rm link": b"rm /link%d" % own,
        "compact": b"compact",
    }.get(kind, kind.encode() + b" " + path)


KINDS = "make make rm open open read read write close ls stat notify activate link hide show move compact".split()
KINDS += ["move back", "rm link", "write z", "read z"]


def crowd(seed):
    """What workers do in each round."""
    chance = Random(seed)
    step = lambda own: (own, chance.choice(KINDS), chance.choice(PATHS), b"%03d" % chance.randrange(1000))
    return [[step(own) for _ in range(STEPS) for own in WORKERS] for _ in range(ROUNDS)]


def lines_of(rounds):
    """14 lines create what is needed. After the rounds all is closed, shown and removed, and each slot is used again."""
    yield from (line % own for own in WORKERS for line in (b"file /own%d 666 new", b"mkdir /dir%d"))
    yield b"wait"
    yield from (b"@%d open z /own%d rw" % (own, own) for own in WORKERS)
    yield b"wait"
    for steps in rounds:
        yield from (line_of(*step) for step in steps)
        yield b"wait"
    for own in WORKERS:
        yield from (b"@%d close %c" % (own, letter) for letter in b"abcdefz")
        yield from (b"@%d " % own + line % own for line in (b"show /own%d", b"rm /own%d", b"rm /dir%d", b"rm /link%d"))
    yield from (b"wait", b"rm /a", b"rm /b", b"compact", b"ls /", b"commands")
    yield from (b"mkdir /%d" % at for at in range(SLOTS))


def unexplained(rounds, replies):
    """None, or the first reply that no order of the lines explains, or what is left in the tree at the end."""
    workers, removed = {own: Worker() for own in WORKERS}, dict.fromkeys(PATHS, 0)
    replies = iter(replies[14:])
    for now, steps in enumerate(rounds, start=1):
        gone = {}
        for own, kind, path, number in steps:
            reply = next(replies, None)
            told = KEY if reply and reply.startswith(b"ok ") else reply
            wanted = workers[own].about_a_path(kind, path, removed[path]) or (workers[own].about_its_own(kind),)
            if told not in wanted:
                return f"round {now}: {line_of(own, kind, path, number)!r} is answered {reply!r}, and not one of {wanted!r}"
            workers[own].note(kind, path, number, told, now)
            if kind == "rm" and told == OK:
                gone.update((it, now) for it in PATHS if it.startswith(path))
        removed.update(gone)
        next(replies, None)
    end = list(replies)[11 * len(WORKERS) + 4 :]
    is_bare = end[:2] == [b"", b"0"] and all(it.startswith(b"ok ") for it in end[2:-1]) and end[-1:] == [NO_SPACE]
    return None if is_bare and len(end) == 2 + SLOTS else f"at the end: {end!r}"


def rounds_of_sixteen():
    """Sixteen workers each move a directory to and fro, and the next round counts the commands."""
    names = range(1, 17)
    lines = [b"mkdir /%d" % it for it in names] + [b"wait"]
    replies = [b"ok %d.1" % it for it in names] + [b"ok"]
    count = 16
    for line in (b"@%d mv /%d / m%d", b"@%d mv /m%d / %d") * 100:
        lines += [line % (it, it, it) for it in names]
        replies += [OK] * 16
        count += 16
    for line in (b"wait", b"@16 commands", b"commands"):
        lines.append(line)
        replies.append(OK if line == b"wait" else b"%d" % count)
    return lines, replies
