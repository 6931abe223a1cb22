# SPDX-License-Identifier: MIT OR Apache-2.0
"""Scripts about what lies in high slots, and about devices of high numbers, with the replies that they must have. A table, a tag
or a number that is one bit too short would show here."""

from lengths import ONE_CALLER, Run

LETTERS = b"-0123456789ABCDEFGHIJKLMNOPQRSTUVWXYZ_abcdefghijklmnopqrstuvwxyz"
MOST_SLOTS = 1_048_576
# Files in these slots are used. With workers only the lower ones have words for look-ups without the lock.
USED = (65_534, 65_535, 65_536, 65_537)
# So many names a worker lists.
NAMES = 70_000
# Devices that are used, by the number of their plug.
PLUGS = (1, 255, 256, 257, 4_095, 4_096, 4_097, 65_535, 65_536, 65_537)


def name_of(number):
    """A name of four letters, or three: what workers are given must fit into 1 MiB."""
    size = 3 if number < len(LETTERS) ** 3 else 4
    return bytes(LETTERS[number // len(LETTERS) ** at % len(LETTERS)] for at in range(size))


def filled(slots, used):
    """A tree whose slots are all taken: by a directory `/d`, by files in the slots that are used, and by other directories.
    The names of these."""
    run, names = Run(), []
    run.ask(b"mkdir /d", b"ok 1.1")
    for slot in range(2, slots):
        if slot in used:
            line = b"file /at%d 666 first %d" % (slot, slot)
        else:
            names.append(name_of(len(names)))
            line = b"mkdir /" + names[-1]
        run.ask(line, b"ok %d.1" % slot)
    return run, names


def use(run, slot, ahead):
    """A file is opened, read, written, polled, hidden, shown, moved and removed. It stays open until it is gone."""
    name, first, second = b"/at%d" % slot, b"first %d" % slot, b"second %d" % slot
    for line, reply in (
        (b"open f %s rw" % name, b"ok"),
        (b"poll f", b"changed"),
        (b"read f 0 99", first),
        (b"poll f", b"same"),
        (b"write f " + second, b"%d" % len(second)),
        (b"read f 2 3", first[2:5]),
        (b"notify " + name, b"ok"),
        (b"poll f", b"changed"),
        (b"read f 0 99", second),
        (b"hide " + name, b"ok"),
        (b"read f 0 99", b"err NoDevice 19"),
        (b"stat " + name, b"file mode=666 hidden"),
        (b"show " + name, b"ok"),
        (b"mv %s /d %d" % (name, slot), b"ok"),
        (b"open g /d/%d r" % slot, b"ok"),
        (b"read g 0 99", second),
        (b"close g", b"ok"),
        (b"rm /d/%d" % slot, b"ok"),
        (b"write f more", b"err NoDevice 19"),
        (b"poll f", b"changed"),
        (b"close f", b"ok"),
    ):
        run.ask(ahead + line, reply)


def use_again(run, slot, ahead):
    """The next file of the slot has another text."""
    run.ask(ahead + b"open f /again%d r" % slot, b"ok")
    run.ask(ahead + b"read f 0 99", b"third %d" % slot)
    run.ask(ahead + b"close f", b"ok")


def by_one_caller():
    """Files in the slots round 65,536 and in the last of all."""
    used = (*USED, MOST_SLOTS - 1)
    run, _ = filled(MOST_SLOTS, used)
    for slot in used:
        use(run, slot, b"")
    for slot in used:
        run.ask(b"file /again%d 444 third %d" % (slot, slot), b"ok %d.2" % slot)
    for slot in used:
        use_again(run, slot, b"")
    return (*ONE_CALLER, "--slots", str(MOST_SLOTS)), run


def by_workers(count):
    """The same files, each by one of the workers, and a listing of all other names by the last of them."""
    run, names = filled(2 + len(USED) + NAMES, USED)
    turns = [(slot, b"@%d " % (1 + at % count)) for at, slot in enumerate(USED)]
    run.ask(b"wait", b"ok")
    for slot, ahead in turns:
        use(run, slot, ahead)
    run.ask(b"wait", b"ok")
    run.ask(b"@%d ls /" % count, b" ".join(sorted([b"d", *names])))
    run.ask(b"wait", b"ok")
    for slot in USED:
        run.ask(b"file /again%d 444 third %d" % (slot, slot), b"ok %d.2" % slot)
    run.ask(b"wait", b"ok")
    for slot, ahead in turns:
        use_again(run, slot, ahead)
    return ("--workers", str(count), "--slots", str(2 + len(USED) + NAMES)), run


def ask_device(run, number, text):
    """A device shows its text and its number."""
    for file, wanted in ((b"value", text), (b"serial", b"%d" % number)):
        run.ask(b"open f /devices/%s/%s r" % (name_of(number), file), b"ok")
        run.ask(b"read f 0 99", wanted)
        run.ask(b"close f", b"ok")


def plugs():
    """Devices are plugged. Some show their text and number, and keep what is stored in them."""
    run = Run()
    for number in range(1, PLUGS[-1] + 1):
        run.ask(b"plug %s text %d" % (name_of(number), number) if number in PLUGS else b"plug " + name_of(number),
                b"ok %d.1" % (5 * number - 1))
    for number in PLUGS:
        ask_device(run, number, b"text %d" % number)
        run.ask(b"open f /devices/%s/value w" % name_of(number), b"ok")
        run.ask(b"write f stored %d" % number, b"%d" % len(b"stored %d" % number))
        run.ask(b"close f", b"ok")
    for number in PLUGS:
        ask_device(run, number, b"stored %d" % number)
    return ("--workers", "1", "--slots", str(5 * PLUGS[-1] + 4)), run
