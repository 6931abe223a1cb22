# SPDX-License-Identifier: MIT OR Apache-2.0
"""Scripts that make large trees, with the expected replies: every slot in one directory and in one chain, with few slots and
with the maximum, links across a chain, names of each length, and a long list of commands."""

from lengths import BYTES, NAME, Run

# For most scripts, three of which fit in a script for workers; and the maximum.
SLOTS, MOST_SLOTS = 4096, 1_048_576
# The program needs about 128 KiB, and a function that used stack for each node of a chain would need more than the rest.
STACK = 160 * 1024


def name_of(number):
    """A name that needs an allocation; the names are ordered as the numbers are."""
    return b"%04d" % number + b"-" * 26


def shuffled(count):
    """The numbers below this one, in another order. (It shares no divisor with the step.)"""
    return [at * 2039 % count for at in range(count)]


def emptied(run, top, slots):
    """A tree that takes all slots is compacted and removed."""
    run.ask(b"mkdir /more", b"err NoSpace 28")
    run.ask(b"activate /%s" % top, b"ok")
    run.ask(b"compact", b"ok")
    run.ask(b"commands", b"%d" % len(slots))
    run.free(b"rm /%s" % top, slots)
    run.ask(b"ls /", b"")
    run.ask(b"compact", b"ok")
    run.ask(b"commands", b"0")


def one_directory(run):
    """Filled, not activated at first."""
    slots, count = [run.make(b"mkdir /d off")], len(run.unused)
    names = [b"%07d" % at for at in shuffled(count)]
    slots += [run.make(b"mkdir /d/%s off" % name) for name in names]
    run.ask(b"ls /", b"")
    run.ask(b"activate /d", b"ok")
    run.ask(b"ls /d", b" ".join(sorted(names)))
    run.ask(b"stat /d", b"dir subdirs=%d nlink=%d live" % (count, count + 2))
    emptied(run, b"d", slots)


def put_above(run, count):
    """This many directories, each put above `/a`, whose name it takes. Returns their slots."""
    slots = []
    for _ in range(count):
        slots.append(run.make(b"mkdir /b"))
        run.ask(b"mv /a /b a", b"ok")
        run.ask(b"mv /b / a", b"ok")
    return slots


def one_chain(run):
    """A line is too short for the path to the last directory."""
    slots = [run.make(b"mkdir /a"), *put_above(run, len(run.unused))]
    run.ask(b"ls " + b"/a" * min(SLOTS - 2, (run.line - len(b"ls ")) // 2), b"a")
    run.ask(b"stat /a", b"dir subdirs=1 nlink=3 live")
    run.ask(b"mv /a %s x" % (b"/a" * 1000), b"err Invalid 22")
    emptied(run, b"a", slots)


def three_times(fill):
    """Fills all slots, three times."""
    return lambda run: [fill(run) for _ in range(3)]


def links_across(run):
    """From the last directory up to one beside the first, as far as a line leads; and from the root down to the last."""
    up, down = (run.line - len(b"readlink /u")) // 2, 4092
    for line in (b"mkdir /t", b"mkdir /a", b"link /a/u /t", b"link /d /a"):
        run.make(line)
    put_above(run, up - 1)
    run.ask(b"readlink %s/u" % (b"/a" * up), b"../" * up + b"t")
    run.ask(b"readlink /d", b"/".join([b"a"] * up))
    put_above(run, down - up)
    run.ask(b"mkdir /more", b"err NoSpace 28")
    run.ask(b"readlink /d", b"/".join([b"a"] * down))


def removed_one_by_one(run):
    """The widest directory, whose files are removed in another order than they were created."""
    slot_of = {at: run.make(b"file /%s 644" % name_of(at)) for at in shuffled(SLOTS - 1)}
    run.ask(b"ls /", b" ".join(name_of(at) for at in range(SLOTS - 1)))
    for at in range(1, SLOTS - 1, 2):
        run.free(b"rm /" + name_of(at), [slot_of[at]])
    run.ask(b"ls /", b" ".join(name_of(at) for at in range(0, SLOTS - 1, 2)))
    for at in range(SLOTS - 2, -1, -2):
        run.free(b"rm /" + name_of(at), [slot_of[at]])
    run.ask(b"ls /", b"")
    run.ask(b"commands", b"%d" % (3 * (SLOTS - 1)))
    run.ask(b"compact", b"ok")
    run.ask(b"commands", b"0")


def slots_again(run):
    """Slots that were freed in another order are used again, the lowest first."""
    slot_of = {at: run.make(b"mkdir /%d" % at) for at in range(SLOTS - 1)}
    for at in shuffled(SLOTS - 1)[: SLOTS // 2]:
        run.free(b"rm /%d" % at, [slot_of.pop(at)])
        if at % 3 == 0:
            slot_of[at] = run.make(b"mkdir /%d" % at)
    while run.unused:
        run.make(b"mkdir /again%d" % len(run.unused))
    run.ask(b"mkdir /more", b"err NoSpace 28")


def half_removed(run):
    """A file that moves 30,000 times, beside a tree of which half is removed and some are hidden, compacted."""
    moves, files = 30_000, SLOTS - 3
    run.make(b"mkdir /d")
    run.make(b"file /d/x 644")
    for at in range(moves):
        run.ask(b"mv /d/x /d y" if at % 2 == 0 else b"mv /d/y /d x", b"ok")
    slot_of = [run.make(b"file /%s 644" % name_of(at)) for at in range(files)]
    gone, kept = range(0, files, 2), range(1, files, 2)
    for at in gone:
        run.free(b"rm /" + name_of(at), [slot_of[at]])
    hidden = kept[:100]
    for at in hidden:
        run.ask(b"hide /" + name_of(at), b"ok")
    run.ask(b"commands", b"%d" % (2 + moves + files + 2 * len(gone) + len(hidden)))
    run.ask(b"compact", b"ok")
    run.ask(b"commands", b"%d" % (2 + len(kept) + len(hidden)))
    run.ask(b"ls /", b" ".join([*(name_of(at) for at in kept[100:]), b"d"]))
    for at in hidden:
        run.ask(b"show /" + name_of(at), b"ok")
    run.ask(b"ls /", b" ".join([*(name_of(at) for at in kept), b"d"]))


def names_compacted(run):
    """A file under a name of each length, moved under another one of that length, kept by a compaction."""
    run.make(b"mkdir /d")
    first, last = b"n" * NAME, BYTES.replace(b"/", b"_")
    for length in range(1, NAME + 1):
        run.make(b"file /%s 644" % first[:length])
        run.ask(b"mv /%s /d %s" % (first[:length], last[:length]), b"ok")
    for reply in (b"511", b"256"):
        run.ask(b"commands", reply)
        run.ask(b"compact", b"ok")
    run.ask(b"ls /d", b" ".join(last[:length] for length in range(1, NAME + 1)))


# The tests, by name.
TRIED = {
    "every slot in one directory, three times over": three_times(one_directory),
    "every slot in one chain, three times over": three_times(one_chain),
    "links across the longest chain that a line leads along": links_across,
    "4,095 files of one directory, removed one by one": removed_one_by_one,
    "4,096 slots, freed in another order and given again": slots_again,
    "38,000 commands of a tree half removed, compacted": half_removed,
    "names of each length, moved and compacted": names_compacted,
}

# Too large for a script for workers.
TRIED_WITH_MOST_SLOTS = {
    "1,048,576 slots in one directory": one_directory,
    "1,048,576 slots in one chain": one_chain,
}


def run_of(fill, slots, seat):
    run = Run(slots, seat)
    fill(run)
    return run
