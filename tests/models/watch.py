#!/usr/bin/env python3
# SPDX-License-Identifier: MIT OR Apache-2.0
"""Tries a wait for the first of several slots, in every order of its steps and of the notifies'.

    tests/models/watch.py

It is the algorithm of crates/kf_notify/src/watch.rt, step by step. A thread that watches counts itself, and then, again and
again, takes the number of changes, looks at each slot, and sleeps on that number. A notify raises the number of its slot
and loads the count. If it is not zero, the notify raises the number of changes, and wakes all.

A state is stuck as in wake.py: a thread sleeps, though a slot has changed that it has not found. There must be none,
except in each of the VARIANTS. The last line is 'N passed, M failed'."""

from collections import namedtuple

from wake import Thread, try_all

# Of two slots their numbers; how many threads watch; and how often a notify found one that watches.
Several = namedtuple("Several", "numbers watching changes")

VARIANTS = ["a watcher takes the changes after its looks", "a watcher counts itself after its looks",
                    "the count is loaded before the number is raised", "a change is not counted", "a change wakes nobody"]


WATCHES = {
    "a watcher takes the changes after its looks": ["in", "look 0", "look 1", "take", "sleep"],
    "a watcher counts itself after its looks": ["take", "look 0", "look 1", "in", "sleep"],
}


def looks_again(thread, word, variant):
    """The thread after a sleep. If it counts itself late, it has to begin anew."""
    if variant == "a watcher counts itself after its looks":
        return thread._replace(at="take"), word._replace(watching=word.watching - 1)
    return thread._replace(at=WATCHES.get(variant, ["in", "take"])[1]), word


def watcher_steps(thread, word, variant):
    """A thread that waits for the first of two slots: it counts itself, takes the number of changes, looks at both slots,
    and sleeps on that number; then it takes itself off the count. It has found `again` notifies, and waits for two."""
    order = WATCHES.get(variant, ["in", "take", "look 0", "look 1", "sleep"])
    if thread.at not in order:
        return []
    then = thread._replace(at=(order + ["sleep"])[order.index(thread.at) + 1])
    if thread.at == "in":
        return [(then, word._replace(watching=1 + word.watching))]
    if thread.at == "take":
        return [(then._replace(seen=word.changes), word)]
    if thread.at == "sleep":
        return [(thread._replace(at="asleep"), word) if word.changes == thread.seen else looks_again(thread, word, variant)]
    # (of what the looks found only how many notifies there were is kept)
    found = sum(word.numbers[:2 if thread.at == "look 1" else 1])
    if found <= thread.again:
        return [(then, word)]
    is_in = order.index("in") < order.index(thread.at)
    end = thread._replace(at="done" if found == 2 else order[0], again=found)
    return [(end, word._replace(watching=word.watching - is_in))]


def raiser_steps(i, word, threads, variant):
    """The next step of a notify of one slot: `seen` is 1 if it found a thread that watches."""
    thread = threads[i]
    order = ["raise", "count", "change", "wake"]
    if variant == "the count is loaded before the number is raised":
        order = ["count", "raise", "change", "wake"]
    if thread.at == "done":
        return
    step, moved = order[thread.at], thread._replace(at=thread.at + 1 if thread.at < 3 else "done")
    if step == "raise":
        slot = int(thread.kind)
        word = word._replace(numbers=tuple(it + (place == slot) for place, it in enumerate(word.numbers)))
    elif step == "count":
        moved = moved._replace(seen=int(word.watching > 0))
    elif step == "change" and thread.seen and variant != "a change is not counted":
        word = word._replace(changes=word.changes + 1)
    elif step == "wake" and thread.seen and variant != "a change wakes nobody":
        for place, it in enumerate(threads):
            if it.at == "asleep":
                woken_up, word = looks_again(it, word, variant)
                threads = threads[:place] + (woken_up,) + threads[place + 1:]
    yield word, threads[:i] + (moved,) + threads[i + 1:]


def next_of_several(word, threads, variant):
    for i, thread in enumerate(threads):
        if thread.kind != "watcher":
            yield from raiser_steps(i, word, threads, variant)
            continue
        for moved, left in watcher_steps(thread, word, variant):
            yield left, threads[:i] + (moved,) + threads[i + 1:]


def is_watching_for_ever(word, threads):
    """A notify need not begin; one that has begun goes on."""
    if any(it.at not in ("asleep", "done", 0) for it in threads):
        return False
    return any(it.at == "asleep" and sum(word.numbers) > it.again for it in threads)


WATCHER, RAISE_0, RAISE_1 = (Thread(kind, at, 0, 0) for kind, at in (("watcher", "in"), ("0", 0), ("1", 0)))

CASES = {
    "one who watches two slots, a notify of each": [WATCHER, RAISE_0, RAISE_1],
    "two who watch two slots, a notify of each": [WATCHER, WATCHER, RAISE_0, RAISE_1],
}

MODEL = ({name: (Several((0, 0), 0, 0), tuple(case)) for name, case in CASES.items()}, VARIANTS, next_of_several,
         is_watching_for_ever)

if __name__ == "__main__":
    try_all(MODEL)
