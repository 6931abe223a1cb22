#!/usr/bin/env python3
# SPDX-License-Identifier: MIT OR Apache-2.0
"""Tries the waking of sleepers at an active word and at an event number, in every order of their steps.

    tests/models/wake.py

Clauses name the steps of a sleeper and of the thread that wakes it, in their order. No clause sees the kernel's queue,
so this searches all states of a few threads at one word. It is the algorithm of crates/kf_words/src/seat/sleep.rt, step
by step. A sleeper counts itself, lets the kernel compare and queue it, and takes itself off the count when it is awake.
A thread that takes a user off changes the word, loads the count, and wakes all sleepers.

At an event number (crates/kf_notify/src/sleep.rt, crates/kf_files/src/telling.rt) a thread that waits for a change
tries, loads the number and sleeps on it. A notify raises the number, loads the count, and wakes all. A removal and a
hiding mark first, and then do as a notify does. A listener (crates/kf_uevents/src/listener.rt) takes the number, looks
at the list of events, and sleeps on that number. An event is added to the list, and then a notify follows.

A state is stuck if nobody need move any more, and a thread sleeps without limit for what is true already. There must be
none. Each of the VARIANTS has one of the steps taken out or turned round: then there must be stuck states, or the
search sees nothing. The last line is 'N passed, M failed'."""

import sys
from collections import namedtuple

# Of an active word: its users, whether its node is doomed and its key hidden, and the count of its sleepers.
Word = namedtuple("Word", "users doom hide sleepers")
# Of a thread: what it does, how far it is, how many users it saw when it looked, how often it begins again.
Thread = namedtuple("Thread", "kind at seen again")

# A call need not end, a mark, a try or a hiding need not begin, and a hidden key need not be shown.
AT_WILL = {("call", "runs"), ("call", "breaks"), ("call", "broken"), ("mark", "begin"), ("try", "begin"),
           ("try", "runs"), ("hider", "begin"), ("hider", "hidden")}

WORD_VARIANTS = ["a leave wakes nobody", "a break wakes nobody", "an undo wakes nobody", "one is woken, not all",
                       "the count is loaded before the word is changed", "a sleeper counts itself when it is queued",
                 "the kernel compares nothing", "a wait before the mark has no limit"]


def drained(word):
    return word.doom and word.users == 0


def what_it_waits_for(kind, word):
    return word.hide and word.users == 0 if kind == "hider" else drained(word)


def took_off(thread, word, after, what, variant):
    """The step that takes one user off, and what it owes. If the word kept tries out, and is now drained, or unused and
    hidden, the thread has still to load the count. (In one variant it has loaded the count before: `seen`.)"""
    early = variant == "the count is loaded before the word is changed"
    if early and not thread.seen:
        return [(thread._replace(seen=word.sleepers + 1), word)]
    left = word._replace(users=word.users - 1)
    wanted = (word.doom or word.hide) and left.users == 0
    if not wanted or variant == f"{what} wakes nobody" or thread.seen == 1:
        return [(thread._replace(at=after, seen=0), left)]
    return [(thread._replace(at=("wake " if early else "count ") + after, seen=0), left)]


def caller_steps(thread, word, variant):
    """A call that is left, or breaks its protection first; and tries, let in or refused."""
    kind, at = thread.kind, thread.at
    if at == "begin" and thread.again:
        inside = "due" if word.doom or word.hide else "runs"
        return [(thread._replace(at=inside, again=thread.again - 1), word._replace(users=word.users + 1))]
    if at == "runs":
        return took_off(thread, word, "begin" if kind == "try" else "done", "a leave", variant)
    if at == "due":
        return took_off(thread, word, "begin", "an undo", variant)
    if at == "breaks":
        return took_off(thread, word, "broken", "a break", variant)
    if at == "broken":
        return [(thread._replace(at="runs"), word._replace(users=word.users + 1))]
    if at.startswith("count "):
        after = at.removeprefix("count ")
        return [(thread._replace(at="wake " + after if word.sleepers else after), word)]
    return []


def sleeper_steps(thread, word, variant):
    """A wait for a drain, a rest with a receipt, and a hiding: each looks, and sleeps if it has to wait."""
    kind, at, users = thread.kind, thread.at, word.users
    late = variant == "a sleeper counts itself when it is queued"
    if kind == "hider" and at == "begin":
        return [(thread._replace(at="look"), word._replace(hide=True))]
    if kind == "hider" and at == "hidden":
        again = thread._replace(at="begin" if thread.again else "done", again=max(thread.again - 1, 0))
        return [(again, word._replace(hide=False))]
    if at == "look":
        if what_it_waits_for(kind, word):
            return [(thread._replace(at="hidden" if kind == "hider" else "done"), word)]
        if kind == "rest":
            return [(thread._replace(at="peek"), word)]
        limited = kind == "wait" and not word.doom and variant != "a wait before the mark has no limit"
        return [(thread._replace(at="nap" if limited or users == 0 else "in", seen=users), word)]
    if at == "peek":
        return [(thread._replace(at="in" if users else "nap", seen=users), word)]
    if at == "nap":
        return [(thread._replace(at="look", seen=0), word)]
    if at == "in":
        return [(thread._replace(at="compare"), word if late else word._replace(sleepers=word.sleepers + 1))]
    if at == "compare":
        if users == thread.seen or variant == "the kernel compares nothing":
            return [(thread._replace(at="queued" if late else "asleep"), word)]
        return [(thread._replace(at="look" if late else "out", seen=0), word)]
    if at == "queued":
        return [(thread._replace(at="asleep"), word._replace(sleepers=word.sleepers + 1))]
    if at == "out":
        return [(thread._replace(at="look", seen=0), word._replace(sleepers=word.sleepers - 1))]
    return []


def awake(thread):
    return thread._replace(at="look" if thread.at == "queued" else "out", seen=0)


def woken(threads, variant):
    """The threads after a wake: all sleepers are awake, or in one variant any one of them."""
    asleep = [i for i, it in enumerate(threads) if it.at in ("asleep", "queued")]
    if variant == "one is woken, not all" and asleep:
        return [tuple(awake(it) if i == one else it for i, it in enumerate(threads)) for one in asleep]
    return [tuple(awake(it) if i in asleep else it for i, it in enumerate(threads))]


def next_states(word, threads, variant):
    for i, thread in enumerate(threads):
        if thread.at.startswith("wake "):
            done = thread._replace(at=thread.at.removeprefix("wake "))
            yield from ((word, it) for it in woken(threads[:i] + (done,) + threads[i + 1:], variant))
        elif thread == Thread("mark", "begin", 0, 0):
            yield word._replace(doom=True), threads[:i] + (thread._replace(at="done"),) + threads[i + 1:]
        else:
            steps = caller_steps if thread.kind in ("call", "try") else sleeper_steps
            for moved, left in steps(thread, word, variant):
                yield left, threads[:i] + (moved,) + threads[i + 1:]


def is_stuck(word, threads):
    for it in threads:
        if it.at not in ("asleep", "done", "nap") and (it.kind, it.at) not in AT_WILL:
            return False
    return any(it.at == "asleep" and what_it_waits_for(it.kind, word) for it in threads)


MARK, CALL, BREAK = ("mark", "begin", 0), ("call", "runs", 0), ("call", "breaks", 0)
WAIT, REST, HIDE = ("wait", "look", 0), ("rest", "look", 0), ("hider", "begin", 0)
TRY, TRIES, HIDES = ("try", "begin", 1), ("try", "begin", 2), ("hider", "begin", 1)

WORD_CASES = {
    "a mark, a call, two waiters, two tries": (Word(1, False, False, 0), [MARK, CALL, WAIT, WAIT, TRIES]),
    "a call that breaks, two waiters, a try": (Word(1, True, False, 0), [BREAK, WAIT, WAIT, TRY]),
    "a mark, a call, two hidings, a waiter, a try": (Word(1, False, False, 0), [MARK, CALL, HIDES, WAIT, TRY]),
    "a restored call, a hiding, a waiter, a rest, a try": (Word(1, True, False, 0), [CALL, HIDE, WAIT, REST, TRY]),
    "a restored call, two rests, a hiding": (Word(1, True, False, 0), [CALL, REST, REST, HIDE]),
    "a mark, two calls, a hiding, two waiters": (Word(2, False, False, 0), [MARK, CALL, BREAK, HIDE, WAIT, WAIT]),
    "two hidings, two waiters, two tries, unused": (Word(0, False, False, 0), [HIDES, WAIT, WAIT, TRIES]),
}


# ---- the event number of a slot

# Of a slot: its number, whether its node is doomed and its key hidden, and the count of the number's sleepers. And the
# length of the list of events.
Number = namedtuple("Number", "number doom hide sleepers events")

NUMBER_VARIANTS = ["a removal wakes and raises nothing", "a removal raises before its mark", "a removal wakes nobody",
                   "a hiding wakes and raises nothing", "a hiding raises before its mark", "a notify wakes nobody",
                   "one is woken, not all", "the count is loaded before the number is raised",
                   "a waiter counts itself when it is queued", "a listener looks before it takes the number",
                   "an event is added after its raise"]

MARKS = {"removal": {"doom": True}, "hiding": {"hide": True}}


def waiter_steps(thread, word, variant):
    """A wait for a change of a file: it tries, loads the number, and sleeps on it. After a change it reads the file
    again, and may wait again."""
    at, is_out = thread.at, word.doom or word.hide
    late = variant == "a waiter counts itself when it is queued"
    if at in ("try", "read") and is_out:
        return [(thread._replace(at="done"), word)]
    if at == "read":
        return [(thread._replace(at="try", seen=word.number), word)]
    if at == "try":
        return [(thread._replace(at="load"), word)]
    if at == "load" and word.number != thread.seen:
        return [(thread._replace(at="read" if thread.again else "done", again=max(thread.again - 1, 0)), word)]
    if at == "load":
        return [(thread._replace(at="compare"), word if late else word._replace(sleepers=word.sleepers + 1))]
    if at == "compare" and word.number == thread.seen:
        return [(thread._replace(at="queued" if late else "asleep"), word)]
    if at == "compare":
        return [(thread._replace(at="try" if late else "out"), word)]
    if at == "queued":
        return [(thread._replace(at="asleep"), word._replace(sleepers=word.sleepers + 1))]
    if at == "out":
        return [(thread._replace(at="try"), word._replace(sleepers=word.sleepers - 1))]
    return []


def listener_steps(thread, word, variant):
    """A listener that reads events, and waits for the next: it takes the number, looks at the list, and sleeps on that
    number if there is no event more. It has read `again` of them."""
    at, early = thread.at, variant == "a listener looks before it takes the number"
    if (at == "look" or at == "listen" and early) and word.events > thread.again:
        return [(thread._replace(at="listen", again=thread.again + 1), word)]
    if at == "listen" and early:
        return [(thread._replace(at="take"), word)]
    if at == "listen":
        return [(thread._replace(at="look", seen=word.number), word)]
    if at == "take":
        return [(thread._replace(at="in", seen=word.number), word)]
    if at in ("look", "in"):
        return [(thread._replace(at="compare"), word._replace(sleepers=word.sleepers + 1))]
    if at == "compare":
        return [(thread._replace(at="asleep" if word.number == thread.seen else "out"), word)]
    if at == "out":
        return [(thread._replace(at="listen"), word._replace(sleepers=word.sleepers - 1))]
    return []


def order_of(kind, variant):
    """The steps of a notify, of a removal, a hiding, and an event, each with its notify."""
    steps = ["load", "raise", "count", "wake"]
    if variant == "the count is loaded before the number is raised":
        steps = ["load", "count", "raise", "wake"]
    if variant == f"a {kind} wakes nobody":
        steps = ["load", "raise"]
    if kind == "notify":
        return steps
    if kind == "event":
        return steps + ["add"] if variant == "an event is added after its raise" else ["add"] + steps
    if variant == f"a {kind} wakes and raises nothing":
        return ["mark", "count", "wake"]
    if variant == f"a {kind} raises before its mark":
        return steps + ["mark"]
    return ["mark"] + steps


def teller_steps(i, word, threads, variant):
    """The next step of a notify, a removal, a hiding or an event. What it loaded is in `seen`; `again` is 1 if it found
    nobody asleep."""
    thread = threads[i]
    order = order_of(thread.kind, variant)
    if thread.at == "done":
        return
    step, moved = order[thread.at], thread._replace(at=thread.at + 1 if thread.at + 1 < len(order) else "done")
    if step == "mark":
        word = word._replace(**MARKS[thread.kind])
    elif step == "add":
        word = word._replace(events=word.events + 1)
    elif step == "load":
        moved = moved._replace(seen=word.number)
    elif step == "raise":
        word = word._replace(number=max(word.number, thread.seen + 1))
    elif step == "count":
        moved = moved._replace(again=0 if word.sleepers else 1)
    after = threads[:i] + (moved,) + threads[i + 1:]
    wakes = step == "wake" and not thread.again
    yield from ((word, it) for it in (woken(after, variant) if wakes else [after]))


def next_of_number(word, threads, variant):
    for i, thread in enumerate(threads):
        if thread.kind not in ("waiter", "listener"):
            yield from teller_steps(i, word, threads, variant)
            continue
        steps = waiter_steps if thread.kind == "waiter" else listener_steps
        for moved, left in steps(thread, word, variant):
            yield left, threads[:i] + (moved,) + threads[i + 1:]


def is_due(it, word):
    """What it sleeps for is there."""
    return word.events > it.again if it.kind == "listener" else word.doom or word.hide or word.number != it.seen


def is_asleep_for_ever(word, threads):
    """A notify, a removal, a hiding or an event need not begin; one that has begun goes on."""
    for it in threads:
        if it.at not in ("asleep", "done", 0):
            return False
    return any(it.at == "asleep" and is_due(it, word) for it in threads)


WAITER, WAITS = Thread("waiter", "try", 1, 0), Thread("waiter", "try", 1, 1)
NOTIFY, REMOVAL, HIDING, EVENT = (Thread(kind, 0, 0, 0) for kind in ("notify", "removal", "hiding", "event"))
LISTENER = Thread("listener", "listen", 0, 0)

NUMBER_CASES = {
    "two who wait again, a notify, a removal": [WAITS, WAITS, NOTIFY, REMOVAL],
    "one who waits again, one who waits, two notifies, a removal": [WAITS, WAITER, NOTIFY, NOTIFY, REMOVAL],
    "three who wait, a notify, a removal": [WAITER, WAITER, WAITER, NOTIFY, REMOVAL],
    "two who wait again, a notify, a hiding": [WAITS, WAITS, NOTIFY, HIDING],
    "one who waits again, a notify, a removal, a hiding": [WAITS, NOTIFY, REMOVAL, HIDING],
    "two listeners, two events": [LISTENER, LISTENER, EVENT, EVENT],
}

# ---- the search

def search(start, variant, next_of, stuck_in):
    """How many states there are, and a stuck one if there is one: there it ends. (Two states are one if they differ only in
    which thread is which.)"""
    seen, todo = {start}, [start]
    while todo:
        word, threads = todo.pop()
        if stuck_in(word, threads):
            return len(seen), (word, threads)
        for left, moved in next_of(word, threads, variant):
            state = left, tuple(sorted(moved, key=hash))
            if state not in seen:
                seen.add(state)
                todo.append(state)
    return len(seen), None


def begun(case):
    word, names = case
    return word, tuple(Thread(kind, at, 0, again) for kind, at, again in names)


WORDS = ({name: begun(case) for name, case in WORD_CASES.items()}, WORD_VARIANTS, next_states, is_stuck)
NUMBERS = ({name: (Number(1, False, False, 0, 0), tuple(case)) for name, case in NUMBER_CASES.items()}, NUMBER_VARIANTS,
           next_of_number, is_asleep_for_ever)


def try_all(*models):
    """Tries each case of each model, in which nobody may be stuck, and each variant, in which somebody must be."""
    passed = failed = 0
    for cases, variants, next_of, stuck_in in models:
        for name, start in cases.items():
            states, stuck = search(start, None, next_of, stuck_in)
            print(f"{name}: {states} states, {'FAILED: stuck in ' + str(stuck) if stuck else 'nobody is stuck'}")
            passed, failed = passed + (not stuck), failed + bool(stuck)
        for variant in variants:
            where = next((name for name, start in cases.items() if search(start, variant, next_of, stuck_in)[1]), None)
            print(f"if {variant}: {'somebody is stuck, in ' + where if where else 'FAILED: nobody is stuck'}")
            passed, failed = passed + bool(where), failed + (not where)
    print(f"{passed} passed, {failed} failed")
    sys.exit(1 if failed else 0)


if __name__ == "__main__":
    try_all(WORDS, NUMBERS)
