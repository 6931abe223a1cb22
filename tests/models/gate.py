#!/usr/bin/env python3
# SPDX-License-Identifier: MIT OR Apache-2.0
"""Tries a gate of two lanes in every order of its steps.

    tests/models/gate.py

Nobody is inside once its keeper saw both lanes empty, and a keeper that sleeps is woken. The laws of kf_gates say the first of
these over every run, and no clause speaks of wakes. The steps are those of
crates/kf_gates/src/board.rt. A caller adds one to its lane and loads the gate's word; then it is inside, or it takes the one off
again. If a caller takes one off and finds that it was the last, it loads the count of sleepers, and wakes all that sleep on the
lane if that is not 0. A caller that is inside may break its protection, which takes its one off, and restore it, which adds it
again. The keeper shuts the gate and looks at one lane after the other. If a lane is not empty, the keeper counts itself, has the
kernel compare the lane with what it saw and queue it, and is counted no longer when it is awake. After a closing it may open the
gate again, under the next number. A state is stuck if nobody has to move and the keeper sleeps on an empty lane. Each of the
VARIANTS has one of the steps taken out or turned round: there must be a stuck state, or somebody inside a closed gate, or the
search sees nothing. Its last line is 'N passed, M failed'."""

import sys
from collections import namedtuple

# Of the gate: whether it is shut, its number, how many callers each lane counts, and how many sleep.
Gate = namedtuple("Gate", "shut number lanes sleepers")
# Of a caller: its lane, how far it is, the number it wants, what it loaded too early, and how often it begins and breaks again.
Caller = namedtuple("Caller", "lane at wants early again breaks")
# Of the keeper: how far it is, how many lanes it has seen empty, the count it saw, and how often it opens the gate again.
Keeper = namedtuple("Keeper", "at seen saw again")

WAKE_VARIANTS = ["a leave wakes nobody", "an undo wakes nobody", "a break wakes nobody",
                 "the count is loaded before the lane is changed", "the keeper counts itself when it is queued",
                 "the kernel compares nothing"]
SAFE_VARIANTS = ["the word is loaded before the lane is counted", "a lane is passed over",
                 "the lanes are seen before the gate is shut", "nobody looks whether it is shut", "nobody looks at the number"]

# How a caller takes its one off: from where, under which name, and what it does next.
OFF = {"inside": ("a leave", "begin"), "turned": ("an undo", "begin"), "restored": ("a leave", "begin"), "breaking": ("a break", "broken")}


def with_lane(gate, lane, more):
    lanes = list(gate.lanes)
    lanes[lane] += more
    return gate._replace(lanes=tuple(lanes))


def lets_in(gate, caller, variant):
    return (not gate.shut or variant == "nobody looks whether it is shut") and \
        (gate.number == caller.wants or variant == "nobody looks at the number")


def steps_off(gate, caller, variant):
    name, then = OFF[caller.at]
    early = variant == "the count is loaded before the lane is changed"
    if early and caller.early == 0:
        return [(gate, caller._replace(early=1 + gate.sleepers))]
    last = gate.lanes[caller.lane] == 1 and variant != f"{name} wakes nobody"
    wakes = ("wakes" if caller.early > 1 else then) if early else "loads"
    return [(with_lane(gate, caller.lane, -1), caller._replace(at=(wakes, then) if last and wakes != then else then, early=0))]


def caller_steps(gate, caller, variant):
    at, lane = caller.at, caller.lane
    if at == "begin" and caller.again:
        if variant == "the word is loaded before the lane is counted":
            yield gate, caller._replace(at="counts" if lets_in(gate, caller, variant) else "done")
        else:
            yield with_lane(gate, lane, 1), caller._replace(at="looks", again=caller.again - 1)
    elif at == "counts":
        yield with_lane(gate, lane, 1), caller._replace(at="inside", again=caller.again - 1)
    elif at == "looks":
        yield gate, caller._replace(at="inside" if lets_in(gate, caller, variant) else "turned")
    elif at == "broken":
        yield with_lane(gate, lane, 1), caller._replace(at="restored")
    elif at in OFF:
        yield from steps_off(gate, caller, variant)
    elif at[0] == "loads":
        yield gate, caller._replace(at=("wakes", at[1]) if gate.sleepers else at[1])
    if at == "inside" and caller.breaks:
        yield gate, caller._replace(at="breaking", breaks=caller.breaks - 1)


def keeper_steps(gate, keeper, variant):
    at, late = keeper.at, variant == "the keeper counts itself when it is queued"
    if at == "open":
        early = variant == "the lanes are seen before the gate is shut"
        yield gate if early else gate._replace(shut=True), keeper._replace(at="look", seen=0)
    elif at == "look" and keeper.seen == len(gate.lanes):
        yield gate._replace(shut=True), keeper._replace(at="closed")
    elif at == "look" and (gate.lanes[keeper.seen] == 0 or variant == "a lane is passed over" and keeper.seen == 1):
        yield gate, keeper._replace(seen=keeper.seen + 1)
    elif at == "look":
        yield gate, keeper._replace(at="counts", saw=gate.lanes[keeper.seen])
    elif at == "counts":
        yield gate if late else gate._replace(sleepers=gate.sleepers + 1), keeper._replace(at="compares")
    elif at == "compares":
        same = gate.lanes[keeper.seen] == keeper.saw or variant == "the kernel compares nothing"
        yield gate, keeper._replace(at="queued" if late else "asleep") if same else keeper._replace(at="look" if late else "awake", saw=0)
    elif at == "queued":
        yield gate._replace(sleepers=gate.sleepers + 1), keeper._replace(at="asleep")
    elif at == "awake":
        yield gate._replace(sleepers=gate.sleepers - 1), keeper._replace(at="look", saw=0)
    elif at == "closed" and keeper.again:
        yield gate._replace(shut=False, number=gate.number + 1), keeper._replace(at="open", seen=0, again=keeper.again - 1)


def next_states(gate, keeper, callers, variant):
    for after, moved in keeper_steps(gate, keeper, variant):
        yield after, moved, callers
    for i, caller in enumerate(callers):
        if caller.at[0] == "wakes":
            sleeps = keeper.at in ("asleep", "queued") and keeper.seen == caller.lane
            woken = keeper._replace(at="look" if keeper.at == "queued" else "awake", saw=0) if sleeps else keeper
            yield gate, woken, callers[:i] + (caller._replace(at=caller.at[1]),) + callers[i + 1:]
        for after, moved in caller_steps(gate, caller, variant):
            yield after, keeper, callers[:i] + (moved,) + callers[i + 1:]


def is_broken(gate, keeper, callers):
    """Somebody is inside a closed gate, or inside under another number than that of the last opening."""
    inside = [it for it in callers if it.at in ("inside", "breaking")]
    return keeper.at == "closed" and bool(inside) or any(it.wants != gate.number for it in inside)


def is_stuck(gate, keeper, callers):
    """A caller need not begin, and a broken one need not be restored. All else moves in the end, since calls end."""
    return all(it.at in ("begin", "done", "broken") for it in callers) and keeper.at == "asleep" and gate.lanes[keeper.seen] == 0


# The callers' lanes, the numbers they want, how often each begins, how often each breaks, and how often the gate is opened again.
CASES = {
    "two callers of two lanes, one opening": ([0, 1], [1, 1], 2, 0, 0),
    "two callers of one lane, one opening": ([1, 1], [1, 1], 2, 0, 0),
    "two callers that break, of one lane": ([1, 1], [1, 1], 1, 1, 0),
    "three callers of two lanes, one opening": ([0, 1, 1], [1, 1, 1], 1, 0, 0),
    "two callers, of one opening and of the next": ([0, 0], [1, 2], 2, 0, 1),
    "three callers, of two openings, that break": ([0, 1, 1], [1, 1, 2], 1, 1, 1),
}


def search(case, variant):
    """How many states there are, how many are stuck, and how many broken."""
    lanes, wants, again, breaks, openings = case
    callers = tuple(Caller(lane, "begin", want, 0, again, breaks) for lane, want in zip(lanes, wants))
    first = (Gate(False, 1, (0, 0), 0), Keeper("open", 0, 0, openings), callers)
    seen, todo, stuck, broken = {first}, [first], 0, 0
    while todo:
        state = todo.pop()
        stuck, broken = stuck + is_stuck(*state), broken + is_broken(*state)
        for after in next_states(*state, variant):
            if after not in seen:
                seen.add(after)
                todo.append(after)
    return len(seen), stuck, broken


def main():
    passed = failed = 0
    for name, case in CASES.items():
        count, stuck, broken = search(case, None)
        print(f"{name}: {'FAILED: ' if stuck or broken else ''}{count} states, {stuck} stuck, {broken} broken")
        passed, failed = passed + (not stuck and not broken), failed + bool(stuck or broken)
    for at, variants in ((1, WAKE_VARIANTS), (2, SAFE_VARIANTS)):
        for variant in variants:
            where = next((name for name, case in CASES.items() if search(case, variant)[at]), None)
            print(f"if {variant}: {('somebody is stuck' if at == 1 else 'the gate is broken') + ', in ' + where if where else 'FAILED: not found'}")
            passed, failed = passed + bool(where), failed + (not where)
    print(f"{passed} passed, {failed} failed")
    sys.exit(1 if failed else 0)


if __name__ == "__main__":
    main()
