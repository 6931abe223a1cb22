#!/usr/bin/env python3
# SPDX-License-Identifier: MIT OR Apache-2.0
"""Tries a gate of C, with two lanes, in every order of its steps and of its wakes.

    tests/models/gate_in_c.py

The steps are those of crates/kf_gates/src/board.rt, and the wakes those of c/include/kt_gates.h and kt_wait.h. A caller by a pass
adds one to its lane and loads the gate's word; then it is inside, or it takes the one off again, and wakes. If it leaves, it takes
the one off and loads the word, and wakes if the gate is shut. A caller by a hold adds one to the node's word, in which it finds
whether the node is marked; then it is inside, or it takes the one off again, and wakes. If it leaves, it takes the one off, and
wakes if the node was marked by then. To wake, it locks, broadcasts and unlocks. The gate's call is one in the node's word.

Two threads sleep. The keeper (kt_shut_wait) locks, shuts the gate and looks at one lane after the other, at each until it has seen
it empty once. If it sees the last one empty, it takes the gate's call off the node's word, broadcasts if the node is marked, and
unlocks. If a lane is not empty it waits for the condition, which unlocks and sleeps in one step, and then goes on at that lane. A
keeper that removes too (kt_remove_gated_wait) marks the node before it shuts the gate, and waits after that until the node's word
is 0. The remover (kt_remove_wait) locks, marks the node and looks at its word, and waits for the condition if it is not 0.

A state is stuck if nobody can move and one of these two has not ended. It is broken if somebody is inside by a pass and the gate is
closed, or if anybody is inside and a removal has ended. Each of the variants has one of the steps taken out or turned round: there
must be a stuck state, or a broken one, or the search sees nothing. Its last line is 'N passed, M failed'."""

import sys
from collections import namedtuple

# Of the gate: whether it is shut and closed, how many callers each lane counts, and how many lanes were seen empty. Of the node:
# whether it is marked, and how many are inside by holds, with the gate's call. Which thread has the lock, and how far each is.
State = namedtuple("State", "shut closed lanes seen marked users lock keeper remover callers")
# Of a caller: its lane, or None if it has a hold; how far it is; and how often it begins again.
Caller = namedtuple("Caller", "lane at turns")

WAKE_VARIANTS = ["a leave wakes nobody", "an undo wakes nobody", "the word is loaded before the lane is left", "a wake takes no lock",
                 "a wake wakes one thread", "a closing wakes nobody", "a leave by a hold wakes nobody",
                 "a refusal of a hold wakes nobody"]
SAFE_VARIANTS = ["the word is loaded before the lane is counted", "a lane is passed over", "nobody looks whether it is shut",
                 "the lanes are seen before the gate is shut", "the keeper looks once", "the gate's call is left at the shutting",
                 "the removal looks once", "the keeper's removal looks once"]

# The lanes of the callers, None for a hold; how often each begins; and whether the keeper removes too.
CASES = {
    "two callers of two lanes": ((0, 1), 2, False),
    "two callers of one lane": ((1, 1), 2, False),
    "three callers": ((0, 1, 1), 1, False),
    "two callers, and a keeper that removes too": ((0, 1), 2, True),
    "a caller by a pass and one by a hold": ((1, None), 2, False),
    "the same, and a keeper that removes too": ((1, None), 2, True),
    "two by passes and one by a hold, and such a keeper": ((0, 1, None), 1, True),
}


def with_lane(state, lane, more):
    return state.lanes[:lane] + (state.lanes[lane] + more,) + state.lanes[lane + 1:]


def woken(state, variant):
    """The states after a broadcast."""
    sleepers = [it for it in ("keeper", "remover") if getattr(state, it)[0] == "asleep"]
    if variant == "a wake wakes one thread" and sleepers:
        return [state._replace(**{it: ("locks", getattr(state, it)[1])}) for it in sleepers]
    return [state._replace(**{it: ("locks", getattr(state, it)[1]) for it in sleepers})]


def caller_steps(state, i, variant):
    lane, at, turns = state.callers[i]

    def then(to, turns=turns, after=state, **more):
        return after._replace(callers=after.callers[:i] + (Caller(lane, to, turns),) + after.callers[i + 1:], **more)

    if at == "locks" and variant == "a wake takes no lock":
        yield from (then("begin", after=it) for it in woken(state, variant))
    elif at == "locks" and state.lock is None:
        yield from (then("unlocks", after=it, lock=i) for it in woken(state, variant))
    elif at == "unlocks":
        yield then("begin", lock=None)
    elif at == "begin" and not turns:
        return
    elif lane is None:
        yield from hold_steps(state, at, turns, variant, then)
    else:
        yield from pass_steps(state, lane, at, turns, variant, then)


def hold_steps(state, at, turns, variant, then):
    if at == "begin":
        yield then("refused" if state.marked else "inside", turns - 1, users=state.users + 1)
    elif at == "refused":
        yield then("begin" if variant == "a refusal of a hold wakes nobody" else "locks", users=state.users - 1)
    elif at == "inside":
        wakes = state.marked and variant != "a leave by a hold wakes nobody"
        yield then("locks" if wakes else "begin", users=state.users - 1)


def pass_steps(state, lane, at, turns, variant, then):
    more, less = with_lane(state, lane, 1), with_lane(state, lane, -1)
    if at == "begin" and variant == "the word is loaded before the lane is counted":
        yield then("begin" if state.shut else "counts", turns - 1)
    elif at == "begin":
        yield then("looks", turns - 1, lanes=more)
    elif at == "counts":
        yield then("inside", lanes=more)
    elif at == "looks":
        yield then("turned" if state.shut and variant != "nobody looks whether it is shut" else "inside")
    elif at == "turned":
        yield then("begin" if variant == "an undo wakes nobody" else "locks", lanes=less)
    elif at == "inside" and variant == "the word is loaded before the lane is left":
        yield then("found shut" if state.shut else "found open")
    elif at in ("found shut", "found open"):
        yield then("locks" if at == "found shut" else "begin", lanes=less)
    elif at == "inside":
        yield then("left", lanes=less)
    elif at == "left":
        yield then("locks" if state.shut and variant != "a leave wakes nobody" else "begin")


def sleeper_steps(state, name, variant, removes_too):
    """Of the keeper or the remover: how it locks, sleeps and ends, and between these its own steps."""
    how, at = getattr(state, name)
    if how == "locks" and state.lock is None:
        yield state._replace(lock=name, **{name: ("has", at)})
    elif how == "sleeps":
        yield state._replace(lock=None, **{name: ("asleep", at)})
    elif how == "has" and at == "ends":
        yield state._replace(lock=None, **{name: ("ended", at)})
    elif how == "has" and name == "keeper":
        yield from keeper_steps(state, at, variant, "removes" if removes_too else "ends")
    elif how == "has" and at == "marks":
        yield state._replace(marked=True, remover=("has", "looks"))
    elif how == "has":
        is_out = state.users == 0 or variant == "the removal looks once"
        yield state._replace(remover=("has", "ends") if is_out else ("sleeps", "marks"))


def keeper_steps(state, at, variant, last):
    early, early_call = variant == "the lanes are seen before the gate is shut", variant == "the gate's call is left at the shutting"
    if at == "marks":
        yield state._replace(marked=True, keeper=("has", "shuts"))
    elif at == "shuts":
        users = state.users - (early_call and not state.shut)
        yield state._replace(shut=not early, users=users, keeper=("has", "looks"))
    elif at == "looks" and state.seen == len(state.lanes):
        wakes = state.marked and variant != "a closing wakes nobody"
        yield state._replace(shut=True, closed=True, users=state.users - (not early_call), keeper=("has", "wakes" if wakes else last))
    elif at == "looks" and (state.lanes[state.seen] == 0 or variant == "a lane is passed over" and state.seen == 1):
        yield state._replace(seen=state.seen + 1)
    elif at == "looks" and variant == "the keeper looks once":
        yield state._replace(closed=True, keeper=("has", "ends"))
    elif at == "looks":
        yield state._replace(keeper=("sleeps", "shuts"))
    elif at == "wakes":
        yield from (it._replace(keeper=("has", last)) for it in woken(state, variant))
    elif at == "removes":
        is_out = state.users == 0 or variant == "the keeper's removal looks once"
        yield state._replace(keeper=("has", "ends") if is_out else ("sleeps", "removes"))


def is_broken(state, removes_too):
    inside = [it.lane is None for it in state.callers if it.at in ("inside", "found open", "found shut")]
    is_removed = state.remover[0] == "ended" or removes_too and state.keeper[0] == "ended"
    return state.closed and False in inside or is_removed and bool(inside)


def search(case, variant):
    """How many states there are, how many are stuck, and how many broken."""
    lanes, turns, removes_too = case
    callers = tuple(Caller(lane, "begin", turns) for lane in lanes)
    first = State(False, False, (0, 0), 0, False, 1, None, ("locks", "marks" if removes_too else "shuts"), ("locks", "marks"), callers)
    seen, todo, stuck, broken = {first}, [first], 0, 0
    while todo:
        state = todo.pop()
        after = [*sleeper_steps(state, "keeper", variant, removes_too), *sleeper_steps(state, "remover", variant, removes_too)]
        for i in range(len(callers)):
            after += caller_steps(state, i, variant)
        stuck += not after and (state.keeper[0], state.remover[0]) != ("ended", "ended")
        broken += is_broken(state, removes_too)
        todo += {it for it in after if it not in seen}
        seen.update(after)
    return len(seen), stuck, broken


def main():
    passed = failed = 0
    for name, case in CASES.items():
        count, stuck, broken = search(case, None)
        print(f"{name}: {'FAILED: ' if stuck or broken else ''}{count} states, {stuck} stuck, {broken} broken")
        passed, failed = passed + (not stuck and not broken), failed + bool(stuck or broken)
    for at, variants, what in ((1, WAKE_VARIANTS, "somebody is stuck"), (2, SAFE_VARIANTS, "somebody is inside")):
        for variant in variants:
            where = next((name for name, case in CASES.items() if search(case, variant)[at]), None)
            print(f"if {variant}: {f'{what}, in {where}' if where else 'FAILED: not found'}")
            passed, failed = passed + bool(where), failed + (not where)
    print(f"{passed} passed, {failed} failed")
    sys.exit(1 if failed else 0)


if __name__ == "__main__":
    main()
