#!/usr/bin/env python3
# SPDX-License-Identifier: MIT OR Apache-2.0
"""Looks whether the clauses that docs/PROMISES.md names are in the contracts of the functions beside them.

    tools/promises_page.py    prints each one that is not, and ends with 1 if there is one

The second column of a table has parts, with `;` or a bracket between them: names of functions, then perhaps a colon
and names of clauses, as `Hold::look`, `enter`: `found`, `made`, or `State::hide`: requires `ready`. Each clause must be
one of at least one of these functions, and each function must have at least one of these clauses.

- A name without a type is that of a method of the type named last in the cell, or else that of a free function.
- A type by itself is all its methods and ghost members, and `Bus` as a `WaitOps` is its methods of this trait.
- If a crate in the section's heading has the name, no other crate counts."""

import re
import sys
from pathlib import Path

sys.dont_write_bytecode = True
TOP = Path(__file__).resolve().parent.parent
PAGE = "docs/PROMISES.md"
sys.path.insert(0, str(TOP / "tools"))
import crate_items  # noqa: E402  (beside this program)

NAME = re.compile(r"`(?:kf_\w+::)?(?!kf_)([\w:]+)`(?: as a `(\w+)`)?")
CLAUSES = re.compile(r"(requires )?(`\w+`(?:(?:, | and )`\w+`)*)\.?")


class Contracts:
    """The clauses of each function, and of all that is in a type: by its name, then by its crate. A clause is a pair:
    whether it is a condition, and its name."""

    def __init__(self):
        self.found = {}
        for crate in crate_items.library_crates(TOP):
            sources = crate_items.Crate(TOP, crate)
            for it in sources.items:
                self.add(crate, (it.title, it.owner or it.title), [it, *it.ghosts])
            for block in sources.impls:
                trait = re.match(r"\w*", block.trait)[0]
                self.add(crate, (block.type, f"{block.type} as {trait}"), block.ghosts + block.methods)

    def add(self, crate, names, items):
        clauses = {(kind == "requires", name) for it in items for kind, name, _, _ in it.clauses}
        clauses |= {(False, it.name) for it in items if it.kind == "ghost"}
        for name in names:
            self.found.setdefault(name, {}).setdefault(crate, set()).update(clauses)

    def of(self, name, trait, crates):
        """The clauses of a function or type, or nothing if there is none of this name."""
        found = self.found.get(f"{name} as {trait}" if trait else name)
        if found is None:
            return None
        own = set().union(*([found[it] for it in crates if it in found] or found.values()))
        return own | (self.of(trait, "", crates) or set()) if trait else own


def wrong_in(contracts, cell, crates):
    """What is wrong with a cell, in words."""
    owner = ""
    for part in re.split(r"[;()]", cell):
        names, colon, rest = part.partition(": ")
        clauses, found = CLAUSES.fullmatch(rest.strip()), {}
        for name, trait in NAME.findall(names):
            if f"{owner}::{name}" in contracts.found:
                name = f"{owner}::{name}"
            owner = name.rpartition("::")[0] or (name if name[0].isupper() else owner)
            found[name] = contracts.of(name, trait, crates)
            if found[name] is None:
                yield f"no function {name}"
        if colon and not (clauses and found):
            yield f"no list of functions and one of clauses: {part.strip()}"
        elif colon and None not in found.values():
            wanted = {(clauses[1] is not None, it) for it in re.findall(r"\w+", clauses[2])}
            missing = wanted.difference(*found.values())
            yield from (f"{' and '.join(found)}: no clause {it}" for _, it in sorted(missing))
            yield from (f"{name}: no clause of {clauses[2]}" for name, has in found.items() if not has & wanted)


def wrong_clauses():
    """A line for each clause or function of the page that is not there."""
    contracts, crates, head, wrong = Contracts(), [], "", []
    for at, line in enumerate((TOP / PAGE).read_text(encoding="utf-8").split("\n"), 1):
        if line.startswith("## "):
            crates = re.findall(r"`(kf_\w+)`", line)
        elif line.startswith("| "):
            cell = line.strip("|").split(" | ")[1].strip()
            if line.startswith("| Promise |"):  # whose second column may be of one function
                of = re.match(r"Clause of (`\w+`)", cell)
                head = f"{of[1]}: " if of else ""
            else:
                wrong += [f"{PAGE}:{at}: {why}" for why in wrong_in(contracts, head + cell, crates)]
    return wrong


def main(asked):
    if asked:
        print(__doc__)
        return asked not in (["--help"], ["-h"])
    wrong = wrong_clauses()
    print("\n".join(wrong) or "each clause is there")
    return 1 if wrong else 0


if __name__ == "__main__":
    sys.exit(main(sys.argv[1:]))
