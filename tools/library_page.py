#!/usr/bin/env python3
# SPDX-License-Identifier: MIT OR Apache-2.0
"""Looks whether the crates and calls that docs/LIBRARY.md names are there.

    tools/library_page.py             prints each name there that no library crate exports, and ends with 1 if there is one
    tools/library_page.py --crates    prints the crates that the table "You want | Crates" names
    tools/library_page.py --rows      prints its rows: what it is for, the crates and the examples, with a colon between

A call such as `editor.create(dir, name, Node::Dir, false)?` is compared with the sources: there is a method of that name with
that number of parameters. A name without brackets is an exported name, or a member of one."""

import re
import sys
from pathlib import Path

sys.dont_write_bytecode = True
TOP = Path(__file__).resolve().parent.parent
PAGE = "docs/LIBRARY.md"
sys.path.insert(0, str(TOP / "tools"))
import crate_items  # noqa: E402  (beside this program)

# Variables of these types. Others, as `editor`, are of the type of their name.
VARIABLES = {"tree": "SharedTree", "file": "WaitingFile", "caller": "ValueCaller", "hot_caller": "HotCaller"}
# What Rust or the kit gives: types, then calls.
TYPES = {"Brand", "RwLock", "Option", "Result", "Vec", "Global"}
CALLS = {"Ok", "Err", "Some", "read", "write", "push", "join", "for_each_mut"}
# Words in backticks that no library crate exports: of the language, of the kernel, and names that a program chooses.
WORDS = {"requires", "run", "main", "const", "false", "is_visible", "sysfs_break_active_protection", "N", "A", "tree", "editor",
         "alloc", "dir", "key", "name", "path", "bytes", "posts", "value", "serial", "delete", "registry", "caller", "f"}


def text_of(page):
    return (TOP / page).read_text(encoding="utf-8")


def rows():
    """The rows of the table of crates: what an author wants, the crates that the row names, and the examples."""
    table = re.search(r"^\| You want \| Crates .*\n\|[-|]+\n((?:\|.*\n)+)", text_of(PAGE), re.M)[1]
    for line in table.strip().split("\n"):
        want, crates, start = (cell.strip() for cell in line.strip("|").split(" | "))
        examples = [it for it in re.findall(r"`(use_\w+)", start)]
        yield want, list(dict.fromkeys(re.findall(r"`(kf_\w+)`", crates))), list(dict.fromkeys(examples))


def crates():
    """The crates that any row names, each once."""
    return list(dict.fromkeys(it for _, named, _ in rows() for it in named))


class Names:
    """The names that library crates export, and the members of each."""

    def __init__(self):
        self.members, self.free, self.crates = {}, {}, {it.name for it in (TOP / "crates").iterdir()}
        for name in crate_items.library_crates(TOP):
            crate = crate_items.Crate(TOP, name)
            for it in crate.entries.values():
                self.add(self.free, it)
                found = self.members.setdefault(it.name, {})
                for part in crate.members(it.name) + it.ghosts:
                    self.add(found, part)
                for part in it.parts:
                    found.setdefault(re.match(r"\w+", part.text)[0], set()).add(None)

    @staticmethod
    def add(found, item):
        """Adds the number of an item's parameters under its name. None is any number."""
        found.setdefault(item.name, set()).add(parameters(item.text) if item.kind == "fn" else None)

    def with_member(self, name, variable=""):
        """All numbers of parameters that members of this name have: those of the variable's type, if it is known."""
        owner = VARIABLES.get(variable, variable.capitalize())
        types = [self.members[owner]] if owner in self.members else self.members.values()
        return set().union(*(found[name] for found in types if name in found))

    def has_type(self, name):
        return name in self.members or name in TYPES

    def has(self, name):
        return name in self.free or name in self.crates or bool(self.with_member(name))


def parts_between_commas(text):
    """The arguments or parameters of a text, as far as commas outside of brackets part them."""
    found, at = [], 0
    while at < len(text):
        stop = crate_items.comma_after(text, at, len(text))
        found.append(text[at:stop].strip())
        at = stop + 1
    return [it for it in found if it]


def parameters(text):
    """How many parameters a function has, without the one that stands before the dot."""
    opens = text.index("(", crate_items.after_generics(text, re.search(r"fn \w+", text).end()))
    found = parts_between_commas(text[opens + 1:crate_items.end_of(text, opens)])
    return len([it for it in found if not re.fullmatch(r"(?:&(?:'\w+ )?)?(?:mut )?self", it)])


def arguments(code, at):
    """How many arguments a call has whose bracket is here. None if it leaves some out by `..`."""
    found = parts_between_commas(code[at + 1:crate_items.end_of(code, at)])
    return None if ".." in found else len(found)


def called(names, code):
    """What is wrong with the calls and paths of a piece of code, in words."""
    code = re.sub(r"::<[^<>]*>", "", code)
    for it in re.finditer(r"(?P<before>\b\w+\.|\.|\b[A-Z]\w*::|)\b(?P<name>\w+)(?P<call>!?\(|)", code):
        before, name, call = it["before"], it["name"], it["call"]
        if before.endswith("::"):
            owner = before[:-2]
            if owner in TYPES:
                continue
            known = names.members.get(owner, {}).get(name)
            if known is None:
                yield f"{owner} has no {name}"
        elif not call:
            continue
        elif name in CALLS and not before:
            continue
        else:
            known = (set() if before else names.free.get(name, set())) or names.with_member(name, before.rstrip("."))
            if not known and name not in CALLS:
                yield f"no {'method' if before else 'function'} {name}"
        count = arguments(code, it.end() - 1) if call else None
        if known and count is not None and None not in known and count not in known:
            yield f"{name} has {' or '.join(map(str, sorted(known)))} parameters, and here {count}"


def wrong_in(names, code):
    """What is wrong with a text in backticks: names of types, calls, or one name."""
    if re.fullmatch(r"[\w./*-]*[/.][\w./*-]+(?: .*)?|rt( .*)?|[A-Z]+|out/.*|use Rattle.*", code) and "(" not in code:
        return
    if re.fullmatch(r"\w+", code):
        if not names.has(code) and code not in TYPES | CALLS | WORDS:
            yield f"nothing is called {code}"
        return
    for name in re.findall(r"(?<![\w:'])[A-Z]\w*(?=::|<| \{)", re.sub(r"ghost.*", "", code)):
        if not names.has_type(name) and name not in WORDS:
            yield f"no type {name}"
    yield from called(names, code)


def wrong_names():
    """A line for each name of the page that is not there."""
    names, is_code, found = Names(), False, []
    for at, line in enumerate(text_of(PAGE).split("\n"), 1):
        is_code ^= line.startswith("```")
        if not is_code and not line.startswith("    "):
            found += [f"{PAGE}:{at}: {why}: {code}" for code in re.findall(r"`([^`]+)`", line) for why in wrong_in(names, code)]
    known = set(crate_items.library_crates(TOP))
    found += [f"{PAGE}: the table of crates names {it}, which is no library crate" for it in crates() if it not in known]
    return found


def main(asked):
    if {"-h", "--help"} & set(asked):
        print(__doc__)
        return 0
    if asked == ["--crates"]:
        print("\n".join(crates()))
        return 0
    if asked == ["--rows"]:
        for want, named, examples in rows():
            print(re.sub(r"[:`]", "", want), " ".join(named), " ".join(examples), sep=":")
        return 0
    if asked:
        print(__doc__)
        return 2
    wrong = wrong_names()
    print("\n".join(wrong) or "each name is there")
    return 1 if wrong else 0


if __name__ == "__main__":
    sys.exit(main(sys.argv[1:]))
