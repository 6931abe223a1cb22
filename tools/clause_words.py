# SPDX-License-Identifier: MIT OR Apache-2.0
"""Puts a clause of a contract into words: for which results it is, and what the definitions that it cites mean, by the comments
above them in the crates' specs. The pages of docs/reference are made by it."""

import importlib.machinery
import importlib.util
import os
import re
from pathlib import Path

import crate_items

TOP = Path(__file__).resolve().parent.parent
NO_WORDS = "(no words)"  # of a definition without a comment
EXPLAINED = {"seat_view", "history_of", "links_seen"}  # in the index, for all pages
CASES = {"IfOk": "Ok", "OnOk": "Ok", "IfErr": "Err", "OnErr": "Err", "IfSome": "Some", "IfNone": "None", "OnTrue": "true",
         "OnFalse": "false"}


def program(path):
    """A program of the repository, as a module."""
    loader = importlib.machinery.SourceFileLoader(path.name, str(path))
    module = importlib.util.module_from_spec(importlib.util.spec_from_loader(loader.name, loader))
    before = os.getcwd()
    loader.exec_module(module)
    os.chdir(before)
    return module


DEFINITIONS = program(TOP / "tools/definitions")


def definition(name, uses):
    """The definition of this repository that a name of a clause stands for, or nothing."""
    place = DEFINITIONS.stands(*uses[name]) if name in uses else None
    return DEFINITIONS.found[place[0]][place[1]] if place else None


def cited(fact, uses):
    """Each definition with words that a fact names, by that name, in the order in which they are named."""
    names = dict.fromkeys(re.findall(r"(?<![\w.'])[A-Za-z_][\w']*", fact))
    found = {name: definition(name, uses) for name in names}
    return {name: it for name, it in found.items() if it and it.words != NO_WORDS and name not in EXPLAINED}


def unwrapped(text):
    """The text without brackets around it, and without `λ name. ` at its front; and that name, or nothing."""
    text = text.strip()
    if text.startswith("(") and crate_items.end_of(text, 0) == len(text) - 1:
        text = text[1:-1].strip()
    named = re.match(r"λ (\S+)\. ", text)
    return (text[named.end():], named[1]) if named else (text, None)


def when(case, name):
    """The value that the result has, as `Ok(key)`."""
    return f"`{case}({name})`" if name and name != "_" else f"`{case}`"


def cases_of(fact):
    """A clause as pairs: for which results it is, in words, and the fact."""
    both = re.match(r"MatchResult result \(", fact)
    if both:
        middle = crate_items.end_of(fact, both.end() - 1)
        (first, a), (second, b) = unwrapped(fact[both.end() - 1:middle + 1]), unwrapped(fact[middle + 1:])
        return [(f"for {when('Ok', a)}", first), (f"for {when('Err', b)}", second)]
    one = re.match(r"(\w+) result (.+)$", fact)
    if one and one[1] in CASES:
        rest, name = unwrapped(one[2])
        return [(f"for {when(CASES[one[1]], name)}", rest)]
    exactly = re.match(r"IsTrue result ↔ (.+)$", fact)
    if exactly:
        return [("`true` exactly if", exactly[1])]
    return [("", fact)]


def plain(fact, uses):
    """A fact in which variants have no module in front."""
    return re.sub(r"\b(\w+)\.(?=[A-Z])", lambda it: "" if uses.get(it[1], ("", 1))[1] == "" else it[0], fact)


def said_by(definition, most=400):
    """The words above a definition, whole sentences of them."""
    words = definition.words.rstrip(".")
    if len(words) <= most:
        return words
    cut = max(words.rfind(mark, 0, most) for mark in (". ", "; ", ": ", ", "))
    return words[:cut if cut > 0 else most] + " .."


def linked(name, it):
    """A definition's name that links to its file, as a page of docs/reference has it."""
    return f"[`{name}`](../../{it.path})"


def in_words(fact, uses):
    """A fact in lines. If it is one definition of something, its words come first, else the words of each are below it."""
    names, fact = cited(fact, uses), plain(fact, uses)
    head = re.match(r"[A-Za-z_][\w']*", fact)
    first = f"`{fact}`"
    if head and head[0] in names and not re.search(r"[≡≢×⊎→↔<≤]", re.sub(r"\([^()]*\)", "", fact)):
        it, rest = names.pop(head[0]), fact[head.end():].strip()
        first = f"{said_by(it)}. {linked(head[0], it)}" + (f" `{rest}`" if rest else "")
    return [first, *(f"  - {linked(name, it)}: {said_by(it)}" for name, it in names.items())]


def clause_lines(name, fact, comment, uses):
    """The lines of one clause. If there is a comment above it in the source, that comes first."""
    for at, (case, part) in enumerate(cases_of(fact)):
        first, *rest = in_words(part, uses)
        if comment and at == 0:
            first, rest = comment.rstrip("."), [f"  - {first}", *rest]
        lead = ", ".join(it for it in (f"**{name}**" if name else "", case) if it)
        yield f"- {lead}: {first}" if lead else f"- {first}"
        yield from rest
