# SPDX-License-Identifier: MIT OR Apache-2.0
"""Reads what a crate exports from its sources: functions, types, traits, constants and macros, with their documentation,
contracts and ghost members. The pages of docs/reference and the check of names in docs/LIBRARY.md rest on it."""

import re
from dataclasses import dataclass, field
from pathlib import Path

# Comments, strings and characters, in which a bracket does not count, and the brackets.
TOKEN = re.compile(r"""//[^\n]*|b?"(?:\\.|[^"\\])*"|b?'(?:\\[^']+|[^\\'\n])'|[()\[\]{}]""", re.S)
BLANK = re.compile(r"(?:\s|//(?!/(?!/))[^\n]*)+")
HEAD = re.compile(r"(?P<public>pub(?:\([^)]*\))? )?(?:(?:const|unsafe) (?=fn\b))?"
                  r"(?P<kind>fn|struct|enum|trait|type|const|static|impl|mod|use|ghost|macro_rules!)(?![\w!])")
CLAUSE = re.compile(r"(requires|ensures)\*?(?: (\w+))? ?(?=\{)")


@dataclass
class Item:
    """A function, type, trait, constant or macro, or a variant, field or ghost member of one."""
    kind: str
    name: str
    text: str  # as it is declared, without its contract and its body
    doc: str = ""
    is_public: bool = False
    path: str = ""
    owner: str = ""  # of a method, its type or trait
    head: str = ""  # of a method, the first line of its `impl`
    clauses: list = field(default_factory=list)  # (requires or ensures, name, fact, comment above it)
    parts: list = field(default_factory=list)  # variants and public fields
    ghosts: list = field(default_factory=list)  # invariants of a struct, ghost members of a trait
    derives: set = field(default_factory=set)
    uses: dict = field(default_factory=dict)  # the names that its facts use: the module and the name there

    @property
    def title(self):
        return f"{self.owner}::{self.name}" if self.owner else self.name + "!" * (self.kind == "macro")

    @property
    def summary(self):
        """The first sentence of the documentation."""
        first = " ".join(self.doc.split("\n\n")[0].split())
        return re.split(r"(?<=\.) (?=[A-Z`\[(])|(?<=:) (?=[A-Z`\[])", first, maxsplit=1)[0].rstrip(":")

    def paragraph(self, word):
        """The paragraph of the documentation that begins with this word, without it."""
        found = re.search(rf"^{word}s?(?:, [\w ]+)?: (.*?)(?=\n\n|\Z)", self.doc, re.M | re.S)
        return " ".join(found[1].split()) if found else ""


@dataclass
class Impl:
    """A block `impl Type` or `impl Trait for Type`, with the ghost members and the methods of the latter."""
    trait: str
    type: str
    head: str
    ghosts: list
    uses: dict
    methods: list = field(default_factory=list)


def end_of(text, at):
    """The place of the bracket that closes the one at this place."""
    depth = 0
    for token in TOKEN.finditer(text, at):
        depth += (token[0] in "([{") - (token[0] in ")]}") if len(token[0]) == 1 else 0
        if depth == 0:
            return token.start()
    raise ValueError(f"no closing bracket: {text[at:at + 80]}")


def next_of(text, at, pattern):
    """The next match outside of brackets."""
    wanted = re.compile(pattern)
    while True:
        found, token = wanted.search(text, at), TOKEN.search(text, at)
        if not found:
            raise ValueError(f"no {pattern}: {text[at:at + 80]}")
        if not token or found.start() <= token.start():
            return found
        at = end_of(text, token.start()) + 1 if len(token[0]) == 1 else token.end()


def after_generics(text, at):
    """The place after `<..>`, if there is one here."""
    if text[at:at + 1] != "<":
        return at
    depth = 0
    for token in re.compile(r"->|[<>]").finditer(text, at):
        depth += {"<": 1, ">": -1, "->": 0}[token[0]]
        if depth == 0:
            return token.end()
    raise ValueError(f"no closing bracket: {text[at:at + 80]}")


def comma_after(text, at, end):
    """The place of the next comma outside of all brackets, or the end."""
    depth = 0
    for token in re.compile(TOKEN.pattern + r"|->|[<>,]", re.S).finditer(text, at, end):
        depth += (token[0] in ("(", "[", "{", "<")) - (token[0] in (")", "]", "}", ">"))
        if token[0] == "," and depth == 0:
            return token.start()
    return end


def dedented(text, public=""):
    """A declaration of several lines as if it began a line, or in one line if it fits."""
    text = text.strip()
    one = re.sub(r"(\() |,? (\))", r"\1\2", " ".join(text.split()))
    if len(public + one) <= 100:
        return public + one
    rest = text.split("\n")[1:]
    least = min((len(line) - len(line.lstrip()) for line in rest if line.strip()), default=0)
    return "\n".join([public + text.split("\n")[0], *(line[least:] for line in rest)])


def plain_form(form):
    """The form of a macro's call without the signs of its pattern: `name` for `$name:expr`, `part, ..` for a list of parts."""
    form, more = re.sub(r"\$(\w+):\w+", r"\1", form), 1
    form = form.replace("$(,)?", "")
    while more:
        form, more = re.subn(r"\$\(([^()]*)\)([,;]?)([*+?])",
                             lambda it: f"[{it[1]}]" if it[3] == "?" else f"{it[1]}{it[2]} ..", form)
    return re.sub(r"\s+\)", ")", form)


def used_names(text):
    """The names of other modules in `ghost use` lines, each with its module and its name there."""
    used = {}
    for module, names in re.findall(r"ghost use ([\w.]+?)\.\{(.*?)\};", text, re.S):
        for it in names.split(","):
            whole, _, short = it.strip().partition(" as ")
            used[short or whole] = (module, whole)
    for module, short in re.findall(r"ghost use ([\w.]+) as (\w+);", text):
        used[short] = (module, "")
    return used


class File:
    """The items and `impl` blocks of a source file."""

    def __init__(self, path):
        self.path, self.text = path, path.read_text(encoding="utf-8")
        self.items, self.impls = [], []
        self.uses = used_names(self.text)
        self.block(0, len(self.text), None)

    def block(self, at, end, owner):
        """Reads the items between two places, which are members if there is an owner."""
        doc, attributes = [], []
        while at < end:
            if blank := BLANK.match(self.text, at, end):
                at = blank.end()
            elif self.text.startswith("///", at):
                line = self.text[at:self.text.index("\n", at)]
                doc.append(line[3:].removeprefix(" ").rstrip())
                at += len(line)
            elif self.text.startswith("#", at):
                close = end_of(self.text, self.text.index("[", at))
                attributes.append(self.text[at:close + 1])
                at = close + 1
            else:
                at = self.item(at, "\n".join(doc), attributes, owner)
                doc, attributes = [], []

    def item(self, at, doc, attributes, owner):
        """Reads one item, and returns the place after it."""
        head = HEAD.match(self.text, at)
        kind = head["kind"] if head else ""
        if kind == "fn":
            return self.function(head, doc, owner)
        if kind in ("struct", "enum", "trait"):
            return self.type(head, doc, attributes)
        if kind == "impl":
            return self.impl(head)
        if kind == "macro_rules!":
            return self.macro(head, doc, attributes)
        stop = next_of(self.text, at, r"[;{]")
        end = end_of(self.text, stop.start()) if stop[0] == "{" and kind in ("", "mod") else next_of(self.text, at, ";").start()
        if kind in ("const", "static", "type") or kind == "ghost" and not self.text.startswith("ghost use", head.start("kind")):
            text = self.text[head.start("kind"):end]
            name = re.match(r"\w+ (?:mut )?(\w+)", text)[1]
            self.add(Item(kind, name, dedented(text), doc, head["public"] == "pub "), owner)
        return end + 1

    def add(self, item, owner=None):
        item.path, item.uses = str(self.path), self.uses
        if owner is None:
            self.items.append(item)
        elif isinstance(owner, Item):  # a trait: all members are as public as it is
            item.owner, item.is_public = owner.name, True
            (owner.ghosts if item.kind == "ghost" else self.items).append(item)
        elif item.kind == "ghost":
            owner.ghosts.append(item)
        elif not owner.trait:
            item.owner, item.head = owner.type, owner.head
            self.items.append(item)
        else:
            owner.methods.append(item)

    def function(self, head, doc, owner):
        name = re.compile(r"fn (\w+)").match(self.text, head.start("kind"))
        closes = end_of(self.text, self.text.index("(", after_generics(self.text, name.end())))
        stop = next_of(self.text, closes + 1, r"[;{]|\b(?:requires|ensures)\b").start()
        tail = self.text[closes + 1:stop]
        text = self.text[head.start("kind"):closes + 1] + re.sub(r"\s*//[^\n]*", "", tail)
        item = Item("fn", name[1], dedented(text, "const " * ("const" in head[0])), doc, head["public"] == "pub ")
        at = stop
        while True:
            blank = BLANK.match(self.text, at)
            comment = " ".join(re.findall(r"// ?(.*)", tail if at == stop else blank[0] if blank else ""))
            at = blank.end() if blank else at
            clause = CLAUSE.match(self.text, at)
            if not clause:
                break
            end = end_of(self.text, clause.end())
            fact = re.sub(r"^\{\s*|\s*\}$", "", self.text[clause.end():end + 1])
            item.clauses.append((clause[1], clause[2] or "", " ".join(fact.split()), comment))
            at = end + 1
        self.add(item, owner)
        return (end_of(self.text, at) if self.text[at] == "{" else at) + 1

    def type(self, head, doc, attributes):
        kind, begin = head["kind"], head.start("kind")
        name = re.compile(r"\w+ (\w+)").match(self.text, begin)
        stop = next_of(self.text, after_generics(self.text, name.end()), r"[{;(]")
        item = Item(kind, name[1], dedented(self.text[begin:stop.start()]), doc, head["public"] == "pub ")
        item.derives = {it.strip() for line in attributes for it in re.findall(r"derive\((.*?)\)", line) for it in it.split(",")}
        if kind == "trait":  # before its members
            self.add(item)
        if stop[0] == ";":
            end = stop.start()
        else:
            end = end_of(self.text, stop.start())
            if kind == "trait":
                self.block(stop.end(), end, item)
            elif stop[0] == "{":
                self.parts(stop.end(), end, item)
            else:  # a struct of unnamed fields
                end = next_of(self.text, end + 1, ";").start()
        if kind != "trait":
            self.add(item)
        return end + 1

    def parts(self, at, end, item):
        """The variants of an enum, or the public fields and the invariants of a struct."""
        doc = []
        while at < end:
            if blank := BLANK.match(self.text, at, end):
                at = blank.end()
                continue
            line = re.compile(r"///[^\n]*|#").match(self.text, at)
            if line and line[0] == "#":
                at = end_of(self.text, self.text.index("[", at)) + 1
                continue
            if line:
                doc.append(line[0][3:].strip())
                at = line.end()
                continue
            stop = comma_after(self.text, at, end)
            text = " ".join(self.text[at:stop].split())
            public = text.startswith("pub ")
            text = text.removeprefix("pub ")
            name = text.removeprefix("ghost ").split(":")[0]
            it = Item("ghost" if text.startswith("ghost ") else "part", name, text, " ".join(doc))
            if it.kind == "ghost":
                item.ghosts.append(it)
            elif public or item.kind == "enum":
                item.parts.append(it)
            doc, at = [], stop + 1

    def impl(self, head):
        stop = next_of(self.text, head.end(), r"\{").start()
        line = dedented(self.text[head.start():stop])
        rest = line[after_generics(line, 4):].strip() if line[4:5] == "<" else line[4:].strip()
        trait, _, of = rest.partition(" for ") if " for " in rest else ("", "", rest)
        name = re.match(r"&?(?:mut )?(?:\w+::)*(\w+)", of.strip())
        end = end_of(self.text, stop)
        uses = {**self.uses, **used_names(self.text[stop:end])}
        block = Impl(re.sub(r"^(?:\w+::)*", "", trait), name[1] if name else of, line, [], uses)
        self.impls.append(block)
        self.block(stop + 1, end, block)
        return end + 1

    def macro(self, head, doc, attributes):
        name = re.compile(r"macro_rules! (\w+)\s*").match(self.text, head.start("kind"))
        end = end_of(self.text, name.end())
        forms = re.findall(r"(?:^|\n)\s*(\([^\n]*\)) => ", self.text[name.end() + 1:end])
        text = "\n".join(f"{name[1]}!{plain_form(form)}" for form in forms if form != "()") or f"{name[1]}!(..)"
        self.add(Item("macro", name[1], text, doc, any("macro_export" in it for it in attributes)))
        return end + 1


class Crate:
    """A library crate: the words at its head, and its entries, each under the name that it is exported by."""

    def __init__(self, top, name):
        self.name, self.folder = name, Path(top) / "crates" / name
        root = (self.folder / "src/lib.rt").read_text(encoding="utf-8")
        self.head = "\n".join(line[3:].removeprefix(" ") for line in root.split("\n") if line.startswith("//!"))
        files = [File(path) for path in sorted((self.folder / "src").rglob("*.rt"))]
        self.items = [it for file in files for it in file.items]
        self.impls = [it for file in files for it in file.impls]
        self.entries, self.passed_on, self.missing = {}, {}, []
        for module, name in exported(root):
            first = module.split("::")[0]
            if (self.folder.parent / first / "src/lib.rt").is_file():
                self.passed_on[name] = first
            elif found := [it for it in self.items if it.name == name and not it.owner]:
                at = [it for it in found if f"/{module.replace('::', '/')}" in it.path.removesuffix(".rt")]
                self.entries[name] = (at or found)[0]
            else:
                self.missing.append(name)
        # (a macro is exported by its attribute, and what the root itself declares by `pub`)
        for it in self.items:
            if it.is_public and not it.owner and (it.kind == "macro" or it.path.endswith("src/lib.rt")):
                self.entries.setdefault(it.name, it)

    def members(self, name):
        """The public methods and constants of an exported type, in their order."""
        return [it for it in self.items if it.owner == name and it.is_public]

    def impls_of(self, name):
        return [it for it in self.impls if it.type == name and it.trait]


def exported(root):
    """Each name that a crate's root exports by `pub use`, with its module."""
    for module, names, name in re.findall(r"^pub use ([\w:]+?)::(?:\{(.*?)\}|(\w+));", root, re.M | re.S):
        for it in (names or name).split(","):
            if it.strip():
                yield module, it.strip()


def library_crates(top):
    """The crates that have a page, each with those of them that it stands on: libraries, except tests and the one behind C."""
    found = {}
    for line in (Path(top) / "crates.txt").read_text(encoding="utf-8").split("\n"):
        head, _, needs = line.partition(":")
        if re.fullmatch(r"kf_\w+(?<!_tests)", head) and (Path(top) / "crates" / head / "src/lib.rt").is_file():
            found[head] = [it for it in dict.fromkeys(needs.split()) if it in found]
    return found
