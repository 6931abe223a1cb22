# SPDX-License-Identifier: MIT OR Apache-2.0
"""The lines of a description, and a mounted tree that lines change."""
import bisect
import contextlib
import os
import re

MOST_LINKS = 40  # on the way to a node, as in the kernel
MOST_TEXT = 4095  # bytes: what is longer is cut in a `file` line, and refused in a `set` line
MOST_LINES = 50  # in one write: the kernel may split a long one anywhere
# The beginnings of the lines that a tree is made of. (A description may have others, such as `storm`.)
MADE_OF = tuple(f"{it} " for it in ("mkdir", "file", "link", "activate", "set", "count", "filesystem", "hide"))
MADE_OF += tuple(f"{it} " for it in ("fail", "late", "slow"))
# Words of lines: whose path is followed through links, and of whose path only the directory is.
FOLLOWED = ("set", "fail", "late", "slow", "count", "hide", "show", "notify", "unplug", "replug", "change", "filesystem")
FOLLOWED_ABOVE = ("mkdir", "file", "link", "activate", "rm", "mv")


def escaped_path(path):
    """A path as a word of a line, in which a blank would end it."""
    return re.sub(r"(?a)[\s\\]", lambda found: f"\\{ord(found[0]):03o}", path)


def unescaped_path(word):
    """The path that a word of a line stands for."""
    return re.sub(r"\\([0-3][0-7]{2})", lambda found: os.fsdecode(bytes([int(found[1], 8)])), word)


def escaped_text(data):
    """Bytes as the text of a `set` line, with the escapes of printf's %b. The file gets no newline after them."""
    escape = lambda found: b"\\n" if found[0] == b"\n" else b"\\x%02x" % found[0][0]
    return re.sub(rb"[^ -\[\]-~]", escape, data).decode() + "\\c"


def text_of_file(rest):
    """What follows a path in a `file` line, as what follows it in a `set` line. There no byte is an escape, here some are."""
    return os.fsdecode(os.fsencode(rest[4:])[:MOST_TEXT]).replace("\\", "\\\\")


def printable(text):
    """A text in which control bytes, and bytes that are no UTF-8, are escaped, so that a terminal does not act on them."""
    code = lambda found: ord(found[0]) - (0xDC00 if found[0] >= "\udc80" else 0)
    return re.sub(r"[\x00-\x08\x0b-\x1f\x7f-\x9f\udc80-\udcff]", lambda found: f"\\{code(found):03o}", text)


def write_lines(control, lines):
    """Writes lines to a tree. Returns the lines that are left, and why the first of these was refused, if it was."""
    left = [os.fsencode(line) + b"\n" for line in lines]
    file = os.open(control, os.O_WRONLY)
    try:
        while left:
            taken = os.write(file, b"".join(left[:MOST_LINES]))
            while left and taken >= len(left[0]):
                taken -= len(left.pop(0))
    except OSError as error:
        return lines[len(lines) - len(left) :], error
    finally:
        os.close(file)
    return [], None


def write_line(control, line):
    """Writes a line, or several, to a tree. OSError if one is refused."""
    _, error = write_lines(control, line.split("\n"))
    if error:
        raise OSError(error.errno, f"{os.strerror(error.errno)}: {line}")


def unescaped_text(text):
    """The bytes of the text of a `set` line, without the newline that follows."""
    return os.fsencode(text.split("\\c")[0]).decode("unicode_escape", "replace").encode("latin-1", "replace")


def uevent_words(data):
    return [word for word in os.fsdecode(data).split("\n") if re.fullmatch(r"\w+=.*", word)]


class Description:
    """The lines of a description, and what they say about its nodes."""

    def __init__(self, text):
        self.words = [(line.split(" ", 2) + [""])[:3] for line in text.split("\n") if line.startswith(MADE_OF)]
        self.by_path = sorted((path, number) for number, (_, path, _) in enumerate(self.words))
        self.by_target = sorted((rest, n) for n, (word, _, rest) in enumerate(self.words) if word == "link")

    def below(self, index, top):
        """The words, in their order, that an index has for a path and what is below it."""
        found = []
        for first, end in (top, f"{top}\0"), (f"{top}/", f"{top}0"):  # (0 follows / in ASCII)
            found += index[bisect.bisect_left(index, (first,)) : bisect.bisect_left(index, (end,))]
        return [self.words[number] for number in sorted(number for _, number in found)]

    def tops(self):
        """The names of the directories in the root."""
        return {path[1:] for word, path, _ in self.words if word == "mkdir" and path.count("/") == 1}

    def links(self):
        return [(path, target) for word, path, target in self.words if word == "link"]

    def real(self, path):
        """A path with the links on the way followed."""
        links, done, left = dict(self.links()), "", path.split("/")[1:]
        for _ in range(200):  # (links may lead in a circle)
            if not left:
                break
            done = f"{done}/{left.pop(0)}"
            if done in links:
                left, done = links[done].split("/")[1:] + left, ""
        return "/".join([done, *left])

    def files(self):
        return [path for word, path, _ in self.words if word == "file"]

    def directories(self):
        return {path for word, path, _ in self.words if word == "mkdir"}

    def devices(self):
        """The directories to which links of a class or a bus lead, or that have a link `subsystem`."""
        of_bus = re.compile(r"/class/[^/]+/[^/]+|/bus/[^/]+/devices/[^/]+")
        found = {target for path, target in self.links() if of_bus.fullmatch(path)}
        found |= {os.path.dirname(path) for path, _ in self.links() if path.endswith("/subsystem")}
        return sorted(path for path in found & self.directories() if path.startswith("/devices/"))

    def uevents(self, top):
        """The devices in a directory and below, parents first, each with its subsystem and its uevent's words."""
        uevents, found = {}, []
        for word, path, rest in self.below(self.by_path, top):
            if path.endswith("/uevent") and word in ("file", "set"):
                uevents[path[:-7]] = uevent_words(os.fsencode(rest[4:]) if word == "file" else unescaped_text(rest))
            elif path.endswith("/subsystem") and word == "link":
                found.append((path[:-10], rest))
        name_of = lambda target: os.path.basename(unescaped_path(target))
        return [(unescaped_path(path), name_of(target), uevents.get(path, [])) for path, target in sorted(found)]

    def making(self, top):
        """The lines that plug a device with everything below it, visible only once complete, and the links into it."""
        inside = self.below(self.by_path, top)
        if not any(words[:2] == ["mkdir", top] for words in inside):
            raise FileNotFoundError(2, f"the description has no device {top}")
        own = ["mkdir", top], ["activate", top]
        lines = [" ".join(filter(None, words)) for words in inside if words[:2] not in own]
        leads = self.below(self.by_target, top)
        into = [f"link {path} {target}" for _, path, target in leads if not f"{path}/".startswith(f"{top}/")]
        return [f"mkdir {top} off", *lines, f"activate {top}", *into]


class Tree:
    """A mounted tree, and what changes it: its own lines, and those that need the description or send uevents."""

    def __init__(self, control, description, send=None):
        self.control, self.description, self.send = control, description, send
        self.at = os.path.dirname(control)

    def give(self, line):
        """Gives the tree a line; or does `plug PATH`, `unplug PATH` or `change PATH`."""
        word, _, path = line.partition(" ")
        if word in ("plug", "unplug", "change"):
            getattr(self, f"give_{word}")(path)
        else:
            write_line(self.control, line)

    def real(self, path):
        """The path of a node as a word of a line, with the links on the way followed. (os.path.realpath() would also
        follow those of /proc that lead to the tree.)"""
        real, left, links = "", path.split("/"), 0
        while left:
            step = left.pop(0)
            next_one = os.path.normpath(f"{real}/{step}")
            if links < MOST_LINKS and os.path.islink(self.at + next_one):
                links += 1
                left = os.readlink(self.at + next_one).split("/") + left
            else:
                real = next_one.rstrip("/")
        return escaped_path(real or "/")

    def follow(self, line):
        """A line with the links on the way of its path followed: as they are now, or for `plug` as the description has
        them. Of a node that the line creates, moves or removes, only its directory's path is followed."""
        word, _, rest = line.partition(" ")
        path, blank, more = rest.partition(" ")
        folder, _, name = path.rpartition("/")
        if not path.startswith("/"):
            return line
        if word == "plug":
            path = self.description.real(path)
        elif word in FOLLOWED:
            path = self.real(unescaped_path(path))
        elif word in FOLLOWED_ABOVE:
            path = f"{self.real(unescaped_path(folder)).rstrip('/')}/{name}"
        return f"{word} {path}{blank}{more}"

    def give_plug(self, path):
        lines = left = self.description.making(path)
        while left:
            left, error = write_lines(self.control, left)
            if isinstance(error, FileExistsError) and self.remove_loose(left[0]):
                continue
            if error and not (left[0].startswith("link ") and isinstance(error, (FileNotFoundError, FileExistsError))):
                if len(left) < len(lines):  # half a device would refuse each later plug
                    write_lines(self.control, [f"unplug {path}"])
                raise OSError(error.errno, f"{os.strerror(error.errno)}: {left[0]}")
            left = left[1:]  # the target or the directory of such a link may be gone too
        self.tell("add", self.description.uevents(path) if self.send else ())

    def remove_loose(self, line):
        """Removes the link that a line makes if it is there and leads nowhere, since its target is gone. Returns whether it
        did so."""
        word, path, *_ = line.split(" ")
        at = self.at + unescaped_path(path)
        is_loose = word == "link" and os.path.islink(at) and not os.path.exists(at)
        return is_loose and not write_lines(self.control, [f"rm {path}"])[1]

    def give_unplug(self, path):
        known = self.description.uevents(path) if self.send else []
        below = [it for it in known if os.path.lexists(self.at + it[0])] or self.device_at(path)
        write_line(self.control, f"unplug {path}")
        self.tell("remove", below[::-1])

    def give_change(self, path):
        self.tell("change", self.device_at(path))

    def device_at(self, path):
        """The device that a directory is now, with its subsystem and its uevent's words: a list of one, or empty."""
        path = unescaped_path(path)
        folder, words = self.at + path, []
        if not self.send or not os.path.islink(folder + "/subsystem"):
            return []
        with contextlib.suppress(OSError), open(folder + "/uevent", "rb", buffering=0) as file:
            words = uevent_words(os.read(file.fileno(), 4096))
        return [(path, os.path.basename(os.readlink(folder + "/subsystem")), words)]

    def tell(self, action, devices):
        for device in devices if self.send else ():
            self.send(action, *device)
