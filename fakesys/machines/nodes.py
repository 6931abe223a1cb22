# SPDX-License-Identifier: MIT OR Apache-2.0
"""The nodes of a machine, by path, and the lines of its description. Paths are those of /sys without /sys."""
import collections
import re

READ, CHANGE, WRITE = 0o444, 0o644, 0o200  # the usual modes of an attribute


def escaped_path(path):
    """A path as a word of a line, in which a blank would end it."""
    return re.sub(r"[ \t\\]", lambda found: f"\\{ord(found[0]):03o}", path)


def escaped_text(data):
    """Bytes as the text of a `set` line, with the escapes of printf's %b."""
    shown = {10: "\\n", 92: "\\\\"}
    return "".join(shown.get(it) or (chr(it) if 32 <= it < 127 else f"\\x{it:02x}") for it in data) + "\\c"


def lines_of_file(path, mode, data):
    """The lines that make a file: one, if its text is one plain line."""
    path = escaped_path(path)
    if not data:
        return [f"file {path} {mode:03o}"]
    if re.fullmatch(rb"[ -~]+\n", data):
        return [f"file {path} {mode:03o} {data[:-1].decode()}"]
    return [f"file {path} {mode:03o}", f"set {path} {escaped_text(data)}"]


def numbers_of(span):
    """The numbers of a list such as 0-3,8."""
    ends = [part.partition("-") for part in str(span).split(",")]
    return [it for first, _, last in ends for it in range(int(first), int(last or first) + 1)]


def mask(span, total):
    """The kernel's bit mask of a list such as 0-3, in groups of 32 bits, for `total` processors."""
    bits = sum(1 << number for number in numbers_of(span))
    digits = f"{bits:0{(total + 3) // 4}x}"
    groups = [digits[max(end - 8, 0) : end] for end in range(len(digits), 0, -8)]
    return ",".join(reversed(groups))


class Tree:
    """Directories, files with modes and bytes, links; and which directories are devices of a class."""

    def __init__(self):
        self.directories, self.files, self.links, self.of_classes = {}, {}, {}, set()
        self.counts = collections.Counter()

    def next(self, kind, first=0):
        """The next number of a kind: of a hwmon, a minor, an interface."""
        self.counts[kind] += 1
        return first + self.counts[kind] - 1

    # ---- nodes ----

    def directory(self, path):
        """Makes a directory, and those above it."""
        parts = path.strip("/").split("/")
        for count in range(1, len(parts) + 1):
            self.directories["/" + "/".join(parts[:count])] = True
        return path

    def file(self, path, text="", mode=READ):
        """Makes a file: bytes are taken as they are; any other text gets a newline at its end, unless it is empty."""
        self.directory(path.rsplit("/", 1)[0])
        data = text if isinstance(text, bytes) else f"{text}\n".encode() if str(text) else b""
        self.files[path] = (mode, data)

    def put(self, at, mode=READ, /, **texts):
        """Makes attributes. A name that is a word of Python has an underscore after it: class_."""
        self.directory(at)
        for name, text in texts.items():
            self.file(f"{at}/{name.rstrip('_')}", text, mode)
        return at

    def change(self, at, /, **texts):
        """Makes attributes that root may write too."""
        return self.put(at, CHANGE, **texts)

    def only_written(self, at, *names):
        """Makes attributes that nobody may read."""
        for name in names:
            self.file(f"{at}/{name}", "", WRITE)

    def link(self, path, target):
        self.directory(path.rsplit("/", 1)[0])
        self.links[path] = target

    # ---- devices ----

    def power(self, at):
        """The group `power` of a device."""
        self.put(at + "/power", runtime_active_time=0, runtime_status="active", runtime_suspended_time=0)
        self.change(at + "/power", control="on")

    def uevent(self, at, words):
        self.file(at + "/uevent", "".join(f"{name}={text}\n" for name, text in words.items()).encode(), CHANGE)

    def device(self, at, subsystem, words, node=None):
        """What each device has. `node` is its major and minor number, and the name in /dev."""
        if node:
            major, minor, name = node
            words = {"MAJOR": major, "MINOR": minor, "DEVNAME": name, **words}
            kind = "block" if subsystem == "/class/block" else "char"
            self.put(at, dev=f"{major}:{minor}")
            self.link(f"/dev/{kind}/{major}:{minor}", at)
        self.uevent(at, words)
        self.link(at + "/subsystem", subsystem)
        return at

    def on_bus(self, at, bus, driver=None, node=None, /, **words):
        """A device of a bus, with its driver."""
        name, top = at.rsplit("/", 1)[1], f"/bus/{bus}"
        self.device(at, top, {**({"DRIVER": driver} if driver else {}), **words}, node)
        self.power(at)
        self.link(f"{top}/devices/{name}", at)
        self.directory(f"{top}/drivers")
        self.change(top, drivers_autoprobe=1)
        self.only_written(top, "drivers_probe", "uevent")
        if driver:
            self.link(f"{at}/driver", f"{top}/drivers/{driver}")
            self.link(f"{top}/drivers/{driver}/{name}", at)
            self.only_written(f"{top}/drivers/{driver}", "bind", "unbind", "uevent")
        return at

    def of_class(self, parent, kind, name, node=None, /, **words):
        """A device of a class, below its parent (None if it is virtual), as the driver core places it."""
        glue = "" if parent in self.of_classes else f"/{kind}"
        at = f"{parent or '/devices/virtual'}{glue}/{name}"
        self.device(at, f"/class/{kind}", words, node)
        self.power(at)
        self.link(f"/class/{kind}/{name}", at)
        if parent:
            self.link(at + "/device", parent)
        self.of_classes.add(at)
        return at

    def platform(self, name, driver=None):
        return self.on_bus(f"/devices/platform/{name}", "platform", driver, MODALIAS=f"platform:{name.split('.')[0]}")

    # ---- the description ----

    def lines(self):
        """The lines that make the tree: each directory before its files, and links after their targets."""
        files = collections.defaultdict(list)
        for path, (mode, data) in sorted(self.files.items()):
            files[path.rsplit("/", 1)[0]] += lines_of_file(path, mode, data)
        for path in sorted(self.directories):
            yield f"mkdir {escaped_path(path)}"
            yield from files[path]
        for path, target in self.links.items():
            if target not in self.directories and target not in self.files:
                raise ValueError(f"{path} leads to {target}, which is missing")
            yield f"link {escaped_path(path)} {escaped_path(target)}"
