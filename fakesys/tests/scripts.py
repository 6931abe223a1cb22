# SPDX-License-Identifier: MIT OR Apache-2.0
"""Runs scripts of the proved program line by line, and compares the replies."""
import contextlib, os, random, re, select, stat, subprocess, sys

from mounted import EVENTS, NAMES, TOP, Mount, eventually, must

ASKED = (
    "mkdir file link activate mv rm hide show notify".split()
)  # through the control file; all others by system calls


class Board:
    """Runs the lines of a script: those that change the tree through the control file, all others as system
    calls on the mount."""

    def __init__(self, mount):
        self.mount, self.files, self.ends = mount, {}, {}

    def close(self):
        for file in self.files.values():
            os.close(file)

    def reply(self, line):
        word, *rest = line.split(" ", 2)
        if word in ASKED:
            return self.mount.tell(line)
        try:
            return getattr(self, "do_" + word)(*rest)
        except OSError as error:
            return f"err {NAMES.get(error.errno, error.strerror)}"

    def do_stat(self, path):
        of = os.lstat(self.mount.path(path))
        if stat.S_ISDIR(of.st_mode):
            return f"dir subdirs={of.st_nlink - 2} nlink={of.st_nlink} live"
        return "link live" if stat.S_ISLNK(of.st_mode) else f"file mode={of.st_mode & 0o777:03o} live"

    def do_ls(self, path):
        file = os.open(self.mount.path(path), os.O_RDONLY | os.O_DIRECTORY | os.O_NOFOLLOW)
        try:
            return " ".join(os.listdir(file))
        finally:
            os.close(file)

    def do_readlink(self, path):
        return os.readlink(self.mount.path(path))

    def do_open(self, letter, rest):
        path, way = rest.split(" ")
        if letter in self.files:
            return "err Busy 16"
        flags = {"r": os.O_RDONLY, "w": os.O_WRONLY, "rw": os.O_RDWR}[way] | os.O_NOFOLLOW
        file = os.open(self.mount.path(path), flags)
        if stat.S_ISDIR(os.fstat(file).st_mode):  # (the kernel opens it for reading)
            os.close(file)
            return "err IsDir 21"
        self.files[letter] = file
        return "ok"

    def do_read(self, letter, rest):
        if letter not in self.files:
            return "err Invalid 22"
        offset, length = map(int, rest.split(" "))
        self.ends[letter] = None
        text = os.pread(self.files[letter], length, offset)
        self.ends[letter] = offset + len(text)
        return text.decode("latin-1").removesuffix("\n")

    def reads_elsewhere(self, line):
        """Whether a line reads at another offset than the end of the last read: there the program still has the
        text of that show, and the kernel shows again."""
        word, letter, *rest = f"{line} ".split(" ")
        return word == "read" and letter in self.files and int(rest[0]) not in (0, self.ends.get(letter))

    def do_write(self, letter, text=""):
        return (
            str(os.pwrite(self.files[letter], text.encode("latin-1"), 0))
            if letter in self.files
            else "err Invalid 22"
        )

    def do_poll(self, letter):
        waiting = select.poll()
        if letter not in self.files:
            return "err Invalid 22"
        waiting.register(self.files[letter], EVENTS)
        return "changed" if waiting.poll(0) else "same"

    def do_close(self, letter):
        if letter not in self.files:
            return "err Invalid 22"
        os.close(self.files.pop(letter))
        return "ok"


def is_for_the_mount(line, wanted):
    """Whether the mount can run a line: it has no other command, read or write of no bytes or path that the VFS
    corrects, and the only state of a node is `live`."""
    word, *rest = line.split(" ", 2)
    if word in ASKED:
        return True
    if word not in "ls readlink stat open read write poll close".split() or not rest:
        return False
    if word == "stat" and not wanted.endswith(" live"):
        return False
    if word in ("ls", "readlink", "stat", "open"):
        path = rest[0] if word != "open" else rest[1].split(" ")[0] if len(rest) > 1 else ""
        fits = (word != "open" or re.fullmatch(r"[a-z]", rest[0])) and re.fullmatch(r"/|(/[^/]+)+", path)
        return bool(fits) and line.count(" ") == (3 if word == "open" else 1)
    if word == "read":
        return (
            bool(re.fullmatch(r"read [a-z] \d{1,10} 0*[1-9]\d{0,4}", line))
            and int(line.split(" ")[3]) < 65536
        )
    return bool(re.fullmatch(r"write [a-z] .+|(poll|close) [a-z]", line))


def scripts():
    """The repository's scripts that the mount can run, with their slots, lines and replies."""
    for name in sorted((TOP / "examples").glob("*.kf")):
        lines, replies = name.read_text().splitlines(), name.with_suffix(".out").read_text().split("\n")
        yield name.name, 1024, list(zip(lines, replies))
    for name in ("tree", "files", "lines"):
        for text in (TOP / f"tests/scripts/{name}.txt").read_text(encoding="utf-8").split("\n== ")[1:]:
            title, *lines = re.sub(r"\{(.)\*(\d+)\}", lambda it: it[1] * int(it[2]), text).split("\n")
            slots = re.search(r": --slots (\d+)$", title)
            pairs = [
                (asked, answered[1:])
                for asked, arrow, answered in (line.partition(" ->") for line in lines)
                if arrow
            ]
            if slots or ": --" not in title:
                yield title.partition(": --")[0], int(slots[1]) if slots else 1024, pairs


def scripted(program, folder):
    """Each script that the mount can run has the replies of kernfs_run, through the control file and by system
    calls."""
    scripts_run = lines_run = 0
    for title, slots, pairs in scripts():
        pairs = [
            (asked, "ok" if asked.split(" ")[0] in ASKED and answer.startswith("ok") else answer)
            for asked, answer in pairs
            if asked not in ("commands", "compact") and answer != "err Line 22"
        ]
        if not pairs or not all(is_for_the_mount(*pair) for pair in pairs):
            continue
        with Mount(program, folder, slots=slots) as mount, contextlib.closing(Board(mount)) as board:
            for line, wanted in pairs:
                if board.reads_elsewhere(line):
                    continue
                given = board.reply(line)
                if line.startswith("read") and wanted == "" and given == "err NoDevice 19":
                    continue  # at the end of a text the kernel checks that the file exists
                if (
                    given == "ok"
                    and wanted == "err NoSpace 28"
                    and any(it.startswith("hide") for it, _ in pairs)
                ):
                    break  # only the library uses the slot of a file again that was hidden and removed
                if given == "err NoSpace 28" != wanted:
                    must(
                        eventually(lambda line=line, wanted=wanted: board.reply(line) == wanted),
                        f"{title}: {line}: {wanted}",
                    )
                else:
                    must(given == wanted, f"{title}: {line[:80]} -> {given[:80]}, not {wanted[:80]}")
        scripts_run, lines_run = scripts_run + 1, lines_run + len(pairs)
    must(scripts_run >= 20, f"only {scripts_run} scripts were run")
    return f"{scripts_run} scripts, {lines_run} lines"


def random_line(lot):
    """A line that makes or changes a tree, or almost such a line."""
    names = ["a", "b", "c", "d", "", ".", "..", "n" * 255, "n" * 256, "\xe9"]

    def path():
        of_few = "".join("/" + lot.choice(names[:4]) for _ in range(lot.randrange(1, 4)))
        return lot.choice(
            [of_few] * 12
            + ["/", "//", of_few + "/", of_few + "/" + lot.choice(names), of_few[1:], "/" + of_few]
        )

    modes = ["644", "444", "000", "64", "648"]
    forms = [
        ("mkdir", path(), *["off"] * (lot.random() < 0.3)),
        ("file", path(), lot.choice(modes)),
        ("link", path(), path()),
        ("activate", path()),
        ("mv", path(), path(), lot.choice(names)),
        ("rm", path()),
        ("notify", path()),
    ]
    words = list(lot.choice(forms + forms[:3]))
    if lot.random() < 0.05:
        words.insert(lot.randrange(len(words) + 1), lot.choice(["", "x", "off"]))
    return " ".join(words)


def compared(program, folder, runner):
    """Random lines that make and change trees have the replies of the proved program."""
    lines_run = 0
    for seed in range(10):
        lot = random.Random(seed)
        script = folder / "random.kf"
        script.write_bytes("".join(random_line(lot) + "\n" for _ in range(1000)).encode("latin-1"))
        slots = lot.choice([4, 12, 40])
        wanted = subprocess.run(
            [runner, "--slots", str(slots), script], capture_output=True, timeout=60, check=True
        ).stdout
        wanted = wanted.decode("latin-1").split("\n")
        with Mount(program, folder, slots=slots) as mount:
            for line, reply in zip(script.read_text(encoding="latin-1").split("\n"), wanted[:-1]):
                given = mount.tell(line)
                must(
                    given == ("ok" if reply.startswith("ok") else reply),
                    f"seed {seed}: {line[:200]} -> {given}, not {reply}",
                )
        lines_run += len(wanted) - 1
    return f"{lines_run} lines"


def mirrored(program, folder, runner):
    """A part of the running kernel's /sys is created in the mount; from there mirror_sysfs mirrors it into the
    program."""
    mirror = [sys.executable, TOP / "tests/conformance/mirror_sysfs"]
    asked = [*mirror, "--directories", "200", "--print"]
    made = subprocess.run(asked, capture_output=True, timeout=60, check=True)
    lines = [
        line for line in made.stdout.decode().splitlines() if line.split(" ")[0] in ("mkdir", "file", "link")
    ]
    with Mount(program, folder, lines, slots=4096) as mount:
        env = {**os.environ, "KERNFS_RUN": str(runner)}
        ran = subprocess.run(
            [*mirror, "--root", mount.at], capture_output=True, text=True, env=env, timeout=60, check=False
        )
        must(ran.returncode == 0, ran.stdout[-800:] + ran.stderr[-800:])
        return ran.stdout.splitlines()[-1]
