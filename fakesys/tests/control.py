# SPDX-License-Identifier: MIT OR Apache-2.0
"""How lines are written to the control file: one, many, wrong ones, and any bytes."""
import contextlib, errno, os, random, subprocess, threading
from pathlib import Path

from mounted import Beside, error_of, must, read_path


def controlled(mount):
    """The control file: a write fails as its line does, and the file shows the reason; it is not listed."""
    must(read_path(mount.path("/.control")) == b"", "nothing was refused")
    replies = mount.ask(
        "mkdir /a", "frob", "mkdir /a", "mkdir b", "rm /no", "slow /a 1", "rm /", "mkdir /a/" + "n" * 256,
        "mkdir  /a", "mkdir /a ",
    )
    must(
        replies
        == [
            "ok", "err Line 22", "err Exists 17", "err Invalid 22", "err NoEntry 2", "err IsDir 21",
            "err Invalid 22", "err NameTooLong 36", "err Line 22", "err Line 22",
        ],
        replies,
    )
    must(
        read_path(mount.path("/.control")) == b"line 1: usage: mkdir PATH [off]: mkdir /a \n",
        read_path(mount.path("/.control")),
    )
    must(
        "fakesysfs: .control, line 1: no such command: frob\n" in mount.log.read_text(),
        "it is printed in the foreground too",
    )
    Path(mount.path("/.control")).write_text("mkdir /c")
    must(
        sorted(os.listdir(mount.path("/"))) == ["a", "c", "class", "devices"], "the last line needs no newline",
    )
    must(
        error_of(Path(mount.path("/.control")).write_text, "mkdir /c") == errno.EEXIST, "close(2) returns the error",
    )
    of = os.stat(mount.path("/.control"))
    must((of.st_mode, of.st_size) == (0o100600, 4096) and of.st_ino < 2**32, of)


def many_lines(mount):
    """Many lines in one write, and lines that are cut anywhere."""
    control, script = mount.path("/.control"), Path(f"{mount.at}.more")
    script.write_text(
        "".join(f"mkdir /m{number}\nfile /m{number}/a 444 {'x' * (15 * number)}\n" for number in range(200))
    )
    must(script.stat().st_size > 150_000, "more than one write(2)")
    subprocess.run(f"cat {script} > {control}", shell=True, check=True)
    must(
        all(
            read_path(mount.path(f"/m{number}/a")) == b"x" * (15 * number) + b"\n" * (number > 0)
            for number in range(200)
        ),
        "cat",
    )
    lot, text = random.Random(1), "".join(f"rm /m{number}\n" for number in range(200))
    with contextlib.closing(os.fdopen(os.open(control, os.O_WRONLY), "w")) as file:
        while text:
            size = lot.randrange(1, 40)
            os.write(file.fileno(), text[:size].encode())
            text = text[size:]
    must(sorted(os.listdir(mount.path("/"))) == ["class", "devices"], "lines that are cut")


def first_wrong_line(mount):
    """The first wrong line of a write ends it, and its number is shown; the next write is independent."""
    control, script = mount.path("/.control"), Path(f"{mount.at}.more")
    script.write_text("mkdir /a\n\n# a remark\nmkdir /b\nmkdir /no/c\nmkdir /d\n")
    ran = subprocess.run(f"cat {script} > {control}", shell=True, check=False, capture_output=True, text=True)
    must(ran.returncode == 1 and "No such file" in ran.stderr, f"cat: {ran}")
    must(
        sorted(os.listdir(mount.path("/"))) == ["a", "b", "class", "devices"],
        "the lines before it are run, and none after it",
    )
    must(read_path(control) == b"line 5: No such file or directory: mkdir /no/c\n", read_path(control))
    file = os.open(control, os.O_WRONLY)
    must(os.write(file, b"rm /a\nrm /no\nrm /b\n") == 6, "what was taken")
    must(
        error_of(os.write, file, b"rm /no\n") == errno.ENOENT
        and os.write(file, b"rm /") == 4
        and os.write(file, b"b\n") == 2,
        "and on",
    )
    must(error_of(os.write, file, b"x" * 70_000) == errno.EFBIG, "a line that is too long")
    os.close(file)
    must(sorted(os.listdir(mount.path("/"))) == ["class", "devices"], "all nodes are gone")


def inherited(mount):
    """A line that is written in parts runs once it is whole, also if a command that has inherited the file ends meanwhile;
    a last line without a newline runs when its writer ends."""
    control, speed = mount.path("/.control"), mount.path("/devices/fan0/speed")
    for script, text in (
        ("printf 'set /devices/fan0/speed '; env true; echo 5", b"5\n"),
        ("(printf 'set /devices/fan0/speed 6'); cat '%s' >&2; echo; echo mkdir /a" % speed, b"6\n"),
        ("printf 'set /devices/fan0/speed '; env true; printf 7", b"7\n"),
    ):
        ran = subprocess.run(["sh", "-ec", f"{{ {script}; }} > '{control}'"], capture_output=True, check=False)
        must(ran.returncode == 0 and ran.stderr in (b"", text), f"{script}: {ran}")
        must(read_path(speed) == text, f"{script}: {read_path(speed)}")


def wrong_lines(mount):
    """No line that is refused changes anything."""

    def state():
        return [
            (path, names, files, [os.lstat(f"{path}/{it}").st_mode for it in files])
            for path, names, files in sorted(os.walk(mount.at))
        ]

    mount.done("mkdir /off off", "file /off/a 644 1", "hide /devices/fan0/limit")
    before, text = state(), read_path(mount.path("/devices/fan0/speed"))
    commands = "mkdir file link activate mv rm unplug hide show notify set fail late slow count filesystem storm frob".split()
    wrong = [
        f"{command}{words}"
        for command in commands
        for words in (
            "", " ", " /no/a", " devices", " /devices/", " /devices//fan0", " /no /no", " /no 1", " /no 1 x",
            " /no 644 x", " /devices/fan0 999999", " / 1", " /devices/fan0/speed x y z w", "  /devices/fan0",
            " /class/cooling/speed 5", " /no/a /devices b", r" /\000 644",
        )
    ]
    fitting = ("file /no 644 x", "late / 1", "late /devices/fan0/speed 5", "storm /devices/fan0 999999")
    wrong = [line for line in wrong if line not in fitting and not line.startswith("set /devices/fan0/speed")]
    replies = mount.ask(*wrong)
    must(
        all(reply.startswith("err ") for reply in replies),
        [pair for pair in zip(wrong, replies) if pair[1] == "ok"],
    )
    must(state() == before and read_path(mount.path("/devices/fan0/speed")) == text, "something changed")
    return f"{len(wrong)} lines"


NAMES = [
    "a", "b", "c", ".", "..", r"\040", r"\000", "n" * 255, "n" * 256, ".control", "devices", "fan0", "speed",
    "\xe9", "",
]
COMMANDS = "mkdir file link activate mv rm unplug hide show notify set fail late slow count filesystem".split() + [
    "storm", "frob", "",
]
WORDS = [
    "off", "644", "000", "999", "0", "1", "3", "EIO", "7" * 30, "x" * 5000, r"a\nb\x00\c", "\\", "\xff\x01", "#",
]


def random_line(lot):
    """A line that is almost right, or of any words, or of any bytes."""
    path = lambda: "".join("/" + lot.choice(NAMES) for _ in range(lot.randrange(4)))
    near = "".join("/" + lot.choice(NAMES[:3]) for _ in range(lot.randrange(1, 3)))
    line = lot.choice(
        (
            f"mkdir {near}", f"file {near} 644 x", f"link {near} /devices/fan0", f"link {near} /a",
            f"set {near} y", f"late {near} 1", f"hide {near}", f"show {near}", f"fail {near} EIO",
            f"unplug {near}", f"rm {near}", f"mv {near} / a", f"storm {near} 4",
        )
    )
    if lot.random() < 0.3:
        line = " ".join(
            [
                lot.choice(COMMANDS),
                *(path() if lot.random() < 0.6 else lot.choice(WORDS) for _ in range(lot.randrange(4))),
            ]
        )
    elif lot.random() < 0.1:
        line = "".join(chr(lot.randrange(256)) for _ in range(lot.randrange(60)))
    return line


def noise(mount):
    """Random lines, almost right and of any bytes, while others read: it goes on, and lists its tree."""
    lot = random.Random(3)
    stop = threading.Event()

    def look():
        while not stop.is_set():
            for folder, _, files in os.walk(mount.at):
                for name in files:
                    with contextlib.suppress(OSError):
                        read_path(f"{folder}/{name}")

    lookers = [Beside(look) for _ in range(3)]
    mount.done(
        "mkdir /class/w", "link /class/w/x /devices/fan0", "late /class 1", "late /devices/fan0/speed 1",
        "slow /devices/fan0/limit 1",
    )
    replies = [mount.tell(random_line(lot)) for _ in range(1500)]
    stop.set()
    for it in lookers:
        it.given()
    must(mount.process.poll() is None and os.listdir(mount.at) is not None, "it goes on")
    return f"{replies.count('ok')} done, {len(replies) - replies.count('ok')} refused"
