# SPDX-License-Identifier: MIT OR Apache-2.0
"""The lines that scripts of the proved program do not have: texts, faults, delays, unplugs, names with blanks."""
import errno, os, select, subprocess, time
from pathlib import Path

from mounted import EVENTS, Beside, error_of, eventually, must, read_path

TEXTS = (
    (r"91000", b"91000\n"), (r"a\nb\\c", b"a\nb\\c\n"), (r"\x00\x7f\xff\x0A1", b"\0\x7f\xff\n1\n"),
    (r"x\c", b"x"), (r"x\cy", b"x"), ("", b""), (r"\c", b""), (r"\0101\101\t\q\ ", b"AA\t\\q\\ \n"),
    (r"\xg \x4", b"\\xg \x04\n"), ("two  blanks ", b"two  blanks \n"), ("\\", b"\\\n"),
    (r"\xe9" + "\xe9", b"\xe9\xe9\n"), (r"\0", b"\0\n"),
)


def texts(mount):
    """`set` gives a file several lines of text, or bytes of any value, as printf(1)'s %b; an open file reads the
    new text."""
    path = "/devices/fan0/speed"
    with mount.opened(path) as file:
        must(os.pread(file, 99, 0) == b"1200\n", "before")
        for text, wanted in TEXTS:
            mount.done(f"set {path} {text}")
            must(
                os.pread(file, 99, 0) == wanted == read_path(mount.path(path)),
                f"{text!r}: {os.pread(file, 99, 0)!r}",
            )
            spoken = subprocess.run(
                ["bash", "-c", 'printf %b "$1"', "bash", text.encode("latin-1")],
                capture_output=True,
                check=True,
            ).stdout
            must(spoken in (wanted, wanted[:-1]), f"{text!r}: printf prints {spoken!r}")


def bounds_of_texts(mount):
    """A text has at most 4,095 bytes of any value; a write to a file uevent asks for an event, and the text stays."""
    path = "/devices/fan0/speed"
    with mount.opened(path) as file:
        bytes_of_all = "".join(f"\\x{byte:02x}" for byte in range(256)) * 15 + r"\x41" * 255
        mount.done(f"set {path} {bytes_of_all}\\c")
        must(os.pread(file, 9999, 0) == bytes(range(256)) * 15 + b"A" * 255, "4,095 bytes of any value")
        must(mount.ask(f"set {path} {bytes_of_all}A") == ["err File too large"], "one more is refused")
        must(
            os.pread(file, 9999, 0)[-1:] == b"A" and len(os.pread(file, 9999, 0)) == 4095, "and changes nothing",
        )
    must(
        mount.ask("set /devices x", "set /class/cooling x", "set /no x", "set")
        == ["err IsDir 21", "err Invalid 22", "err NoEntry 2", "err Line 22"],
        "nodes without a text",
    )
    with mount.opened(path, os.O_WRONLY) as file:
        must(
            os.write(file, b"q" * 8000) == 4096 and read_path(mount.path(path)) == b"q" * 4095,
            "a store takes 4,096 bytes",
        )
    mount.done("file /b 444 " + "q" * 8000)
    must(read_path(mount.path("/b")) == b"q" * 4095, "a text is cut to 4,095 bytes")
    mount.done(r"file /uevent 644 ", r"set /uevent MAJOR=1\nMINOR=2")
    with mount.opened("/uevent", os.O_RDWR) as file:
        must(os.write(file, b"change") == 6, "an event is asked for, as udevadm trigger does")
        must(os.pread(file, 99, 0) == b"MAJOR=1\nMINOR=2\n", "and the text stays")


def binary_files(mount):
    """A text of a page or more makes a binary file: read and written in parts, at any offset, until it is short again."""
    path, data = mount.path("/config"), bytearray(bytes(range(256)) * 62)
    mount.done("file /config 644", "set /config " + "".join(f"\\x{byte:02x}" for byte in data) + "\\c")
    must(os.stat(path).st_size == len(data), "its size")
    with mount.opened("/config", os.O_RDWR) as file:
        must(Path(path).read_bytes() == bytes(data), "it is read whole")
        for offset, room in ((0, 64), (4095, 2), (4096, 4096), (5000, 9999), (len(data) - 3, 99), (0, 4096)):
            part = bytes(data[offset : offset + min(room, 4096)])
            must(os.pread(file, room, offset) == part, f"{room} bytes at {offset}")
        must(os.pread(file, 9, len(data)) == b"" == os.pread(file, 9, 1 << 40), "nothing past its end")
        must(os.pwrite(file, b"new", 5000) == 3 and os.pread(file, 5, 4999) == b"\x87new\x8b", "a part is written")
        must(os.pwrite(file, b"x" * 9, len(data) - 2) == 2 and os.stat(path).st_size == len(data), "it does not grow")
        must(error_of(os.pwrite, file, b"x", len(data)) == errno.EFBIG, "past its end")
        mount.done("fail /config EIO")
        must(error_of(os.pread, file, 9, 4096) == error_of(os.pwrite, file, b"x", 9) == errno.EIO, "it fails")
        mount.done("fail /config 0", "set /config short")
        must(os.pread(file, 99, 0) == b"short\n" == read_path(path), "it is a text again")
        must(os.stat(path).st_size == 4096, "with a text's size")
        mount.done("set /config " + "a" * 5000 + "\\c", "slow /config 2000")
        reader = Beside(os.pread, file, 9999, 4000)
        time.sleep(0.6)
        begun = time.monotonic()
        mount.done("rm /config")
        must(time.monotonic() - begun > 0.1 and reader.given() == b"a" * 1000, "a removal waits for a part")
        must(error_of(os.pread, file, 9, 0) == errno.ENODEV == error_of(os.pwrite, file, b"x", 0), "it is gone")
    mount.done("file /uevent2 644")
    must(mount.ask("set /uevent2 " + "a" * 5000) == ["err File too large"], "with a newline at its end it is a text")


def faults(mount):
    """Reads and writes fail as the line says, until it ends; what was written meanwhile is not stored; opens
    still succeed."""
    path = mount.path("/devices/fan0/limit")
    with mount.opened("/devices/fan0/limit", os.O_RDWR) as file:
        for word, number in (("5", 5), ("EAGAIN", errno.EAGAIN), ("ENODATA", errno.ENODATA), ("133", 133)):
            mount.done(f"fail /devices/fan0/limit {word}")
            must(
                error_of(os.pread, file, 9, 0) == number and error_of(read_path, path) == number, f"reads: {word}",
            )
            must(error_of(os.pwrite, file, b"1", 0) == number, f"writes: {word}")
        mount.done("fail /devices/fan0/limit 0")
        must(
            os.pread(file, 9, 0) == b"3000\n" and os.pwrite(file, b"7", 0) == 1 and read_path(path) == b"7\n",
            "it is over",
        )
        mount.done("fail /devices/fan0/limit EIO", "slow /devices/fan0/limit 400")
        begun = time.monotonic()
        must(
            error_of(read_path, path) == errno.EIO and time.monotonic() - begun > 0.35, "slow, and then the fault",
        )
        mount.done("unplug /devices/fan0")
        must(error_of(os.pread, file, 9, 0) == errno.ENODEV, "it is gone")
    mount.done("file /a 444 1")
    must(
        mount.ask(
            "fail /a", "fail /a EFROB", "fail /a 134", "fail /a -1", "fail /a 5 ", "fail / 5", "fail /no 5"
        )
        == ["err Line 22"] * 5 + ["err IsDir 21", "err NoEntry 2"],
        "wrong words",
    )


def late(mount):
    """A removal does not wait for a delay before the show, so the reader always gets ENODEV; in a directory the
    delay is between the listing and the look-up."""
    mount.done("late /devices/fan0/speed 2000", "late /class 2000")
    with mount.opened("/devices/fan0/limit") as limit, mount.opened("/devices/fan0/speed", os.O_RDWR) as file:
        readers = [Beside(error_of, os.pread, file, 9, 0), Beside(error_of, os.pwrite, file, b"1", 0)]
        must(os.listdir(mount.path("/class")) == ["cooling"], "a listing is not late")
        looker = Beside(error_of, os.lstat, mount.path("/class/cooling"))
        time.sleep(0.2)
        begun = time.monotonic()
        mount.done("unplug /devices/fan0")
        must(time.monotonic() - begun < 1.5, "the removal waits for a late reader")
        must([it.given() for it in readers] == [errno.ENODEV] * 2, "ENODEV")
        must(looker.given() == errno.ENOENT, "a listed name is no longer found")
        must(error_of(os.pread, limit, 9, 0) == errno.ENODEV, "of an open file")
    mount.done("file /b 644 text", "late /b 1000")
    with mount.opened("/b") as file:
        begun = time.monotonic()
        must(os.read(file, 2) == b"te" and time.monotonic() - begun > 0.9, "it is late")
        begun = time.monotonic()
        must(
            os.read(file, 9) == b"xt\n" and time.monotonic() - begun < 0.9, "what was shown is not shown again",
        )
    begun = time.monotonic()
    mount.done("late / 60000", "late / 0")
    must(time.monotonic() - begun < 30, "the control file is never late")
    mount.done("late /b 0", "link /l /b")
    must(
        mount.ask("late /l 1", "late /b 100000", "late /b", "slow /l 1", "slow / 1")
        == ["err Invalid 22", "err Line 22", "err Line 22", "err Invalid 22", "err IsDir 21"],
        "wrong words",
    )


def hidden(mount):
    """A hidden file is neither found nor listed, and an open one gives ENODEV, after its reader has left; then it
    is shown again."""
    path, waiting = "/devices/fan0/speed", select.poll()
    mount.done(f"slow {path} 2000")
    with mount.opened(path, os.O_RDWR) as file, mount.opened(path) as other:
        os.pread(other, 9, 0)
        waiting.register(other, EVENTS)
        begun = time.monotonic()
        reader = Beside(os.pread, file, 9, 0)
        time.sleep(0.6)
        poller = Beside(waiting.poll, 6000)
        hider = Beside(mount.done, f"hide {path}")
        must(poller.given(), "a poll is woken while hide waits")
        must(
            not hider.ended and error_of(os.stat, mount.path(path)) == errno.ENOENT,
            "the name is gone while hide waits",
        )
        must(reader.given() == b"1200\n", "the reader has its text")
        hider.given()
        must(hider.ended >= begun + 2, "hide waits for the reader")
        must(os.listdir(mount.path("/devices/fan0")) == ["limit"], "it is listed no more")
        must(error_of(os.pread, file, 9, 0) == errno.ENODEV == error_of(os.pwrite, file, b"1", 0), "ENODEV")
        must(
            mount.ask(
                f"hide {path}", "hide /devices", "show /devices", "show /devices/fan0/limit", "hide /no"
            )
            == ["err Busy 16", "err IsDir 21", "err Invalid 22", "err Invalid 22", "err NoEntry 2"],
            "refusals",
        )
        mount.done(f"slow {path} 0", f"show {path}")
        must(
            os.pread(file, 9, 0) == b"1200\n" and read_path(mount.path(path)) == b"1200\n", "it is shown again",
        )
    mount.done(f"hide {path}", "rm /devices/fan0")


def shown_last(mount):
    """Of a hide and a show that wait for the same reader the later one wins, even if the hide wakes last."""
    path = "/devices/fan0/speed"
    mount.done(f"slow {path} 2500")
    reader = Beside(read_path, mount.path(path))
    time.sleep(0.6)
    hider = Beside(mount.tell, f"hide {path}")
    must(eventually(lambda: not os.path.exists(mount.path(path))), "it is hidden while hide waits")
    shower = Beside(mount.tell, f"show {path}")
    must((reader.given(), hider.given(), shower.given()) == (b"1200\n", "ok", "ok"), "all are done")
    must(os.path.exists(mount.path(path)), "it is hidden again")
    mount.done(f"slow {path} 0", f"hide {path}", f"show {path}")


def unplugged(mount):
    """An unplug removes a device and the links that lead into it, and no other links; a removal keeps the links."""
    mount.done(
        "mkdir /bus", "mkdir /devices/fan1", "link /bus/fan0 /devices/fan0", "link /bus/speed /devices/fan0/speed",
        "link /bus/fan1 /devices/fan1", "link /devices/fan0/bus /bus", "link /devices/fan1/other /devices/fan0",
        "link /bus/again /bus/fan0",
    )
    must(
        mount.ask("unplug /no", "unplug /", "unplug /bus/fan0", "unplug")
        == ["err NoEntry 2", "err Invalid 22", "err Invalid 22", "err Line 22"],
        "refusals: a link is not the device",
    )
    must(sorted(os.listdir(mount.path("/bus"))) == ["again", "fan0", "fan1", "speed"], "which change nothing")
    mount.done("slow /devices/fan0/speed 2000")
    reader = Beside(read_path, mount.path("/devices/fan0/speed"))
    time.sleep(0.6)
    remover = Beside(mount.done, "unplug /devices/fan0")
    must(
        eventually(lambda: sorted(os.listdir(mount.path("/bus"))) == ["again", "fan1"]) and not remover.ended,
        "the links go at once",
    )
    must(reader.given() == b"1200\n", "the reader has its text")
    remover.given()
    must(
        os.listdir(mount.path("/class")) == [] and os.listdir(mount.path("/devices/fan1")) == [],
        "each link that leads there",
    )
    mount.done("rm /devices/fan1")
    must(os.listdir(mount.path("/bus")) == ["again", "fan1"], "a removal leaves the links")


def blanks(mount):
    """A name may have a blank, a tab, a newline and a backslash, as escapes, but no slash and no zero byte."""
    mount.done(
        r"mkdir /a\040b", r"file /a\040b/\011\012\134 644 x", r"link /l /a\040b", r"mv /a\040b /devices \040",
        r"set /devices/\040/\011\012\134 y", r"mkdir /a\08", r"mkdir /\134040",
    )
    must(
        read_path(mount.path("/l/\t\n\\")) == b"y\n" and os.readlink(mount.path("/l")) == "devices/ ",
        "names with blanks",
    )
    must(
        os.path.isdir(mount.path("/a\\08")) and os.path.isdir(mount.path("/\\040")),
        "a backslash without an escape is itself",
    )
    must(
        mount.ask(
            r"mkdir /\000a", r"mv /l /devices a\057b", r"mkdir /.control", "mv /l / .control",
            "mkdir /devices/.control",
        )
        == ["err Invalid 22", "err Invalid 22", "err Exists 17", "err Exists 17", "ok"],
        "names that are not allowed",
    )


def stores(mount):
    """Two stores of one file are inside at the same time, by two descriptors, if libfuse allows it."""
    mount.done("slow /devices/fan0/speed 1000")
    with mount.opened("/devices/fan0/speed", os.O_WRONLY) as one, mount.opened(
        "/devices/fan0/speed", os.O_WRONLY
    ) as other:
        begun = time.monotonic()
        writers = [Beside(os.pwrite, one, b"1", 0), Beside(os.pwrite, other, b"2", 0)]
        must([it.given() for it in writers] == [1, 1], "each is taken")
        took = time.monotonic() - begun
    return "side by side" if took < 1.8 else "one after the other"
