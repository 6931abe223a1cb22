# SPDX-License-Identifier: MIT OR Apache-2.0
"""The daemon's own storms: a node that disappears and comes back by itself."""
import errno, os, time

from mounted import Beside, error_of, eventually, must, read_path


def is_unplugged(mount, path):
    """Whether a device could be unplugged: a storm may have it away just then."""
    reply = mount.tell(f"unplug {path}")
    must(reply in ("ok", "err NoEntry 2"), reply)
    return reply == "ok"


def meet(mount):
    """Reads a file of the device for some seconds. Returns how often a read met a removal."""
    seen, refused = {"there": 0, "gone": 0}, 0
    until = time.monotonic() + 3
    while time.monotonic() < until:
        seen["there" if os.path.isdir(mount.path("/devices/fan0")) else "gone"] += 1
        try:
            with mount.opened("/devices/fan0/limit") as file:
                while time.monotonic() < until:
                    must(os.pread(file, 9, 0) == b"a\nb\n", "the text comes again")
        except OSError as error:
            must(error.errno in (errno.ENOENT, errno.ENODEV), f"{error}")
            refused += error.errno == errno.ENODEV
    must(min(seen.values()) > 2 and refused > 2, f"it comes and goes: {seen}, {refused}")
    return refused


def storms(mount):
    """A storm removes a device and creates it again, with its links, texts and faults, until the storm is ended;
    then the device exists."""
    mount.done(
        "set /devices/fan0/limit a\\nb", "fail /devices/fan0/speed EIO", "link /devices/fan0/class /class",
        "mkdir /devices/fan0/in", "hide /devices/fan0/limit", "show /devices/fan0/limit", "mkdir /devices/fan1",
    )
    must(
        mount.ask(
            "storm /devices/fan0", "storm /devices/fan0 x", "storm /no 1", "storm / 1", "storm /class/cooling 1",
            "storm /devices/fan0 0",
        )
        == [
            "err Line 22", "err Line 22", "err NoEntry 2", "err Invalid 22", "err Invalid 22", "err NoEntry 2",
        ],
        "refusals",
    )
    mount.done("storm /devices/fan0 18446744073709551615", "storm /devices/fan1 7")
    must(
        mount.ask("storm /devices/fan0 2", "storm /devices/fan0 18446744073709551616")
        == ["err Busy 16", "err Line 22"],
        "one is enough",
    )
    refused = meet(mount)
    mount.done("storm /devices/fan0 0", "storm /devices/fan1 0")
    must(sorted(os.listdir(mount.path("/devices/fan0"))) == ["class", "in", "limit", "speed"], "all is there")
    must(
        os.readlink(mount.path("/class/cooling")) == "../devices/fan0"
        and os.path.isdir(mount.path("/devices/fan1")),
        "and what leads there",
    )
    must(error_of(read_path, mount.path("/class/cooling/speed")) == errno.EIO, "with its faults")
    time.sleep(0.2)
    must(os.path.isdir(mount.path("/devices/fan0")), "it stays")
    return f"{refused} times met"


def replugged(mount):
    """A replug that cannot create the whole device again fails, says why, and leaves nothing of it; a link that leads
    nowhere is left out."""
    mount.done("mkdir /devices/a", "mkdir /devices/a/b", "file /devices/a/b/c 444 x", "slow /devices/a/b/c 5000")
    reader = Beside(read_path, mount.path("/devices/a/b/c"))
    time.sleep(0.6)
    replugger = Beside(mount.tell, "replug /devices/a/b")
    must(eventually(lambda: not os.path.exists(mount.path("/devices/a/b"))), "it is gone while replug waits")
    remover = Beside(mount.tell, "rm /devices/a")
    given = reader.given(), replugger.given(), remover.given()
    must(given == (b"x\n", "err NoEntry 2", "ok"), f"its directory is removed meanwhile: {given}")
    mount.done("file /target 444", "link /devices/fan0/loose /target", "rm /target", "replug /devices/fan0")
    must(sorted(os.listdir(mount.path("/devices/fan0"))) == ["limit", "speed"], "without the link")
    with mount.opened("/devices/fan0/limit"), mount.opened("/devices/fan0/speed"):
        count = 0
        while mount.tell(f"mkdir /fill{count}") == "ok":
            count += 1
        must(mount.ask("replug /devices/fan0") == ["err NoSpace 28"], "open files keep their slots")
        must(not os.path.lexists(mount.path("/devices/fan0")), "half a device")
    must(eventually(lambda: mount.tell("mkdir /devices/fan0") == "ok"), "another one can be created")


def storms_end(mount):
    """A device that a storm removes can be unplugged; a file can have a storm; one goes on when it is unmounted."""
    mount.done("mkdir /devices/fan1", "storm /devices/fan0 3")
    must(eventually(lambda: is_unplugged(mount, "/devices/fan0")), "an unplug finds it at some time")
    must(eventually(lambda: os.path.isdir(mount.path("/devices/fan0"))), "it comes again by itself")
    mount.done(
        "storm /devices/fan0 0", "unplug /devices/fan0", "unplug /devices/fan1", "file /alone 644 1",
        "storm /alone 5",
    )
    must(
        eventually(lambda: not os.path.exists(mount.path("/alone")))
        and eventually(lambda: os.path.exists(mount.path("/alone"))),
        "a file alone",
    )
