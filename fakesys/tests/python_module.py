# SPDX-License-Identifier: MIT OR Apache-2.0
"""Tests of the Python module and of its examples."""
import contextlib, os, subprocess, sys, tempfile

from programs import CHIP, Wrong, eventually, leftovers, must

ATTACHED = """
import sys
from fakesys import FakeSys
with FakeSys() as tree:
    tree.set(sys.argv[1] + "/name", "x")
    print(open(f"/sys{sys.argv[1]}/name").read(), end="")
    tree.unplug("/class/hwmon/hwmon0")
    tree.plug(sys.argv[1])
    print(open("/sys/class/hwmon/hwmon0/name").read(), end="")
"""


def module(tools):
    """The Python module: set, run, unplug, plug, and refusals"""
    sys.path.insert(0, str(tools.modules))
    from fakesys import FakeSys

    with FakeSys(tools.chip) as tree:
        for text, read in (
            ("7", b"7\n"),
            (b"\x00\\\xffa\n\n", b"\x00\\\xffa\n\n"),
            ("a\nb", b"a\nb\n"),
            (b"", b""),
        ):
            tree.set("/class/hwmon/hwmon0/temp1_input", text)
            must(tree.read(f"{CHIP}/temp1_input") == read, f"{text}: {tree.read(f'{CHIP}/temp1_input')}")
        said = tree.run(["sh", "-c", "cat /sys/class/hwmon/hwmon0/temp1_max; exit 3"], stdout=subprocess.PIPE)
        must((said.returncode, said.stdout) == (3, b"80000\n"), said)
        must(
            tree.run(["no-such-command"], stderr=subprocess.DEVNULL).returncode == 127,
            "a command that does not exist",
        )
        tree.unplug("/class/hwmon/hwmon0")
        must(os.listdir(tree.path("/class/hwmon")) == [], "unplugged")
        tree.plug(CHIP)
        must(tree.read("/class/hwmon/hwmon0/temp1_input") == b"42000\n", "plugged again")
        tree.unplug(CHIP)
        tree.plug("/class/hwmon/hwmon0")
        must(tree.read(f"{CHIP}/temp1_input") == b"42000\n", "plugged again, by a link")
        tree.hide("/class/hwmon/hwmon0/name")
        must(not os.path.exists(tree.path(f"{CHIP}/name")), "hidden, by a link")
        tree.show("/class/hwmon/hwmon0/name")
        must(tree.read(f"{CHIP}/name") == b"coretemp\n", "shown again, by a link")
        with contextlib.suppress(OSError):
            tree.set("/nothing", 1)
            raise Wrong("a file that does not exist")
        ran = tree.run([tools.bin / "fakesys", "tell", f"set {CHIP}/name y"], env={**os.environ, "FAKESYS_DESCRIPTION": "no-such"})
        must(ran.returncode == 0 and tree.read(f"{CHIP}/name") == b"y\n", f"fakesys tell inside: {ran}")
    must(not leftovers(), leftovers())


def loose_links(tools):
    """The Python module: links to a device that was removed without them lead to it again once it is plugged, or made whole"""
    sys.path.insert(0, str(tools.modules))
    from fakesys import FakeSys
    from fakesys_whole import make_whole

    device, name = "/devices/platform/coretemp.0", "/class/hwmon/hwmon0/name"
    links = ["/class/hwmon/hwmon0", "/bus/platform/devices/coretemp.0", "/bus/platform/drivers/coretemp/coretemp.0"]
    with FakeSys(tools.chip) as tree:
        for again in lambda: tree.plug(device), lambda: make_whole(tree), lambda: make_whole(tree):
            tree.give(f"rm {device}")
            must(not os.path.exists(tree.path(name)), "it is gone")
            again()
            must(all(os.path.exists(tree.path(it)) for it in links) and tree.read(name) == b"coretemp\n", "it is back")
        tree.give("mv /devices/platform/coretemp.0 /devices other")
        make_whole(tree)
        must(tree.read(name) == b"coretemp\n" and not os.path.exists(tree.path("/devices/other")), "it was moved")
        for line in "rm /bus/platform/drivers/coretemp", "mv /bus/platform/drivers/coretemp /bus other":
            tree.give(line)
            make_whole(tree)
            must(os.path.exists(tree.path(f"{device}/driver/coretemp.0")), f"a link to what is no device: {line}")


def hidden(tools):
    """What a description hides is hidden again, and what it activates is active again, in a plugged device and a tree made whole"""
    sys.path.insert(0, str(tools.modules))
    from fakesys import FakeSys
    from fakesys_whole import make_whole

    lines = ["mkdir /devices", "mkdir /devices/a off", "mkdir /devices/a/in off", "file /devices/a/in/b 444 x"]
    lines += ["file /devices/a/c 444 x", "hide /devices/a/c", "activate /devices/a/in", "activate /devices/a"]
    lines += ["mkdir /bus", "link /devices/a/subsystem /bus"]
    with FakeSys("\n".join(lines) + "\n") as tree:
        look = lambda: (sorted(os.listdir(tree.path("/devices/a"))), os.listdir(tree.path("/devices/a/in")))
        before = look()
        must(before == (["in", "subsystem"], ["b"]), before)
        tree.unplug("/devices/a")
        tree.plug("/devices/a")
        must(look() == before, f"plugged: {look()}")
        tree.give("replug /devices/a")
        must(look() == before, f"replugged: {look()}")
        for change in (
            lambda: tree.unplug("/devices/a"),
            lambda: tree.unplug("/devices/a/in"),
            lambda: tree.show("/devices/a/c"),
            lambda: None,
        ):
            change()
            make_whole(tree)
            must(look() == before, f"made whole: {look()}")


def unmade_steps(tools):
    """A step that has not come is forgotten when a tree is made whole, so no later reader meets it"""
    sys.path.insert(0, str(tools.modules))
    from fakesys import FakeSys
    from fakesys_whole import make_whole

    with FakeSys(tools.chip) as tree:
        for kind, path in ("read", f"{CHIP}/name"), ("lookup", CHIP), ("list", "/class/hwmon"):
            tree.give(f"at {kind} {path} 2 unplug {CHIP}")
        make_whole(tree)
        for _ in range(3):
            must(os.listdir(tree.path("/class/hwmon")) == ["hwmon0"] and tree.read(f"{CHIP}/name") == b"coretemp\n", "it stays")


def long_texts(tools):
    """A text that is cut in a description is cut again when a tree is made whole; a recording has all of a long file"""
    sys.path.insert(0, str(tools.modules))
    from fakesys import FakeSys
    from fakesys_whole import make_whole

    with FakeSys(f"mkdir /class\nfile /class/a 644 {'x' * 5000}\n") as tree:
        tree.set("/class/a", 1)
        tree.count("/class/a", 1000000)
        make_whole(tree)
        must(tree.read("/class/a") == b"x" * 4095, "it is cut")
        tree.give(f"set /class/a {'y' * 4999}\\n\\c")
        words = [tools.bin / "fakesys-record", "--root", tree.at, tree.path("/class")]
        lines = subprocess.run(words, capture_output=True, text=True, check=True).stdout
    with FakeSys(lines) as tree:
        must(tree.read("/class/a") == b"y" * 4999 + b"\n", f"{len(tree.read('/class/a'))} bytes of 5000")


def module_ends(tools):
    """The Python module: wrong descriptions, a daemon or a test that is killed, and odd names leave nothing behind"""
    sys.path.insert(0, str(tools.modules))
    from fakesys import FakeSys

    with contextlib.suppress(ValueError):
        FakeSys("frob\n").__enter__()
        raise Wrong("a wrong description")
    with FakeSys(tools.chip) as tree:
        tree.process.kill()
        tree.process.wait()
    killed = f"import os, signal\nfrom fakesys import FakeSys\nFakeSys({str(tools.chip)!r}).__enter__()\nos.kill(os.getpid(), signal.SIGKILL)"
    env = {**os.environ, "PYTHONPATH": str(tools.modules)}
    must(subprocess.run([sys.executable, "-c", killed], env=env, check=False).returncode == -9, "a test is killed")
    must(eventually(lambda: not leftovers()), f"a test that was killed leaves {leftovers()}")
    with FakeSys("mkdir /class\nfile /class/a\u00a0b 644 x\n") as tree:
        tree.set("/class/a\u00a0b", "y")
        must(tree.read("/class/a\u00a0b") == b"y\n", "a blank of another alphabet")
    script = f'"$0" tell "$1"; echo $?; cat /sys{CHIP}/name'
    ran = tools.run(tools.chip, "sh", "-c", script, tools.bin / "fakesys", f"set {CHIP}/name x\nfrob\nset {CHIP}/name z")
    must(ran.stdout == "1\nx\n", f"lines are given until one is refused: {ran}")
    (tools.folder / "by a link").symlink_to(tempfile.gettempdir())
    tempfile.tempdir, kept = str(tools.folder / "by a link"), tempfile.tempdir
    with FakeSys(tools.chip) as tree:
        tempfile.tempdir = kept
        tree.set("/class/hwmon/hwmon0/name", "z")
        must(tree.read(f"{CHIP}/name") == b"z\n", "with the directory of temporary files behind a link")
    must(not leftovers(), leftovers())


def examples(tools):
    """The Python module inside a run, and its examples for pytest"""
    ran = tools.run(
        "-n", tools.chip, sys.executable, "-c", ATTACHED, CHIP, env={**os.environ, "PYTHONPATH": str(tools.modules)}
    )
    must(ran.stdout == "x\ncoretemp\n", f"in a run: {ran}")
    python = next(
        (
            it
            for it in (sys.executable, "/usr/bin/python3")
            if not subprocess.run([it, "-c", "import pytest"], stderr=subprocess.DEVNULL, check=False).returncode
        ),
        None,
    )
    if not python:
        return "without pytest, which is not installed"
    ran = subprocess.run(
        [python, "-m", "pytest", "-q", "-p", "no:cacheprovider", tools.examples / "test_sensors.py"],
        capture_output=True,
        text=True,
        check=False,
    )
    must(" passed" in ran.stdout and ran.returncode == 0, ran.stdout[-800:])
    return ran.stdout.strip().split("\n")[-1]


TRIED = (module, loose_links, hidden, unmade_steps, long_texts, module_ends, examples)
