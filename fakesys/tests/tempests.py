# SPDX-License-Identifier: MIT OR Apache-2.0
"""Tests of storms."""
import re, shutil, sys
from pathlib import Path

from programs import CHIP, eventually, must, processes

BROKEN_READER = """
import os, time
for _ in range(300):
    for name in os.listdir("/sys/class/hwmon"):
        open(f"/sys/class/hwmon/{name}/name").read()
"""


def storm(tools):
    """A storm finds a reader that crashes when a directory vanishes, within seconds, and again by its seed and lines"""
    reader = tools.file("reader.py", BROKEN_READER)
    kept, again, third = (tools.folder / name for name in ("kept.tl", "again.tl", "third.tl"))
    words = ["--time", "20", "--calm", "20", tools.chip, "--", sys.executable, reader]
    first = tools.run("storm", "-o", kept, *words)
    must(first.returncode == 1 and "Traceback" in first.stdout, first)
    seed = re.search(r"seed (\d+)", first.stdout)[1]
    found = re.search(r"FOUND after ([\d.]+) s", first.stdout)[1]
    second = tools.run("storm", "--seed", seed, "-o", again, *words)
    must(second.returncode == 1, second)
    lines, others = (path.read_text().split("\n")[1:-1] for path in (kept, again))
    must(lines and others and all(a == b for a, b in zip(lines, others)), "the same seed gives other lines")
    third = tools.run("storm", "--replay", kept, *words)
    must(third.returncode == 1, third)
    printed = tools.said("storm", "--seed", seed, "--print", "--time", "20", tools.chip).split("\n")
    must(printed[: len(lines)] == lines, "the lines of --print")
    return f"after {found} s, {len(lines)} lines"


def kept(tools):
    """A storm's lines are kept whole, even over those that are replayed; it creates again all that it removed"""
    lines = tools.file("replayed.tl", f"0.1 unplug /devices/platform\n0.2 notify {CHIP}/name\n")
    words = ["--time", "2", "--calm", "20", "--ok", "0,1", tools.chip, "--", "sh", "-c", f"cat /sys{CHIP}/name\ntrue & exit"]
    for turn in range(3):
        ran = tools.run("storm", "--replay", lines, "-o", lines, *words)
        text = lines.read_text()
        must(ran.returncode == 0 and text.startswith("# fakesys storm") and text.count("\nunplug") == 0, f"{turn}: {ran} {text}")
        must(text.count(" plug /devices/platform\n") > 2, f"{turn}: it comes again: {text}")
    inside = Path(f"/dev/shm/{tools.folder.name}.tl")
    try:
        ran = tools.run("storm", "-n", "-o", inside, *words)
        must(ran.returncode == 0 and inside.read_text().count("\n") > 10, f"in a directory that the run covers: {ran}")
    finally:
        inside.unlink(missing_ok=True)
    few = "[ $(grep -l '^State:.Z' /proc/[0-9]*/status 2> /dev/null | wc -l) -lt 60 ] && (setsid sleep 0.02 &)"
    for pokes in [], ["--poke", "sleep 0.03; (setsid sleep 0.02 &)"]:
        ran = tools.storm(few, "--time", "3", *pokes)
        must(ran.returncode == 0, f"ended background processes are reaped: {pokes} {ran}")
    for wrong in (["--device", f"/sys{CHIP}"], ["--time", "inf"], ["--time", "nan"], ["--hang", "-1"], ["--hang", "3e6"]):
        ran = tools.run("storm", "--time", "1", *wrong, tools.chip, "--", "true")
        must(ran.returncode == 2 and ran.stderr, f"{wrong}: {ran}")


def calm(tools):
    """A storm finds nothing in a sound reader, and knows a command that fails without a storm"""
    sound = tools.storm("cat /sys/class/hwmon/*/name; true", "--time", "1.5")
    must(sound.returncode == 0 and "no fault" in sound.stdout, sound)
    must(re.search(r" (\d+) unplugs, 0 refused", sound.stdout), sound.stdout)
    must(tools.storm("exit 1", "--calm", "20").returncode == 2, "fails without a storm")
    vain = tools.storm("exec sleep 985", "--poke", "no-such-command")
    must(vain.returncode == 2 and "no-such-command" in vain.stderr, f"the command of --poke does not exist: {vain}")
    must(tools.storm("exit 1", "--ok", "0,1", "--time", "1").returncode == 0, "an accepted status")
    must(tools.run("storm", tools.chip, "--", "no-such-command").returncode == 2, "a command that does not exist")


def deliberate(tools):
    """A status that calm runs have too, with a device absent or a file failing, is no fault; another one is"""
    there = "[ -e /sys/class/hwmon/hwmon0 ]"
    for script, status, kinds in (
        (f"{there} || exit 3", 3, "plug"),
        (f"cat /sys{CHIP}/temp1_input > /dev/null || exit 4", 4, "fail"),
        (f"cd /sys{CHIP} || exit 0; cat temp1_input > /dev/null || exit 5", 5, "plug,fail"),
    ):
        ran = tools.storm(script, "--time", "4", "--kinds", kinds)
        must(ran.returncode == 0 and f"; status {status} in calm runs too;" in ran.stdout, f"{script}: {ran}")
    ran = tools.storm(f"{there} || exit 0; sleep 0.05; {there} || exit 6", "--kinds", "plug")
    must(ran.returncode == 1 and "status 6" in ran.stdout, f"a status that only a change gives: {ran}")
    lines = tools.file("long.tl", f"0 unplug {CHIP}\n2 plug {CHIP}\n")
    slow = ["--replay", lines, "--calm", "0.3", "--time", "2", tools.chip, "--", "sh", "-c", f"sleep 0.6; {there} || exit 3"]
    ran = tools.run("storm", *slow)
    must(ran.returncode == 0 and "; status 3 in calm runs too;" in ran.stdout, f"it takes longer than --calm: {ran}")
    if not shutil.which("sensors"):
        return "without sensors, which is not installed"
    ran = tools.run("storm", "--time", "5", "--seed", "1", tools.chip, "--", "sensors")
    must(ran.returncode == 0 and "no fault" in ran.stdout, ran)
    return "sensors too"


def patient(tools):
    """A run that is only late does not hang: it gets as much time again, in a whole tree; lines that come late are reported"""
    looks = "n=0; while [ $n -lt 900 ]; do n=$((n + 1)); [ -e /sys/class/hwmon/x ]; done; true"
    late = ["--seed", "1", "--kinds", "late", "--rate", "1", "--time", "8", "--hang", "3", "--calm", "20"]
    printed = tools.said("storm", *late, "--print", tools.chip)
    must("0.000 late /class/hwmon 7\n" in printed, f"900 look-ups take 6 seconds: {printed}")
    ran = tools.run("storm", *late, tools.chip, "--", "sh", "-c", looks)
    must(ran.returncode == 0 and "no fault" in ran.stdout, ran)
    lines = tools.file("slow.tl", f"0 slow {CHIP}/temp1_input 3000\n0.5 unplug {CHIP}\n0.6 plug {CHIP}\n0.7 notify {CHIP}/name\n")
    script = f"cat /sys{CHIP}/temp1_input > /dev/null; true"
    ran = tools.run("storm", "--replay", lines, "--time", "6", "--calm", "20", tools.chip, "--", "sh", "-c", script)
    must(ran.returncode == 0 and re.search(r"\(\d+ lines more than 1 s late: ", ran.stdout), ran)


def kinds(tools):
    """A storm gives only lines of the kinds that were named, and ends a fault as the description has it"""
    described = tools.file("failing.kf", tools.chip.read_text() + f"fail {CHIP}/temp1_max 61\n")
    for kind, given in ("plug", {"plug", "unplug"}), ("notify", {"notify"}), ("fail", {"fail"}), ("plug,slow", {"plug", "unplug", "slow"}):
        printed = tools.said("storm", "--seed", "1", "--print", "--time", "10", "--kinds", kind, described)
        words = [line.split(" ") for line in printed.split("\n")[:-1]]
        must({it[1] for it in words if it[1] != "#"} == given, f"{kind}: {printed[-300:]}")
        errors = {it[3] for it in words if it[1:3] == ["fail", f"{CHIP}/temp1_max"]}
        must(kind != "fail" or "61" in errors and "0" not in errors, f"it fails by its description: {errors}")


def options(tools):
    """A storm says in a line which kind of lines, status or device is wrong"""
    for words, said in (
        (["--kinds", "x"], "--kinds: not a kind of lines: x (the kinds are plug, fail, late, slow, notify)"),
        (["--kinds", "plug,"], "--kinds: not a kind of lines:  ("),
        (["--ok", "0,x"], "--ok: not a list of exit statuses: 0,x"),
        (["--device", "/class/none"], "--device: the description has no directory /class/none"),
    ):
        ran = tools.run("storm", *words, tools.chip, "--", "true")
        must(ran.returncode == 2 and said in ran.stderr and ran.stderr.count(said) == 1, f"{words}: {ran}")


def deaths(tools):
    """A storm reports a hang, a signal, and a daemon that dies of a query"""
    waits = "for n in 1 2 3 4 5 6 7 8 9; do [ -e /sys/class/hwmon/hwmon0 ] || sleep 983; sleep 0.01; done"
    hang = tools.storm(waits, "--hang", "1", "--kinds", "plug")
    must(hang.returncode == 1 and "hangs" in hang.stdout and eventually(lambda: not processes("983")), hang)
    crash = tools.storm("cat /sys/class/hwmon/hwmon0/name || kill -SEGV $$", "--kinds", "plug")
    must(crash.returncode == 1 and "killed by SIGSEGV" in crash.stdout, crash)
    poke = f"cat /sys{CHIP}/name || kill -ABRT $(cat {tools.folder}/pid)"
    poked = tools.storm(f"echo $$ > {tools.folder}/pid; exec sleep 984", "--poke", poke)
    must(poked.returncode == 1 and "SIGABRT" in poked.stdout, poked)


TRIED = (storm, kept, calm, deliberate, patient, kinds, options, deaths)
