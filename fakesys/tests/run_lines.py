# SPDX-License-Identifier: MIT OR Apache-2.0
"""Tests of what the lines and options of a run do: links, counters, the order of listings, statfs(2)."""
import os, re, sys

from programs import CHIP, SYSFS, must

CGROUP2 = 0x63677270
BY_A_LINK = "/class/hwmon/hwmon0"
COUNTED = """
import sys, time
path = sys.argv[1]
read = lambda: int(open(path).read().split()[0])
before = time.monotonic(), read(), time.monotonic()
time.sleep(0.5)
after = time.monotonic(), read(), time.monotonic()
print(after[1] - before[1], after[0] - before[2], after[2] - before[0])
"""
STATFS = """
import ctypes, os, sys
libc = ctypes.CDLL(None)
for path in sys.argv[1:]:
    room = ctypes.create_string_buffer(120)
    file = os.open(path, os.O_RDONLY)
    assert not libc.fstatfs(file, room)
    of_file = int.from_bytes(room.raw[:8], "little")
    assert not libc.statfs(os.fsencode(path), room)
    print(f"{of_file:x} {int.from_bytes(room.raw[:8], 'little'):x}")
"""


def followed(tools):
    """The lines of a run, timelines and --device follow links, and a refusal names the real path"""
    give = tools.giving()
    ran = tools.script(
        tools.chip,
        f"{give} 'set {BY_A_LINK}/temp1_input 7'; cat /sys{CHIP}/temp1_input",
        f"{give} 'set {BY_A_LINK}/nothing 7'; echo $?",
        f"{give} 'unplug {BY_A_LINK}'; ls /sys/class/hwmon | wc -l",
        f"{give} 'plug {BY_A_LINK}'; cat /sys{BY_A_LINK}/temp1_input",
        f"{give} 'replug {BY_A_LINK}'; cat /sys{BY_A_LINK}/temp1_input",
        f"{give} 'rm {BY_A_LINK}' 'file /class/hwmon/x 644 y'; cat /sys/class/hwmon/x /sys{CHIP}/name",
    )
    must(ran.stdout.split() == ["7", "1", "0", "42000", "42000", "y", "coretemp"], ran)
    must(f"\nfakesys: No such file or directory: set {CHIP}/nothing 7\n" in ran.stderr, ran.stderr)
    lines = tools.file("links.tl", f"0 fail {BY_A_LINK}/name EIO\n0.1 set {BY_A_LINK}/nothing 7\n0.2 rm {CHIP}/temp1_input\n")
    script = f"while [ -e /sys{CHIP}/temp1_input ]; do sleep 0.05; done; cat /sys{CHIP}/name 2> /dev/null || echo fails"
    ran = tools.run("-t", lines, tools.chip, "sh", "-c", script)
    must(ran.stdout == "fails\n" and f": No such file or directory: set {CHIP}/nothing 7\n" in ran.stderr, ran)
    printed = tools.said("storm", "--seed", "1", "--print", "--time", "3", "--device", BY_A_LINK, tools.chip)
    must(f" unplug {CHIP}\n" in printed and "unplug /devices/platform/coretemp.0\n" not in printed, printed[-300:])


def half(tools):
    """A plug that fails half-way leaves nothing of the device, so that a later one succeeds; a node is made in the root"""
    give, count = tools.giving(), sum(tools.chip.read_text().count(f"\n{it} ") for it in ("mkdir", "file", "link"))
    ran = tools.script(
        tools.chip,
        f"exec 3< /sys{CHIP}/name 4< /sys{CHIP}/temp1_max",  # (a removed file keeps its slot while it is open)
        f"{give} 'unplug {CHIP}'; {give} 'plug {CHIP}'; echo $?; exec 3<&- 4<&-",
        f"for it in 1 2 3 4 5 6 7 8; do {give} 'plug {CHIP}' && break; sleep 0.2; done; cat /sys{CHIP}/name",
        f"{give} 'rm {CHIP}/temp1_max' 'mkdir /new'; echo $?; ls -d ${{FAKESYS%/.control}}/new | wc -l",
        words=["--slots", str(count + 1)],
    )
    must(ran.stdout.split() == ["1", "coretemp", "0", "1"] and f"No space left on device: " in ran.stderr, ran)


def counted(tools):
    """`count` lets a number grow by itself, at its rate, in a device that is plugged again too"""
    words = tools.file("counter.kf", tools.chip.read_text() + f"set {CHIP}/temp1_max 1000 kB\ncount {CHIP}/temp1_max 2000/s\n")
    program, path = tools.file("counted.py", COUNTED), f"/sys{CHIP}/temp1_max"
    ran = tools.script(
        words,
        f"'{sys.executable}' '{program}' {path}; cat {path}",
        f"{tools.giving()} 'unplug {CHIP}' 'plug {CHIP}'; cat {path}",
        f"{tools.giving()} 'count {CHIP}/temp1_max 0/s'; cat {path} {path}",
    )
    must(ran.returncode == 0, ran)
    said = ran.stdout.split("\n")
    grown, least, most = map(float, said[0].split())
    must(2000 * least - 1 <= grown <= 2000 * most + 1, f"it grows by its rate: {said}")
    must(all(re.fullmatch(r"\d+ kB", it) for it in said[1:5]), f"the rest of the text stays: {said}")
    first, again, *still = (int(it.split()[0]) for it in said[1:5])
    must(1000 <= again and first > 1000 and still[0] == still[1] >= again, f"plugged again, then ended: {said}")


def ordered(tools):
    """--order SEED lists names in an order that follows from the seed; without it they are sorted"""
    names = [f"n{number:03d}" for number in range(700)]
    lines = tools.file("many.kf", "mkdir /class\n" + "".join(f"mkdir /class/{name}\n" for name in names))
    listed = lambda *words: tools.said(*words, lines, "ls", "-U", "/sys/class").split()
    one, other = listed("--order", "1"), listed("--order", "2")
    must(listed() == names == listed("--order", "0") == sorted(one) == sorted(other), "each name once")
    must(names != one != other != names and listed("--order", "1") == one, "an order for each seed")
    swapped = {tuple(it for it in listed("--order", str(seed)) if it in names[:2]) for seed in range(1, 9)}
    must(len(swapped) == 2, f"each of two names comes first for some seed: {swapped}")
    must(tools.run("--order", "x", lines, "true").returncode == 2, "not a number")
    storm = tools.run("storm", "--order", "3", "--time", "0.5", "--ok", "0,1", tools.chip, "--", "ls", "/sys/class/hwmon")
    must(storm.returncode == 0, f"in a storm: {storm}")


def magic(tools):
    """statfs(2) reports sysfs, and for a directory that a line says so for, and below it, cgroup2"""
    lines = tools.chip.read_text() + "mkdir /fs\nmkdir /fs/cgroup\nmkdir /fs/cgroup/a\nfile /fs/cgroup/a/b 644 x\nfilesystem /fs/cgroup cgroup2\n"
    described = tools.file("magic.kf", lines)
    places = [f"/sys{CHIP}", f"/sys{CHIP}/name", "/sys", "/sys/fs", "/sys/fs/cgroup", "/sys/fs/cgroup/a/b", "/proc"]
    wanted = [SYSFS] * 4 + [CGROUP2] * 2 + [0x9FA0]
    for words in [], ["-a"], ["-n"]:
        ran = tools.run(*words, described, sys.executable, "-c", STATFS, *places)
        if ran.stdout.startswith("65735546"):
            return "skipped: the system allows no filter of system calls"
        must(ran.stdout.split("\n")[:-1] == [f"{it:x} {it:x}" for it in wanted], f"{words}: {ran}")
    ran = tools.run(described, "sh", "-c", "cd /sys/fs/cgroup && stat -fc %t . a /nothing; exec stat -fc %t /proc/self/cwd")
    must(ran.stdout.split() == [f"{CGROUP2:x}"] * 3 and "nothing" in ran.stderr, f"relative paths: {ran}")
    ran = tools.run(described, "sh", "-c", f"stat -fc %t /sys{CHIP}; exit 5", env={**os.environ, "SYSTEMD_DEVICE_VERIFY_SYSFS": "1"})
    must(ran.returncode == 5, "the status is that of the command")
    return "static programs too"


TRIED = (followed, half, counted, ordered, magic)
