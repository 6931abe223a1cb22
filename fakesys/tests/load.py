# SPDX-License-Identifier: MIT OR Apache-2.0
"""Removals under load."""
import errno, os, random, re, select, subprocess, threading, time

from mounted import EVENTS, FAN, HERE, PATIENCE, Beside, Mount, eventually, must


class Load:
    """Load on four devices that come and go: how many removals are left, and what was counted."""

    def __init__(self, mount, count):
        self.mount, self.left, self.lock, self.reads, self.refused = mount, count, threading.Lock(), 0, 0

    def user(self, number):
        """Opens, reads, writes and polls, until the device is gone."""
        lot = random.Random(number)
        while self.left > 0:
            try:
                file = os.open(self.mount.path(f"/devices/d{lot.randrange(4)}/a"), os.O_RDWR)
            except OSError as error:
                must(error.errno in (errno.ENOENT, errno.ENODEV), f"open: {error}")
                continue
            try:
                self.use(file, lot)
            except OSError as error:
                must(error.errno == errno.ENODEV, f"use: {error}")
                self.refused += 1
            finally:
                os.close(file)

    def use(self, file, lot):
        waiting = select.poll()
        waiting.register(file, EVENTS)
        for _ in range(20):
            text = os.pread(file, 99, 0)
            must(re.fullmatch(rb"\d+\n", text), f"a torn text: {text}")
            self.reads += 1
            os.pwrite(file, b"%d\n" % lot.randrange(1000), 0)
            waiting.poll(0)

    def plug(self, number):
        """Creates devices, of which some are slow, and removes them."""
        lot, device = random.Random(100 + number), f"/devices/d{number}"
        while self.is_due():
            lines = [
                f"mkdir {device} off",
                f"file {device}/a 644 {number}",
                f"file {device}/b 444 x",
                f"activate {device}",
            ]
            lines += [f"slow {device}/a 2"] * (lot.random() < 0.3)
            self.mount.done(*lines)
            time.sleep(lot.random() * 0.006)
            self.mount.done(f"rm {device}")

    def is_due(self):
        with self.lock:
            self.left -= 1
            return self.left >= 0

    def look(self):
        while self.left > 0:
            for _ in os.walk(self.mount.at):
                pass


def removals(mount, count):
    """Directories come and go while readers, writers, pollers and listings go on in them."""
    load = Load(mount, count)
    working = [Beside(load.user, number) for number in range(6)] + [
        Beside(load.plug, number) for number in range(4)
    ]
    until = time.monotonic() + PATIENCE + count / 20
    for it in [*working, Beside(load.look)]:
        it.given(max(0, until - time.monotonic()))
    must(os.listdir(mount.path("/devices")) == ["fan0"], "all devices are gone")
    made, gone = ([f"{word} /{number}" for number in range(1024 - 7)] for word in ("mkdir", "rm"))
    must(eventually(lambda: mount.ask(*made, *gone)[len(made) - 1] == "ok"), "a slot is lost")
    return f"{count} removals, {load.reads} reads, {load.refused} refused meanwhile"


def taken(process):
    """The descriptors and the resident kilobytes of a process."""
    status = open(f"/proc/{process.pid}/status", encoding="utf-8").read()
    return len(os.listdir(f"/proc/{process.pid}/fd")), int(re.search(r"VmRSS:\s+(\d+)", status)[1])


def many_removals(program, folder, count, keeping="names", most_grown=8192):
    """No stat, open, read or write that began after an rm had returned succeeds; descriptors and memory are as before."""
    made = subprocess.run(
        [
            "cc",
            "-std=c11",
            "-D_GNU_SOURCE",
            "-O2",
            "-Wall",
            "-Wextra",
            "-o",
            folder / "removals",
            HERE / "tests/removals.c",
            "-pthread",
        ],
        capture_output=True,
        text=True,
        check=False,
    )
    must(made.returncode == 0, made.stderr[-2000:])
    with Mount(program, folder, FAN, options=["-o", f"keep={keeping}"]) as mount:
        for turn in (max(count // 10, 1), count):
            before = taken(mount.process)
            ran = subprocess.run(
                [folder / "removals", mount.at, str(turn)],
                capture_output=True,
                text=True,
                timeout=PATIENCE + turn / 20,
                check=False,
            )
            must(ran.returncode == 0, f"{ran.stdout} {ran.stderr[-800:]}")
        must(eventually(lambda: taken(mount.process)[0] <= before[0]), "descriptors")
        grown = taken(mount.process)[1] - before[1]
        must(grown < most_grown, f"it takes {grown} KB more")
        must(os.listdir(mount.path("/devices")) == ["fan0"], "all devices are gone")
    return f"{ran.stdout.strip()}; {grown} KB more"
