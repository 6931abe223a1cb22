# SPDX-License-Identifier: MIT OR Apache-2.0
"""Counters, which change by themselves; the order of listings; the magic numbers of file systems."""
import errno, os, time

from mounted import Mount, error_of, must, read_path


def number(mount, path):
    return int(read_path(mount.path(path)).split()[0])


def counters(mount):
    """A counter grows, or falls, by its rate from its text on; a new text, or a write, begins it anew; 0/s ends it."""
    path = "/devices/fan0/limit"
    mount.done(f"set {path} 100 rpm", f"count {path} 1000000/s")
    with mount.opened(path) as file:
        begun, before = time.monotonic(), number(mount, path)
        time.sleep(0.3)
        after, passed = number(mount, path), time.monotonic() - begun
        must(250_000 < after - before <= 1e6 * passed + 1e6 * 0.3, f"{after - before} in {passed} s")
        must(int(os.pread(file, 99, 0).split()[0]) >= after, "of an open file")
        must(read_path(mount.path(path)).endswith(b" rpm\n"), "the rest of the text stays")
        mount.done(f"set {path} 5")
        must(5 <= number(mount, path) < after, "from a new text on")
    with mount.opened(path, os.O_WRONLY) as file:
        os.write(file, b"-3\n")
    mount.done(f"count {path} -1000000000000000/s")
    time.sleep(0.01)
    must(number(mount, path) < -(10**12), "it falls, below 0 too")
    mount.done(f"count {path} 0/s")
    must(number(mount, path) == number(mount, path) < -(10**12), "it stays as it was")
    mount.done(f"set {path} {2**63 - 1}", f"count {path} 1000000000000000/s")
    time.sleep(0.01)
    must(number(mount, path) == 2**63 - 1, "it ends at the greatest number")
    mount.done(f"set {path} none")
    must(read_path(mount.path(path)) == b"none\n", "a text without a number is shown as it is")
    mount.done("set /devices/fan0/speed x", "file /empty 644", "file /far 644 9223372036854775808", "file /hex 644 0x10")
    wrong = [f"count {it} 1/s" for it in ("/devices/fan0/speed", "/empty", "/far", "/hex")]
    must(mount.ask(*wrong) == ["err Invalid 22"] * 4, "texts that begin with no number")
    words = ("", " 1", " /s", " 1/m", " x/s", " 1/s x", " --1/s", " 1000000000000001/s", " " + "9" * 30 + "/s", " 1/")
    must(mount.ask(*(f"count {path}{it}" for it in words)) == ["err Line 22"] * len(words), "wrong rates")
    must(mount.ask("count /devices 1/s", "count /no 1/s") == ["err IsDir 21", "err NoEntry 2"], "wrong paths")


def magic(mount):
    """The magic number of a directory is that of the closest one above that has a line `filesystem`."""
    magic_of = lambda path: int(os.getxattr(mount.path(path), "system.fakesys"))
    mount.done("mkdir /fs", "mkdir /fs/cgroup", "file /fs/cgroup/a 644 x", "filesystem /fs/cgroup cgroup2")
    mount.done("mkdir /fs/cgroup/debug", "filesystem /fs/cgroup/debug debugfs")
    must([magic_of(it) for it in ("/", "/devices/fan0/speed", "/fs")] == [0x62656572] * 3, "sysfs")
    must(magic_of("/fs/cgroup") == magic_of("/fs/cgroup/a") == 0x63677270, "cgroup2")
    must(magic_of("/fs/cgroup/debug") == 0x64626720 and magic_of("/.control") == 0x62656572, "debugfs, the control file")
    must(os.listxattr(mount.path("/fs")) == [], "no listing has it")
    must(error_of(os.getxattr, mount.path("/fs"), "system.other") == errno.EOPNOTSUPP, "there is no other one")
    mount.done("mv /fs/cgroup / cgroup", "rm /fs", "mkdir /fs")
    must(magic_of("/cgroup/a") == 0x63677270 and magic_of("/fs") == 0x62656572, "it stays with the directory")
    replies = mount.ask("filesystem /cgroup ext4", "filesystem /cgroup", "filesystem /cgroup/a sysfs", "filesystem /no sysfs")
    must(replies == ["err Line 22", "err Line 22", "err NotDir 20", "err NoEntry 2"], replies)


class Ordered(Mount):
    """A tree whose listings are in the order of a seed."""

    def __init__(self, program, folder, seed):
        super().__init__(program, folder, [f"mkdir /n{it:03d}" for it in range(900)])
        self.options = ["--order", seed]


def ordered(program, folder):
    """With --order, listings are in an order that follows from the seed; each name is listed once, while others come and go."""
    listed = {}
    for seed in ("7", "8", "0"):
        with Ordered(program, folder, seed) as mount:
            listed[seed] = os.listdir(mount.at)
            with os.scandir(mount.at) as names:
                seen = [next(names).name for _ in range(10)]
                gone = [it for it in listed[seed][300:700:9] if it not in seen]
                mount.done(*(f"rm /{it}" for it in gone), *(f"mkdir /m{it:03d}" for it in range(90)))
                seen += [it.name for it in names]
            old = [it for it in seen if it.startswith("n")]
            must(len(set(seen)) == len(seen) and set(listed[seed]) - set(gone) <= set(old), "each name once")
            must(old == [it for it in listed[seed] if it in set(old)], "in the same order")
            must(sorted(os.listdir(mount.path("/n000"))) == [], "an empty directory")
    names = sorted(listed["0"])
    must(listed["0"] == names == sorted(listed["7"]) == sorted(listed["8"]), "all names")
    must(names != listed["7"] != listed["8"] != names, "an order for each seed")
