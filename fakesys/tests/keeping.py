# SPDX-License-Identifier: MIT OR Apache-2.0
"""What the kernel keeps of names and attributes: never anything that has changed, with each value of -o keep."""
import errno, os, platform, re, stat, subprocess, time

from mounted import FAN, PATIENCE, Mount, error_of, must

KINDS = ("names", "attributes", "nothing")
TURNS = 50


def has_notice():
    """Whether this kernel can forget all names at once: Linux 6.16 and later."""
    return tuple(map(int, re.findall(r"\d+", platform.release())[:2])) >= (6, 16)


def on_each(check, program, folder):
    """Runs a check on a new tree for each kind."""
    for kind in KINDS:
        with Mount(program, folder, FAN, options=["-o", f"keep={kind}"]) as mount:
            check(mount)


def names(program, folder):
    """A name is gone once rm, unplug, hide or mv has returned, by path, from an open directory and inside it."""
    on_each(check_names, program, folder)


def check_names(mount):
    for turn in range(TURNS):
        mount.done("mkdir /devices/d", f"file /devices/d/a 644 {turn}", "link /class/d /devices/d")
        inside = os.open(mount.path("/devices/d"), os.O_RDONLY)
        must(all(read(mount, path) == b"%d\n" % turn for path in ("/devices/d/a", "/class/d/a") * 2), "it is there")
        os.stat("a", dir_fd=inside)
        mount.done(("rm", "unplug")[turn % 2] + " /devices/d")
        for path in "/devices/d/a", "/devices/d", "/class/d/a":
            must(error_of(os.stat, mount.path(path)) == errno.ENOENT, f"{path} can be stat after the removal")
            must(error_of(os.open, mount.path(path), os.O_RDONLY) == errno.ENOENT, f"{path} can be opened")
        must(error_of(lambda: os.stat("a", dir_fd=inside)) == errno.ENOENT, "it is there in the open directory")
        os.close(inside)
        if turn % 2 == 0:
            must(os.path.islink(mount.path("/class/d")), "rm leaves the links")
            mount.done("rm /class/d")
    check_moves(mount)


def check_moves(mount):
    for turn in range(TURNS):
        old, new = ("speed", "pace") if turn % 2 == 0 else ("pace", "speed")
        must(read(mount, f"/devices/fan0/{old}") == b"1200\n", "it is there")
        mount.done(f"mv /devices/fan0/{old} /devices/fan0 {new}")
        must(error_of(os.stat, mount.path(f"/devices/fan0/{old}")) == errno.ENOENT, "the old name is there")
        must(read(mount, f"/devices/fan0/{new}") == b"1200\n", "the new name is not there")
        mount.done("hide /devices/fan0/limit")
        must(error_of(os.stat, mount.path("/devices/fan0/limit")) == errno.ENOENT, "the hidden file is there")
        mount.done("show /devices/fan0/limit")
        must(read(mount, "/devices/fan0/limit") == b"3000\n", "the file is not there again")


def read(mount, path):
    with mount.opened(path) as file:
        return os.pread(file, 99, 0)


def attributes(program, folder):
    """Counts of links, sizes, modes and the end of a file that is gone are as they are now, by path and by descriptor."""
    on_each(check_counts, program, folder)
    on_each(check_sizes, program, folder)


def check_counts(mount):
    top = mount.path("/devices")
    with mount.opened("/devices") as folder:
        counts = lambda: (os.stat(top).st_nlink, os.fstat(folder).st_nlink, os.stat(".", dir_fd=folder).st_nlink)
        before = counts()[0]
        for turn in range(TURNS):
            must(counts() == (before,) * 3, f"turn {turn}: {counts()}, not {before}")
            mount.done("mkdir /devices/d" + " off" * (turn % 2))
            must(counts() == (before + 1,) * 3, f"turn {turn}, a new directory: {counts()}, not {before + 1}")
            mount.done("activate /devices/d", "mkdir /devices/d/e", "mv /devices/d/e /devices f")
            must(counts() == (before + 2,) * 3, f"turn {turn}, a moved directory: {counts()}")
            mount.done("rm /devices/d")
            must(counts() == (before + 1,) * 3, f"turn {turn}, a removal: {counts()}")
            mount.done("unplug /devices/f")
        os.chmod(top, 0o711)
        must(stat.S_IMODE(os.fstat(folder).st_mode) == 0o711, "the new mode")
        os.chmod(top, 0o755)


def check_sizes(mount):
    end = lambda file: os.lseek(file, 0, os.SEEK_END)
    for _ in range(TURNS):
        mount.done("mkdir /devices/d", "file /devices/d/a 644 x")
        with mount.opened("/devices/d/a") as file, mount.opened("/devices/d") as folder:
            sizes = lambda: (os.stat(mount.path("/devices/d/a")).st_size, os.fstat(file).st_size, end(file))
            must(sizes() == (4096,) * 3, f"a text has {sizes()} bytes")
            mount.done(f"set /devices/d/a {'y' * 5000}\\c")
            must(sizes() == (5000,) * 3, f"a binary file of 5000 bytes has {sizes()}")
            mount.done("set /devices/d/a z")
            must(sizes() == (4096,) * 3, f"a text again has {sizes()} bytes")
            mount.done("hide /devices/d/a")
            os.fstat(file)
            must(error_of(end, file) == errno.ENODEV, "the end of a hidden file is found")
            mount.done("show /devices/d/a")
            must(end(file) == 4096, "the end of a file that is shown again")
            mount.done("unplug /devices/d")
            os.fstat(file)
            must(error_of(end, file) == errno.ENODEV, "the end of a file that is gone is found")
            must(os.fstat(folder).st_nlink == 2, "the links of a directory that is gone")


def late(program, folder):
    """A directory that becomes late is late for names that were found before, too."""
    on_each(check_late, program, folder)


def check_late(mount):
    for _ in range(3):
        os.stat(mount.path("/devices/fan0/speed"))
    mount.done("late /devices/fan0 200")
    for _ in range(2):
        begun = time.monotonic()
        os.stat(mount.path("/devices/fan0/speed"))
        must(time.monotonic() - begun >= 0.2, "the name was found at once")
    mount.done("late /devices/fan0 0")


def requests(program, folder):
    """What is kept is not asked for again: the requests of 200 stats and of 200 reads of one file."""
    counts = {kind: asked(program, folder, kind) for kind in KINDS}
    said = ", ".join(f"{kind} {stats} and {reads}" for kind, (stats, reads) in counts.items())
    must(counts["nothing"][0] > 1000, said)
    must(counts["attributes"][0] < counts["nothing"][0] * 2 / 3, said)
    if has_notice():
        must(counts["names"][0] < 100 and counts["names"][1] < 1000, said)
    return said


class Chatty(Mount):
    """A mount whose daemon prints each request, which is no complaint."""

    def said(self):
        return ""


def asked(program, folder, kind):
    """How many requests come for 200 times stat, and for 200 times open, read and close."""
    with Chatty(program, folder, FAN, options=["-o", f"keep={kind},debug"]) as mount:
        log, counts = mount.log, []
        for call in lambda: os.stat(mount.path("/devices/fan0/speed")), lambda: read(mount, "/devices/fan0/speed"):
            before = log.read_text(errors="replace").count("opcode: ")
            for _ in range(200):
                call()
            counts.append(log.read_text(errors="replace").count("opcode: ") - before)
    return counts


def refused(program, folder):
    """A wrong -o keep is refused."""
    ran = subprocess.run(
        [program, "-o", "keep=all", folder / "nothing.kf", folder],
        capture_output=True,
        text=True,
        timeout=PATIENCE,
        check=False,
    )
    must(ran.returncode == 2 and "not all" in ran.stderr, f"{ran}")
