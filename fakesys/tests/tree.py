# SPDX-License-Identifier: MIT OR Apache-2.0
"""A mounted tree: removals and their readers, polls, listings, moves, the control file."""
import contextlib, errno, os, select, stat, threading, time

from mounted import EVENTS, PATIENCE, Beside, error_of, eventually, must, read_path


def removal(mount):
    """A reader is inside its show while the directory is removed: rm returns after the reader has left; other
    readers get ENODEV."""
    mount.done("slow /devices/fan0/speed 2500")
    with mount.opened("/devices/fan0/limit", os.O_RDWR) as limit, mount.opened(
        "/devices/fan0/speed"
    ) as speed:
        must(os.read(limit, 2) == b"30", "a file that was read before")
        begun = time.monotonic()
        reader = Beside(read_path, mount.path("/class/cooling/speed"))
        time.sleep(0.6)
        remover = Beside(mount.done, "rm /devices/fan0")
        must(
            eventually(lambda: error_of(os.stat, mount.path("/devices/fan0/speed")) == errno.ENOENT),
            "the name is gone while rm waits",
        )
        must(error_of(os.pread, speed, 99, 0) == errno.ENODEV, "an open file gives ENODEV while rm waits")
        must(mount.ask("mkdir /devices/fan0/a", "mkdir /other") == ["err NoEntry 2", "ok"], "others go on")
        must(not remover.ended and not reader.ended, "rm waits for the reader")
        must(reader.given() == b"1200\n", "the reader has its text")
        remover.given()
        must(remover.ended >= begun + 2.5, "rm returned before the show ended")
        must(error_of(os.pwrite, limit, b"1", 0) == errno.ENODEV, "a write gives ENODEV")
        must(error_of(os.pread, speed, 99, 0) == errno.ENODEV, "an open file gives ENODEV afterwards")
        must(stat.S_ISREG(os.fstat(speed).st_mode) and os.fstat(speed).st_size == 4096, "fstat still works")
        must(os.read(limit, 99) == b"00\n", "a read continues in what was shown before")
        must(error_of(os.read, limit, 99) == errno.ENODEV, "and at its end gives ENODEV")
        must(error_of(os.pread, limit, 99, 2) == errno.ENODEV, "elsewhere it would be shown again")
    must(os.listdir(mount.path("/devices")) == [], "it is no longer listed")
    must(error_of(os.stat, mount.path("/class/cooling/speed")) == errno.ENOENT, "a link to it leads nowhere")


def side_by_side(mount):
    """Four readers are inside their shows at the same time, of one file and of two."""
    mount.done("slow /devices/fan0/speed 2000", "slow /devices/fan0/limit 2000")
    begun = time.monotonic()
    readers = [
        Beside(read_path, mount.path(f"/devices/fan0/{name}"))
        for name in ("speed", "speed", "speed", "limit")
    ]
    must(sorted(it.given() for it in readers) == [b"1200\n"] * 3 + [b"3000\n"], "each has its text")
    must(time.monotonic() - begun < 6, "they wait for each other: %.2f s" % (time.monotonic() - begun))


def polled(mount):
    """poll(2) before the first show, after it, woken by a notify and by a removal, and while a reader is
    inside a show."""
    waiting = select.poll()
    with mount.opened("/devices/fan0/speed", os.O_RDWR) as file:
        waiting.register(file, EVENTS)
        must(waiting.poll(0), "it is changed before the first show")
        os.pread(file, 99, 0)
        must(not waiting.poll(0), "it is the same after it")
        os.pwrite(file, b"5", 0)
        must(not waiting.poll(0) and os.pread(file, 99, 0) == b"5\n", "a write notifies nobody")
        for line in ("notify /devices/fan0/speed", "rm /devices/fan0"):
            reader = Beside(waiting.poll, 6000)
            time.sleep(0.2)
            must(not reader.ended, "poll waits")
            begun = time.monotonic()
            mount.done(line)
            must(reader.given() and reader.ended - begun < 5, f"poll is woken by {line}")
            must(error_of(os.pread, file, 99, 0) == (errno.ENODEV if line[0] == "r" else 0), line)
        must(waiting.poll(0), "it is changed after a removal")
    mount.done("mkdir /d", "file /d/a 444 a", "file /d/b 444 b", "slow /d/a 2000")
    with mount.opened("/d/a") as file:
        waiting.register(file, EVENTS)
        reader = Beside(os.pread, file, 99, 0)
        time.sleep(0.6)
        mount.done("notify /d/a")
        must(reader.given() == b"a\n" and waiting.poll(0), "a notify during the show is not missed")
        waiting.unregister(file)
    with mount.opened("/d/b") as file:
        os.pread(file, 99, 0)
        waiting = select.poll()
        waiting.register(file, EVENTS)
        reader, poller = Beside(read_path, mount.path("/d/a")), Beside(waiting.poll, 6000)
        time.sleep(0.6)
        remover = Beside(mount.done, "rm /d")
        must(poller.given() and reader.given() == b"a\n", "poll is woken, and the reader has its text")
        remover.given()
        must(poller.ended < reader.ended, "poll is woken while the removal waits for another file's reader")


def listed(mount):
    """A listing while names come and go: each name that stays is listed once, and no removed name is listed."""
    mount.done("mkdir /many", *(f"mkdir /many/stay{number:03d}" for number in range(200)))
    mount.done("rm /devices", *(f"mkdir /many/move{number:03d}" for number in range(100)))
    stop = threading.Event()

    def change():
        for turn in range(1_000_000):
            if stop.is_set():
                return
            mount.done(
                f"rm /many/move{turn % 100:03d}",
                f"mkdir /many/come{turn}",
                f"rm /many/come{turn}",
                f"mkdir /many/move{turn % 100:03d}",
            )

    changing = Beside(change)
    for _ in range(15):
        names = [name for name in os.listdir(mount.path("/many")) if name.startswith("stay")]
        must(
            sorted(names) == [f"stay{number:03d}" for number in range(200)],
            "each name that stays is seen once",
        )
    stop.set()
    changing.given()
    must(sorted(os.listdir(mount.path("/"))) == ["class", "many"], "the control file is in no listing")
    long = [letter * 255 for letter in "abcdefghijklmnop"]
    mount.done("mkdir /long", *(f"file /long/{name} 444" for name in long))
    must(os.listdir(mount.path("/long")) == long, "the longest names, in byte order")
    must(
        error_of(os.stat, mount.path("/" + "n" * 256)) == errno.ENOENT, "a name that is too long, as in sysfs"
    )


def moved(mount):
    """Renames and links: an open file moves along, and a link leads to its target's new place."""
    with mount.opened("/devices/fan0/speed", os.O_RDWR) as file:
        mount.done("mkdir /bus", "mv /devices/fan0 /bus fan1")
        must(os.readlink(mount.path("/class/cooling")) == "../bus/fan1", "the link's text")
        os.truncate(mount.path("/bus/fan1/speed"), 0)
        must(os.pread(file, 99, 0) == b"1200\n", "a truncation changes nothing")
        os.pwrite(file, b"77\n", 0)
        must(read_path(mount.path("/class/cooling/speed")) == b"77\n", "the open file is the moved one")
        must(os.fstat(file).st_ino == os.stat(mount.path("/bus/fan1/speed")).st_ino, "by its inode number too")
    mount.done("mkdir /off off", "mkdir /off/a")
    must(
        error_of(os.stat, mount.path("/off")) == errno.ENOENT and "off" not in os.listdir(mount.path("/")),
        "not activated",
    )
    mount.done("activate /off")
    must(os.listdir(mount.path("/off")) == ["a"] and os.stat(mount.path("/off")).st_nlink == 3, "activated")


def polled_beside_a_show(mount):
    """poll(2) and select(2) return at once while another thread is inside a show by the same descriptor."""
    mount.done("slow /devices/fan0/speed 3000")
    with mount.opened("/devices/fan0/speed", os.O_RDWR) as file:
        os.pread(file, 99, 0)
        reader = Beside(os.pread, file, 99, 0)
        time.sleep(0.6)
        begun = time.monotonic()
        waiting = select.poll()
        waiting.register(file, EVENTS)
        must(not waiting.poll(0), "nothing has changed")
        mount.done("notify /devices/fan0/speed")
        must(waiting.poll(0), "a notify is seen")
        must(select.select([], [], [file], 0)[2], "by select(2) too")
        must(
            time.monotonic() - begun < 2 and not reader.ended,
            "it waits for the show: %.2f s" % (time.monotonic() - begun),
        )
        must(reader.given() == b"1200\n", "the reader has its text")


def many_threads(mount):
    """300 readers are inside shows at the same time: all others go on, and a removal waits for each reader."""
    mount.done("slow /devices/fan0/speed 12000")
    begun = []

    def read():
        with mount.opened("/devices/fan0/speed") as file:
            begun.append(time.monotonic())
            return os.pread(file, 99, 0)

    readers = [Beside(read) for _ in range(300)]
    while len(begun) < len(readers) and not any(it.error for it in readers):
        time.sleep(0.05)
    time.sleep(2)
    must(read_path(mount.path("/devices/fan0/limit")) == b"3000\n", "another file is read")
    mount.done("mkdir /other")
    # (on a busy machine the first ones have their texts before the last ones begin)
    must(sum(not it.ended for it in readers) > 150, "others wait for them")
    remover = Beside(mount.done, "rm /devices/fan0")
    must([it.given(3 * PATIENCE) for it in readers] == [b"1200\n"] * 300, "each has its text")
    remover.given()
    must(remover.ended >= max(begun) + 12, "rm waits for the last")


def ended(mount):
    """A signal ends it while a show sleeps and a file is open: the reader has its text, and nothing is left
    behind."""
    mount.done("slow /devices/fan0/speed 2000")
    file = os.open(mount.path("/devices/fan0/limit"), os.O_RDONLY)
    try:
        reader = Beside(read_path, mount.path("/devices/fan0/speed"))
        time.sleep(0.6)
        mount.process.terminate()
        must(mount.process.wait(PATIENCE) == 0, "its status")
        must(reader.given() == b"1200\n", "the reader has its text")
        must(not os.path.ismount(mount.at), "it is still mounted")
    finally:
        with contextlib.suppress(OSError):  # the daemon is gone
            os.close(file)
