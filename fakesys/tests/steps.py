# SPDX-License-Identifier: MIT OR Apache-2.0
"""The lines about steps: `trace`, `at`, `await`, `pause`, `resume` and `replug`."""
import errno, os, select, time
from pathlib import Path

from mounted import EVENTS, PATIENCE, Beside, error_of, eventually, must, read_path

FAN, SPEED, LIMIT = "/devices/fan0", "/devices/fan0/speed", "/devices/fan0/limit"


def steps_of(file, *paths):
    """The steps in a trace at these paths, each as its kind, path and number, and whether lines ran before it."""
    rows = [line.split(" ") for line in file.read_text().split("\n")[:-1]]
    return [(" ".join(row[:3]), row[4:] == ["!"]) for row in rows if row[1] in paths]


def first_of(steps, *kinds):
    """The steps of these kinds, without the stats that the kernel makes on the way."""
    return [step for step, _ in steps if step.split(" ")[0] in kinds]


def traced(mount):
    """A trace has each step of a reader in order, with its number, and marks a step before which lines ran."""
    file = Path(f"{mount.at}.trace")
    mount.done(f"trace {file}")
    read_path(mount.path(SPEED))
    os.listdir(mount.path(FAN))
    os.readlink(mount.path("/class/cooling"))
    with mount.opened(LIMIT, os.O_RDWR) as limit:
        os.pwrite(limit, b"7", 0)
        waiting = select.poll()
        waiting.register(limit, EVENTS)
        waiting.poll(0)
    must(error_of(os.lstat, mount.path("/class/no such")) == errno.ENOENT, "a name that is not there")
    mount.done(f"at read {SPEED} 1 set {SPEED} 5")
    must(read_path(mount.path(SPEED)) == b"5\n", "the read after the line")
    mount.done("at off", "trace off")
    steps = steps_of(file, SPEED, LIMIT, FAN, "/class/cooling", r"/class/no\040such")
    kinds = "open", "read", "list", "readlink", "write", "poll"
    wanted = [f"open {SPEED} 1", f"read {SPEED} 1", f"open {FAN} 1", f"list {FAN} 1", "readlink /class/cooling 1"]
    wanted += [f"open {LIMIT} 1", f"write {LIMIT} 1", f"poll {LIMIT} 1", f"open {SPEED} 2", f"read {SPEED} 2"]
    must(first_of(steps, *kinds) == wanted, steps)
    must([step for step, is_marked in steps if is_marked] == [f"read {SPEED} 2"], "the mark")
    must(r"lookup /class/no\040such 1" in first_of(steps, "lookup"), "a blank in a name is escaped")
    must(steps[0][0] in (f"lookup {FAN} 1", f"lookup {SPEED} 1", f"stat {FAN} 1"), f"the first step: {steps[0]}")
    size = file.stat().st_size
    read_path(mount.path(SPEED))
    must(file.stat().st_size == size, "it has ended")
    mount.done(f"trace {file}", "trace off")
    must(file.read_text().count("lookup") == 0, "a new trace begins with an empty file")
    refused = mount.ask("trace", "trace relative", "trace /no/such", f"trace {mount.path(SPEED)}", "trace /dev/null")
    must(refused == ["err Line 22", "err Invalid 22", "err NoEntry 2", "err Invalid 22", "err Invalid 22"], refused)
    file.unlink()


def before_a_step(mount):
    """Lines run right before the N-th step of a kind at a path: a device goes between a listing and the look-up, between
    two reads, and comes back as another one."""
    path = mount.path(SPEED)
    mount.done(f"at lookup /class/cooling 2 unplug {FAN}")
    must(os.listdir(mount.path("/class")) == ["cooling"] and os.lstat(mount.path("/class/cooling")), "the first look-up")
    must(error_of(os.lstat, mount.path("/class/cooling")) == errno.ENOENT, "it goes before the second")
    mount.done("at off", *DEVICE)
    with mount.opened(SPEED) as file:
        mount.done(f"at read {SPEED} 3 set {SPEED} 3", f"at read {SPEED} 2 set {SPEED} 2;;fail {LIMIT} 5")
        texts = [os.pread(file, 9, 0) for _ in range(4)]
        must(texts == [b"1200\n", b"2\n", b"3\n", b"3\n"], texts)
        must(error_of(read_path, mount.path(LIMIT)) == errno.EIO, "the second line of a point")
        mount.done(f"at read {SPEED} 1 unplug {FAN}")
        must(error_of(os.pread, file, 9, 0) == errno.ENODEV, "it goes before a read")
    mount.done("at off", *DEVICE)
    with mount.opened(SPEED) as file:
        number = os.stat(path).st_ino
        mount.done(f"at open {SPEED} 1 replug {FAN}")
        must(error_of(os.open, path, os.O_RDONLY) == errno.ENODEV, "an open of a device that was replaced")
        must(error_of(os.pread, file, 9, 0) == errno.ENODEV, "an old file")
        must(read_path(path) == b"1200\n" and os.stat(path).st_ino != number, "another device of the same name")
    must(os.readlink(mount.path("/class/cooling")) == "../devices/fan0", "with the links to it")
    mount.done(f"at read {SPEED} 1 set {SPEED} 4", "at off")
    must(read_path(path) == b"1200\n", "a point that is forgotten")


DEVICE = [f"mkdir {FAN} off", f"file {SPEED} 644 1200", f"file {LIMIT} 644 3000", f"activate {FAN}", f"link /class/cooling {FAN}"]


def wrong_points(mount):
    """An `at` of a path that is not there, of an unknown kind or the wrong node, of N = 0 or with a wrong line is refused,
    with the reason, and changes nothing."""
    refused = {
        f"at read /devices/fan1/speed 1 unplug {FAN}": "err NoEntry 2",
        f"at lookup /devices/fan1/speed 1 unplug {FAN}": "err NoEntry 2",
        f"at lookup / 1 unplug {FAN}": "err Invalid 22",
        f"at lookup /.control 1 unplug {FAN}": "err Exists 17",
        f"at peek {SPEED} 1 unplug {FAN}": "err Line 22",
        f"at read {SPEED} 0 unplug {FAN}": "err Line 22",
        f"at read {SPEED} x unplug {FAN}": "err Line 22",
        f"at read {SPEED} 4294967296 unplug {FAN}": "err Line 22",
        f"at read {SPEED} 1": "err Line 22",
        f"at read {SPEED} 1 ": "err Line 22",
        f"at read {SPEED} 1 frob {FAN}": "err Line 22",
        f"at read {SPEED} 1 unplug {FAN};;fail {SPEED}": "err Line 22",
        f"at read {SPEED} 1 set": "err Line 22",
        f"at read {FAN} 1 unplug {FAN}": "err IsDir 21",
        f"at list {SPEED} 1 unplug {FAN}": "err NotDir 20",
        f"at readlink {SPEED} 1 unplug {FAN}": "err Invalid 22",
        f"at open /class/cooling 1 unplug {FAN}": "err Invalid 22",
        "at": "err Line 22",
        "at off now": "err Line 22",
        f"await peek {SPEED}": "err Line 22",
        f"await read {SPEED} 0": "err Line 22",
        "await read /no": "err NoEntry 2",
        "pause": "err Invalid 22",
        "replug /no": "err NoEntry 2",
        "replug /": "err Invalid 22",
        "replug /class/cooling": "err Invalid 22",
    }
    replies = dict(zip(refused, mount.ask(*refused)))
    must(replies == refused, {line: reply for line, reply in replies.items() if reply != refused[line]})
    mount.ask(f"at peek {SPEED} 1 unplug {FAN}")
    must(b"KIND: lookup, stat, open, read, list, readlink, write or poll; N from 1" in read_path(mount.path("/.control")), "why")
    must(read_path(mount.path(SPEED)) == b"1200\n" and os.listdir(mount.path("/devices")) == ["fan0"], "nothing changed")


def awaited(mount):
    """`await` returns once a step is reached, at once if it was reached before; a step that pauses waits for `resume`."""
    path = mount.path(SPEED)
    mount.done(f"at read {SPEED} 1 pause")
    reader = Beside(read_path, path)
    mount.done(f"await read {SPEED}", f"await read {SPEED}", f"set {SPEED} 7")
    must(reader.is_alive(), "it pauses")
    mount.done("resume")
    must(reader.given() == b"7\n", "the read after the pause")
    resumed_early(mount)
    mount.done("at off")
    waiting = Beside(mount.tell, f"await open {SPEED} 2")
    must(eventually(lambda: opens_until(waiting, path)), "an await without a point")
    must(waiting.given() == "ok", "it counts steps from then on")
    mount.done(f"at read {SPEED} 1 pause")
    reader = Beside(error_of, read_path, path)
    mount.done(f"await read {SPEED}", f"unplug {FAN}", "at off")
    must(reader.given() == errno.ENODEV, "`at off` resumes too")
    mount.done(*DEVICE, f"at read {LIMIT} 9 notify {SPEED}")
    waiting = Beside(mount.tell, f"await read {LIMIT}")
    must(eventually(lambda: mount.tell("at off") and not waiting.is_alive()), "`at off` ends an await")
    must(waiting.given() == "err Operation canceled", waiting.result)


def resumed_early(mount):
    """A `resume` counts that comes after the step was reached, and before its pause: here an unplug is between them."""
    other = "/devices/other"
    mount.done(f"mkdir {other}", f"file {other}/slow 444 1", f"slow {other}/slow 500", f"at read {other}/slow 1 notify {SPEED}")
    inside = Beside(read_path, mount.path(f"{other}/slow"))
    mount.done(f"await read {other}/slow", f"at read {SPEED} 1 unplug {other};;pause")
    reader = Beside(read_path, mount.path(SPEED))
    mount.done(f"await read {SPEED}", "resume")
    must(reader.given() == b"7\n" and inside.given() == b"1\n", "it does not wait for a second `resume`")


def opens_until(waiting, path):
    os.close(os.open(path, os.O_RDONLY))
    return not waiting.is_alive()


def ends_though_held(mount):
    """A mount ends though a step pauses and a line awaits another step."""
    mount.done(f"at read {SPEED} 1 pause")
    reader = Beside(error_of, read_path, mount.path(SPEED))
    waiting = Beside(error_of, mount.tell, f"await read {LIMIT} 5")
    mount.done(f"await read {SPEED}")
    begun = time.monotonic()
    mount.process.terminate()
    reader.given()
    waiting.given()
    must(mount.process.wait(PATIENCE) == 0 and time.monotonic() - begun < 15, "it ends")
