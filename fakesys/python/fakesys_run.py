# SPDX-License-Identifier: MIT OR Apache-2.0
"""A run of fakesys: new namespaces, a tree over the directories of /sys, a command in it, and lines at their times."""
import contextlib
import errno
import fcntl
import os
import re
import select
import signal
import socket
import struct
import subprocess
import sys
import tempfile
import threading
import time

import fakesys
import fakesys_statfs
import fakesys_uevent
from fakesys import NO_DEVICES, NO_PROGRAMS, NO_SUID, printable

CANNOT, WRONG = 125, 2  # exit statuses: the machine forbids it; wrong arguments, lines or descriptions
PASSED_ON = (signal.SIGTERM, signal.SIGHUP, signal.SIGINT, signal.SIGQUIT, signal.SIGUSR1, signal.SIGUSR2)
FROM_THE_KERNEL = 0x80  # of a signal: a terminal sends it to the command too
ON_DEATH_OF_PARENT = 1
SET_FLAGS, UP_AND_RUNNING = 0x8914, 0x41  # of a network device
RELATIVE_TIMES = 1 << 21
NODES = ("null", "zero", "full", "random", "urandom", "tty", "fuse")
# The tree is mounted at one of these: directories that every machine has, and that no program in a run needs.
PLACES = ("/sys/fs/fuse/connections", "/sys/kernel/debug", "/sys/kernel/security")
GRACE = 3  # seconds for a command to end after a SIGTERM
RESTRICTED = "(in a container or under AppArmor: run it as root, or allow user namespaces)"


class Refused(Exception):
    """Something that the user gave is wrong: a message and status 2."""


# ---- files of the command line ----


def read_text(name):
    """The text of a description or a timeline, by its name; - is standard input."""
    try:
        source = 0 if name == "-" else name
        with open(source, encoding="utf-8", errors="surrogateescape", closefd=name != "-") as file:
            return file.read()
    except OSError as error:
        raise Refused(f"{name}: {error.strerror}") from None


def timed(line, before):
    """The time of a timeline's line, and the line. After a + the time counts from the line before."""
    found = re.fullmatch(r"(\+?)(\d+(?:\.\d*)?|\.\d+)[ \t]+(\S.*)", line)
    if not found:
        raise Refused("it must be SECONDS LINE")
    seconds = float(found[2]) + (before if found[1] else 0)
    if seconds < before:
        raise Refused("its time is before that of the last line")
    return seconds, found[3]


def read_timeline(name):
    """The lines of a timeline with their times, in order."""
    lines, before = [], 0.0
    for number, line in enumerate(read_text(name).split("\n"), 1):
        if not line.strip() or line.lstrip().startswith("#"):
            continue
        try:
            lines.append(timed(line.strip(), before))
        except Refused as problem:
            raise Refused(f"{name}, line {number}: {problem}") from None
        before = lines[-1][0]
    return lines


# ---- namespaces ----


def passed_on():
    """The signals that are passed on. One that was ignored from the start stays ignored (nohup, a background job)."""
    return [number for number in PASSED_ON if signal.getsignal(number) != signal.SIG_IGN]


def watch(child, passes_all):
    """Waits for a process, and passes signals on to it. Returns its status."""
    waited = [*passed_on(), signal.SIGCHLD]
    signal.pthread_sigmask(signal.SIG_BLOCK, waited)
    while True:
        pid, status = os.waitpid(child, os.WNOHANG)
        if pid:
            return 128 + os.WTERMSIG(status) if os.WIFSIGNALED(status) else os.WEXITSTATUS(status)
        got = signal.sigwaitinfo(waited)
        if got.si_signo != signal.SIGCHLD and (passes_all or got.si_code != FROM_THE_KERNEL):
            os.kill(child, got.si_signo)


def in_spaces(job, network=False, passes_all=False):
    """Runs a job as process 1 of new namespaces: its status. If either process ends, even by SIGKILL, everything ends."""
    # (a network namespace that belongs to the real root gets the events of the real devices)
    kinds = fakesys.NEW_PROCESSES | (fakesys.NEW_NETWORK | fakesys.NEW_USERS if network else 0)
    try:
        fakesys.enter_spaces(kinds)
    except OSError as error:
        print(f"fakesys: cannot create namespaces: {error.strerror} {RESTRICTED}", file=sys.stderr)
        return CANNOT
    life, ours = os.pipe()
    mask = hold_signals()
    child = os.fork()
    if child:
        return watch(child, passes_all)
    os.close(ours)
    os._exit(first_process(job, life, mask))


def hold_signals():
    """Blocks the signals that are passed on, and returns the mask before, which the caller restores. Otherwise process 1
    would lose a signal that arrives before it has a handler."""
    return signal.pthread_sigmask(signal.SIG_BLOCK, passed_on())


def end_at_once(number, _):
    """Ends process 1, and with it everything in its namespaces."""
    os._exit(128 + number)


def first_process(job, life, mask):
    """What process 1 does: its status. A signal ends it, until the job passes signals on."""
    fakesys.system_call("prctl", ON_DEATH_OF_PARENT, signal.SIGKILL)
    for number in passed_on():
        signal.signal(number, end_at_once)
    signal.pthread_sigmask(signal.SIG_SETMASK, mask)
    if select.select([life], [], [], 0)[0]:
        return CANNOT  # the parent was already killed
    with contextlib.suppress(OSError):  # if /proc is masked, the machine's stays, which suffices for most
        fakesys.mount("proc", "/proc", "proc", NO_SUID | NO_DEVICES | NO_PROGRAMS)
    try:
        return job()
    except Refused as problem:
        print(f"fakesys: {printable(str(problem))}", file=sys.stderr)
        return WRONG
    except OSError as error:
        words = f"{error.strerror or error} {RESTRICTED * (error.errno == errno.EPERM)}"
        print(f"fakesys: {printable(words)}", file=sys.stderr)
        return CANNOT
    finally:
        sys.stdout.flush()
        sys.stderr.flush()


def loopback_up():
    """Sets up 127.0.0.1 in the network namespace."""
    with socket.socket(socket.AF_INET, socket.SOCK_DGRAM) as any_socket:
        fcntl.ioctl(any_socket, SET_FLAGS, struct.pack("16sh", b"lo", UP_AND_RUNNING))


def kept_flags(path):
    """The flags of a mount that a user namespace may not remove."""
    flags = os.statvfs(path).f_flag
    times = RELATIVE_TIMES if flags & 0x1000 else 0
    return flags & (NO_SUID | NO_DEVICES | NO_PROGRAMS | 0x400 | 0x800) | times


def own_dev():
    """Gives the run its own /dev. Its nodes are the machine's, but read-only: their owners and modes cannot change."""
    nodes = [(f"/dev/{name}", os.open(f"/dev/{name}", os.O_PATH)) for name in NODES if os.path.exists(f"/dev/{name}")]
    fakesys.mount("tmpfs", "/dev", "tmpfs", NO_SUID, "mode=755")
    for path, file in nodes:
        os.close(os.open(path, os.O_CREAT | os.O_WRONLY, 0o666))
        fakesys.mount(f"/proc/self/fd/{file}", path, flags=fakesys.BIND)
        fakesys.mount("none", path, flags=fakesys.REMOUNT | fakesys.BIND | fakesys.READ_ONLY | kept_flags(path))
        os.close(file)
    for name, target in ("fd", "fd"), ("stdin", "fd/0"), ("stdout", "fd/1"), ("stderr", "fd/2"):
        os.symlink(f"/proc/self/{target}", f"/dev/{name}")
    os.symlink("pts/ptmx", "/dev/ptmx")
    for name in ("shm", "pts"):
        os.mkdir(f"/dev/{name}")
        os.chmod(f"/dev/{name}", 0o1777)
    with contextlib.suppress(OSError):
        fakesys.mount("devpts", "/dev/pts", "devpts", NO_SUID | NO_PROGRAMS, "newinstance,ptmxmode=0666,mode=620")


def own_run():
    """Gives the run its own /run/udev, so that the machine's udev and its data are hidden. A file in place of udevd's
    socket makes libudev expect events."""
    fakesys.mount("tmpfs", "/run/udev" if os.path.isdir("/run/udev") else "/run", "tmpfs", NO_SUID, "mode=755")
    os.makedirs("/run/udev/rules.d", exist_ok=True)
    with open(fakesys_uevent.UDEV_CONTROL, "w", encoding="ascii"):
        pass


# ---- the tree ----


class Place:
    """The directory of a run at which its tree is mounted. If none is free, one is created, which a child process removes."""

    def __init__(self, covers_all, tops):
        free = [place for place in PLACES if os.path.isdir(place) and place.split("/")[2] not in tops]
        if os.path.exists("/sys/.control"):
            free = []  # they are of the tree of a run around this one, whose names the kernel may forget at any time
        self.child = None
        if covers_all or free:
            self.at = "/sys" if covers_all else free[0]
        else:
            self.at = os.path.realpath(tempfile.mkdtemp(prefix="fakesys-"))
            self.child, self.life = remove_afterwards(self.at)

    def leave(self):
        if self.child:
            os.close(self.life)
            os.waitpid(self.child, 0)


def remove_afterwards(folder):
    """Starts a child that removes a directory however this process ends. Returns the child, and what to close for that."""
    ends, life = os.pipe()
    child = os.fork()
    if not child:
        os.setsid()
        os.close(life)
        os.read(ends, 1)
        os.rmdir(folder)  # in its namespace nothing is mounted there
        os._exit(0)
    os.close(ends)
    return child, life


def start_daemon(options, place, said):
    """Mounts the description of a run. What the daemon prints goes to a file, if one is given."""
    name = options.description if os.path.isfile(options.description) else None  # (a pipe was read already)
    words = ["-o", "allow_other"]
    for option in ("slots", "order"):
        value = getattr(options, option)
        words += [f"--{option}", str(value)] if value is not None else []
    words += ["-o", f"keep={options.keep}"] if options.keep else []
    try:
        return fakesys.start_daemon(options.text, place.at, words, name, said)
    except FileNotFoundError:
        raise OSError("fakesysfs is missing: build it with make, or name it in $FAKESYSFS") from None
    except ValueError as problem:
        raise Refused(f"{options.description}: {problem}") from None


def set_environment(options, place):
    """Sets what a command finds in its environment."""
    kept = os.memfd_create("description")  # commands read it as a file of this process
    os.write(kept, os.fsencode(options.text))
    os.environ["FAKESYS_DESCRIPTION"] = f"/proc/{os.readlink('/proc/self')}/fd/{kept}"
    os.environ["FAKESYS"] = f"{place.at}/.control"
    os.environ.setdefault("SYSTEMD_DEVICE_VERIFY_SYSFS", "0")
    if options.network:
        os.environ["FAKESYS_EVENTS"] = "1"


def open_tree(options, place, said=None):
    """Mounts the description of a run over /sys. Returns the daemon and the tree."""
    daemon = start_daemon(options, place, said)
    others = {}
    if not options.all:
        fakesys.cover_sys(place.at)
        others = {os.stat("/sys").st_dev: fakesys_statfs.SYSFS}
    if options.network:
        loopback_up()
        own_dev()
        own_run()
    set_environment(options, place)
    fakesys_statfs.Replies(others).begin()
    send = fakesys_uevent.send if options.network else None
    return daemon, fakesys.Tree(os.environ["FAKESYS"], fakesys.Description(options.text), send)


def close_tree(daemon):
    """Gives the daemon a second to exit. Then process 1 ends, and the kernel removes everything."""
    daemon.terminate()
    with contextlib.suppress(subprocess.TimeoutExpired):
        daemon.wait(1)


# ---- the command ----


def status_of(process):
    return process.returncode if process.returncode >= 0 else 128 - process.returncode


def start_command(command, **more):
    """Starts a command. If it cannot be started, the status is that of a shell."""
    try:
        return subprocess.Popen(command, **more), 0
    except OSError as error:
        print(f"fakesys: {command[0]}: {error.strerror}", file=sys.stderr)
        return None, 127 if error.errno == errno.ENOENT else 126


def pass_signals_on(process):
    """Passes the signals of this process on to the command. After a SIGTERM it has some seconds to exit."""

    def send(number):
        if process.returncode is None:  # (Popen.send_signal() would reap it, and wait_for() would miss that)
            with contextlib.suppress(ProcessLookupError):  # it may have been reaped just now
                os.kill(process.pid, number)

    def pass_on(number, _):
        send(number)
        if number == signal.SIGTERM:
            signal.setitimer(signal.ITIMER_REAL, GRACE)

    for number in passed_on():
        signal.signal(number, pass_on)
    signal.signal(signal.SIGALRM, lambda *_: send(signal.SIGKILL))


def wait_for(process, daemon):
    """Waits for a command, and reaps other processes, as process 1 has to. If the daemon ends first, the command is ended
    too. Returns the command's status, or CANNOT if the daemon ended."""
    while process.poll() is None:
        ended = os.waitid(os.P_ALL, 0, os.WEXITED | os.WNOWAIT).si_pid
        if ended == daemon.pid:
            is_alive(daemon)
            os.kill(process.pid, signal.SIGTERM)
            signal.setitimer(signal.ITIMER_REAL, GRACE)  # then it is killed
        elif ended != process.pid:
            os.waitpid(ended, 0)
    return status_of(process) if daemon.returncode is None and is_alive(daemon) else CANNOT


def is_alive(daemon):
    """Whether the daemon still runs. If it does not, this prints how it ended."""
    if daemon.poll() is None:
        return True
    code = daemon.returncode
    end = f"was killed by {signal.Signals(-code).name}" if code < 0 else f"ended with status {code}"
    print(f"fakesys: fakesysfs itself {end}, so the tree is gone", file=sys.stderr)
    return False


def play(tree, lines, name, is_over):
    """Gives lines at their times from now on, until the run is over, and prints which are refused."""
    start = time.monotonic()
    for seconds, line in lines:
        if is_over.wait(max(0, start + seconds - time.monotonic())):
            return
        try:
            tree.give(tree.follow(line))
        except OSError as error:
            # (no line reaches a tree that is being removed)
            if not is_over.is_set():
                print(f"fakesys: {name}: {printable(error.strerror)}", file=sys.stderr)


def run_command(options, lines, place):
    """Runs the command of a run in its tree. Returns its status."""
    daemon, tree = open_tree(options, place)
    mask = hold_signals()
    release = lambda: signal.pthread_sigmask(signal.SIG_SETMASK, mask)
    process, status = start_command(options.command, preexec_fn=release)
    if process:
        os.setsid()  # from now on every signal was sent on purpose
        pass_signals_on(process)
        release()
        is_over = threading.Event()
        threading.Thread(target=play, args=(tree, lines, options.timeline, is_over), daemon=True).start()
        status = wait_for(process, daemon)
        is_over.set()
    close_tree(daemon)
    return status


def check_fuse():
    try:
        os.close(os.open("/dev/fuse", os.O_RDWR))
    except OSError as error:
        advice = "a container needs --device /dev/fuse"
        raise OSError(f"/dev/fuse: {error.strerror}: cannot mount anything here ({advice})") from None


def run(options):
    """`fakesys [OPTIONS] DESCRIPTION COMMAND ..`: its exit status."""
    if options.timeline == options.description == "-":
        raise Refused("standard input cannot be both the description and the timeline")
    options.text = read_text(options.description)
    lines = read_timeline(options.timeline) if options.timeline else []
    return with_tree(options, lambda place: run_command(options, lines, place))


def with_tree(options, job, passes_all=False):
    """Runs a job in namespaces, with a place for its tree. Returns its status."""
    signal.signal(signal.SIGCHLD, signal.SIG_DFL)  # if it is ignored, a parent cannot wait for its child
    check_fuse()
    place = Place(options.all, fakesys.Description(options.text).tops())
    try:
        return in_spaces(lambda: job(place), options.network, passes_all)
    finally:
        place.leave()
