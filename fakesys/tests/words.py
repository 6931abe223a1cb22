# SPDX-License-Identifier: MIT OR Apache-2.0
"""How it starts: arguments and statuses, descriptions, memory that is refused."""
import errno, os, re, subprocess
from pathlib import Path

from mounted import FAN, PATIENCE, TOP, Beside, Mount, Wrong, error_of, eventually, must, read_path


def run(program, *words, given=None):
    return subprocess.run(
        [program, *words], capture_output=True, text=True, input=given, timeout=PATIENCE, check=False
    )


def asked(program, folder):
    """Wrong arguments give status 2, --help and --version 0, and none of them mounts anything."""
    script, at = folder / "asked.kf", folder / "asked"
    script.write_text("file /a 644 1\n")
    at.mkdir()
    most = "1048576"
    for words in (
        [], [script], [at], ["--slots", "0", script, at], ["--slots", "5x", script, at], ["--slots", "", script, at],
        ["--slots=-1", script, at], ["--slots", "1048577", script, at], ["--slots"], ["--frob", script, at],
        [script, at, "-x"], [script, at, "-o", "frob"], [script, at, at], [script, folder / "nowhere"],
        ["--check", script, at], ["--check"], ["-o", "max_threads=0", script, at],
        ["-o", "max_idle_threads=x", script, at], ["-o", "max_idle_threads=100001", script, at], ["--order", "-1", script, at],
        ["--order", "x", script, at], ["--order"],
    ):
        ran = run(program, *words)
        must(ran.returncode == 2 and ran.stderr, f"{words}: {ran}")
        must(not os.path.ismount(at), f"{words}: it is mounted")
    for words, said in (
        (["--help"], "usage: fakesysfs "), (["-h"], "--slots N "),
        (["--version"], f"fakesysfs {(TOP / 'VERSION').read_text().strip()}, libfuse 3."), (["-V"], "libfuse 3."),
    ):
        ran = run(program, *words)
        must(ran.returncode == 0 and said in ran.stdout and not ran.stderr, f"{words}: {ran}")
    for words in (
        ["--slots", most, "--check", script], ["--check", f"--slots={most}", script], ["--check", "-"],
        ["-o", "slots=2", "--check", script],
    ):
        ran = run(program, *words, given="mkdir /a\n")
        must(ran.returncode == 0 and not ran.stderr, f"{words}: {ran}")


def loaded(program, folder):
    """A description with a wrong line, or one that cannot be read, mounts nothing; each wrong line is printed
    with its reason."""
    script, at = folder / "loaded.kf", folder / "loaded"
    at.mkdir()
    script.write_bytes(
        b"# a remark\n\nfile /a 644 1\nfrob\nmkdir /a\nslow /a x\nset /a \0\nrm /no\nmkdir /last"
    )
    ran = run(program, script, at)
    must(ran.returncode == 1 and not os.path.ismount(at), f"it is mounted: {ran}")
    lines = [line.replace(f"fakesysfs: {script}, line ", "") for line in ran.stderr.splitlines()]
    must(
        lines
        == [
            "4: no such command: frob", "5: File exists: mkdir /a",
            "6: usage: slow PATH MILLISECONDS (at most 99999): slow /a x",
            "7: the line has a zero byte (write it as \\0 in a text): set /a \\000",
            "8: No such file or directory: rm /no",
        ],
        lines,
    )
    for path in (folder / "nothing.kf", folder):
        ran = run(program, path, at)
        must(ran.returncode == 1 and str(path) in ran.stderr and not os.path.ismount(at), f"{path}: {ran}")
    must(
        "line 2: No space"
        in run(program, "--check", "--slots", "2", "-", given="mkdir /a\nmkdir /b\n").stderr,
        "no slot is left",
    )
    must(
        run(program, "--check", "-", given="".join(f"mkdir /{number}\n" for number in range(5000))).returncode
        == 0,
        "slots for 5,000",
    )


def started(program, folder):
    """It runs in the background, with an option of FUSE; it has the slots that its description needs."""
    script, mount = folder / "started.kf", Mount(program, folder)
    script.write_text("file /a 644 1\n" + "".join(f"mkdir /d{number}\n" for number in range(800)))
    ran = run(program, script, mount.at, "-o", "ro")
    try:
        must(ran.returncode == 0 and not ran.stderr, f"it runs in the background: {ran}")
        must(read_path(mount.path("/a")) == b"1\n", "what is mounted is there")
        must(error_of(os.open, mount.path("/a"), os.O_WRONLY) == errno.EROFS, "an option of FUSE")
        of = os.statvfs(mount.at)
        must((of.f_bsize, of.f_namemax, of.f_blocks) == (4096, 255, 0), f"statfs: {of}")
        mounts = Path("/proc/self/mounts").read_text()
        must(re.search(rf"^fakesysfs {mount.at} fuse.fakesysfs ro", mounts, re.M), "what mount(8) prints")
    finally:
        subprocess.run(["fusermount3", "-uz", mount.at], capture_output=True, timeout=PATIENCE, check=False)
    script.write_text("".join(f"mkdir /d{number}\n" for number in range(800)))
    with Mount(program, folder, script.read_text().splitlines(), slots=None) as mount:
        more = [mount.tell(f"mkdir /m{number}") for number in range(900)]
        must(
            more == ["ok"] * 801 + ["err NoSpace 28"] * 99, "slots for as many again: %d" % more.count("ok"),
        )


def idle(program, folder):
    """Threads that have no work are kept: at most 64, or as many as the option says."""
    for words, most in ((), 64), (("-o", "max_idle_threads=1024"), 1024):
        with Mount(program, folder, FAN, options=words) as mount:
            count = lambda at=f"/proc/{mount.process.pid}/task": len(os.listdir(at))
            mount.done("slow /devices/fan0/speed 4000")
            readers = [Beside(read_path, mount.path("/devices/fan0/speed")) for _ in range(120)]
            must([it.given() for it in readers] == [b"1200\n"] * 120, "each has its text")
            must(count() > 100 if most > 64 else eventually(lambda: count() < 80), f"{words}: {count()} threads")


def refused(program, folder):
    """Memory refused, each request in turn: no crash."""
    script = folder / "refused.kf"
    script.write_text(
        "".join(
            f"{line}\n"
            for line in [
                *FAN, "set /devices/fan0/speed a\\nb", "storm /devices/fan0 1", "mv /devices/fan0 / f",
                "hide /f/speed", "notify /f/limit", "unplug /f",
            ]
        )
    )
    made = subprocess.run(
        ["cc", "-O1", "-shared", "-fPIC", "-o", folder / "failing.so", TOP / "tests/faults/failing.c", "-ldl"],
        capture_output=True,
        text=True,
        check=False,
    )
    must(made.returncode == 0, made.stderr)
    for turn in range(1, 1000):
        env = {
            **os.environ,
            "LD_PRELOAD": str(folder / "failing.so"),
            "FAIL_MEMORY": str(turn),
            "FAIL_REPORT": str(folder / "report"),
        }
        ran = subprocess.run(
            [program, "--check", script],
            capture_output=True,
            text=True,
            env=env,
            timeout=PATIENCE,
            check=False,
        )
        must(ran.returncode in (0, 1, 2), f"request {turn}: {ran}")
        if (folder / "report").read_text().split()[4] == "0":
            must(turn > 20, "requests are counted")
            return f"{turn - 1} requests"
    raise Wrong("the requests do not end")


def tidy(program, folder):
    """Removed nodes take no memory: 100,000 files come and go, one is moved 400,000 times and hidden 100,000
    times, in 32 MB."""
    script = folder / "tidy.kf"
    limited = ["sh", "-c", 'ulimit -v 32768; exec "$@"', "sh", program, "--slots", "16", "--check", script]
    for lines in (
        "file /a 444 text\nrm /a\n" * 100_000, "mkdir /a\nmkdir /b\n" + "mv /a /b a\nmv /b/a / a\n" * 200_000,
        "file /f 444 text\n" + "hide /f\nshow /f\nactivate /f\n" * 100_000,
    ):
        script.write_text(lines)
        ran = subprocess.run(limited, capture_output=True, text=True, timeout=60, check=False)
        must(ran.returncode == 0 and not ran.stderr, f"{ran.returncode} {ran.stderr[-300:]}")
