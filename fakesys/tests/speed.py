# SPDX-License-Identifier: MIT OR Apache-2.0
"""How long system calls take: on fakesysfs with each value of -o keep, in sysfs and on a tmpfs. Each number is the least of
the medians of some rounds, so that other work of the machine counts little."""
import contextlib, os, subprocess, tempfile
from pathlib import Path

from keeping import KINDS
from mounted import HERE, Mount, must

MTU = "/devices/virtual/net/lo/mtu"
CALLS = ("pread", "open, read, close", "stat", "opendir, list")
ROUNDS, TIMES = 5, 4000


def compare(program, folder):
    """Prints the least medians in microseconds, in one run."""
    compiler = ["cc", "-std=c11", "-D_GNU_SOURCE", "-O2", "-o", folder / "speed", HERE / "tests/speed.c"]
    must(subprocess.run(compiler, check=False).returncode == 0, "tests/speed.c cannot be built")
    parts = MTU.split("/")[1:]
    lines = [f"mkdir /{'/'.join(parts[:count])}" for count in range(1, len(parts))] + [f"file {MTU} 644 65536"]
    with contextlib.ExitStack() as stack:
        tops = {}
        for kind in reversed(KINDS):
            tops[kind] = stack.enter_context(Mount(program, folder, lines, options=["-o", f"keep={kind}"])).at
        tops["sysfs"] = "/sys"
        tops["tmpfs"] = stack.enter_context(tempfile.TemporaryDirectory(dir="/dev/shm"))
        os.makedirs(os.path.dirname(tops["tmpfs"] + MTU))
        Path(tops["tmpfs"] + MTU).write_text("65536\n")
        rounds = [[medians(folder, top) for top in tops.values()] for _ in range(ROUNDS)]
    print(" | ".join(["median, us", *tops]))
    for row, call in enumerate(CALLS):
        least = (min(median[row] for median in column) for column in zip(*rounds))
        print(" | ".join([call, *(f"{it:.3g}" for it in least)]))


def medians(folder, top):
    ran = subprocess.run([folder / "speed", f"{top}{MTU}", str(TIMES)], capture_output=True, text=True, check=False)
    must(ran.returncode == 0, ran.stderr)
    return [float(it) for it in ran.stdout.split()]
