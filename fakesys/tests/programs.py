# SPDX-License-Identifier: MIT OR Apache-2.0
"""The programs under test for fakesys/test_tools, and what its tests share."""
import contextlib, re, subprocess, tempfile, time
from pathlib import Path

from mounted import Wrong, must  # noqa: F401 (the tests import them from here)

TOP = Path(__file__).resolve().parent.parent
PATIENCE = 60  # seconds for anything that must end, on a busy machine
CHIP = "/devices/platform/coretemp.0/hwmon/hwmon0"
SYSFS = 0x62656572
NOBODY = 65534


class Tools:
    """The programs under test, and a folder for their files."""

    def __init__(self, folder, prefix):
        self.folder, self.bin = folder, Path(prefix) / "bin" if prefix else TOP / "bin"
        self.modules = Path(prefix) / "share/fakesys" if prefix else TOP / "python"
        self.examples = (Path(prefix) / "share/fakesys" if prefix else TOP) / "examples"
        self.chip = self.examples / "hwmon.kf"

    def command(self, *words):
        return [str(self.bin / "fakesys"), *map(str, words)]

    def run(self, *words, **more):
        more = {"capture_output": True, "text": True, "timeout": PATIENCE, "check": False, **more}
        return subprocess.run(self.command(*words), **more)

    def script(self, description, *lines, words=(), **more):
        """A run of a script of these lines."""
        return self.run(*words, description, "sh", "-c", "\n".join(lines), **more)

    def giving(self):
        """The command that gives lines to the run that it is in."""
        return f"'{self.bin / 'fakesys'}' tell"

    def storm(self, script, *options):
        return self.run("storm", "--time", "20", *options, self.chip, "--", "sh", "-c", script)

    def file(self, name, text):
        path = self.folder / name
        path.write_text(text)
        return path

    def said(self, *words):
        """The output of a run that must succeed."""
        ran = self.run(*words)
        must(ran.returncode == 0, f"{words}: status {ran.returncode}: {ran.stderr[-600:]}")
        return ran.stdout


def eventually(is_so, seconds=PATIENCE):
    until = time.monotonic() + seconds
    while not is_so():
        if time.monotonic() > until:
            return False
        time.sleep(0.05)
    return True


@contextlib.contextmanager
def running(words, **more):
    """A run that is killed at the end in any case."""
    run = subprocess.Popen(words, stderr=subprocess.DEVNULL, **more)
    try:
        yield run
    finally:
        run.kill()
        run.wait()


def processes(mark):
    """How many processes have this word on their command line."""
    count = 0
    for path in Path("/proc").glob("[0-9]*/cmdline"):
        with contextlib.suppress(OSError):
            count += mark.encode() in path.read_bytes().split(b"\0")
    return count


def mounts():
    """The mounts in places that runs use."""
    lines = Path("/proc/self/mountinfo").read_text().split("\n")
    own = re.escape(tempfile.gettempdir())
    return [line for line in lines if re.search(rf" (/sys|/dev|/run)[/ ]|{own}/fakesys-", line)]


def leftovers():
    """What a run could leave behind: mounts, and directories for them."""
    return [line for line in mounts() if "fakesysfs" in line] + [
        str(path) for path in Path(tempfile.gettempdir()).glob("fakesys-*")
    ]
