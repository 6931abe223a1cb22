# SPDX-License-Identifier: MIT OR Apache-2.0
"""Tests of a reader of sysfs with pytest: what it does when a sensor changes, fails, or goes while it is read."""
import errno
import os
import pathlib
import select
import subprocess
import sys

import pytest

HERE = pathlib.Path(__file__).parent
sys.path += [str(HERE.parent / "python"), str(HERE.parent)]  # where fakesys.py is; a suite has it beside its tests
from fakesys import FakeSys  # noqa: E402

CHIP = "/class/hwmon/hwmon0"


@pytest.fixture
def tree():
    with FakeSys(HERE / "hwmon.kf") as sys_tree:
        yield sys_tree


def temperature(root="/sys"):
    """The reader under test: degrees, or None if there is no sensor (any longer)."""
    try:
        return int(pathlib.Path(f"{root}{CHIP}/temp1_input").read_text()) / 1000
    except OSError as error:
        if error.errno in (errno.ENOENT, errno.ENODEV, errno.EIO):
            return None
        raise


def test_changes(tree):
    assert temperature(tree.at) == 42
    tree.set(f"{CHIP}/temp1_input", 91000)
    assert temperature(tree.at) == 91


def test_fails(tree):
    tree.fail(f"{CHIP}/temp1_input", errno.EIO)
    assert temperature(tree.at) is None


def test_goes_while_it_is_open(tree):
    file = os.open(tree.path(f"{CHIP}/temp1_input"), os.O_RDONLY)
    tree.unplug(CHIP)
    with pytest.raises(OSError) as gone:
        os.pread(file, 10, 0)
    os.close(file)
    assert gone.value.errno == errno.ENODEV and temperature(tree.at) is None


def test_goes_and_comes(tree):
    tree.unplug("/devices/platform/coretemp.0")
    assert temperature(tree.at) is None
    tree.plug("/devices/platform/coretemp.0")
    assert temperature(tree.at) == 42


def test_wakes_who_polls(tree):
    with open(tree.path(f"{CHIP}/temp1_crit_alarm"), "rb", buffering=0) as alarm:
        alarm.read()
        waiting = select.poll()
        waiting.register(alarm, select.POLLPRI)
        assert not waiting.poll(0)
        tree.set(f"{CHIP}/temp1_crit_alarm", 1)
        tree.notify(f"{CHIP}/temp1_crit_alarm")
        assert waiting.poll(1000)
        alarm.seek(0)
        assert alarm.read() == b"1\n"


def test_a_program_sees_it(tree):
    """A program with /sys in its text: it sees the tree there."""
    tree.set(f"{CHIP}/temp1_input", 55000)
    said = tree.run(["cat", f"/sys{CHIP}/temp1_input"], stdout=subprocess.PIPE, text=True)
    assert (said.returncode, said.stdout) == (0, "55000\n")
