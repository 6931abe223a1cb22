# SPDX-License-Identifier: MIT OR Apache-2.0
"""Tests with the plugin of pytest:  pytest --fakesys hwmon test_plugin.py"""
import errno
import os
import pathlib
import subprocess

import pytest

CHIP = "/class/hwmon/hwmon0"
SENSOR = pathlib.Path(f"/sys{CHIP}/temp1_input")


def degrees():
    """The reader under test. It has /sys in its text."""
    try:
        return int(SENSOR.read_text()) / 1000
    except OSError:
        return None


def test_changes(fake_sys):
    fake_sys.set(f"{CHIP}/temp1_input", 91000)
    assert degrees() == 91
    fake_sys.count(f"{CHIP}/temp1_input", 1000000)


def test_is_whole_again():
    assert [degrees() for _ in range(100)] == [42] * 100


def test_fails(fake_sys):
    fake_sys.fail(f"{CHIP}/temp1_input", errno.EIO)
    assert degrees() is None


def test_goes_while_it_is_open(fake_sys):
    with SENSOR.open("rb", buffering=0) as file:
        fake_sys.unplug(CHIP)
        with pytest.raises(OSError) as gone:
            os.pread(file.fileno(), 10, 0)
    assert gone.value.errno == errno.ENODEV and degrees() is None


def test_changes_much(fake_sys):
    fake_sys.unplug("/devices/platform/coretemp.0")
    fake_sys.give("mkdir /devices/new")
    fake_sys.give("file /devices/new/a 444 x")
    fake_sys.late("/class/hwmon", 200)
    assert not os.path.lexists(f"/sys{CHIP}")


def test_is_whole_after_that():
    assert degrees() == 42 and not os.path.exists("/sys/devices/new")


@pytest.mark.fakesys("laptop")
def test_another_machine(fake_sys):
    """A tree of this test's own: programs that fake_sys.run() starts see it as /sys."""
    said = fake_sys.run(["cat", "/sys/class/power_supply/BAT0/capacity"], stdout=subprocess.PIPE, text=True)
    assert (said.returncode, said.stdout) == (0, "58\n")
    assert fake_sys.read("/class/power_supply/BAT1/status") == b"Discharging\n" and degrees() == 42
