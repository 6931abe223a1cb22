# SPDX-License-Identifier: MIT OR Apache-2.0
"""The library of machines, the plugin of pytest, and the Python module without privilege. For fakesys/test_tools."""
import os
import shutil
import subprocess
import sys
import zipfile
from pathlib import Path

TOP = Path(__file__).resolve().parent.parent
PATIENCE = 120  # seconds, on a busy machine
VALUES = {
    "laptop": ("class/power_supply/BAT0/capacity", "58"),
    "server": ("devices/system/cpu/online", "0-63"),
    "gateway": ("bus/w1/devices/28-00000a1b2c3d/temperature", "23125"),
    "hwmon": ("class/hwmon/hwmon0/temp1_input", "42000"),
    "usb": ("bus/usb/devices/usb1/idVendor", "1d6b"),
    "disk": ("class/block/sda/size", None),
}
# What a tool must print on a machine: the counts of lines that have a word.
READ = {
    ("server", "lscpu -p=CPU,SOCKET,NODE"): (",3,3", 16),
    ("server", "lsblk -d -n -o NAME"): ("nvme", 2),
    ("server", "lspci"): ("Non-Volatile memory controller", 2),
    ("server", "sensors"): ("Package id", 4),
    ("server", "edac-util -v"): ("DIMM_", 8),
    ("laptop", "lscpu -p=CPU"): ("7", 1),
    ("laptop", "lsusb"): ("046d:c077", 1),
    ("laptop", "acpi -b"): ("Discharging, 58%", 2),
    ("laptop", "sensors"): ("Core ", 4),
    ("gateway", "lsblk -n -l -o NAME,TYPE"): ("part", 2),
    ("gateway", "lsusb"): ("0424:9514", 1),
    ("gateway", "sensors"): ("+23.5", 1),
}


def must(is_well, what):
    if not is_well:
        raise ValueError(what)


def python_with_pytest():
    """A Python that has pytest: this one or the system's."""
    for python in sys.executable, "/usr/bin/python3":
        found = subprocess.run([python, "-c", "import pytest"], capture_output=True, check=False)
        if found.returncode == 0:
            return python
    return None


def names(tools):
    """Each description of the library is found by its name in any folder, unless a file has that name"""
    listed = dict(line.split("  ", 1) for line in tools.said("--list").splitlines())
    must(set(VALUES) <= set(listed) and all(listed.values()), listed)
    for name, (path, value) in VALUES.items():
        said = tools.said(name, "cat", f"/sys/{path}").strip()
        must(said == value if value else said, f"{name}: {path} is {said!r}")
    must(tools.run("laptop.kf", "true").returncode == 0, "the name with .kf")
    folder = tools.folder / "named"
    folder.mkdir()
    (folder / "laptop").write_text("mkdir /class\nmkdir /class/mine\n")
    must(tools.run("laptop", "ls", "/sys/class", cwd=folder).stdout == "mine\n", "a file of that name")
    ran = tools.run("no-such-machine", "true")
    must(ran.returncode == 2 and "no-such-machine" in ran.stderr, ran)


def machines(tools):
    """Tools read the machines of the library"""
    tried = []
    for (name, command), (word, count) in READ.items():
        if shutil.which(command.split()[0]):
            said = tools.said(name, *command.split()).splitlines()
            must(sum(word in line for line in said) == count, f"{name}: {command}: {said}")
            tried.append(command.split()[0])
    return ", ".join(sorted(set(tried)))


def environment(tools, **more):
    """The environment in which a Python process finds the programs under test."""
    built = TOP / "out/fakesysfs"
    daemon = {} if (tools.bin / "fakesysfs").exists() or "FAKESYSFS" in os.environ else {"FAKESYSFS": str(built)}
    path = f"{tools.bin}:{os.environ['PATH']}"
    return {**os.environ, "PATH": path, "PYTHONDONTWRITEBYTECODE": "1", **daemon, **more}


def plugin(tools):
    """The package for pip, and its plugin of pytest: the suite runs on a tree, which is whole again after each test"""
    python, modules = python_with_pytest(), tools.share if hasattr(tools, "share") else tools.modules
    if not python:
        return "skipped: pytest is not installed"
    site = tools.folder / "site"
    site.mkdir()
    code = f"import build_wheel; print(build_wheel.build_wheel({str(tools.folder)!r}))"
    built = subprocess.run([sys.executable, "-c", code], cwd=modules, env={**os.environ, "PYTHONDONTWRITEBYTECODE": "1"},
                           capture_output=True, text=True, timeout=PATIENCE, check=True)
    with zipfile.ZipFile(tools.folder / built.stdout.strip()) as wheel:
        wheel.extractall(site)
    suite = tools.folder / "test_plugin.py"
    suite.write_text((tools.examples / "test_plugin.py").read_text())
    words = [python, "-m", "pytest", "-q", "-p", "no:cacheprovider"]
    there = environment(tools, PYTHONPATH=str(site))
    run = lambda *more: subprocess.run([*words, *more], cwd=tools.folder, env=there, capture_output=True, text=True,
                                       timeout=PATIENCE, check=False)
    ran = run("--fakesys", "hwmon", suite)
    must(ran.returncode == 0 and "7 passed" in ran.stdout, ran.stdout[-1500:] + ran.stderr[-500:])
    must("needs `pytest --fakesys" in run(suite).stdout, "without the option it says so")
    (tools.folder / "pytest.ini").write_text("[pytest]\nfakesys = hwmon\n")
    must("7 passed" in run(suite).stdout, "the line of pytest.ini")
    return "7 passed"


def keeps(tools):
    """--keep: a mount in the tree stays if the kernel keeps no names; another word is refused"""
    script = """mount -t tmpfs none /sys/class/hwmon && echo unplug /devices/platform/coretemp.0 > $FAKESYS
        find ${FAKESYS%/.control}/ > /dev/null; stat -f -c %T /sys/class/hwmon"""
    for word in "attributes", "nothing":
        said = tools.said("-a", "--keep", word, "hwmon", "sh", "-c", script)
        must(said == "tmpfs\n", f"{word}: {said}")
    must(tools.run("--keep", "all", "hwmon", "true").returncode == 2, "a wrong word")


def no_privilege(tools):
    """The Python module mounts its tree in new namespaces if nothing else may mount"""
    python = python_with_pytest()
    if not python or not shutil.which("setpriv"):
        return "skipped: pytest or setpriv is not installed"
    less = ["setpriv", "--no-new-privs"] + ["--bounding-set=-sys_admin", "--inh-caps=-sys_admin"] * (os.geteuid() == 0)
    ran = subprocess.run([*less, python, "-m", "pytest", "-q", "-p", "no:cacheprovider", tools.examples / "test_sensors.py"],
                         env=environment(tools), capture_output=True, text=True, timeout=PATIENCE, check=False)
    must(ran.returncode == 0, ran.stdout[-1500:] + ran.stderr[-500:])
    return ran.stdout.strip().splitlines()[-1]


# Inside a run: another run goes on while the tree around it changes and each of its names is found again.
NESTED = """
look() { find ${FAKESYS%/.control}/ > look; }
fakesys laptop sh -c 'touch ready; until [ -e go ]; do sleep 0.02; done; cat /sys/class/power_supply/BAT0/capacity' &
until [ -e ready ]; do sleep 0.02; done
look
echo "unplug /devices/platform/coretemp.0" > $FAKESYS
look
touch go
wait $!
"""


def nested(tools):
    """A run inside a run keeps its tree while the one around it changes"""
    folder = tools.folder / "nested"
    folder.mkdir()
    for more in [], ["-a"]:
        ran = tools.run(*more, "hwmon", "sh", "-ec", NESTED, cwd=folder, env=environment(tools))
        must((ran.returncode, ran.stdout) == (0, "58\n"), ran)
        for name in "ready", "go":
            (folder / name).unlink()


TRIED = [names, machines, nested, keeps, plugin, no_privilege]
