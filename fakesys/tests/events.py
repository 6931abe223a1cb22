# SPDX-License-Identifier: MIT OR Apache-2.0
"""Tests of uevents."""
import os, subprocess

from programs import CHIP, must

LISTENER = """
import socket, sys, time
listener = socket.socket(socket.AF_NETLINK, socket.SOCK_RAW, 15)
listener.bind((0, 3))
listener.settimeout(20)
open(sys.argv[1], "w").close()
seen = []
while len(seen) < int(sys.argv[2]):
    data = listener.recv(65536)
    words = data[40:] if data.startswith(b"libudev\\0") else data[data.index(b"\\0") + 1:]
    event = dict(word.split("=", 1) for word in words.decode().split("\\0") if word)
    seen.append(f"{'udev' if data.startswith(b'libudev') else 'kernel'} {event['ACTION']} {event['DEVPATH']} {event['SUBSYSTEM']}")
print("\\n".join(seen))
"""


PYUDEV = """
import pyudev, subprocess, sys
monitor = pyudev.Monitor.from_netlink(pyudev.Context())
monitor.filter_by("hwmon")
monitor.start()
subprocess.run(["fakesys", *sys.argv[1:]], check=True)
for _ in range(2):
    device = monitor.poll(10)
    print(device.action, device.sys_name, device.attributes.get("name"))
"""


def uevents(tools):
    """plug, unplug, change and fakesys-uevent reach listeners of the kernel and of udev"""
    ready, listener = tools.folder / "listens", tools.file("listener.py", LISTENER)
    listens = lambda ready, count: (
        f"python3 {listener} {ready} {count} > {tools.folder}/events & while [ ! -e {ready} ]; do sleep 0.05; done"
    )
    env = {**os.environ, "PATH": f"{tools.bin}:{os.environ['PATH']}"}
    lines = (
        listens(ready, 14),
        f"{tools.giving()} 'change {CHIP}' 'unplug /devices/platform/coretemp.0' 'plug /devices/platform/coretemp.0'",
        f"fakesys-uevent add /sys{CHIP} hwmon KEY=value; fakesys-uevent remove {CHIP} hwmon; wait; cat /sys{CHIP}/name",
    )
    ran = tools.script(tools.chip, *lines, words=["-n"], env=env)
    parent = "/devices/platform/coretemp.0 platform"
    events = [
        f"change {CHIP} hwmon",
        f"remove {CHIP} hwmon",
        f"remove {parent}",
        f"add {parent}",
        f"add {CHIP} hwmon",
        f"add {CHIP} hwmon",
        f"remove {CHIP} hwmon",
    ]
    must(ran.stdout == "coretemp\n", ran)
    heard = (tools.folder / "events").read_text().split("\n")[:-1]
    must(heard == [f"{who} {event}" for event in events for who in ("kernel", "udev")], heard)
    blanks = r"/devices/platform/Fixed\040MDIO\040bus.0"
    made = f"mkdir {blanks}\nlink {blanks}/subsystem /bus/platform\n"
    described = tools.file("blanks.kf", "mkdir /bus\nmkdir /bus/platform\nmkdir /devices\nmkdir /devices/platform\n" + made)
    script = f"{tools.giving()} 'change {blanks}' 'unplug {blanks}' 'plug {blanks}'; wait"
    ran = tools.script(described, listens(f"{ready}2", 6), script, words=["-n"], env=env)
    heard = (tools.folder / "events").read_text().split("\n")[:-1]
    events = [f"{it} /devices/platform/Fixed MDIO bus.0 platform" for it in ("change", "remove", "add")]
    must(heard == [f"{who} {it}" for it in events for who in ("kernel", "udev")], f"{heard} {ran}")
    refused = subprocess.run([tools.bin / "fakesys-uevent", "add", CHIP, "hwmon"], capture_output=True, check=False)
    must(refused.returncode == 2, "outside a run nothing is sent")
    return pyudev_hears(tools, env)


def pyudev_hears(tools, env):
    """Whether pyudev, by libudev's own filters, sees a device that is plugged: in words."""
    if subprocess.run(["/usr/bin/python3", "-c", "import pyudev"], stderr=subprocess.DEVNULL, check=False).returncode:
        return "without pyudev, which is not installed"
    lines = (f"{it} {CHIP}" for it in ("unplug", "plug"))
    ran = tools.run("-n", tools.chip, "/usr/bin/python3", "-c", PYUDEV, "tell", *lines, env=env)
    must(ran.stdout.split("\n")[1] == "add hwmon0 b'coretemp'" and ran.stdout.startswith("remove hwmon0"), ran)
    return "pyudev too"


TRIED = (uevents,)
