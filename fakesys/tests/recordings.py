# SPDX-License-Identifier: MIT OR Apache-2.0
"""Tests of recordings of a part of /sys, and of dumps of umockdev."""
import json, os, re, shutil, subprocess, sys

from programs import CHIP, PATIENCE, must

DUMP = r"""P: /devices/pci0000:00/0000:00:14.0/usb1/1-1
E: DEVTYPE=usb_device
E: SUBSYSTEM=usb
E: PRODUCT=46d/c31c/110
E: ID_MODEL=USB_Keyboard
A: idVendor=046d\n
A: two=one\nand \\n\n
A: bare=no newline
A: power/control=on\n
H: descriptors=12010002ff
L: driver=../../../../../bus/usb/drivers/usb

P: /devices/virtual/block/loop0
N: loop0
E: DEVNAME=/dev/loop0
E: MAJOR=7
E: SUBSYSTEM=block
A: size=8\n
"""
WALK = """
import json, os, sys
found = {}
for top in sys.argv[1:]:
    for folder, folders, files in os.walk(top):
        found[folder] = sorted(folders + files)
        for path in (f"{folder}/{name}" for name in folders + files):
            if os.path.islink(path):
                found[path] = os.path.realpath(path)
            elif os.path.isfile(path):
                mode = os.stat(path).st_mode
                try:
                    found[path] = [mode, open(path, "rb").read(4096).hex() if mode & 0o444 else ""]
                except OSError as error:
                    found[path] = [mode, error.errno]
print(json.dumps(found))
"""
CHANGING = re.compile(
    "runtime_active_time|runtime_suspended_time|/statistics/|/stat$|inflight|diskseq|resource\\d|/rom$|wakeup|carrier|/irq$"
)


def recorded(tools):
    """A recording of a part of /sys has its names, links, modes, bytes and failing reads"""
    places = [path for path in ("/sys/class/net", "/sys/class/block", "/sys/bus/pci") if os.path.isdir(path)]
    must(places, "/sys is missing")
    mine = tools.folder / "mine.kf"
    tops = sorted({os.path.realpath(f"{place}/{name}") for place in places[:2] for name in os.listdir(place)})
    words = [sys.executable, "-c", WALK, *filter(os.path.isdir, tops)]
    before = json.loads(subprocess.run(words, capture_output=True, check=True).stdout)
    with mine.open("w") as out:
        subprocess.run([tools.bin / "fakesys-record", *places], stdout=out, stderr=subprocess.PIPE, check=True)
    real = json.loads(subprocess.run(words, capture_output=True, check=True).stdout)
    fake = json.loads(tools.said(mine, *words))
    must(real.keys() == fake.keys(), f"names: {sorted(real.keys() ^ fake.keys())[:5]}")
    still = (path for path in real if before.get(path) == real[path] and not CHANGING.search(path))
    wrong = [path for path in still if real[path] != fake[path]]
    must(not wrong, f"{len(wrong)}: {[(path, real[path], fake[path]) for path in wrong[:3]]}")
    return f"{len(real)} names; {tools_alike(tools, mine)}"


def special(tools):
    """Special bits of a mode are left out of a recording, which can be read back"""
    script = f'chmod 4751 /sys{CHIP}/name; "$0" --root "$1" "$1/class/hwmon"'
    place = "${FAKESYS%/.control}"
    ran = tools.run(tools.chip, "sh", "-c", script.replace("$1", place), tools.bin / "fakesys-record")
    must(ran.returncode == 0 and f"file {CHIP}/name 751 coretemp\n" in ran.stdout, ran)
    again = tools.file("special.kf", ran.stdout)
    must(tools.said(again, "stat", "-c", "%a", f"/sys{CHIP}/name") == "751\n", "it is read back")


def steady(text):
    """What a tool prints, without the running counters of a network device."""
    return re.sub(rb"(?m)^ *ATTR\{statistics/.*\n", b"", text)


def tools_alike(tools, mine):
    """Which installed tools print the same about the recorded tree as about the real one."""
    alike = []
    for line in (
        "lspci -nn",
        "lspci -vv",
        "lspci -tv",
        "lspci -x",
        "lsblk",
        "lsblk -J -o NAME,MAJ:MIN,SIZE,RO,RM,ROTA,MODEL,SCHED,TYPE,MIN-IO,OPT-IO,RQ-SIZE,RA,DISC-GRAN,HCTL,TRAN",
        "lsscsi",
        "udevadm info -a",
    ):
        if not shutil.which(line.split()[0], path="/usr/bin:/bin:/usr/sbin:/sbin"):
            continue
        env = {
            **os.environ,
            "SYSTEMD_DEVICE_VERIFY_SYSFS": "0",
            "PATH": f"{os.environ['PATH']}:/usr/sbin:/sbin",
        }
        if line.startswith("udevadm"):
            line += " -p /sys/class/net/lo"
        real, fake = (
            subprocess.run(words, capture_output=True, env=env, timeout=PATIENCE, check=False)
            for words in (line.split(), tools.command(mine, *line.split()))
        )
        must(
            (real.returncode, steady(real.stdout)) == (fake.returncode, steady(fake.stdout)),
            f"{line}: {real.stdout[:300]} {fake.stdout[:300]} {fake.stderr[:300]}",
        )
        alike.append(line)
    return f"alike: {', '.join(alike) or 'no tool is installed'}"


def dumped(tools):
    """A dump of umockdev becomes a description; a file that is not a dump is refused"""
    dump = tools.file("dump.umockdev", DUMP)
    made = subprocess.run([tools.bin / "umockdev2fakesys", dump], capture_output=True, text=True, check=True).stdout
    script = """cd /sys/bus/usb/devices/1-1; cat idVendor two bare power/control uevent; od -An -tx1 descriptors
        readlink driver subsystem; cat /sys/class/block/loop0/uevent"""
    said = tools.said(tools.file("dump.kf", made), "sh", "-c", script)
    must(
        said == "046d\none\nand \\n\nno newlineon\nDEVTYPE=usb_device\nPRODUCT=46d/c31c/110\n 12 01 00 02 ff\n"
        "../../../../../bus/usb/drivers/usb\n../../../../../bus/usb\nDEVNAME=loop0\nMAJOR=7\n",
        said,
    )
    ran = subprocess.run([tools.bin / "umockdev2fakesys", tools.chip], capture_output=True, text=True, check=False)
    must(ran.returncode == 2 and "line 2: not a line of umockdev-record" in ran.stderr, ran)


TRIED = (recorded, special, dumped)
