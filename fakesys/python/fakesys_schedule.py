# SPDX-License-Identifier: MIT OR Apache-2.0
"""A schedule of faults: the lines of a storm with their times (plugs, unplugs, faults, delays), which follow from a seed."""
import os

import fakesys_run

ERRORS = (5, 6, 11, 16, 19, 22, 61, 95, 110)  # what drivers return: EIO, ENXIO, EAGAIN, EBUSY, ENODEV ..
KINDS = ("plug", "fail", "late", "slow", "notify")
FAULTS = ("fail", "late", "slow")
MOST_FAULTS = 8  # at a time: with more, a reader sees nothing else
PAUSE = 100  # milliseconds between two turns of replayed lines
MASK = (1 << 64) - 1


class Lot:
    """SplitMix64: a seed gives the same numbers on every machine and in every Python."""

    def __init__(self, seed):
        self.state = seed & MASK

    def below(self, bound):
        self.state = (self.state + 0x9E3779B97F4A7C15) & MASK
        mixed = (self.state ^ self.state >> 30) * 0xBF58476D1CE4E5B9 & MASK
        mixed = (mixed ^ mixed >> 27) * 0x94D049BB133111EB & MASK
        return (mixed ^ mixed >> 31) % bound

    def one_of(self, items):
        return items[self.below(len(items))]


def is_in(path, top):
    return path == top or path.startswith(top + "/")


def faults_of(description):
    """The faults and delays that a description has itself."""
    return {(word, path): rest for word, path, rest in description.words if word in FAULTS}


class Schedule:
    """The lines that follow from a description, the devices, the kinds of lines, the rate and a seed."""

    def __init__(self, description, options):
        self.lot, self.rate, self.kinds = Lot(options.seed), options.rate, options.kinds
        self.devices = [description.real(path) for path in options.device or ()] or description.devices()
        if not self.devices:
            raise fakesys_run.Refused("the description has no device: name a directory with --device")
        for path in set(self.devices) - description.directories():
            raise fakesys_run.Refused(f"--device: the description has no directory {path}")
        self.gone, self.faults, self.stay = [], {}, 2000
        self.described = faults_of(description)
        self.files = [path for path in description.files() if any(is_in(path, top) for top in self.devices)]
        lists = {os.path.dirname(path) for path, target in description.links() if target in self.devices}
        self.folders = sorted(path for path in lists if path.startswith(("/class/", "/bus/")))

    def lines(self):
        """Endless: the milliseconds, and the line. The lists of devices are late from the start."""
        at = 0
        for path in self.folders if "late" in self.kinds else ():
            yield at, self.late_list(path)
        while True:
            at += 1 + self.lot.below(max(1, self.stay // self.rate))
            yield at, self.line()

    def line(self):
        here = [path for path in self.devices if not self.is_gone(path)]
        choice, self.stay = self.lot.below(100 if set(self.kinds) - {"plug"} else 65), 2000
        if "plug" in self.kinds and self.gone and (choice < 55 or not here):
            return self.plug(self.lot.one_of(self.gone))
        if "plug" in self.kinds and choice < 65:
            return self.unplug(self.lot.one_of(here))
        if len(self.faults) >= MOST_FAULTS or self.faults and choice < 72:
            return self.heal(self.lot.one_of(sorted(self.faults)))
        return self.fault(self.lot.one_of([kind for kind in self.kinds if kind != "plug"]))

    def is_gone(self, path):
        return any(is_in(path, top) for top in self.gone)

    def plug(self, device):
        self.gone.remove(device)
        self.stay = 6000  # a new device stays for a while, so that readers see it
        return f"plug {device}"

    def unplug(self, device):
        self.gone = [path for path in self.gone if not is_in(path, device)] + [device]
        self.faults = {key: 1 for key in self.faults if not is_in(key[1], device)}
        return f"unplug {device}"

    def heal(self, fault):
        del self.faults[fault]
        return " ".join([*fault, self.described.get(fault, "0")])

    def late_list(self, path):
        """Delays each look-up in a list of devices, mostly by some milliseconds."""
        return f"late {path} {1 + self.lot.below(6) * self.lot.below(6)}"

    def fault(self, kind):
        """A file that fails, is late or slow, or is notified; a directory whose names are late."""
        where = self.lot.below(3) if kind == "late" else 2
        if where == 0 and self.folders:
            return self.late_list(self.lot.one_of(self.folders))
        here = [path for path in (self.devices if where == 1 else self.files) if not self.is_gone(path)]
        if not here:
            return "# all devices are gone"
        path = self.lot.one_of(here)
        if kind == "notify":
            return f"notify {path}"
        self.faults[kind, path] = 1
        return f"{kind} {path} {self.lot.one_of(ERRORS) if kind == 'fail' else 1 + self.lot.below(20)}"


def repeated(lines, devices):
    """Endless: these lines again and again, with all devices created again between two turns."""
    base, gone = 0, []
    outer = [path for path in devices if not any(path != top and is_in(path, top) for top in devices)]
    for _, line in lines:
        word, _, path = line.partition(" ")
        gone = [it for it in gone if word not in ("plug", "unplug") or not is_in(it, path)]
        gone += [path] * (word == "unplug")
    while lines:
        yield from ((base + at, line) for at, line in lines)
        base += lines[-1][0] + 1
        yield from ((base, f"unplug {path}") for path in outer if path not in gone)
        yield from ((base, f"plug {path}") for path in outer)
        base += PAUSE
