# SPDX-License-Identifier: MIT OR Apache-2.0
"""The library: descriptions of machines and examples, which are found by their names."""
import os
import shutil
from pathlib import Path

# The folders of the library, from this file and from the daemon: installed, or in their sources.
WAYS = ("machines", "examples", "../out/machines", "../examples")
DAEMONS_WAYS = ("../share/fakesys/machines", "../share/fakesys/examples", "machines", "../examples")


def folders():
    """The folders of the library. A copy of this file finds those of the daemon."""
    here, daemon = Path(os.path.realpath(__file__)).parent, os.environ.get("FAKESYSFS") or shutil.which("fakesysfs")
    near = [here / way for way in WAYS]
    near += [Path(os.path.realpath(daemon)).parent / way for way in DAEMONS_WAYS] if daemon else []
    return [folder for folder in near if folder.is_dir()]


def library():
    """The files of the library by their names without `.kf`, in the order of the folders."""
    found = {}
    for folder in folders():
        for path in sorted(folder.glob("*.kf")):
            found.setdefault(path.stem, os.path.realpath(path))
    return found


def file_of(name):
    """The file of a description: the one of this name, or else the one of the library."""
    if name == "-" or "/" in name or os.path.exists(name) and not os.path.isdir(name):
        return name
    return library().get(name[:-3] if name.endswith(".kf") else name, name)


def summary(path):
    """What a description says about itself: its first line, if that is a comment."""
    with open(path, encoding="utf-8", errors="replace") as file:
        line = file.readline()
    return line.lstrip("# ").rstrip() if line.startswith("#") else ""


def listing():
    """A line for each description of the library."""
    files = library()
    width = max(map(len, files), default=0)
    return [f"{name:<{width}}  {summary(path)}".rstrip() for name, path in files.items()]
