# SPDX-License-Identifier: MIT OR Apache-2.0
"""Makes a tree whole again: as its description has it, whatever a test or a program has done to it."""
import errno
import os

from fakesys import escaped_path, text_of_file, unescaped_path, write_lines

NODES = ("mkdir", "file", "link")
FAULTS = ("fail", "late", "slow")


def make_whole(tree):
    """What is missing comes, what is new goes, texts and faults are as at first. Devices come as `plug` plugs them. First the
    `at` lines go whose step has not come: a look-up that is made here would be a step too."""
    write_all(tree, ["at off"])
    words = tree.description.words
    made = {unescaped_path(path): word for word, path, _ in words if word in NODES}
    there = nodes_of(tree)
    remove_new(tree, there, made)
    there -= remove_loose(tree, {path for path in there if made.get(path) == "link"})
    if plug(tree, made.keys() - there):
        there = nodes_of(tree)
    missing = {path for path in made if path not in there}
    is_missing = lambda path: unescaped_path(path) in missing
    hidden = sorted(path for path in missing if made[path] == "file" and os.path.dirname(path) not in missing)
    write_all(tree, [f"show {escaped_path(path)}" for path in hidden])
    missing -= {path for path in hidden if os.path.lexists(tree.at + path)}
    write_all(tree, [" ".join(filter(None, it)) for it in words if it[0] in NODES and is_missing(it[1])])
    files = [(path, rest) for word, path, rest in words if word == "file"]
    write_all(tree, [f"{fault} {path} 0" for path, _ in files for fault in FAULTS])
    # (only a number stops to count, and any text may have been one meanwhile)
    stops = lambda path: (f"set {path} 0", f"count {path} 0/s")
    write_all(tree, [line for path, rest in files for line in (*stops(path), first_text(path, rest))])
    write_all(tree, [" ".join(filter(None, it)) for it in words if it[0] not in NODES])


def first_text(path, rest):
    """The line that sets the text of a `file` line again."""
    return f"set {path} {text_of_file(rest)}"


def nodes_of(tree):
    """The paths of all nodes in a tree. No directory is late any more, since that would delay this."""
    found, folders = set(), [""]
    while folders:
        write_all(tree, [f"late {escaped_path(folder) or '/'} 0" for folder in folders])
        entries = [(f"{folder}/{entry.name}", entry) for folder in folders for entry in scan(tree.at + folder)]
        folders = [path for path, entry in entries if entry.is_dir(follow_symlinks=False)]
        found |= {path for path, _ in entries}
    return found


def scan(folder):
    """The entries of a directory. A listing does not have the control file."""
    with os.scandir(folder + "/") as entries:
        return list(entries)


def remove_new(tree, there, made):
    new = {path for path in there if path not in made}
    write_all(tree, [f"rm {escaped_path(path)}" for path in sorted(new) if os.path.dirname(path) not in new])


def remove_loose(tree, links):
    """Removes the links that lead nowhere, so that they are made again with what they lead to. Returns their paths."""
    loose = {path for path in links if not os.path.exists(tree.at + path)}
    write_all(tree, [f"rm {escaped_path(path)}" for path in loose])
    return loose


def plug(tree, missing):
    """Plugs the devices that are missing, each with all below it. Returns whether there was one."""
    tops = [unescaped_path(path) for path in tree.description.devices()]
    tops = [path for path in tops if path in missing and os.path.dirname(path) not in missing]
    for path in tops:
        tree.give(f"plug {escaped_path(path)}")
    return bool(tops)


def write_all(tree, lines):
    """Writes lines, and skips those of nodes that are missing or need nothing."""
    left = list(lines)
    while left:
        left, error = write_lines(tree.control, left)
        if error and error.errno not in (errno.ENOENT, errno.EEXIST, errno.EINVAL, errno.EBUSY):  # (EBUSY: it is hidden)
            raise OSError(error.errno, f"{error.strerror}: {left[0]}")
        left = left[1:]
