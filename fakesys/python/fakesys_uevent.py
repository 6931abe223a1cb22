# SPDX-License-Identifier: MIT OR Apache-2.0
"""Uevents in the current network namespace: the kernel's, followed by libudev's unless a udevd runs there."""
import os
import re
import socket
import stat
import struct
import time

ACTIONS = ("add", "remove", "change", "move", "online", "offline", "bind", "unbind")
KERNEL_EVENTS, REQUEST_WITH_ANSWER, FIRST_TYPE = 15, 5, 0x10
UDEV_GROUP, UDEV_MAGIC = 2, 0xFEEDCAFE
UDEV_CONTROL = "/run/udev/control"
MASK, FACTOR = 0xFFFFFFFF, 0x5BD1E995


def hash_of(text):
    """MurmurHash2, which the filters of libudev's listeners use."""
    data = text.encode()
    result = len(data)
    while len(data) >= 4:
        word = struct.unpack("<I", data[:4])[0] * FACTOR & MASK
        result = result * FACTOR & MASK ^ (word ^ word >> 24) * FACTOR & MASK
        data = data[4:]
    if data:
        result = (result ^ int.from_bytes(data, "little")) * FACTOR & MASK
    result = (result ^ result >> 13) * FACTOR & MASK
    return result ^ result >> 15


def tag_bits(tags):
    """libudev's bloom filter of a device's tags, in two words."""
    bits = 0
    for tag in tags:
        number = hash_of(tag)
        bits |= (
            1 << (number & 63) | 1 << (number >> 6 & 63) | 1 << (number >> 12 & 63) | 1 << (number >> 18 & 63)
        )
    return bits >> 32, bits & MASK


def packed(words):
    return b"".join(os.fsencode(word) + b"\0" for word in words)


def send_kernels(channel, action, path, words):
    """Sends an event by the kernel, which numbers it and passes it to all listeners here. OSError if it refuses."""
    body = packed([f"{action}@{path}", *words])
    head = struct.pack("=IHHII", 16 + len(body), FIRST_TYPE, REQUEST_WITH_ANSWER, 1, 0)
    channel.sendto(head + body, (0, 0))
    error = -struct.unpack_from("=i", channel.recv(65536), 16)[0]
    if error:
        raise OSError(error, f"uevent: {os.strerror(error)}")


def send_udevs(channel, subsystem, kind, words):
    """Sends what udevd would send after the kernel's event."""
    body = packed(words)
    head = struct.pack("=8sIIII", b"libudev", socket.htonl(UDEV_MAGIC), 40, 40, len(body))
    tags = [tag for word in words if word.startswith("TAGS=") for tag in word[5:].split(":") if tag]
    channel.sendto(
        head + struct.pack(">IIII", hash_of(subsystem), hash_of(kind) if kind else 0, *tag_bits(tags)) + body,
        (0, UDEV_GROUP),
    )


def has_udevd():
    """Whether a udevd runs here: it will send libudev's event by itself."""
    try:
        return stat.S_ISSOCK(os.stat(UDEV_CONTROL).st_mode)
    except OSError:
        return False


def last_number():
    try:
        with open("/sys/kernel/uevent_seqnum", encoding="ascii") as file:
            return int(file.read())
    except (OSError, ValueError):
        return 1


def dev_name(word):
    """The kernel sends the name of a node, libudev its path."""
    return re.sub("^DEVNAME=(?!/)", "DEVNAME=/dev/", word)


def send(action, path, subsystem, more=()):
    """Sends an event of a device. Only root of the user namespace that owns the network namespace may do this."""
    words = [f"ACTION={action}", f"DEVPATH={path}", f"SUBSYSTEM={subsystem}", *more]
    with socket.socket(socket.AF_NETLINK, socket.SOCK_RAW, KERNEL_EVENTS) as channel:
        channel.bind((0, 0))
        send_kernels(channel, action, path, words)
        if not has_udevd():
            kind = next((word[8:] for word in more if word.startswith("DEVTYPE=")), "")
            more = [f"SEQNUM={last_number()}", f"USEC_INITIALIZED={time.monotonic_ns() // 1000}"]
            send_udevs(channel, subsystem, kind, [*map(dev_name, words), *more])
