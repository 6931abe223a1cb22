# SPDX-License-Identifier: MIT OR Apache-2.0
"""Buses and their devices: PCI, USB, I2C, 1-Wire; and GPIO."""
ROOT = "/devices/pci0000:00"
WINDOWS, WINDOW, BAR_SIZE = 0xD0000000, 0x100000, 0x10000  # of addresses: a window for each bus
NO_RANGE = "0x0000000000000000 0x0000000000000000 0x0000000000000000"
USB_SPEEDS = {"1.10": "12", "2.00": "480", "3.00": "5000"}


# ---- PCI ----


def pci(tree, slot, ids, kind, driver=None, under=ROOT, node=-1, behind=None):
    """A function of PCI. `ids` are `vendor:device:subvendor:subdevice`, `kind` is its class; a bridge has the number of
    the bus `behind` it."""
    vendor, device, subvendor, subdevice = (int(it, 16) for it in ids.split(":"))
    at = f"{under}/{slot}"
    alias = f"pci:v{vendor:08X}d{device:08X}sv{subvendor:08X}sd{subdevice:08X}bc{kind >> 16:02X}sc{kind >> 8 & 255:02X}"
    alias += f"i{kind & 255:02X}"
    tree.on_bus(
        at,
        "pci",
        driver,
        PCI_CLASS=f"{kind:X}",
        PCI_ID=f"{vendor:04X}:{device:04X}",
        PCI_SUBSYS_ID=f"{subvendor:04X}:{subdevice:04X}",
        PCI_SLOT_NAME=slot,
        MODALIAS=alias,
    )
    tree.put(at, class_=f"{kind:#08x}", device=f"{device:#06x}", modalias=alias, revision="0x01")
    tree.put(at, subsystem_device=f"{subdevice:#06x}", subsystem_vendor=f"{subvendor:#06x}", vendor=f"{vendor:#06x}")
    bus, irq = int(slot.split(":")[1], 16), tree.next("irq", 16)
    address = 0 if behind else WINDOWS + WINDOW * bus + BAR_SIZE * tree.next(f"bar {bus}")
    ranges = [f"{address:#018x} {address + BAR_SIZE - 1:#018x} 0x0000000000040200" if address else NO_RANGE]
    tree.file(at + "/config", pci_config((vendor, device, subvendor, subdevice), kind, address, irq, behind), 0o644)
    tree.put(at, irq=irq, resource="\n".join(ranges + [NO_RANGE] * 12))
    tree.put(at, ari_enabled=0, dma_mask_bits=64, consistent_dma_mask_bits=64)
    tree.put(at, current_link_speed="8.0 GT/s PCIe", max_link_speed="8.0 GT/s PCIe")
    tree.put(at, current_link_width=4, max_link_width=4)
    tree.change(at, enable=1, d3cold_allowed=1, msi_bus=1, numa_node=node)
    tree.only_written(at, "remove", "rescan")
    return at


def pci_config(ids, kind, address, irq, behind):
    """The 256 bytes of the configuration of a function."""
    config, little = bytearray(256), lambda number, size: number.to_bytes(size, "little")
    config[0:4] = little(ids[0], 2) + little(ids[1], 2)
    config[4:6] = b"\x06\x04"  # memory, bus master
    config[8:12] = little(1 | kind << 8, 4)
    if behind:
        config[0x0E] = 1
        config[0x18:0x1B] = bytes([0, behind, behind])
        config[0x1C:0x1E] = b"\xf0\x00"  # no ports: the base is above the limit
        config[0x20:0x24] = little((WINDOWS + WINDOW * behind) >> 16, 2) * 2
        config[0x24:0x28] = b"\xf0\xff\x00\x00"  # nothing that can be prefetched
    else:
        config[0x10:0x14] = little(address, 4)
        config[0x2C:0x30] = little(ids[2], 2) + little(ids[3], 2)
    config[0x3C:0x3E] = bytes([irq, 1])
    return bytes(config)


def pci_bridge(tree, slot, ids, behind):
    """A root port of PCI Express, with the number of the bus behind it. Returns where devices of that bus are."""
    return pci(tree, slot, ids, 0x060400, "pcieport", behind=behind)


# ---- USB ----


def usb_controller(tree, parent, bus, *devices):
    """A controller of USB with its root hub, and the devices on that."""
    root = f"{parent}/usb{bus}"
    hub = Usb("1d6b", "0002", "09", "xHCI Host Controller", "hub", maker="Linux 6.1 xhci-hcd", ports=len(devices) or 4)
    usb_device(tree, root, bus, "0", hub)
    for port, device in devices:
        add_usb(tree, root, bus, str(port), device)
    return root


def add_usb(tree, parent, bus, path, device):
    at = f"{parent}/{bus}-{path}"
    usb_device(tree, at, bus, path, device)
    for port, child in device.children:
        add_usb(tree, at, bus, f"{path}.{port}", child)


class Usb:
    """A device of USB with one interface: its numbers in hexadecimal, as sysfs shows them, and its driver."""

    def __init__(self, vendor, product, kind, name, driver, *children, maker="", ports=0, version="2.00", protocol=0):
        self.vendor, self.product, self.kind, self.name, self.driver = vendor, product, kind, name, driver
        self.children, self.maker, self.version, self.protocol = children, maker, version, protocol
        self.ports = ports or (4 if kind == "09" else 0)

    def descriptors(self):
        """The device, its configuration, interface and endpoint, as the device sends them."""
        kind, two = int(self.kind, 16), lambda word: int(word, 16).to_bytes(2, "little")
        version = bytes(reversed([int(it) for it in self.version.split(".")]))
        device = b"\x12\x01" + version + bytes([kind if kind == 9 else 0, 0, 0, 64])
        device += two(self.vendor) + two(self.product) + b"\x00\x01\x01\x02\x00\x01"
        interface = bytes([9, 4, 0, 0, 1, kind, 0, self.protocol, 0, 7, 5, 0x81, 3, 8, 0, 10])
        return device + b"\x09\x02\x19\x00\x01\x01\x00\xa0\x32" + interface


def usb_device(tree, at, bus, path, device):
    number = tree.next(f"usb{bus}", 1)
    minor = 128 * (bus - 1) + number - 1
    product = f"{int(device.vendor, 16):x}/{int(device.product, 16):x}/100"
    node = (189, minor, f"bus/usb/{bus:03}/{number:03}")
    words = {"DEVTYPE": "usb_device", "PRODUCT": product, "TYPE": f"{9 if device.kind == '09' else 0}/0/0"}
    tree.on_bus(at, "usb", "usb", node, **words, BUSNUM=f"{bus:03}", DEVNUM=f"{number:03}")
    tree.file(at + "/descriptors", device.descriptors())
    tree.put(
        at,
        bConfigurationValue=1,
        bDeviceClass="09" if device.kind == "09" else "00",
        bDeviceProtocol="00",
        bDeviceSubClass="00",
        bMaxPacketSize0=64,
        bMaxPower="100mA",
        bNumConfigurations=1,
        bNumInterfaces=" 1",
        bcdDevice="0100",
        bmAttributes="a0",
        busnum=bus,
        configuration="",
        devnum=number,
        devpath=path,
        idProduct=device.product,
        idVendor=device.vendor,
        manufacturer=device.maker or "Maker",
        maxchild=device.ports,
    )
    tree.put(at, product=device.name, quirks="0x0", removable="removable", rx_lanes=1, tx_lanes=1)
    tree.put(at, speed=USB_SPEEDS[device.version], urbnum=10, version=f"{device.version:>5}")
    tree.change(at, authorized=1, avoid_reset_quirk=0)
    tree.only_written(at, "remove")
    usb_interface(tree, f"{at}/{bus}-{path}:1.0", device, product)


def usb_interface(tree, at, device, product):
    kind, protocol = int(device.kind, 16), device.protocol
    words = {"DEVTYPE": "usb_interface", "PRODUCT": product, "INTERFACE": f"{kind}/0/{protocol}"}
    alias = f"usb:v{device.vendor.upper()}p{device.product.upper()}d0100dc00dsc00dp00"
    alias += f"ic{kind:02X}isc00ip{protocol:02X}in00"
    tree.on_bus(at, "usb", device.driver, **words, MODALIAS=alias)
    tree.put(at, bAlternateSetting=" 0", bInterfaceClass=device.kind, bInterfaceNumber="00")
    tree.put(at, bInterfaceProtocol=f"{protocol:02x}", bInterfaceSubClass="00", bNumEndpoints="01", modalias=alias)
    tree.put(at, supports_autosuspend=1)
    tree.change(at, authorized=1)
    tree.put(at + "/ep_81", bEndpointAddress="81", bInterval="0a", bLength="07", bmAttributes="03", direction="in")
    tree.put(at + "/ep_81", type="Interrupt", wMaxPacketSize="0008")


# ---- I2C, 1-Wire, GPIO ----


def i2c_adapter(tree, parent, number, name, **chips):
    """An adapter of I2C. `chips` are by their address: _0048="lm75"."""
    at = tree.on_bus(f"{parent}/i2c-{number}", "i2c")
    tree.put(at, name=name)
    tree.only_written(at, "delete_device", "new_device")
    # (the node of an adapter is of a class, and yet has a directory for it: an adapter is of a bus)
    tree.put(tree.of_class(at, "i2c-dev", f"i2c-{number}", (89, number, f"i2c-{number}")), name=name)
    for address, chip in chips.items():
        chip_at = tree.on_bus(f"{at}/{number}-{address[1:]}", "i2c", chip, MODALIAS=f"i2c:{chip}")
        tree.put(chip_at, modalias=f"i2c:{chip}", name=chip)
    return at


def one_wire(tree, identity, millidegrees):
    """A master of 1-Wire with a DS18B20 thermometer."""
    master = tree.on_bus("/devices/w1_bus_master1", "w1", "w1_master_driver")
    tree.put(master, w1_master_attempts=12, w1_master_max_slave_count=64, w1_master_name="w1_bus_master1")
    tree.put(master, w1_master_pointer="0x0000000000000000", w1_master_slave_count=1, w1_master_slaves=identity)
    tree.put(master, w1_master_timeout=10, w1_master_timeout_us=0)
    tree.change(master, w1_master_pullup=1, w1_master_search=-1)
    at = tree.on_bus(f"{master}/{identity}", "w1", "w1_slave_driver", W1_FID="28", W1_SLAVE_ID=identity[3:].upper())
    family, serial = identity.split("-")
    scratch = (millidegrees * 16 // 1000).to_bytes(2, "little").hex(" ") + " 4b 46 7f ff 0e 10 57"
    tree.put(at, id=bytes.fromhex(family) + bytes.fromhex(serial)[::-1] + b"\x57", name=identity)
    tree.change(at, w1_slave=f"{scratch} : crc=57 YES\n{scratch} t={millidegrees}", resolution=12)
    tree.put(at, temperature=millidegrees, ext_power=1)
    return at


def gpio_chip(tree, parent, base, lines, label):
    """A chip of GPIO lines, with the old interface in /class/gpio too."""
    number = tree.next("gpiochip")
    name = f"gpiochip{number}"
    tree.on_bus(f"{parent}/{name}", "gpio", None, (254, number, name))
    old = tree.of_class(parent, "gpio", f"gpiochip{base}")
    tree.put(old, base=base, label=label, ngpio=lines)
    tree.only_written("/class/gpio", "export", "unexport")


def gpio_line(tree, parent, number, direction, value):
    """A line that somebody has exported."""
    at = tree.of_class(parent, "gpio", f"gpio{number}")
    tree.change(at, active_low=0, direction=direction, edge="none", value=value)
