# SPDX-License-Identifier: MIT OR Apache-2.0
"""A laptop: two batteries, backlight, sensors, NVMe, USB with a hub, wireless, a screen, ambient light, LEDs."""
from buses import Usb, i2c_adapter, pci, pci_bridge, usb_controller
from disks import loop_devices, nvme
from network import interface, loopback, rfkill, wireless
from nodes import Tree
from parts import clock, firmware, intel_frequencies, keyboard, screen_card, serial_ports
from processors import Layout, processors
from sensors import (
    acpi,
    backlight,
    battery,
    cooling_device,
    coretemp,
    energy,
    hwmon,
    iio_device,
    led,
    mains,
    thermal_zone,
)

CONTROLLER = "LNXSYBUS:00/PNP0A08:00/device:16/PNP0C09:00"  # of ACPI: the embedded one
LENOVO = "17aa:225d"


def laptop():
    tree = Tree()
    processors(tree, Layout(packages=1, cores=4, threads=2, nodes=1, megabytes=16384, megahertz=3900))
    firmware(tree, "LENOVO", "20L5CTO1WW", "ThinkPad T480", 10)
    pci(tree, "0000:00:00.0", f"8086:5914:{LENOVO}", 0x060000, "skl_uncore")
    heat(tree)
    supplies(tree)
    screen(tree)
    connections(tree)
    disk = pci_bridge(tree, "0000:00:1d.0", f"8086:9d18:{LENOVO}", 0x3D)
    nvme(tree, "0000:3d:00.0", disk, 1000215216, "SAMSUNG MZVLB512HAJQ-000L7")
    loop_devices(tree, 2)
    what_people_touch(tree)
    return tree


def heat(tree):
    coretemp(tree, 0, 4, 42000, 100000)
    fan = {"fan1_input": 2700, "fan1_label": "CPU", "pwm1": 128, "pwm1_enable": 2}
    hwmon(tree, tree.platform("thinkpad_hwmon", "thinkpad_hwmon"), "thinkpad", temp1_input=45000, **fan)
    thermal_zone(tree, "acpitz", 45000, critical=128000)
    thermal_zone(tree, "x86_pkg_temp", 46000, passive=95000, critical=100000)
    thermal_zone(tree, "pch_skylake", 41000, critical=115000)
    for _ in range(4):
        cooling_device(tree, "Processor", 10)
    cooling_device(tree, "intel_powerclamp", 50)
    energy(tree, 0, "core", "uncore", "dram")


def supplies(tree):
    for number in range(2):
        parent = acpi(tree, f"{CONTROLLER}/PNP0C0A:0{number}", "PNP0C0A", f"\\_SB_.EC__.BAT{number}", "battery")
        battery(tree, parent, f"BAT{number}")
    mains(tree, acpi(tree, f"{CONTROLLER}/ACPI0003:00", "ACPI0003", "\\_SB_.EC__.AC__", "ac"), "AC")


def screen(tree):
    graphics = pci(tree, "0000:00:02.0", f"8086:5917:{LENOVO}", 0x030000, "i915")
    card = screen_card(tree, graphics, eDP_1="connected", DP_1="disconnected", HDMI_A_1="disconnected")
    intel_frequencies(tree, card)
    backlight(tree, card + "/card0-eDP-1")
    sound = pci(tree, "0000:00:1f.3", f"8086:9d71:{LENOVO}", 0x040300, "snd_hda_intel")
    tree.put(tree.of_class(sound, "sound", "card0"), id="PCH", number=0)


def connections(tree):
    loopback(tree)
    controller = pci(tree, "0000:00:14.0", f"8086:9d2f:{LENOVO}", 0x0C0330, "xhci_hcd")
    usb_controller(tree, controller, 1, *usb_devices())
    bluetooth = tree.of_class(f"{controller}/usb1/1-7/1-7:1.0", "bluetooth", "hci0", None, DEVTYPE="host")
    rfkill(tree, bluetooth, "hci0", "bluetooth")
    behind = pci_bridge(tree, "0000:00:1c.0", f"8086:9d10:{LENOVO}", 3)
    wireless(tree, pci(tree, "0000:03:00.0", "8086:24fd:8086:1010", 0x028000, "iwlwifi", behind), "wlp3s0", WLAN)
    wired = pci(tree, "0000:00:1f.6", f"8086:15d8:{LENOVO}", 0x020000, "e1000e")
    interface(tree, wired, "enp0s31f6", "8c:16:45:00:00:01", -1, False)
    bus = pci(tree, "0000:00:1f.4", f"8086:9d23:{LENOVO}", 0x0C0500, "i801_smbus")
    i2c_adapter(tree, bus, 0, "SMBus I801 adapter at efa0", _0051="ee1004", _002c="rmi4_smbus")


WLAN = "0c:54:15:00:00:01"


def usb_devices():
    """The devices at the ports of the laptop, with those on its hub."""
    on_hub = (
        (1, Usb("046d", "c077", "03", "USB Optical Mouse", "usbhid", maker="Logitech", protocol=2)),
        (2, Usb("0781", "5567", "08", "Cruzer Blade", "usb-storage", maker="SanDisk", protocol=0x50)),
        (3, Usb("0403", "6001", "ff", "FT232R USB UART", "ftdi_sio", maker="FTDI")),
    )
    return (
        (1, Usb("046d", "c31c", "03", "USB Keyboard", "usbhid", maker="Logitech", protocol=1, version="1.10")),
        (2, Usb("05e3", "0610", "09", "USB2.1 Hub", "hub", *on_hub, maker="GenesysLogic")),
        (7, Usb("8087", "0a2b", "e0", "Bluetooth wireless interface", "btusb", maker="Intel Corp.", protocol=1)),
        (8, Usb("04f2", "b604", "0e", "Integrated Camera", "uvcvideo", maker="Chicony")),
    )


def what_people_touch(tree):
    light = tree.platform("HID-SENSOR-200041.1.auto", "hid_sensor_als")
    iio_device(tree, light, "als", in_illuminance_raw=120, in_illuminance_scale="1.0", in_illuminance_offset=0)
    motion = tree.platform("HID-SENSOR-200073.2.auto", "hid_sensor_accel_3d")
    axes = {"in_accel_x_raw": -10, "in_accel_y_raw": 900, "in_accel_z_raw": 120, "in_accel_scale": "0.00980665"}
    iio_device(tree, motion, "accel_3d", **axes)
    buttons = tree.platform("thinkpad_acpi", "thinkpad_acpi")
    led(tree, buttons, "tpacpi::kbd_backlight", 2)
    led(tree, buttons, "platform::micmute")
    keyboard(tree, acpi(tree, "PNP0C0D:00", "PNP0C0D", "\\_SB_.LID_", "button"), "Lid Switch", "0019", 0)
    keys = keyboard(tree, tree.on_bus("/devices/platform/i8042/serio0", "serio", "atkbd"), KEYBOARD)
    led(tree, keys, "input1::capslock")
    keyboard(tree, buttons, "ThinkPad Extra Buttons", "0019")
    serial_ports(tree, 1)
    clock(tree, tree.put(tree.on_bus("/devices/pnp0/00:00", "pnp", "rtc_cmos"), id="PNP0B00"), "rtc_cmos 00:00")


KEYBOARD = "AT Translated Set 2 keyboard"
