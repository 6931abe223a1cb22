# SPDX-License-Identifier: MIT OR Apache-2.0
"""A gateway of the Raspberry Pi's kind: GPIO, I2C, a 1-Wire thermometer, USB with a serial line, an SD card, LEDs."""
from buses import Usb, gpio_chip, gpio_line, i2c_adapter, one_wire, usb_controller
from disks import loop_devices, sd_card
from network import interface, loopback
from nodes import Tree
from parts import clock, terminal, watchdog
from processors import Layout, processors
from sensors import cooling_device, hwmon, led, thermal_zone

CORES = Layout(1, 4, 1, 1, 1024, 1200, "cpufreq-dt", "arm_idle", "arm,ven0000fam0000mod0000")


def gateway():
    tree = Tree()
    processors(tree, CORES)
    loopback(tree)
    on_board(tree)
    on_usb(tree)
    one_wire(tree, "28-00000a1b2c3d", 23125)
    thermal_zone(tree, "cpu-thermal", 48000, hot=80000, critical=110000)
    cooling_device(tree, "cpufreq-cpu0", 4)
    hwmon(tree, "/devices/virtual/thermal/thermal_zone0", "cpu_thermal", temp1_input=48000, temp1_crit=110000)
    tree.directory("/bus/pci/devices")
    return tree


def on_board(tree):
    lines = tree.platform("3f200000.gpio", "pinctrl-bcm2835")
    gpio_chip(tree, lines, 512, 54, "pinctrl-bcm2835")
    gpio_line(tree, lines, 529, "out", 1)
    bus = i2c_adapter(tree, tree.platform("3f804000.i2c", "i2c-bcm2835"), 1, "bcm2835 (i2c@7e804000)", **CHIPS)
    hwmon(tree, bus + "/1-0048", "lm75", temp1_input=23500, temp1_max=80000, temp1_max_hyst=75000)
    clock(tree, bus + "/1-0068", "rtc-ds1307 1-0068")
    for name in "led0", "led1":
        led(tree, LEDS, name)
    tree.platform("leds", "leds-gpio")
    terminal(tree, tree.platform("3f201000.serial", "uart-pl011"), "ttyAMA0", 204, 64)
    watchdog(tree, tree.platform("bcm2835-wdt", "bcm2835-wdt"), "Broadcom BCM2835 Watchdog timer")
    sd_card(tree, tree.platform("3f202000.mmc", "sdhost-bcm2835"), 31116288, (524288, 30590000))
    loop_devices(tree, 1)


CHIPS, LEDS = {"_0048": "lm75", "_0068": "rtc-ds1307"}, "/devices/platform/leds"


def on_usb(tree):
    on_hub = (
        (1, Usb("0424", "ec00", "ff", "SMSC9512/9514 Fast Ethernet Adapter", "smsc95xx", maker="Microchip")),
        (4, Usb("10c4", "ea60", "ff", "CP2102 USB to UART Bridge Controller", "cp210x", maker="Silicon Labs")),
    )
    hub = Usb("0424", "9514", "09", "SMC9514 Hub", "hub", *on_hub, maker="Standard Microsystems")
    root = usb_controller(tree, tree.platform("3f980000.usb", "dwc_otg"), 1, (1, hub))
    interface(tree, f"{root}/1-1/1-1.1/1-1.1:1.0", "eth0", "b8:27:eb:00:00:01", 100)
    serial = tree.on_bus(f"{root}/1-1/1-1.4/1-1.4:1.0/ttyUSB0", "usb-serial", "cp210x")
    terminal(tree, serial, "ttyUSB0", 188, 0)
