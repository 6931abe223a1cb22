# SPDX-License-Identifier: MIT OR Apache-2.0
"""A server: 64 processors in 4 packages and nodes of memory, EDAC, RAID on SATA, NVMe, bonded ports, InfiniBand."""
from buses import pci, pci_bridge
from disks import loop_devices, nvme, raid, sata
from network import bond, bridge, fibre_channel, infiniband, interface, loopback
from nodes import Tree
from parts import amd_card, clock, firmware, serial_ports, watchdog
from processors import Layout, memory_controller, processors
from sensors import coretemp, energy, hwmon, thermal_zone

DELL, MELLANOX, PORT = "1028:08fc", "15b3:0007", "ec:0d:9a:00:00:0"
PACKAGES, CORES, MEGABYTES = 4, 8, 262144
FAN_INPUTS, SECTORS = 7, 7811937920


def server():
    tree = Tree()
    processors(tree, Layout(PACKAGES, CORES, threads=2, nodes=PACKAGES, megabytes=MEGABYTES, megahertz=3700))
    firmware(tree, "Dell Inc.", "PowerEdge R840", "", 23)
    pci(tree, "0000:00:00.0", f"8086:2020:{DELL}", 0x060000, "skx_uncore")
    for package in range(PACKAGES):
        coretemp(tree, package, CORES, 50000, 90000)
        memory_controller(tree, MEGABYTES // PACKAGES, f"DIMM_{'ABCD'[package]}1", f"DIMM_{'ABCD'[package]}2")
        energy(tree, package, "dram")
        thermal_zone(tree, "x86_pkg_temp", 55000, passive=85000, critical=100000)
    board(tree)
    disks(tree)
    networks(tree)
    graphics = pci_bridge(tree, "0000:00:1b.0", f"8086:a167:{DELL}", 7)
    amd_card(tree, pci(tree, "0000:07:00.0", "1002:73bf:1002:0e3a", 0x030000, "amdgpu", graphics))
    return tree


def board(tree):
    """The fans and voltages of the board, its serial ports, clock and watchdog."""
    texts = {"intrusion0_alarm": 0, "beep_enable": 0, "cpu0_vid": 0}
    for number in range(FAN_INPUTS):
        which = number + 1
        texts |= {f"fan{which}_input": 1000 + which, f"fan{which}_min": 0, f"fan{which}_alarm": 0}
        texts |= {f"pwm{which}": 128, f"pwm{which}_enable": 5, f"temp{which}_input": 30000 + 100 * which}
        texts |= {f"in{number}_input": 1000 + which, f"in{number}_min": 0, f"in{number}_max": 2000}
    hwmon(tree, tree.platform("nct6775.656", "nct6775"), "nct6798", **texts)
    serial_ports(tree, 2)
    clock(tree, tree.put(tree.on_bus("/devices/pnp0/00:00", "pnp", "rtc_cmos"), id="PNP0B00"), "rtc_cmos 00:00")
    watchdog(tree, tree.platform("iTCO_wdt.0", "iTCO_wdt"), "iTCO_wdt")


def disks(tree):
    """Two arrays over four disks of SATA, and two of NVMe."""
    controller, parts = pci(tree, "0000:00:17.0", f"8086:a182:{DELL}", 0x010601, "ahci"), []
    for port in range(1, 5):
        disk = sata(tree, controller, port, 7814037168, "ST4000NM0035-1V4", (2097152, SECTORS))
        parts.append(f"{disk}/{disk.rsplit('/', 1)[1]}2")
    for pair in parts[:2], parts[2:]:
        raid(tree, "raid1", SECTORS - 264192, *pair)
    for number in range(2):
        behind = pci_bridge(tree, f"0000:00:1d.{number}", f"8086:a19{number}:{DELL}", 3 + number)
        nvme(tree, f"0000:0{3 + number}:00.0", behind, 3750748848, "Dell Express Flash NVMe P4500")
    loop_devices(tree, 2)


def networks(tree):
    """Two bonded ports with a bridge over them, an InfiniBand adapter, a host of Fibre Channel."""
    loopback(tree)
    behind, ports = pci_bridge(tree, "0000:00:03.0", f"8086:2030:{DELL}", 5), []
    for number in range(2):
        function = pci(tree, f"0000:05:00.{number}", f"15b3:1017:{MELLANOX}", 0x020000, "mlx5_core", behind, 0)
        ports.append(interface(tree, function, f"ens1f{number}np{number}", f"{PORT}{number}", 100000))
    bridge(tree, "br0", f"{PORT}0", bond(tree, "bond0", f"{PORT}0", *ports))
    infiniband(tree, f"{behind}/0000:05:00.0")
    behind = pci_bridge(tree, "0000:00:02.0", f"8086:2031:{DELL}", 6)
    fibre_channel(tree, pci(tree, "0000:06:00.0", "1077:2261:1077:029b", 0x0C0400, "qla2xxx", behind, 1), 9)
