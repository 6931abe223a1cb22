# SPDX-License-Identifier: MIT OR Apache-2.0
"""Disks and what they are made of: SATA, NVMe, SD cards, RAID."""
from buses import pci
from sensors import hwmon

LIMITS = {
    "chunk_sectors": 0,
    "dax": 0,
    "discard_granularity": 512,
    "discard_max_hw_bytes": 2199023255040,
    "discard_zeroes_data": 0,
    "fua": 0,
    "hw_sector_size": 512,
    "logical_block_size": 512,
    "max_discard_segments": 256,
    "max_hw_sectors_kb": 2048,
    "max_integrity_segments": 0,
    "max_segment_size": 65536,
    "max_segments": 127,
    "minimum_io_size": 512,
    "nr_zones": 0,
    "optimal_io_size": 0,
    "physical_block_size": 512,
    "write_same_max_bytes": 0,
    "write_zeroes_max_bytes": 0,
    "zoned": "none",
}
SETTINGS = {
    "add_random": 0,
    "discard_max_bytes": 2199023255040,
    "io_poll": 0,
    "iostats": 1,
    "max_sectors_kb": 1280,
    "nomerges": 0,
    "nr_requests": 64,
    "read_ahead_kb": 128,
    "rq_affinity": 1,
    "scheduler": "[none] mq-deadline",
    "wbt_lat_usec": 2000,
    "write_cache": "write back",
}
COUNTS = "     100        0      800       10       50        0      400        5        0       12       15"
NO_COUNTS = " ".join(f"{0:>8}" for _ in COUNTS.split())


def block(tree, parent, name, number, sectors, parts=(), rotational=0):
    """A disk, with sizes in sectors of 512 bytes. `number` is its major and minor number."""
    major, minor = number
    sequence = tree.next("disk", 1)
    at = tree.of_class(parent, "block", name, (major, minor, name), DEVTYPE="disk", DISKSEQ=sequence)
    tree.link(f"/block/{name}", at)
    tree.put(at, alignment_offset=0, capability=0, discard_alignment=0, diskseq=sequence, events="", ext_range=256)
    tree.put(at, hidden=0, inflight="       0        0", range=16, removable=0, ro=0, size=sectors)
    tree.put(at, stat=COUNTS if sectors else NO_COUNTS)
    tree.change(at, events_async="", events_poll_msecs=-1)
    for folder in "holders", "slaves":
        tree.directory(f"{at}/{folder}")
    tree.put(at + "/queue", **LIMITS)
    tree.change(at + "/queue", **SETTINGS, rotational=rotational)
    start = 2048
    for partition, size in enumerate(parts, 1):
        partition_of(tree, at, name + "p" * name[-1].isdigit() + str(partition), (major, minor), partition, start, size)
        start += size
    return at


def partition_of(tree, disk, name, number, partition, start, size):
    major, minor = number
    at, words = f"{disk}/{name}", {"DEVTYPE": "partition", "PARTN": partition}
    tree.device(at, "/class/block", words, (major, minor + partition, name))
    tree.power(at)
    tree.link(f"/class/block/{name}", at)
    tree.directory(at + "/holders")
    tree.put(at, alignment_offset=0, discard_alignment=0, inflight="       0        0", partition=partition)
    tree.put(at, ro=0, size=size, start=start, stat=COUNTS)


def loop_devices(tree, count):
    """Loop devices without a file."""
    for minor in range(count):
        block(tree, None, f"loop{minor}", (7, minor), 0)


def nvme(tree, slot, under, sectors, model):
    """A disk of NVMe with two partitions and a thermometer."""
    number = tree.next("nvme")
    name, serial = f"nvme{number}", f"S3TNNX0K{12345 + number}"
    parent = pci(tree, slot, NVME_IDS, 0x010802, "nvme", under)
    at = tree.of_class(parent, "nvme", name, (239, number, name), NVME_TRTYPE="pcie")
    qualified = f"nqn.2014.08.org.nvmexpress:144d144d{serial}"
    what = {"firmware_rev": "4L2QEXA7", "model": f"{model:<40}", "serial": f"{serial:<20}", "subsysnqn": qualified}
    tree.put(at, address=slot, cntlid=4, cntrltype="io", kato=0, numa_node=-1, queue_count=9, sqsize=1023)
    tree.put(at, state="live", transport="pcie", **what)
    tree.only_written(at, "rescan_controller", "reset_controller")
    subsystem = tree.of_class(None, "nvme-subsystem", f"nvme-subsys{number}")
    tree.put(subsystem, subsystype="nvm", **what)
    tree.change(subsystem, iopolicy="numa")
    tree.link(f"{subsystem}/{name}", at)
    disk = block(tree, at, f"{name}n1", (259, 8 * number), sectors, (1048576, sectors - 1050624))
    tree.put(disk, eui=f"00 25 38 8b 81 b0 c0 d{number}", nsid=1, wwid=f"eui.0025388b81b0c0d{number}")
    degrees = {"temp1_input": 36850, "temp1_min": -273150, "temp1_max": 81850, "temp1_crit": 84850, "temp1_alarm": 0}
    hwmon(tree, at, "nvme", temp1_label="Composite", **degrees)
    return at


NVME_IDS = "144d:a808:144d:a801"


def sata(tree, controller, number, sectors, model, parts=(), rotational=1):
    """A disk of SATA at a port of its controller, with a thermometer. Returns the disk."""
    host = tree.on_bus(f"{controller}/ata{number}/host{number}", "scsi", None, None, DEVTYPE="scsi_host")
    tree.put(
        tree.of_class(host, "scsi_host", f"host{number}"),
        can_queue=32,
        cmd_per_lun=1,
        proc_name="ahci",
        sg_tablesize=168,
        state="running",
        unique_id=number,
    )
    target = tree.on_bus(f"{host}/target{number}:0:0", "scsi", None, None, DEVTYPE="scsi_target")
    place = f"{number}:0:0:0"
    at = tree.on_bus(f"{target}/{place}", "scsi", "sd", None, DEVTYPE="scsi_device", MODALIAS="scsi:t-0x00")
    tree.put(at, device_blocked=0, iodone_cnt="0x64", ioerr_cnt="0x0", iorequest_cnt="0x64", model=f"{model:<16}")
    tree.put(at, modalias="scsi:t-0x00", rev="TN02", scsi_level=6, type=0, vendor="ATA     ")
    tree.put(at, wwid=f"naa.5000c500a{number:07x}")
    tree.change(at, queue_depth=32, queue_type="simple", state="running", timeout=30)
    tree.only_written(at, "delete", "rescan")
    letter = tree.next("sd")
    tree.of_class(at, "scsi_device", place)
    disk = tree.of_class(at, "scsi_disk", place)
    tree.change(disk, cache_type="write back", manage_start_stop=1, provisioning_mode="full")
    tree.put(disk, FUA=0, thin_provisioning=0)
    tree.of_class(at, "scsi_generic", f"sg{letter}", (21, letter, f"sg{letter}"))
    degrees = {"temp1_input": 33000 + 500 * letter, "temp1_min": 0, "temp1_max": 60000, "temp1_crit": 65000}
    hwmon(tree, at, "drivetemp", **degrees, temp1_lcrit=-40000, temp1_lowest=20000, temp1_highest=44000)
    return block(tree, at, f"sd{chr(97 + letter)}", (8, 16 * letter), sectors, parts, rotational)


def raid(tree, level, sectors, *parts):
    """A RAID array over partitions, each by its directory."""
    number = tree.next("md")
    at = block(tree, None, f"md{number}", (9, number), sectors, (), 1)
    md = at + "/md"
    tree.change(md, array_size="default", array_state="clean", bitmap_set_bits="", chunk_size=0, layout=0)
    tree.change(md, component_size=sectors // 2, level=level, metadata_version="1.2", raid_disks=len(parts))
    tree.change(md, sync_action="idle", sync_max="max", sync_min=0, sync_speed_max="200000 (system)")
    tree.put(md, degraded=0, last_sync_action="none", mismatch_cnt=0, sync_completed="none", sync_speed="none")
    tree.put(md, uuid=f"1b7d5c0e-5f4b-4c0a-9a64-00000000000{number}")
    for slot, part in enumerate(parts):
        name = part.rsplit("/", 1)[1]
        member = f"{md}/dev-{name}"
        tree.change(member, errors=0, offset=264192, size=sectors // 2, slot=slot, state="in_sync")
        tree.link(member + "/block", part)
        tree.link(f"{md}/rd{slot}", member)
        tree.link(f"{at}/slaves/{name}", part)
        tree.link(f"{part}/holders/md{number}", at)
    return at


def sd_card(tree, host, sectors, parts):
    """An SD card in a slot of its host."""
    slot = tree.of_class(host, "mmc_host", "mmc0")
    words = {"MMC_TYPE": "SD", "MMC_NAME": "SL16G", "MODALIAS": "mmc:block"}
    at = tree.on_bus(slot + "/mmc0:0001", "mmc", "mmcblk", None, **words)
    tree.put(at, cid="035344534c31364780a0b0c0d0012100", csd="400e00325b590000edc87f800a404000", date="01/2018")
    tree.put(at, erase_size=512, fwrev="0x0", hwrev="0x8", manfid="0x000003", name="SL16G", oemid="0x5344")
    tree.put(at, preferred_erase_size=4194304, serial="0xa0b0c0d0", type="SD")
    return block(tree, at, "mmcblk0", (179, 0), sectors, parts)
