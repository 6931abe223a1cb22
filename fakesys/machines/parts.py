# SPDX-License-Identifier: MIT OR Apache-2.0
"""What people use of a machine, and what names it: input devices, screens, terminals, clocks, DMI."""
from sensors import hwmon

KEYS = "402000000 3803078f800d001 feffffdfffefffff fffffffffffffffe"


def firmware(tree, vendor, product, version, chassis):
    """What the firmware says about a machine (DMI). `chassis` is 10 for a notebook, 23 for a rack."""
    at = tree.of_class(None, "dmi", "id", None, MODALIAS=f"dmi:bvn{vendor}:pn{product}:")
    tree.put(at, bios_date="11/11/2020", bios_release="1.36", bios_vendor=vendor, bios_version="N24ET61W (1.36 )")
    tree.put(at, board_asset_tag="Not Available", board_name=product, board_vendor=vendor, board_version="Not Defined")
    tree.put(at, chassis_asset_tag="No Asset Information", chassis_type=chassis, chassis_vendor=vendor)
    tree.put(at, chassis_version="None", ec_firmware_release="1.22", modalias=f"dmi:bvn{vendor}:pn{product}:")
    tree.put(at, product_family=version, product_name=product, product_sku=f"SKU_{product}", product_version=version)
    tree.put(at, sys_vendor=vendor)
    for name in "board_serial", "chassis_serial", "product_serial", "product_uuid":
        tree.file(f"{at}/{name}", "00000000", 0o400)


def terminal(tree, parent, name, major, minor):
    return tree.of_class(parent, "tty", name, (major, minor, name))


def serial_ports(tree, count):
    for number in range(count):
        port = tree.on_bus(f"/devices/pnp0/00:0{number + 1}", "pnp", "serial")
        terminal(tree, tree.put(port, id="PNP0501"), f"ttyS{number}", 4, 64 + number)


def clock(tree, parent, name):
    """A clock that runs without the machine."""
    at = tree.of_class(parent, "rtc", "rtc0", (252, 0, "rtc0"))
    tree.put(at, date="2026-11-29", hctosys=1, name=name, since_epoch=1795910400, time="00:00:00")
    tree.change(at, max_user_freq=64, wakealarm="")


def watchdog(tree, parent, name):
    at = tree.of_class(parent, "watchdog", "watchdog0", (247, 0, "watchdog0"))
    tree.put(at, bootstatus=0, identity=name, options="0x8180", state="inactive", status="0x8000", timeout=30)
    tree.change(at, nowayout=0, pretimeout=0)


def keyboard(tree, parent, name, bus="0011", keys=KEYS):
    """An input device with its event node."""
    number = tree.next("input")
    words = {"PRODUCT": f"{int(bus, 16):x}/1/1/ab41", "NAME": f'"{name}"', "EV": "120013"}
    at = tree.of_class(parent, "input", f"input{number}", None, **words)
    tree.put(at, name=name, phys=f"isa0060/serio{number}/input0", properties=0, uniq="")
    tree.put(at + "/capabilities", **{"abs": 0, "ev": "120013", "ff": 0, "key": keys, "led": 7, "msc": 10, "rel": 0})
    tree.put(at + "/capabilities", snd=0, sw=0)
    tree.put(at + "/id", bustype=bus, product="0001", vendor="0001", version="ab41")
    tree.of_class(at, "input", f"event{number}", (13, 64 + number, f"input/event{number}"))
    return at


def screen_card(tree, parent, **connectors):
    """A card of DRM. `connectors` have the underscores of a Python name: eDP_1="connected"."""
    number = tree.next("card")
    at = tree.of_class(parent, "drm", f"card{number}", (226, number, f"dri/card{number}"), DEVTYPE="drm_minor")
    for name, status in connectors.items():
        is_on = status == "connected"
        connector = tree.of_class(at, "drm", f"card{number}-{name.replace('_', '-')}")
        tree.put(connector, dpms="On" if is_on else "Off", enabled="enabled" if is_on else "disabled")
        tree.put(connector, edid=b"", modes="1920x1080" if is_on else "")
        tree.change(connector, status=status)
    return at


def intel_frequencies(tree, card):
    tree.put(card, gt_act_freq_mhz=350, gt_cur_freq_mhz=350, gt_RP0_freq_mhz=1100, gt_RP1_freq_mhz=300)
    tree.put(card, gt_RPn_freq_mhz=300)
    tree.change(card, gt_boost_freq_mhz=1100, gt_max_freq_mhz=1100, gt_min_freq_mhz=300)


def amd_card(tree, function):
    """A card with the attributes and sensors of amdgpu."""
    screen_card(tree, function, DP_1="connected", HDMI_A_1="disconnected")
    tree.put(function, gpu_busy_percent=13, mem_busy_percent=3, unique_id="a1b2c3d4e5f60718")
    tree.put(function, mem_info_gtt_total=8331673600, mem_info_gtt_used=21000192, mem_info_vram_vendor="samsung")
    tree.put(function, mem_info_vis_vram_total=268435456, mem_info_vis_vram_used=1048576)
    tree.put(function, mem_info_vram_total=17163091968, mem_info_vram_used=1048576000)
    tree.put(function, vbios_version="113-D4120500-O04")
    tree.change(function, power_dpm_force_performance_level="auto", power_dpm_state="performance")
    tree.change(function, pp_dpm_mclk="0: 96Mhz *\n1: 1000Mhz", pp_dpm_sclk="0: 500Mhz *\n1: 2365Mhz")
    texts = {"temp1_input": 45000, "temp1_crit": 100000, "temp1_label": "edge", "in0_input": 775, "in0_label": "vddgfx"}
    fan = {"fan1_input": 0, "fan1_min": 0, "fan1_max": 3300, "pwm1": 0}
    power = {"power1_average": 9000000, "power1_cap": 255000000, "freq1_input": 500000000, "freq1_label": "sclk"}
    hwmon(tree, function, "amdgpu", **texts, **fan, **power)
