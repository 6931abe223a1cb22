# SPDX-License-Identifier: MIT OR Apache-2.0
"""What measures and what is powered: hwmon, thermal zones, RAPL, batteries, IIO, LEDs, backlights."""
import re

CHANGED = re.compile(r"(pwm|fan|temp|in|power)\d+(_(min|max|max_hyst|enable|cap)|)$|beep_enable")
BATTERY = {
    "capacity": 58,
    "capacity_level": "Normal",
    "cycle_count": 120,
    "energy_full": 51230000,
    "energy_full_design": 57020000,
    "energy_now": 30110000,
    "manufacturer": "SMP",
    "model_name": "01AV405",
    "power_now": 6345000,
    "present": 1,
    "serial_number": " 1234",
    "status": "Discharging",
    "technology": "Li-poly",
    "type": "Battery",
    "voltage_min_design": 11580000,
    "voltage_now": 12012000,
}


def hwmon(tree, parent, name, **texts):
    """A chip of sensors. Limits and what drives a fan can be written."""
    at = tree.of_class(parent, "hwmon", f"hwmon{tree.next('hwmon')}")
    tree.put(at, name=name)
    for attribute, text in texts.items():
        tree.file(f"{at}/{attribute}", text, 0o644 if CHANGED.match(attribute) else 0o444)
    return at


def coretemp(tree, package, cores, millidegrees, most):
    """The thermometers of a processor's package and of its cores."""
    texts = {}
    for number in range(1, cores + 2):
        texts[f"temp{number}_label"] = f"Core {number - 2}" if number > 1 else f"Package id {package}"
        texts[f"temp{number}_input"] = millidegrees + (500 * number if number > 1 else 1000)
        texts[f"temp{number}_max"] = texts[f"temp{number}_crit"] = most
        texts[f"temp{number}_crit_alarm"] = 0
    return hwmon(tree, tree.platform(f"coretemp.{package}", "coretemp"), "coretemp", **texts)


def thermal_zone(tree, kind, millidegrees, **trips):
    """A thermal zone with trip points: passive=95000, critical=100000."""
    at = tree.of_class(None, "thermal", f"thermal_zone{tree.next('thermal_zone')}")
    tree.put(at, available_policies="power_allocator user_space step_wise", temp=millidegrees, type=kind)
    tree.change(at, mode="enabled", policy="step_wise")
    for number, (what, limit) in enumerate(trips.items()):
        point = f"trip_point_{number}"
        tree.put(at, **{f"{point}_hyst": 2000, f"{point}_temp": limit, f"{point}_type": what})
    return at


def cooling_device(tree, kind, most):
    at = tree.of_class(None, "thermal", f"cooling_device{tree.next('cooling_device')}")
    tree.put(at, max_state=most, type=kind)
    tree.change(at, cur_state=0)


def energy(tree, package, *domains):
    """The counters of energy of a package (RAPL) and of its domains."""
    control = "/devices/virtual/powercap/intel-rapl"
    if not package:
        tree.of_class(None, "powercap", "intel-rapl")
        tree.change(control, enabled=1)
    zones = [(f"{control}/intel-rapl:{package}", f"package-{package}")]
    zones += [(f"{zones[0][0]}/intel-rapl:{package}:{number}", domain) for number, domain in enumerate(domains)]
    for at, name in zones:
        tree.device(at, "/class/powercap", {})
        tree.power(at)
        tree.link(f"/class/powercap/{at.rsplit('/', 1)[1]}", at)
        tree.put(at, constraint_0_max_power_uw=15000000, constraint_0_name="long_term", name=name)
        tree.put(at, max_energy_range_uj=262143328850)
        tree.file(at + "/energy_uj", 123456789 + 1000 * len(name), 0o400)
        tree.change(at, constraint_0_power_limit_uw=15000000, constraint_0_time_window_us=27983872, enabled=1)


def battery(tree, parent, name):
    words = {f"POWER_SUPPLY_{key.upper()}": text for key, text in BATTERY.items()}
    at = tree.of_class(parent, "power_supply", name, None, POWER_SUPPLY_NAME=name, **words)
    tree.put(at, **BATTERY)
    tree.change(at, alarm=2561000, charge_control_end_threshold=80, charge_control_start_threshold=75)
    return at


def mains(tree, parent, name):
    words = {"POWER_SUPPLY_NAME": name, "POWER_SUPPLY_TYPE": "Mains", "POWER_SUPPLY_ONLINE": 0}
    return tree.put(tree.of_class(parent, "power_supply", name, None, **words), online=0, type="Mains")


def acpi(tree, path, hid, name, driver=None):
    """A device of ACPI, whose path is below LNXSYSTM:00."""
    at = tree.on_bus(f"/devices/LNXSYSTM:00/{path}", "acpi", driver, None, MODALIAS=f"acpi:{hid}:")
    return tree.put(at, hid=hid, modalias=f"acpi:{hid}:", path=name, status=15)


def iio_device(tree, parent, name, **channels):
    number = tree.next("iio")
    title = f"iio:device{number}"
    at = tree.on_bus(f"{parent}/{title}", "iio", None, (245, number, title), DEVTYPE="iio_device")
    tree.put(at, name=name, **channels)
    tree.change(at, sampling_frequency="10.000000")
    return at


def led(tree, parent, name, most=1):
    at = tree.of_class(parent, "leds", name)
    tree.put(at, max_brightness=most)
    tree.change(at, brightness=0, trigger="[none] timer heartbeat default-on")
    return at


def backlight(tree, parent):
    at = tree.of_class(parent, "backlight", "intel_backlight")
    tree.put(at, actual_brightness=700, max_brightness=1388, scale="unknown", type="raw")
    tree.change(at, bl_power=0, brightness=700)
    return at
