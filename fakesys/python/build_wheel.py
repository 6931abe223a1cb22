# SPDX-License-Identifier: MIT OR Apache-2.0
"""Builds the package of fakesys's Python modules for pip. It needs nothing but Python, so pip needs no network."""
import base64
import hashlib
import re
import zipfile
from pathlib import Path

HERE = Path(__file__).resolve().parent
NAME = "fakesys"
ENTRY_POINTS = "[pytest11]\nfakesys = pytest_fakesys\n"


def version():
    return re.search(r'^VERSION = "(.*)"', (HERE / "fakesys.py").read_text("utf-8"), re.MULTILINE)[1]


def metadata():
    fields = {
        "Metadata-Version": "2.1",
        "Name": NAME,
        "Version": version(),
        "Summary": "A live fake /sys for tests of programs that read sysfs, with a plugin for pytest",
        "License": "MIT OR Apache-2.0",
        "Requires-Python": ">=3.9",
    }
    return "".join(f"{key}: {text}\n" for key, text in fields.items())


def digest(data):
    return base64.urlsafe_b64encode(hashlib.sha256(data).digest()).rstrip(b"=").decode()


def build_wheel(wheel_directory, config_settings=None, metadata_directory=None):
    """Writes the wheel, as PEP 517 says. Returns its name."""
    del config_settings, metadata_directory
    info = f"{NAME}-{version()}.dist-info"
    files = {path.name: path.read_bytes() for path in sorted(HERE.glob("*.py")) if path != Path(__file__).resolve()}
    files[f"{info}/METADATA"] = metadata().encode()
    files[f"{info}/WHEEL"] = b"Wheel-Version: 1.0\nGenerator: fakesys\nRoot-Is-Purelib: true\nTag: py3-none-any\n"
    files[f"{info}/entry_points.txt"] = ENTRY_POINTS.encode()
    record = [f"{name},sha256={digest(data)},{len(data)}\n" for name, data in files.items()]
    files[f"{info}/RECORD"] = "".join([*record, f"{info}/RECORD,,\n"]).encode()
    name = f"{NAME}-{version()}-py3-none-any.whl"
    with zipfile.ZipFile(Path(wheel_directory) / name, "w", zipfile.ZIP_DEFLATED) as wheel:
        for path, data in files.items():
            wheel.writestr(zipfile.ZipInfo(path), data)
    return name
