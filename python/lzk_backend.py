"""Makes the wheel: the package `lzk` with the library that `./build library` made. LZK_LIBRARY names another one.

A backend as PEP 517 and PEP 660 ask for, in place of setuptools, so that `pip install ./python` needs no network. The
wheel is for Linux on the processor that the library is for.
"""

import base64
import hashlib
import os
import re
import zipfile

HERE = os.path.dirname(os.path.abspath(__file__))
LIBRARY = os.environ.get("LZK_LIBRARY") or os.path.join(HERE, "..", ".build", "liblzk.so")


def _project(key):
    with open(os.path.join(HERE, "pyproject.toml"), encoding="utf-8") as file:
        return re.search(rf'^{key} = "(.*)"$', file.read(), re.MULTILINE).group(1)


NAME, VERSION = _project("name"), _project("version")
INFO = f"{NAME}-{VERSION}.dist-info"
# What an ELF file says at byte 18 of its processor.
MACHINES = {62: "x86_64", 183: "aarch64"}
METADATA = f"Metadata-Version: 2.1\nName: {NAME}\nVersion: {VERSION}\nSummary: {_project('description')}\nRequires-Python: {_project('requires-python')}\n"


def _tag(library):
    """The tag of a wheel with this library; without one, of this machine."""
    machine = MACHINES.get(int.from_bytes(library[18:20], "little")) if library[:4] == b"\x7fELF" else os.uname().machine
    if machine is None:
        raise SystemExit(f"{LIBRARY} is for no processor that is known here")
    return f"py3-none-linux_{machine}"


def _write(folder, files, tag):
    """A wheel of these files, by name. Each has the same time, so that the same files make the same wheel."""
    path = f"{NAME}-{VERSION}-{tag}.whl"
    record = []
    with zipfile.ZipFile(os.path.join(folder, path), "w", zipfile.ZIP_DEFLATED) as wheel:
        for name, data in files.items():
            digest = base64.urlsafe_b64encode(hashlib.sha256(data).digest()).rstrip(b"=").decode()
            record.append(f"{name},sha256={digest},{len(data)}\n")
            wheel.writestr(zipfile.ZipInfo(name), data)
        record.append(f"{INFO}/RECORD,,\n")
        wheel.writestr(zipfile.ZipInfo(f"{INFO}/RECORD"), "".join(record))
    return path


def _read(path):
    with open(path, "rb") as file:
        return file.read()


def _info(tag):
    wheel = f"Wheel-Version: 1.0\nGenerator: lzk_backend\nRoot-Is-Purelib: false\nTag: {tag}\n"
    return {f"{INFO}/METADATA": METADATA.encode(), f"{INFO}/WHEEL": wheel.encode()}


def build_wheel(wheel_directory, config_settings=None, metadata_directory=None):
    if not os.path.exists(LIBRARY):
        raise SystemExit(f"{LIBRARY} is missing: make it by ./build library, or name one by LZK_LIBRARY")
    folder = os.path.join(HERE, NAME)
    files = {f"{NAME}/{name}": _read(os.path.join(folder, name)) for name in sorted(os.listdir(folder)) if name.endswith((".py", ".typed"))}
    library = _read(LIBRARY)
    tag = _tag(library)
    return _write(wheel_directory, {**files, f"{NAME}/liblzk.so": library, **_info(tag)}, tag)


def build_editable(wheel_directory, config_settings=None, metadata_directory=None):
    tag = _tag(b"")
    return _write(wheel_directory, {f"{NAME}.pth": HERE.encode() + b"\n", **_info(tag)}, tag)


def get_requires_for_build_wheel(config_settings=None):
    return []


def get_requires_for_build_editable(config_settings=None):
    return []
