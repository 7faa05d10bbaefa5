"""Builds the wheel of the module xvsh, with the shared library in it, for pip (PEP 517), with Python's own modules alone.

The library is that at XVSH_LIBRARY, else that of dist/ of this checkout, if it is of these sources, else lib/libxvsh.so. Of one library and one module the wheel is the same, byte for
byte: its files have the time SOURCE_DATE_EPOCH, or that of 1980 where it isn't set.
"""
from __future__ import annotations

import base64
import hashlib
import os
import re
import subprocess
import sys
import tempfile
import time
import zipfile
from typing import Any

HERE = os.path.dirname(os.path.abspath(__file__))
TAG = "py3-none-linux_x86_64"
MODULES = ("__init__.py", "_given.py", "_show.py", "_svg.py", "by_program.py", "coming.py", "grading.py")


def _read(*path: str) -> bytes:
    with open(os.path.join(HERE, *path), "rb") as file:
        return file.read()


def _library() -> bytes:
    named = os.environ.get("XVSH_LIBRARY")
    top = os.path.normpath(os.path.join(HERE, "..", ".."))
    build = os.path.join(top, "bindings", "build")
    if not named and os.path.exists(build):
        with tempfile.TemporaryDirectory() as room:
            if subprocess.run([build, "--packed", "--to", room], stderr=subprocess.DEVNULL).returncode == 0:
                return _read(room, "libxvsh.so")
    path = named or os.path.join(top, "lib", "libxvsh.so")
    if not os.path.exists(path):
        sys.exit(f"xvsh: {path} isn't there: bindings/build puts it there, and XVSH_LIBRARY names one that is elsewhere")
    return _read(path)


def _named(pattern: str, *path: str) -> str:
    found = re.search(pattern, _read(*path).decode(), re.M)
    if not found:
        sys.exit(f"xvsh: {os.path.join(*path)} has no {pattern}")
    return found[1]


def _version() -> str:
    return _named(r'^__version__ = "(.*)"$', "xvsh", "__init__.py")


def _metadata() -> bytes:
    told = _named(r'^description = "(.*)"$', "pyproject.toml")
    python = _named(r'^requires-python = "(.*)"$', "pyproject.toml")
    return f"Metadata-Version: 2.1\nName: xvsh\nVersion: {_version()}\nSummary: {told}\nLicense: MIT\nRequires-Python: {python}\n".encode()


def _add(wheel: zipfile.ZipFile, name: str, data: bytes, mode: int = 0o644) -> str:
    """Adds a file, and returns its line of RECORD."""
    day = time.gmtime(int(os.environ.get("SOURCE_DATE_EPOCH") or 315_532_800))
    entry = zipfile.ZipInfo(name, day[:6])
    entry.compress_type, entry.external_attr, entry.create_system = zipfile.ZIP_DEFLATED, (0o100000 | mode) << 16, 3
    wheel.writestr(entry, data)
    digest = base64.urlsafe_b64encode(hashlib.sha256(data).digest()).rstrip(b"=").decode()
    return f"{name},sha256={digest},{len(data)}\n"


def build_wheel(wheel_directory: str, config_settings: Any = None, metadata_directory: str | None = None) -> str:
    """Writes the wheel into a folder, and returns its name."""
    made = f"xvsh-{_version()}"
    name, info = f"{made}-{TAG}.whl", f"{made}.dist-info"
    files = {
        **{f"xvsh/{name}": _read("xvsh", name) for name in MODULES}, "xvsh/py.typed": _read("xvsh", "py.typed"), "xvsh/libxvsh.so": _library(),
        f"{info}/METADATA": _metadata(), f"{info}/LICENSE": _read("..", "..", "LICENSE"),
        f"{info}/WHEEL": f"Wheel-Version: 1.0\nGenerator: xvsh\nRoot-Is-Purelib: false\nTag: {TAG}\n".encode(),
    }
    with zipfile.ZipFile(os.path.join(wheel_directory, name), "w") as wheel:
        record = "".join([_add(wheel, path, data, 0o755 if path.endswith(".so") else 0o644) for path, data in files.items()])
        _add(wheel, f"{info}/RECORD", (record + f"{info}/RECORD,,\n").encode())
    return name


def build_sdist(sdist_directory: str, config_settings: Any = None) -> str:
    """There is none: the library is proved and built by a checkout."""
    sys.exit("xvsh: there is no package of sources: bindings/build of a checkout builds the library")
