"""Packs the binding for pip: kaltewi.py as the package kaltewi, with the shared library that ./kaltewi lib has made, or KALTEWI_LIBRARY names.

    pip install bindings/python

It needs nothing from elsewhere. What it packs is for x86-64 Linux, as the library is."""
import base64
import hashlib
import os
import re
import zipfile

import kaltewi

HERE = os.path.dirname(os.path.abspath(__file__))
VERSION = kaltewi.__version__
INFO, TAG = f"kaltewi-{VERSION}.dist-info", "py3-none-linux_x86_64"
METADATA = f"""Metadata-Version: 2.1
Name: kaltewi
Version: {VERSION}
Summary: {re.split(r"[.:]", kaltewi.__doc__)[0]}
License: Apache-2.0
Requires-Python: >=3.8
"""
WHEEL = f"Wheel-Version: 1.0\nGenerator: kaltewi\nRoot-Is-Purelib: false\nTag: {TAG}\n"


def bytes_of(file):
    with open(file, "rb") as it:
        return it.read()


def files():
    """What the package holds, by its names."""
    yield "kaltewi/__init__.py", bytes_of(f"{HERE}/kaltewi.py")
    yield "kaltewi/libkaltewi.so", bytes_of(kaltewi.library_file())
    if os.path.exists(f"{HERE}/../../LICENSE"):
        yield f"{INFO}/LICENSE", bytes_of(f"{HERE}/../../LICENSE")
    yield f"{INFO}/METADATA", METADATA.encode()
    yield f"{INFO}/WHEEL", WHEEL.encode()


def build_wheel(wheel_directory, config_settings=None, metadata_directory=None):
    """Makes the wheel, and gives its name."""
    name, lines = f"kaltewi-{VERSION}-{TAG}.whl", []
    with zipfile.ZipFile(f"{wheel_directory}/{name}", "w", zipfile.ZIP_DEFLATED) as it:
        for path, data in files():
            it.writestr(path, data)
            digest = base64.urlsafe_b64encode(hashlib.sha256(data).digest()).rstrip(b"=").decode()
            lines.append(f"{path},sha256={digest},{len(data)}\n")
        it.writestr(f"{INFO}/RECORD", "".join([*lines, f"{INFO}/RECORD,,\n"]))
    return name


def build_sdist(sdist_directory, config_settings=None):
    raise NotImplementedError("the sources of this package are a checkout of Kaltewi")
