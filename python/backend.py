"""Makes the wheel of the package for pip. It needs nothing but Python, so pip fetches nothing."""

from __future__ import annotations

import base64
import hashlib
import zipfile
from pathlib import Path
from typing import Dict

NAME, VERSION = "comfusy", "1.0"
INFO = f"{NAME}-{VERSION}.dist-info"
METADATA = f"""\
Metadata-Version: 2.1
Name: {NAME}
Version: {VERSION}
Summary: Complete functional synthesis for integers and sets: a relation in, a program out
License: MIT OR Apache-2.0
Requires-Python: >=3.8
"""
WHEEL = f"""\
Wheel-Version: 1.0
Generator: {NAME}
Root-Is-Purelib: true
Tag: py3-none-any
"""


def contents() -> Dict[str, bytes]:
    """The files of the wheel by their names, without the record of them."""
    package = Path(__file__).resolve().parent / NAME
    files = {f"{NAME}/{path.name}": path.read_bytes() for path in sorted(package.iterdir()) if path.is_file()}
    return {**files, f"{INFO}/METADATA": METADATA.encode(), f"{INFO}/WHEEL": WHEEL.encode()}


def row(name: str, text: bytes) -> str:
    """What the record says of a file."""
    digest = base64.urlsafe_b64encode(hashlib.sha256(text).digest()).rstrip(b"=").decode()
    return f"{name},sha256={digest},{len(text)}\n"


def build_wheel(wheel_directory: str, config_settings: object = None, metadata_directory: object = None) -> str:
    """Puts the wheel into the folder, and says its name."""
    files, record = contents(), f"{INFO}/RECORD"
    rows = "".join(row(name, text) for name, text in files.items())
    wheel = f"{NAME}-{VERSION}-py3-none-any.whl"
    with zipfile.ZipFile(Path(wheel_directory) / wheel, "w") as archive:
        for name, text in files.items():
            archive.writestr(name, text)
        archive.writestr(record, f"{rows}{record},,\n")
    return wheel
