"""Makes the wheel of this folder, for pip (PEP 517, PEP 427), with the standard library alone.

The package, and the test vectors inside it: what is installed needs nothing of this folder.
"""
from __future__ import annotations

import base64
import hashlib
import re
import zipfile
from pathlib import Path
from typing import Iterator, Optional

FOLDER = Path(__file__).resolve().parent.parent
PACKAGE = "dukpt_check"
# A line of pyproject.toml. Python reads TOML from its version 3.11 on.
LINE = re.compile(r'^([a-z-]+) = "(.*)"$', re.MULTILINE)
# The oldest date that an archive can have: equal files give equal wheels.
DATE = (1980, 1, 1, 0, 0, 0)


def build_wheel(
    wheel_directory: str,
    config_settings: Optional[dict[str, object]] = None,
    metadata_directory: Optional[str] = None,
) -> str:
    """Writes the wheel into a directory, and gives its name."""
    project = dict(LINE.findall((FOLDER / "pyproject.toml").read_text(encoding="utf-8")))
    title = f"{PACKAGE}-{project['version']}"
    name, information = f"{title}-py3-none-any.whl", f"{title}.dist-info"
    listed = []
    with zipfile.ZipFile(Path(wheel_directory) / name, "w", zipfile.ZIP_DEFLATED) as wheel:
        for path, content in files(project, information):
            write(wheel, path, content)
            listed.append(f"{path},sha256={digest(content)},{len(content)}\n")
        record = f"{information}/RECORD"
        write(wheel, record, ("".join(listed) + f"{record},,\n").encode())
    return name


def files(project: dict[str, str], information: str) -> Iterator[tuple[str, bytes]]:
    """The files of the wheel but its record, each with its path."""
    for path in sorted((FOLDER / PACKAGE).glob("*.py")):
        yield f"{PACKAGE}/{path.name}", path.read_bytes()
    for path in sorted(FOLDER.glob("*.json")):
        yield f"{PACKAGE}/vectors/{path.name}", path.read_bytes()
    yield f"{information}/METADATA", (
        f"Metadata-Version: 2.1\nName: {project['name']}\nVersion: {project['version']}\n"
        f"Summary: {project['description']}\nRequires-Python: {project['requires-python']}\n"
    ).encode()
    yield f"{information}/WHEEL", (
        b"Wheel-Version: 1.0\nGenerator: vectors_wheel\nRoot-Is-Purelib: true\n"
        b"Tag: py3-none-any\n")
    yield f"{information}/entry_points.txt", (
        f"[console_scripts]\ndukpt-check = {project['dukpt-check']}\n".encode())


def write(wheel: zipfile.ZipFile, path: str, content: bytes) -> None:
    """Writes a file into the wheel."""
    about = zipfile.ZipInfo(path, DATE)
    about.compress_type, about.external_attr = zipfile.ZIP_DEFLATED, 0o644 << 16
    wheel.writestr(about, content)


def digest(content: bytes) -> str:
    """A file's digest as a record has it."""
    return base64.urlsafe_b64encode(hashlib.sha256(content).digest()).rstrip(b"=").decode()
