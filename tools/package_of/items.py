"""The files of a package, and why there is none."""
from __future__ import annotations

from dataclasses import dataclass
from pathlib import Path

PLAIN, EXECUTABLE, FOLDER = 0o644, 0o755, 0o755


class Refused(Exception):
    """Why no package is made."""


@dataclass(frozen=True)
class Item:
    """A file at a path below the root of a system, or a symbolic link, which has a target."""

    path: str
    data: bytes = b""
    mode: int = PLAIN
    target: str = ""


def read(path: Path, way: str = "") -> bytes:
    """The bytes of an input. `way` says how a missing one is made."""
    try:
        return path.read_bytes()
    except OSError as why:
        raise Refused(f"{path}: {why.strerror}{way and f': {way}'}") from None
