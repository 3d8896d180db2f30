"""The version, which one line of the program's source says, and whether all else says the same."""
from __future__ import annotations

import ctypes
import re
import subprocess
from pathlib import Path
from typing import Iterator

from .items import Refused, read

NUMBER = r"\d+\.\d+\.\d+"
SOURCE = Path("crates/duk_program/src/command_line.rt")


def found_in(path: Path, pattern: str) -> str:
    """What a pattern finds first in a file, with the version as its group."""
    found = re.search(pattern, read(path).decode(), re.M)
    return found[1] if found else "none"


def of_program(path: Path) -> str:
    try:
        said = subprocess.run([path.absolute(), "--version"], capture_output=True, text=True,
                              timeout=60, check=False).stdout
    except (OSError, subprocess.TimeoutExpired) as why:
        raise Refused(f"{path} --version: {why}") from None
    return said.strip().removeprefix("dukpt ")


def of_library(path: Path) -> str:
    """What its `dukpt_version` answers: a byte each, from the third byte down."""
    try:
        number = ctypes.CDLL(str(path.absolute())).dukpt_version()
    except (OSError, AttributeError) as why:
        raise Refused(f"{path}: {why}") from None
    return ".".join(str(number >> shift & 0xFF) for shift in (16, 8, 0))


def said_elsewhere(root: Path, program: Path, library: Path) -> Iterator[tuple[str, str]]:
    """Who else says a version, and which one."""
    yield f"{program} --version", of_program(program)
    yield f"dukpt_version() of {library / 'libdukpt.so.0'}", of_library(library / "libdukpt.so.0")
    of_files: tuple[tuple[Path, str], ...] = (
        (library / "dukpt.pc", rf"^Version: *({NUMBER})$"),
        (root / "library/python/dukpt/_version.py", rf'^__version__.*"({NUMBER})"$'),
        (root / "library/python/pyproject.toml", rf'^version = "({NUMBER})"$'),
        (root / "CHANGELOG.md", rf"\b({NUMBER})\b"),
        *((page, rf'^\.TH .*"dukpt ({NUMBER})"') for page in sorted(root.glob("share/man/*.1"))))
    for path, pattern in of_files:
        yield str(path), found_in(path, pattern)


def version_of(root: Path, program: Path, library: Path) -> str:
    """The version of all packages."""
    version = found_in(root / SOURCE, rf'^const VERSION: &str = "({NUMBER})";$')
    others = [f"{who} says {said}" for who, said in said_elsewhere(root, program, library)
              if said != version]
    if others:
        raise Refused(f"the version is {version} by {SOURCE}, but " + ", and ".join(others))
    return version
