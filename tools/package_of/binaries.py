"""Compiled files: which packages of Debian they need, and what is left of them without their
debugging symbols. It needs `readelf` and `strip` of binutils."""
from __future__ import annotations

import os
import re
import subprocess
import tempfile
from pathlib import Path
from typing import Iterable

from .items import Refused

# Where Debian for this architecture has its libraries.
ARCHITECTURE, TRIPLET, MACHINE = "amd64", "x86_64-linux-gnu", "Advanced Micro Devices X86-64"
# The packages of the libraries that a compiled file may need: all have been there since before the
# oldest Debian that has the C library of its symbols.
PACKAGES = {"libc.so.6": "libc6", "libm.so.6": "libc6", "ld-linux-x86-64.so.2": "libc6",
            "libgcc_s.so.1": "libgcc-s1"}
# What Debian takes out of a program, a shared and a static library.
PROGRAM = ("--remove-section=.comment", "--remove-section=.note")
SHARED = (*PROGRAM, "--strip-unneeded")
STATIC = (*PROGRAM, "--strip-debug", "--enable-deterministic-archives")


def said_by(*words: str) -> str:
    """What a tool writes, which must end well."""
    try:
        done = subprocess.run(words, capture_output=True, text=True, check=False,
                              env={"PATH": os.environ["PATH"], "LC_ALL": "C.UTF-8"})
    except FileNotFoundError:
        raise Refused(f"there is no {words[0]}: it is in the Debian package binutils") from None
    if done.returncode:
        raise Refused(f"{words[0]}: {done.stderr.strip()}")
    return done.stdout


def stripped(path: Path, ways: Iterable[str]) -> bytes:
    """A compiled file without its debugging symbols."""
    with tempfile.TemporaryDirectory() as folder:
        made = Path(folder) / path.name
        said_by("strip", *ways, "-o", str(made), str(path))
        return made.read_bytes()


def needed(path: Path) -> list[str]:
    """The packages that a program or a shared library needs, as a field of control has them. Of the C
    library that is the version of the newest symbol that it uses."""
    text = said_by("readelf", "--wide", "--file-header", "--dynamic", "--version-info", str(path))
    if not re.search(rf"Machine: +{re.escape(MACHINE)}$", text, re.M):
        raise Refused(f"{path}: it is compiled for another machine than {MACHINE}")
    libraries = re.findall(r"\(NEEDED\) .*\[(.*)\]", text)
    for library in libraries:
        if library not in PACKAGES:
            raise Refused(f"{path}: no package is known for {library}, which it needs")
    versions = re.findall(r"Name: GLIBC_([\d.]+)", text)
    newest = max(versions, key=lambda it: [int(part) for part in it.split(".")], default="")
    at_least = {"libc6": f"libc6 (>= {newest})"} if newest else {}
    return [at_least.get(it, it) for it in sorted({PACKAGES[library] for library in libraries})]
