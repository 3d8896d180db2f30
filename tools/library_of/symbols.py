"""The names that a built file has for others."""
from __future__ import annotations

import re
import subprocess
from pathlib import Path

from .calls import Unreadable


def exported(path: Path) -> list[str]:
    """The names that an archive defines for others, or a shared library, there with versions."""
    words = ["nm", "--defined-only", "--format=posix", "--extern-only"]
    words += ["--dynamic", "--with-symbol-versions"] if ".so" in path.name else []
    done = subprocess.run([*words, str(path)], capture_output=True, text=True, check=False)
    if done.returncode != 0:
        raise Unreadable(f"nm cannot read {path}: {done.stderr.strip()}")
    lines = (line.split() for line in done.stdout.splitlines() if not line.endswith("]:"))
    # A version of symbols is an absolute one.
    return sorted(line[0] for line in lines if len(line) > 1 and line[1] != "A")


def soname(path: Path) -> str:
    """The name by which programs find a shared library."""
    done = subprocess.run(["objdump", "-p", str(path)], capture_output=True, text=True, check=False)
    found = re.search(r"^\s*SONAME\s+(\S+)", done.stdout, re.MULTILINE)
    return found[1] if found else "none"
