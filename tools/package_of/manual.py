"""The manual pages of the library in C, which tools/library-manual makes of its header."""
from __future__ import annotations

import subprocess
import sys
import tempfile
from pathlib import Path

from .items import Refused, read

TOOL = Path("tools/library-manual")


def library_pages(root: Path) -> dict[str, bytes]:
    """The pages by the names of their files."""
    with tempfile.TemporaryDirectory() as folder:
        done = subprocess.run([sys.executable, root / TOOL, folder], capture_output=True, text=True,
                              check=False)
        if done.returncode:
            raise Refused(f"{TOOL}: {done.stderr.strip()}")
        return {it.name: read(it) for it in sorted(Path(folder).iterdir())}
