"""A file system that is full when a few pages are: a tmpfs that one process alone sees mounted, and with
which it goes. Others reach it through the folder of that process below /proc."""
from __future__ import annotations

import os
import subprocess
from pathlib import Path

PAGE = os.sysconf("SC_PAGE_SIZE")
MOUNT = 'mount -t tmpfs -o size="$1" none "$2" && echo mounted && exec cat'
IN_NAMESPACES = ("unshare", "--user", "--map-root-user", "--mount", "sh", "-c", MOUNT, "sh")


class NoSmallFiles(AssertionError):
    """That there is no such file system here, and why."""


class SmallFiles:
    """A file system with room for so many pages, at `folder`. A hole of a file takes none."""

    def __init__(self, place: Path, pages: int) -> None:
        self.keeper = subprocess.Popen(
            [*IN_NAMESPACES, str(pages * PAGE), place], stdin=subprocess.PIPE,
            stdout=subprocess.PIPE, stderr=subprocess.PIPE)
        self.folder = Path(f"/proc/{self.keeper.pid}/root{place}")
        if self.keeper.stdout.readline() != b"mounted\n":
            why = self.keeper.stderr.read().decode(errors="replace")
            self.close()
            raise NoSmallFiles(f"this test needs the right to mount a tmpfs: {why}")

    def free(self) -> int:
        """How many pages are free."""
        found = os.statvfs(self.folder)
        return found.f_bfree * found.f_bsize // PAGE

    def close(self) -> None:
        self.keeper.communicate()
