"""A copy of this system's files, in which packages are installed: an overlay that goes with it.

Below it stands the root of this system, as it is; what is written goes into memory. Processes in it
see no others, and end with it. It needs root, and the commands of util-linux.
"""
from __future__ import annotations

import os
import signal
import stat
import subprocess
from pathlib import Path
from typing import IO, Iterator, Optional, Union

from ..program import Ended, Word

SECONDS = 240
PATH = "/usr/local/sbin:/usr/local/bin:/usr/sbin:/usr/bin:/sbin:/bin"
# It makes the root, says so, and waits for the end of its input.
MOUNTS = """
set -e
cd "$1"
mount -t tmpfs -o mode=755 dukpt-test .
cd "$1"
mkdir upper work root
mount -t overlay -o lowerdir=/,upperdir=upper,workdir=work dukpt-test root
mount -t proc proc root/proc
mount --rbind /dev root/dev
mount -t tmpfs -o mode=755 dukpt-test root/run
mount -t tmpfs -o mode=1777 dukpt-test root/tmp
echo made
cat >/dev/null
"""


class SystemRoot:
    """The copy, over a new folder. `close` ends it."""

    def __init__(self, folder: Path) -> None:
        if os.geteuid():
            raise AssertionError("it needs root: packages are installed, with their account")
        self.folder = folder.resolve()
        self.holder = subprocess.Popen(
            ["unshare", "--mount", "--pid", "--fork", "--kill-child", "bash", "-c", MOUNTS, "bash",
             self.folder],
            stdin=subprocess.PIPE, stdout=subprocess.PIPE, stderr=subprocess.PIPE, text=True)
        if self.holder.stdout.readline() != "made\n":
            raise AssertionError(f"no copy of the system: {self.holder.communicate()[1]}")
        children = Path(f"/proc/{self.holder.pid}/task/{self.holder.pid}/children").read_text()
        self.inner = int(children.split()[0])

    def close(self) -> None:
        self.holder.send_signal(signal.SIGKILL)
        self.holder.communicate()

    def words(self, *words: Word) -> list[str]:
        """The command that runs these words in the root, with an environment as of systemd."""
        enter = ["nsenter", "--target", str(self.inner), "--mount", "--pid", "--root"]
        alone = ["env", "-i", f"PATH={PATH}", "LANG=C.UTF-8", "DEBIAN_FRONTEND=noninteractive"]
        return [*enter, "chroot", f"{self.folder}/root", *alone, *map(os.fspath, words)]

    def run(self, *words: Word, given: bytes = b"") -> Ended:
        done = subprocess.run(self.words(*words), input=given, capture_output=True, check=False,
                              timeout=SECONDS)
        return Ended(done.returncode, done.stdout, done.stderr)

    def start(self, *words: Word, stream: Union[int, IO[bytes]],
              faults: Optional[int] = subprocess.PIPE) -> subprocess.Popen:
        """Starts a command whose input and output are one stream."""
        return subprocess.Popen(self.words(*words), stdin=stream, stdout=stream, stderr=faults)

    def path(self, path: str, layer: str = "root") -> Path:
        """A file of the root as this process sees it."""
        return Path(f"/proc/{self.inner}/root{self.folder}/{layer}") / path.lstrip("/")

    def changes(self) -> Iterator[str]:
        """The paths of files, links and folders that the system below has otherwise or not at all.
        A file that is there again with the same bytes, and a folder that is there below, is no
        change."""
        upper = self.path("", "upper")
        for place, folders, files in os.walk(upper):
            for name in (*folders, *files):
                path = os.path.relpath(os.path.join(place, name), upper)
                if not is_as_below(upper / path, Path("/") / path):
                    yield path


def is_as_below(path: Path, below: Path) -> bool:
    try:
        mine, theirs = path.lstat(), below.lstat()
    except FileNotFoundError:
        return False
    if stat.S_IFMT(mine.st_mode) != stat.S_IFMT(theirs.st_mode):
        return False
    return not stat.S_ISREG(mine.st_mode) or path.read_bytes() == below.read_bytes()
