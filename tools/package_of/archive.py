"""The file of a package: equal files, dates and fields give equal bytes. It needs `dpkg-deb`."""
from __future__ import annotations

import hashlib
import os
import subprocess
from pathlib import Path
from typing import Iterable, Sequence

from .items import FOLDER, PLAIN, Item, Refused

KIB = 1024


def write_package(tree: Path, made: Path, items: Sequence[Item], control: Sequence[Item],
                  seconds: int) -> None:
    """Makes the file of a package out of its files and those of its control part, by way of a new
    folder."""
    of_control = (Item(f"DEBIAN/{it.path}", it.data, it.mode) for it in control)
    lay_out(tree, [*items, *of_control], seconds)
    pack(tree, made, seconds)


def lay_out(tree: Path, items: Iterable[Item], seconds: int) -> None:
    """Writes files with their modes, and gives all and their folders one date."""
    tree.mkdir()
    for it in items:
        path = tree / it.path
        path.parent.mkdir(parents=True, exist_ok=True)
        if it.target:
            path.symlink_to(it.target)
        else:
            path.write_bytes(it.data)
            path.chmod(it.mode)
    for path in sorted(tree.rglob("*"), reverse=True):
        if path.is_dir() and not path.is_symlink():
            path.chmod(FOLDER)
        os.utime(path, (seconds, seconds), follow_symlinks=False)
    tree.chmod(FOLDER)
    os.utime(tree, (seconds, seconds))


def pack(tree: Path, made: Path, seconds: int) -> None:
    """Files belong to root, stand in the order of their names, and are compressed by one thread,
    since several leave other bytes."""
    words = ["dpkg-deb", "--root-owner-group", "-Zxz", "--build", str(tree), str(made)]
    environment = {"PATH": os.environ["PATH"], "LC_ALL": "C.UTF-8", "DPKG_DEB_THREADS_MAX": "1",
                   "SOURCE_DATE_EPOCH": str(seconds)}
    try:
        done = subprocess.run(words, capture_output=True, text=True, env=environment, check=False)
    except FileNotFoundError:
        raise Refused("there is no dpkg-deb: it is in the Debian package dpkg") from None
    if done.returncode:
        raise Refused(f"dpkg-deb: {done.stderr.strip()}")


def sums(items: Iterable[Item]) -> Item:
    """The file of checksums, by which an installed package can be checked."""
    lines = [f"{hashlib.md5(it.data, usedforsecurity=False).hexdigest()}  {it.path}\n"
             for it in items if not it.target]
    return Item("md5sums", "".join(lines).encode())


def installed_size(items: Iterable[Item]) -> int:
    """The KiB that a package takes: those of its files, and one for each folder and link."""
    held = list(items)
    folders = {parent for it in held for parent in Path(it.path).parents}
    files = sum(-(-len(it.data) // KIB) if not it.target else 1 for it in held)
    return files + len(folders)


def plain(path: str, text: str) -> Item:
    return Item(path, text.encode(), PLAIN)
