"""Archives of files: equal files, dates and names give equal bytes."""
from __future__ import annotations

import gzip
import io
import tarfile
from pathlib import Path
from typing import Iterable

from package_of.items import FOLDER, Item


def packed(items: Iterable[Item], seconds: int) -> bytes:
    """A compressed archive of files, in the order of their names, which belong to root and have one
    date."""
    held = sorted(items, key=lambda it: it.path)
    folders = sorted({str(it) for file in held for it in Path(file.path).parents} - {"."})
    made = io.BytesIO()
    with tarfile.open(fileobj=made, mode="w", format=tarfile.USTAR_FORMAT) as archive:
        for name in folders:
            archive.addfile(head(name, tarfile.DIRTYPE, FOLDER, seconds))
        for it in held:
            about = head(it.path, tarfile.SYMTYPE if it.target else tarfile.REGTYPE, it.mode, seconds)
            about.linkname, about.size = it.target, len(it.data)
            archive.addfile(about, io.BytesIO(it.data))
    return gzip.compress(made.getvalue(), 9, mtime=0)


def head(name: str, kind: bytes, mode: int, seconds: int) -> tarfile.TarInfo:
    about = tarfile.TarInfo(name)
    about.type, about.mode, about.mtime = kind, mode, seconds
    about.uname = about.gname = "root"
    return about
