"""What packages are made of."""
from __future__ import annotations

import shutil
from dataclasses import dataclass
from pathlib import Path

from library_of.record import Record

from .built import Proofs
from .items import EXECUTABLE, Item, Refused, read
from .revision import NONE, Revision

# What tools leave in folders, where there is no repository that tells it from sources.
LEFT_OUT = ("__pycache__", "target", "build", "dist")


@dataclass(frozen=True)
class Sources:
    """The repository, the built program, the folder of the library; and what is known of them."""

    root: Path
    program: Path
    library: Path
    # The version of program and library, and that of the packages.
    version: str
    packed: str
    revision: Revision
    proofs: Proofs
    record: Record

    def share(self, *path: str) -> bytes:
        return self.read("/".join(("share", *path)))

    def read(self, name: str) -> bytes:
        """A file of the repository. One that git ignores is none of it."""
        path = self.root / name
        if path.exists() and not self.has(path):
            raise Refused(f"{path}: it is in no commit, and git ignores it")
        return read(path)

    def below(self, folder: str) -> list[Path]:
        """The files of a folder of the repository and of those in it, in the order of their names:
        those that the commit has or that are changes, and where there is no repository all."""
        found = sorted((self.root / folder).rglob("*"))
        return [it for it in found if it.is_file() and self.has(it)]

    def has(self, path: Path) -> bool:
        name = path.relative_to(self.root)
        if self.revision.commit == NONE:
            return not {*LEFT_OUT} & {*name.parts}
        return str(name) in self.revision.files


def scripts(sources: Sources, package: str) -> list[Item]:
    """The scripts that dpkg runs as it installs and removes a package."""
    kinds = ("preinst", "postinst", "prerm", "postrm")
    places = [(kind, f"share/debian/{package}.{kind}") for kind in kinds]
    return [Item(kind, sources.read(name), EXECUTABLE) for kind, name in places
            if (sources.root / name).exists()]


def lay_out(sources: Sources, folder: str, to: Path) -> None:
    """Copies a folder of the repository to where nothing is."""
    for path in sources.below(folder):
        copied = to / path.relative_to(sources.root / folder)
        copied.parent.mkdir(parents=True, exist_ok=True)
        shutil.copy2(path, copied)
