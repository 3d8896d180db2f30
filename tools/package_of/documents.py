"""The documents of the packages. They stand as in the repository, so that their links lead to one
another."""
from __future__ import annotations

import gzip
from pathlib import Path
from typing import AbstractSet, Iterator, Sequence

from .items import Item
from .links import Document
from .sources import Sources

# What whoever runs the program reads, and who calls the library. The others are for those who change
# them.
OF_PROGRAM = (
    "README.md", "docs/COMMANDS.md", "docs/DECISIONS.md", "docs/DEFINITIONS.md",
    "docs/DEPLOYMENT.md", "docs/FORMATS.md", "docs/LIBRARY.md", "docs/OPERATION.md",
    "docs/PERFORMANCE.md", "docs/PROVED.md", "docs/SECURITY.md", "docs/calls.txt")
OF_LIBRARY = ("docs/DEFINITIONS.md", "docs/FORMATS.md", "docs/LIBRARY.md", "docs/calls.txt")
# What these documents show, and the page with its picture.
PAGE = "page/dukpt.html"
SHOWN = ("docs/page.png", "docs/pictures/hosts.svg", "docs/pictures/journal.svg", "docs/pictures/keys.svg",
         "docs/pictures/latency.svg", "docs/pictures/lost_reply.svg", "docs/pictures/power_failure.svg",
         "docs/pictures/reversal.svg", PAGE)


def documents(sources: Sources, package: str, names: Sequence[str],
              shown: Sequence[str] = ()) -> Iterator[Item]:
    """Documents, and what they show."""
    held = {*names, *shown}
    for name in names:
        yield Item(f"usr/share/doc/{package}/{name}", document(sources, name, held))
    for name in shown:
        yield Item(f"usr/share/doc/{package}/{name}", sources.read(name))


def document(sources: Sources, name: str, held: AbstractSet[str]) -> bytes:
    """A document, beside these paths of the repository."""
    return Document(sources.root, Path(name), held).text_of(sources.read(name)).encode()


def compressed(data: bytes) -> bytes:
    return gzip.compress(data, 9, mtime=0)
