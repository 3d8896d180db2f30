"""The symbols of the shared library, by which programs over it get their dependencies."""
from __future__ import annotations

import re
from pathlib import Path
from typing import Iterator

from .binaries import said_by
from .items import Item, Refused
from .sources import Sources

FILE = "libdukpt0.symbols"
# A symbol that is defined: its section, its name, and its version where it has one.
EXPORT = re.compile(r"^ +\d+: \w+ +\d+ \w+ +GLOBAL +DEFAULT +(?!UND)(\w+) (\S+)$", re.M)
LISTED = re.compile(r"^ (\S+) \S+$", re.M)


def symbols(sources: Sources, library: Path) -> Item:
    """The file of symbols, which lists what the built library exports."""
    data = sources.share("debian", FILE)
    listed, exported = set(LISTED.findall(data.decode())), set(exports(library))
    if listed != exported:
        raise Refused(f"{library}: it exports {spoken(exported - listed)} that share/debian/{FILE}"
                      f" has not, and lacks {spoken(listed - exported)} of it")
    return Item("symbols", data)


def exports(library: Path) -> Iterator[str]:
    """The symbols of a library, as the file of symbols writes them. The name of a version is in no
    section, and its own version."""
    for section, name in EXPORT.findall(said_by("readelf", "--wide", "--dyn-syms", str(library))):
        symbol, _, version = name.replace("@@", "@").partition("@")
        yield f"{symbol}@{symbol if section == 'ABS' else version or 'Base'}"


def spoken(names: set[str]) -> str:
    return ", ".join(sorted(names)) or "nothing"
