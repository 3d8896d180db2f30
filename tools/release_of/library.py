"""The library for C, as an archive that is unpacked anywhere."""
from __future__ import annotations

import re
from pathlib import Path
from typing import Iterator

from library_of.record import NAME
from package_of.about import proof_line, record_of
from package_of.binaries import SHARED, STATIC, stripped
from package_of.built import MADE_BY_LIBRARY
from package_of.contents import SHARED_NAME
from package_of.documents import OF_LIBRARY, document
from package_of.items import Item, Refused, read
from package_of.manual import library_pages
from package_of.sources import Sources

SYSTEM = "x86_64-linux"
# Of the description for pkg-config, in a folder below that of the libraries.
PLACES = {"prefix": "${pcfiledir}/../..", "libdir": "${prefix}/lib",
          "includedir": "${prefix}/include"}


def name_of(sources: Sources) -> str:
    return f"libdukpt-{sources.packed}-{SYSTEM}"


def library_items(sources: Sources) -> Iterator[Item]:
    """Header, libraries, examples, documents, manual pages."""
    top = name_of(sources)
    for path, data in {**of_c(sources), **of_documents(sources)}.items():
        yield Item(f"{top}/{path}", data)
    yield Item(f"{top}/lib/libdukpt.so", target=SHARED_NAME)


def of_c(sources: Sources) -> dict[str, bytes]:
    return {
        "include/dukpt.h": read(sources.library / "dukpt.h", MADE_BY_LIBRARY),
        "lib/libdukpt.a": stripped(sources.library / "libdukpt.a", STATIC),
        f"lib/{SHARED_NAME}": stripped(sources.library / SHARED_NAME, SHARED),
        "lib/pkgconfig/dukpt.pc": with_places(sources.library / "dukpt.pc"),
    }


def of_documents(sources: Sources) -> dict[str, bytes]:
    held = set(OF_LIBRARY)
    return {
        NAME: record_of(name_of(sources), proof_line(sources.proofs.is_library_proved, sources),
                        {**sources.record.made_of, **sources.record.files}, sources),
        "copyright": sources.share("debian", "copyright"),
        **{name: document(sources, name, held) for name in OF_LIBRARY},
        **{f"examples/{it.name}": read(it) for it in sources.below("library/examples")},
        **{f"man/man3/{name}": data for name, data in library_pages(sources.root).items()},
    }


def with_places(path: Path) -> bytes:
    """The description for pkg-config, with the folders of the archive."""
    text = read(path, MADE_BY_LIBRARY).decode()
    for name, value in PLACES.items():
        text, count = re.subn(rf"^{name}=.*$", lambda _: f"{name}={value}", text, flags=re.M)
        if count != 1:
            raise Refused(f"{path}: it has {count} lines {name}=, and not one")
    return text.encode()
