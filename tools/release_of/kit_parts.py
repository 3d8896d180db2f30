"""The libraries of the Rattle kit that are linked into program and library, as far as the kit tells
of them."""
from __future__ import annotations

import re
from dataclasses import dataclass
from pathlib import Path
from typing import Iterator

from library_of.kit import uses_of_crates
from package_of.built import crates_of

NOT_KNOWN = "NOASSERTION"
# All crates stand on it.
STANDARD = "std"
# The crate of Rust that a library of the kit is a port of, with its version, by the library's page.
PORT_OF = re.compile(r"[Cc]rates? `([\w-]+)` (\d[\w.]*\d)")
# Of a page: the licences whose text is the file LICENSE, as in: (MIT or Apache-2.0, `LICENSE`).
TOLD = re.compile(r"\(([A-Z][\w .-]*), `LICENSE`\)")
BOTH, MIT = "MIT OR Apache-2.0", "MIT"
LICENCES = {"MIT": "MIT", "Apache-2.0": "Apache-2.0", "Apache 2.0": "Apache-2.0",
            "BSD-3-Clause": "BSD-3-Clause"}
# The text that has to be handed on.
NOTICES = ("LICENSE-MIT", "LICENSE")


@dataclass(frozen=True)
class KitPart:
    """A library of the kit."""

    name: str
    # The crate of Rust and its version, where it is a port of one.
    port_of: str
    licence: str
    notice: str


def kit_parts(kit: Path, crate: str) -> Iterator[KitPart]:
    """Those that a crate of the repository, and the crates below it, are linked with."""
    uses = dict(uses_of_crates())
    named = {name for it in crates_of(crate) for name in uses[it] if name not in uses}
    for name in sorted({part for it in {STANDARD, *named} for part in with_those_below(kit, it)}):
        yield part_of(kit / "rattle" / name, name)


def with_those_below(kit: Path, name: str) -> Iterator[str]:
    yield name
    below = kit / "rlibs" / f"{name}.rlib" / "below"
    if below.is_dir():
        yield from (it.name for it in below.iterdir())


def part_of(folder: Path, name: str) -> KitPart:
    page = text_of(folder / "README.md")
    port = PORT_OF.search(page)
    notices = filter(None, (text_of(folder / it) for it in NOTICES))
    return KitPart(name, f"{port[1]} {port[2]}" if port else "", licence_of(folder, page),
                   next(notices, ""))


def licence_of(folder: Path, page: str) -> str:
    """The licences, where the kit has their texts and tells which they are."""
    if (folder / "LICENSE-MIT").exists():
        return BOTH if (folder / "LICENSE-APACHE").exists() else MIT
    told = TOLD.search(page) if (folder / "LICENSE").exists() else None
    words = told[1].split(" or ") if told else []
    known = [LICENCES.get(it.strip(), "") for it in words]
    return " OR ".join(known) if known and all(known) else NOT_KNOWN


def text_of(path: Path) -> str:
    return path.read_text(encoding="utf-8") if path.is_file() else ""
