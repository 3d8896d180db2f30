"""The files that are made of the table of the calls: written, or compared with what they have."""
from __future__ import annotations

import re
from pathlib import Path
from typing import Callable, Iterator, NamedTuple

from .calls import Table, Unreadable
from .made import document, header, linking, page, python, rattle, rust

Maker = Callable[[Table], str]

# Files that are made whole.
FILES: dict[str, Maker] = {
    "crates/dukpt_c/src/lib.rt": rattle.exports,
    "library/c/dukpt.map": linking.symbol_map,
    "library/c/status_texts.inc": linking.status_texts,
    "library/python/dukpt/_exports.py": python.exports,
    "library/rust/src/exports.rs": rust.exports,
    "library/rust/src/fault/kinds.rs": rust.faults,
    "page/call_table.js": page.call_table,
    "docs/calls.txt": document.document,
    "share/debian/libdukpt0.symbols": linking.package_symbols,
}


class Part(NamedTuple):
    """What is made of a file: all between two texts, each of which stands there once."""

    file: str
    begin: str
    end: str
    make: Maker


HEADER = "library/c/dukpt.h"
PARTS = (
    Part(HEADER, "dukpt_version gives for it. */\n", "#define DUKPT_VERSION \\\n", header.version),
    Part(HEADER, "enum dukpt_status {\n", "};\n", header.statuses),
    Part(HEADER, "/* The calls: made of library/calls.toml by `tools/library --make`. */\n\n",
         "\n#ifdef __cplusplus\n}\n", header.declarations),
    Part("library/python/dukpt/faults.py",
         "# The faults: made of library/calls.toml by `tools/library --make`.\n\n",
         "# Each fault by its number.\n", python.faults),
    Part("library/rust/src/calls.rs",
         "// The calls: made of library/calls.toml by `tools/library --make`.\n", "", rust.calls),
)


def made(root: Path, table: Table) -> Iterator[tuple[str, str]]:
    """Each made file with what it has to have."""
    for name, make in FILES.items():
        yield name, make(table)
    for name in dict.fromkeys(part.file for part in PARTS):
        text = root.joinpath(name).read_text(encoding="utf-8")
        for part in PARTS:
            if part.file == name:
                text = replaced(text, part, part.make(table))
        yield name, text


def replaced(text: str, part: Part, new: str) -> str:
    """A text with something else between the two texts of a part."""
    pattern = re.escape(part.begin) + "(.*?)" + (re.escape(part.end) or r"\Z")
    found = re.findall(pattern, text, re.DOTALL)
    if len(found) != 1:
        raise Unreadable(f"{part.file} has {len(found)} parts behind {part.begin.strip()}")
    at = text.index(part.begin) + len(part.begin)
    return text[:at] + new + text[at + len(found[0]):]


def make(root: Path, table: Table) -> list[str]:
    """Writes the made files, and gives the names of those that were others."""
    # All are made before one is written.
    changed = [(name, text) for name, text in list(made(root, table)) if has(root, name) != text]
    for name, text in changed:
        root.joinpath(name).parent.mkdir(parents=True, exist_ok=True)
        root.joinpath(name).write_text(text, encoding="utf-8")
    return [name for name, _ in changed]


def stale(root: Path, table: Table) -> Iterator[str]:
    """Each made file that has something else."""
    for name, text in made(root, table):
        if (found := has(root, name)) != text:
            yield f"{name} is not what library/calls.toml makes: {first_difference(found, text)}"


def has(root: Path, name: str) -> str:
    file = root / name
    return file.read_text(encoding="utf-8") if file.is_file() else ""


def first_difference(found: str, wanted: str) -> str:
    """The first line that is another one."""
    for at, pair in enumerate(zip(found.split("\n"), wanted.split("\n")), 1):
        if pair[0] != pair[1]:
            return f"line {at}"
    return "its end"
