"""The file BUILD beside a built library: what made it, whether that is proved, and the sums of all."""
from __future__ import annotations

import hashlib
from dataclasses import dataclass
from pathlib import Path
from typing import Iterable, Mapping, Union

from .kit import Kit, NotBuilt

NAME = "BUILD"
PROVED, UNPROVED, NO_KIT = "proved", "none", "none"

# The value of a field: a text, or sums by the names of files.
Value = Union[str, Mapping[str, str]]


# The files of the repository that a library is made of, beside the archive, which is proved.
SOURCES = ("library/calls.toml", "library/c/support.c", "library/c/status_texts.inc",
           "library/c/dukpt.map", "library/c/dukpt.pc.in", "library/c/dukpt.h")


@dataclass(frozen=True)
class Record:
    """What a record says."""

    kit: str
    proof: str
    # The SHA-256 of what it was made of, and of each file of the folder, by its name.
    made_of: dict[str, str]
    files: dict[str, str]


def write_record(
    out: Path, names: Iterable[str], version: str, is_proved: bool, made_of: Mapping[str, str]
) -> None:
    """Writes the record of these files of a folder, which were made of what has these sums."""
    (out / NAME).write_text(written({
        "Version": version,
        "Kit": kit_line(),
        "Proof": PROVED if is_proved else UNPROVED,
        "Made-Of": made_of,
        "Files": {name: sum_of(out / name) for name in sorted(names)},
    }), encoding="utf-8")


def read_record(folder: Path) -> Record:
    found = read((folder / NAME).read_text(encoding="utf-8"))
    return Record(str(found.get("Kit", NO_KIT)), str(found.get("Proof", UNPROVED)),
                  sums_in(found, "Made-Of"), sums_in(found, "Files"))


def sums_in(found: Mapping[str, Value], name: str) -> dict[str, str]:
    value = found.get(name, {})
    return {} if isinstance(value, str) else dict(value)


def sums_of_inputs(root: Path, archive: Path) -> dict[str, str]:
    """The sums of all that a library is made of."""
    return {archive.name: sum_of(archive), **{name: sum_of(root / name) for name in SOURCES}}


def kit_line() -> str:
    """What `rt version` prints, where the kit is on the path."""
    try:
        return Kit.version()
    except NotBuilt:
        return NO_KIT


def sum_of(path: Path) -> str:
    return hashlib.sha256(path.read_bytes()).hexdigest()


# The form of the file: fields as Debian's, of which those with sums have a line for each.


def written(fields: Mapping[str, Value]) -> str:
    return "".join(f"{name}: {value}\n" if isinstance(value, str) else
                   f"{name}:\n" + "".join(f" {value[it]} {it}\n" for it in value)
                   for name, value in fields.items())


def read(text: str) -> dict[str, Value]:
    found: dict[str, Value] = {}
    held: dict[str, str] = {}
    for line in text.splitlines():
        if line.startswith(" "):
            sum_, _, name = line[1:].partition(" ")
            held[name] = sum_
            continue
        name, _, value = line.partition(":")
        held = {}
        found[name] = value.strip() or held
    return found


def differing(folder: Path, record: Record) -> Iterable[str]:
    """The files of a folder that are not those of its record."""
    return [name for name, sum_ in record.files.items()
            if not (folder / name).is_file() or sum_of(folder / name) != sum_]
