"""The test vectors: cases in groups, as the files `*.json` have them."""
from __future__ import annotations

import json
from dataclasses import dataclass
from pathlib import Path
from typing import Any, Iterator, Mapping, Sequence

# What a member of a case's inputs or outputs may be: a text, a number, true, false, null or a list.
Value = Any
SCHEMA = ".schema.json"
BLOCK_BYTES = 8
# The members that are text, some of them in these operations alone. All other texts are bytes in
# hexadecimal.
TEXTS = {"pin", "pan", "header", "code"}
TEXTS_OF = {("wrap", "block"), ("unwrap", "block")}


class VectorsFault(Exception):
    """Why the vectors cannot be used, in a line."""


@dataclass(frozen=True)
class Note:
    """What a flag means, and the section of the standard that it is about."""

    description: str
    section: str = ""


@dataclass(frozen=True)
class Group:
    """What cases of a file have in common: the operation, and the section of the standard."""

    file: str
    place: int
    operation: str
    comment: str
    section: str
    notes: Mapping[str, Note]

    @property
    def name(self) -> str:
        """A name of its own: the file, and the place of the group there, from 1."""
        return f"{self.file} group {self.place}"


@dataclass(frozen=True)
class Case:
    """One case. Its inputs are those that its group shares, and its own."""

    number: int
    group: Group
    comment: str
    flags: tuple[str, ...]
    inputs: Mapping[str, Value]
    is_valid: bool
    outputs: Mapping[str, Value]
    # What this project's own library calls the fault of an invalid case: told, and never compared.
    fault: str

    @property
    def operation(self) -> str:
        """The operation that the case tries."""
        return self.group.operation

    def note(self, flag: str) -> Note:
        """What a flag of the case means."""
        return self.group.notes.get(flag, Note(""))


def is_text(operation: str, member: str) -> bool:
    """Whether an input or an output is text, in which upper and lower case differ."""
    return member in TEXTS or (operation, member) in TEXTS_OF


def read_vectors(folder: Path) -> list[Case]:
    """The cases of all files of a folder, by their numbers."""
    files = sorted(it for it in folder.glob("*.json") if not it.name.endswith(SCHEMA))
    if not files:
        raise VectorsFault(f"{folder} has no vectors: name their folder with --vectors")
    cases = [case for file in files for case in read_file(file)]
    demand_own_numbers(cases)
    return sorted(cases, key=lambda case: case.number)


def read_file(path: Path) -> list[Case]:
    """The cases of a file."""
    try:
        return list(cases_of(path.name, json.loads(path.read_text(encoding="utf-8"))))
    except (OSError, ValueError) as why:
        raise VectorsFault(f"{path} cannot be read: {why}") from why
    except (KeyError, TypeError, AttributeError) as why:
        raise VectorsFault(f"{path} is no file of vectors: {why!r}") from why


def cases_of(name: str, file: Mapping[str, Any]) -> Iterator[Case]:
    """The cases of a file that is read, by its name."""
    notes = {flag: Note(it["description"], it.get("section", ""))
             for flag, it in file.get("notes", {}).items()}
    for place, it in enumerate(file["testGroups"], 1):
        group = Group(name, place, it["operation"], it.get("comment", ""), it["section"], notes)
        for test in it["tests"]:
            yield case_of(group, it.get("inputs", {}), test)


def case_of(group: Group, shared: Mapping[str, Value], test: Mapping[str, Any]) -> Case:
    """A case of a group."""
    result = test["result"]
    if result not in ("valid", "invalid"):
        raise TypeError(f"case {test['tcId']} is {result}")
    return Case(
        number=test["tcId"], group=group, comment=test.get("comment", ""),
        flags=tuple(test.get("flags", ())), inputs={**shared, **test["inputs"]},
        is_valid=result == "valid", outputs=test["outputs"] if result == "valid" else {},
        fault=test.get("fault", ""))


def demand_own_numbers(cases: Sequence[Case]) -> None:
    """That no two cases have one number, for a report names a case by it."""
    seen: dict[int, Case] = {}
    for case in cases:
        other = seen.setdefault(case.number, case)
        if other is not case:
            files = f"{other.group.file} and {case.group.file}"
            raise VectorsFault(f"{files} have a case {case.number}")
