"""What is wrong with the definitions, the generated text, and the clauses that a document names."""
from __future__ import annotations

import re
from pathlib import Path
from typing import Iterator

from .proved import named_in
from .reach import Reach
from .report import Report, node_of
from .specs import INNER, SpecFile

PROVED = ("docs", "PROVED.md")
READING = ("docs", "DEFINITIONS.md")
GENERATED = ("docs", "definitions.txt")
OWN = re.compile(r"this (?:project|example)'s own")
CODED = re.compile(r"`([^`]+)`")
STANDARD = re.compile(r"(?:NIST SP|ANSI X|ISO/IEC|ISO|FIPS|RFC) ?[\d.]+(?:-[\d]+[A-D]?)?")


def faults(root: Path) -> list[str]:
    """Each fault in a line."""
    reach = Reach(root)
    report = Report(reach, root.joinpath(*PROVED))
    found = list(misplaced(reach, report)) + list(without_source(reach))
    found += list(gone_clauses(reach, root.joinpath(*PROVED)))
    found += list(gone_files(reach, root.joinpath(*READING)))
    generated = root.joinpath(*GENERATED)
    if not generated.exists() or generated.read_text(encoding="utf-8") != report.text():
        found.append(f"{'/'.join(GENERATED)} is not what tools/definitions writes: run it")
    return found


def misplaced(reach: Reach, report: Report) -> Iterator[str]:
    """Definitions that no public clause reaches stand in the inner folder, and no others do."""
    for file in reach.files.values():
        reached = [it for it in file.definitions if node_of(file, it) in report.public]
        others = [it for it in file.definitions if it not in reached]
        where = place(reach, file)
        if file.is_inner() and reached:
            yield f"{where}: a public clause reaches {names(reached)}, so it stands in specs/{INNER}/"\
                " by mistake"
        elif not file.is_inner() and others:
            yield f"{where}: no public clause reaches {names(others)}: move it into specs/{INNER}/"


def without_source(reach: Reach) -> Iterator[str]:
    """A file of definitions names its source once, at its head."""
    for file in reach.files.values():
        sources = {*OWN.findall(file.head), *STANDARD.findall(file.head)}
        if not sources:
            yield f"{place(reach, file)}: its head names no source"
        for definition in file.definitions:
            for source in sorted(sources):
                if source in definition.comment:
                    yield f"{place(reach, file)}: {definition.name} names {source} again"


def gone_clauses(reach: Reach, proved: Path) -> Iterator[str]:
    for it in named_in(proved):
        if not it.calls(reach.calls):
            yield f"{'/'.join(PROVED)}, line {it.line}: there is no public {it.written()}"


def gone_files(reach: Reach, reading: Path) -> Iterator[str]:
    """A table of what is to be read names, after a crate, its files of code and of definitions."""
    for number, line in enumerate(reading.read_text(encoding="utf-8").splitlines(), 1):
        crate = ""
        for name in CODED.findall(line) if line.startswith("|") else ():
            if name.startswith("duk_"):
                crate = name
            elif crate and not is_there(reach, crate, name):
                yield f"{'/'.join(READING)}, line {number}: {crate} has no {name}"


def is_there(reach: Reach, crate: str, name: str) -> bool:
    """Whether a crate has this file of code or of definitions, or a definition of this name. Other
    names, as those of functions, are not looked for."""
    if name.startswith("src/"):
        return (reach.root / "crates" / crate / name).exists()
    if not re.fullmatch(r"[A-Z]\w*", name) or (crate, name) in reach.files:
        return True
    return any(file.named(name) for key, file in reach.files.items() if key[0] == crate)


def place(reach: Reach, file: SpecFile) -> str:
    return str(file.path.relative_to(reach.root))


def names(definitions: list) -> str:
    return ", ".join(it.name for it in definitions)
