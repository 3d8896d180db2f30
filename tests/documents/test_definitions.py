"""The definitions below the public contracts: `tools/definitions --check`, and that it finds faults."""
from __future__ import annotations

import re
import shutil
from pathlib import Path

from definitions_of.code import NAMELESS
from definitions_of.faults import GENERATED, PROVED, READING, faults
from definitions_of.reach import Reach
from definitions_of.specs import INNER, SpecFile

from ..support.case import Case
from ..support.program import ROOT

SUFFIXES = (".rt", ".antt")
UNREAD = """\
-- A definition for a trial: this project's own.
use Rattle.std.specs.Prelude.{ℕ}

-- no clause speaks of it
abbrev pub unread : ℕ
unread = 7
"""


def copy_of_sources(to: Path) -> Path:
    """A copy of what the check reads."""
    for path in [*ROOT.glob("crates/*/src/**/*"), *ROOT.glob("crates/*/specs/**/*")]:
        if path.suffix in SUFFIXES:
            target = to / path.relative_to(ROOT)
            target.parent.mkdir(parents=True, exist_ok=True)
            shutil.copy(path, target)
    for parts in (PROVED, READING, GENERATED):
        to.joinpath(*parts).parent.mkdir(exist_ok=True)
        shutil.copy(ROOT.joinpath(*parts), to.joinpath(*parts))
    return to


def reached_files(reach: Reach) -> list[SpecFile]:
    """The files of definitions that public clauses reach."""
    public = {it[1:3] for it in reach.public()}
    return [it for key, it in reach.files.items() if key in public and not it.is_inner()]


class Definitions(Case):
    """No definition, source or named clause is out of place, and the generated text is right."""

    weight = 6

    def test_no_faults(self) -> None:
        self.assertEqual(faults(ROOT), [])

    def test_planted_faults(self) -> None:
        """Each of these is found in a copy, all of them planted at once."""
        root = copy_of_sources(self.folder())
        reach = Reach(root)
        first, second, *_ = reached_files(reach)
        wanted = [plant_unread(first), plant_inner(root, first), plant_no_source(root, second),
                  plant_gone_clause(root, reach), plant_gone_file(root, first),
                  "is not what tools/definitions writes"]
        found = faults(root)
        for want in wanted:
            self.assertTrue(any(want in it for it in found), f"{want} is not in {found}")
        self.tells(f"{len(wanted)} planted faults")


def plant_unread(beside: SpecFile) -> str:
    """A file that no public clause reaches."""
    beside.path.with_name("Unread.antt").write_text(UNREAD, encoding="utf-8")
    return "Unread.antt: no public clause reaches unread"


def plant_inner(root: Path, file: SpecFile) -> str:
    """A file in the inner folder that a public clause reaches."""
    target = file.path.parent / INNER / file.path.name
    target.parent.mkdir(exist_ok=True)
    file.path.rename(target)
    before = f"Rattle.{file.crate}.specs."
    for path in root.glob("crates/**/*"):
        if path.suffix in SUFFIXES:
            text = path.read_text(encoding="utf-8")
            path.write_text(re.sub(rf"{re.escape(before)}(?={file.module}\b)", f"{before}{INNER}.",
                                   text), encoding="utf-8")
    return f"{INNER}/{file.path.name}: a public clause reaches"


def plant_no_source(root: Path, file: SpecFile) -> str:
    """A head that names no source."""
    text = file.path.read_text(encoding="utf-8")
    file.path.write_text(re.sub(r"\A(--.*\n)+", "-- Something.\n", text), encoding="utf-8")
    return f"{file.path.relative_to(root)}: its head names no source"


def plant_gone_clause(root: Path, reach: Reach) -> str:
    """A clause that the document names has another name in the code."""
    call, clause = next((call, clause.name) for call in reach.calls for clause, _ in call.clauses
                        if clause.kind == "ensures" and clause.name != NAMELESS)
    with open(root.joinpath(*PROVED), "a", encoding="utf-8") as document:
        document.write(f"\n`{call.crate}::{call.name}.{clause}`\n")
    text = call.path.read_text(encoding="utf-8")
    call.path.write_text(text.replace(f"ensures {clause} {{", f"ensures other_{clause} {{"),
                         encoding="utf-8")
    return f"there is no public {call.crate}::{call.name}.{clause}"


def plant_gone_file(root: Path, file: SpecFile) -> str:
    """A file that the list of what is to be read names, and that is not there."""
    with open(root.joinpath(*READING), "a", encoding="utf-8") as document:
        document.write(f"\n| 15 | `{file.crate}`: `NotThere` | nothing |\n")
    return f"{file.crate} has no NotThere"
