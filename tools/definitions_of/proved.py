"""The clauses that docs/PROVED.md names.

`FUNCTION.CLAUSE` names a clause of a public function, by its path from the crate on, and `.CLAUSE`
another clause of the function before it in the same line. `FUNCTION()` and a path with `::` name a
function alone. The crate is that of the path, or one that stands alone in backticks in the line, or
else in the heading; a method of a type may be of any crate. Under the headline it is `duk_net`, and
the table there has a row for each law.
"""
from __future__ import annotations

import re
from dataclasses import dataclass
from pathlib import Path

from .reach import Call

SPAN = re.compile(r"`([^`\s/(){}\[\]<>]*(?:\(\))?)`")
NAMED = re.compile(r"((?:\w+::)*\w+)?(?:\.(\w+)|(\(\)))?$")
FILES = (".rt", ".antt", ".md", ".txt", ".py", ".edit", ".edits", ".toml")
HEADLINE = "## The headline"
OF_HEADLINE = ["duk_net"]


@dataclass
class Named:
    """A function, or one of its clauses, as a line of the document names it."""

    line: int
    row: str
    crates: list[str]
    function: str
    clause: str

    def written(self) -> str:
        return self.function + (f".{self.clause}" if self.clause else "")

    def calls(self, calls: list[Call]) -> list[Call]:
        """The calls that this may be: those of its function that have its clause."""
        crate, _, rest = self.function.partition("::")
        known = rest and any(it.crate == crate for it in calls)
        name = rest if known else self.function
        crates = [crate] if known else [] if re.match(r"[A-Z]\w*::", name) else self.crates
        return [it for it in calls if it.name == name and (not crates or it.crate in crates)
                and (not self.clause or self.clause in it.names())]


def named_in_line(number: int, line: str, crates: list[str]) -> list[Named]:
    spans = [it for it in SPAN.findall(line) if not it.endswith(FILES)]
    alone = [it for it in spans if re.fullmatch(r"duk_\w+|dukpt", it)]
    row = line.strip("| ").split("|")[0].strip() if line.startswith("|") else ""
    found, function = [], ""
    for span in spans:
        parts = NAMED.match(span)
        if parts and (parts[2] or parts[3] or "::" in span):
            function = parts[1] or function
            found.append(Named(number, row, alone or crates, function, parts[2] or ""))
    return found


def named_in(path: Path) -> list[Named]:
    """All that the document names, in its order."""
    found: list[Named] = []
    crates: list[str] = []
    for number, line in enumerate(path.read_text(encoding="utf-8").splitlines(), 1):
        if line.startswith("#"):
            crates = OF_HEADLINE if line == HEADLINE else re.findall(r"`(duk_\w+|dukpt\w*)`", line)
        found += named_in_line(number, line, crates)
    return found


def laws_in(path: Path) -> dict[str, list[Named]]:
    """The laws of the headline by their names, each with the clauses in its row."""
    text = path.read_text(encoding="utf-8")
    lines = text.splitlines()
    start = lines.index(HEADLINE) + 1 if HEADLINE in lines else len(lines)
    end = next((at for at in range(start, len(lines)) if lines[at].startswith("## ")), len(lines))
    laws: dict[str, list[Named]] = {}
    for it in named_in(path):
        if start < it.line <= end and it.row and it.clause and it.function == "run":
            laws.setdefault(it.row, []).append(it)
    return laws
