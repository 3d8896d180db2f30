"""The files of definitions: crates/NAME/specs/**/*.antt."""
from __future__ import annotations

import re
from dataclasses import dataclass, field
from pathlib import Path
from typing import Optional

from .text import words_of

SIGNATURE = re.compile(
    r"(?:abbrev |unfoldable )?(?:pub )?(?:record |data )?(?P<name>[^\s:(){}]+)(?:\s|$)")
KEYWORDS = ("abbrev ", "unfoldable ", "pub ", "record ", "data ")
USE = re.compile(r"^(pub )?use (\S+?)(?:\.\{(.*)\}| as (\S+))?$")
TEXT = re.compile(r'"(?:\\.|[^"\\])*"')
BINDERS = re.compile(r"[({]\s*([^\s(){}:]+(?:\s+[^\s(){}:]+)*)\s+:\s|λ ([^.]*)\.|\blet (\S+) ")
# Files below this folder of specs/ hold what no public clause reaches.
INNER = "inner"


@dataclass
class Definition:
    """A definition: where it stands, what is said of it, and the words of its text."""

    name: str
    first: int
    line: int
    comment: str = ""
    text: str = ""
    last: int = 0

    def words(self) -> list[str]:
        return words_of(self.text)

    def bound(self) -> set[str]:
        """The names of its own variables."""
        found: set[str] = set()
        for groups in BINDERS.findall(self.text):
            found.update(" ".join(groups).split())
        for line in self.text.splitlines():
            head, equals, _ = line.strip().partition(" =")
            if equals and head.startswith(self.name + " "):
                found.update(re.findall(r"(?<!\S)[a-z_]\w*", re.sub("[(){}]", " ",
                                                                    head[len(self.name):])))
        return found

    def lines(self) -> int:
        return self.last - self.first + 1


@dataclass
class SpecFile:
    """A file of definitions. `uses` leads from each imported name to its path and its name there;
    of a module that is imported as a whole there is no name."""

    crate: str
    module: str
    path: Path
    head: str
    length: int
    uses: dict[str, tuple[str, Optional[str]]] = field(default_factory=dict)
    given_on: set[str] = field(default_factory=set)
    definitions: list[Definition] = field(default_factory=list)

    def is_inner(self) -> bool:
        return self.module.split(".")[0] == INNER

    def named(self, name: str) -> Optional[Definition]:
        return next((it for it in self.definitions if it.name == name), None)


def read_use(file: SpecFile, line: str) -> None:
    found = USE.match(line)
    if not found:
        raise ValueError(f"{file.path}: {line}")
    given_on, path, names, alias = found.groups()
    for name in (names or "").split(","):
        if name.strip():
            old, _, new = name.strip().partition(" as ")
            file.uses[new or old] = (path, old)
            if given_on:
                file.given_on.add(new or old)
    if names is None:
        file.uses[alias or path.rpartition(".")[2]] = (path, None)


def text_of_comment(lines: list[str]) -> str:
    return " ".join(line.strip().removeprefix("--").strip() for line in lines)


class Reader:
    """Reads one file line by line."""

    def __init__(self, file: SpecFile, lines: list[str]) -> None:
        self.file, self.lines = file, lines
        self.indent, self.shared = "", ""
        self.comment: list[str] = []
        self.now: Optional[Definition] = None

    def read(self) -> None:
        head = 0
        while head < len(self.lines) and self.lines[head].startswith("--"):
            head += 1
        self.file.head = text_of_comment(self.lines[:head])
        for number, line in enumerate(self.lines[head:], head + 1):
            self.take(number, line)

    def take(self, number: int, line: str) -> None:
        if USE.match(line):
            read_use(self.file, line)
        elif line.startswith("module "):
            self.indent, self.shared, self.now = "  ", line, None
        elif line.startswith(self.indent + "--"):
            self.comment.append(line)
            self.now = None
        elif name := self.begins(line):
            first = number - len(self.comment)
            self.now = Definition(name, first, number, text_of_comment(self.comment), self.shared)
            self.file.definitions.append(self.now)
            self.comment = []
        if self.now and line.strip():
            self.now.text += "\n" + TEXT.sub('""', line).partition("--")[0]
            self.now.last = number

    def begins(self, line: str) -> Optional[str]:
        """The name of the definition that begins with this line."""
        line = line.removeprefix(self.indent)
        found = SIGNATURE.match(line)
        if not found or line.startswith((" ", "}")):
            return None
        if line.startswith(KEYWORDS) and not line.startswith("pub mod "):
            return found["name"]
        return found["name"] if re.match(r"\S+ :( |$)", line) else None


def read_file(root: Path, crate: str, path: Path) -> SpecFile:
    inside = path.relative_to(root / "crates" / crate / "specs").with_suffix("")
    lines = path.read_text(encoding="utf-8").splitlines()
    file = SpecFile(crate, ".".join(inside.parts), path, "", len(lines))
    Reader(file, lines).read()
    return file


def read_specs(root: Path) -> dict[tuple[str, str], SpecFile]:
    """The files of definitions by crate and module. Those that only name others are left out."""
    found: dict[tuple[str, str], SpecFile] = {}
    for path in sorted(root.glob("crates/*/specs/**/*.antt")):
        crate = path.relative_to(root).parts[1]
        file = read_file(root, crate, path)
        if file.definitions or not path.read_text(encoding="utf-8").startswith("pub mod "):
            found[crate, file.module] = file
    return found
