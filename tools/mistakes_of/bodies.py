"""The mistakes: the wrong bodies of the crates that the library is made of."""
from __future__ import annotations

import importlib.util
import sys
from importlib.machinery import SourceFileLoader
from pathlib import Path
from types import ModuleType
from typing import Iterator, Sequence

from library_of import kit

TOOL = Path(__file__).resolve().parent.parent / "wrong-bodies"
CRATES = kit.CRATES


def wrong_bodies_tool() -> ModuleType:
    """The command tools/wrong-bodies as a module: it reads the files `*.edits`."""
    loader = SourceFileLoader("wrong_bodies", str(TOOL))
    spec = importlib.util.spec_from_loader(loader.name, loader)
    assert spec is not None
    module = importlib.util.module_from_spec(spec)
    sys.modules[loader.name] = module
    loader.exec_module(module)
    return module


TOOL_MODULE = wrong_bodies_tool()
Change, NotJudged, WrongBody = (
    TOOL_MODULE.Change, TOOL_MODULE.NotJudged, TOOL_MODULE.WrongBody)
Mistake = WrongBody


class Unreadable(Exception):
    """Why the mistakes cannot be read, in a line."""


def crates_of_library() -> list[str]:
    """The crates that the library is made of, lowest first."""
    needed = kit.libraries()
    return [name for name, _ in kit.uses_of_crates() if name in needed]


def crate_of(mistake: Mistake) -> str:
    """The crate in which a mistake is planted."""
    return str(mistake.label.partition("/")[0])


def read_mistakes(crates: Sequence[str]) -> list[Mistake]:
    """The mistakes of crates, in the order of the crates."""
    return [it for crate in crates for it in [*edits(crate), *edits_of_gate(crate)]]


def edits(crate: str) -> Iterator[Mistake]:
    """The mistakes in the folder wrong-bodies/ of a crate."""
    for label, found in TOOL_MODULE.read_all(crate, []):
        if isinstance(found, NotJudged):
            raise Unreadable(f"{label}: {found}")
        yield found


def edits_of_gate(crate: str) -> Iterator[Mistake]:
    """The mistakes in the folder must-fail/ of a crate, a file for each."""
    for file in sorted((CRATES / crate / "must-fail").glob("*.edit")):
        text = file.read_text(encoding="utf-8")
        yield Mistake(f"{crate}/must-fail: {file.stem}", text, "", list(changes(file, text)))


def changes(file: Path, text: str) -> Iterator[Change]:
    """What a file of must-fail/ changes: its pairs of lines `old:` and `new:`."""
    place = old = ""
    for line in text.splitlines():
        word, _, rest = line.partition(":")
        if word == "file":
            place = rest.strip()
        elif word == "old":
            old = rest[1:]
        elif word == "new":
            yield Change(place, old, rest[1:])
        elif line:
            raise Unreadable(f"{file}: the line '{line}' does not belong there")
