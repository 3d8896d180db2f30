"""Copies of the library, each with a mistake, beside each other in one program without a proof.

A copy has crates of its own from the one with the mistake upward, and shares those below it with
the other copies. The crates of copy 7 are named as `duk_tree_7`. Nothing else differs from the
library's own code.
"""
from __future__ import annotations

import re
from dataclasses import dataclass
from pathlib import Path
from typing import Mapping, Optional, Sequence

from library_of import kit
from library_of.table import read_table

from . import driver
from .bodies import Mistake, crate_of, crates_of_library

# The crate that has the program's `main`, and the one with the exports.
PROGRAM, EXPORTS = "mutants", kit.CRATE

Texts = Mapping[str, str]


@dataclass(frozen=True)
class Sources:
    """The crates of the library, lowest first, with what each uses, and the texts of its files."""

    crates: Sequence[str]
    uses: Mapping[str, Sequence[str]]
    texts: Mapping[str, Texts]

    @classmethod
    def read(cls) -> Sources:
        """The sources as they stand in the repository."""
        crates = crates_of_library()
        return cls(crates, kit.libraries(), {it: texts_of(kit.CRATES / it) for it in crates})

    def upward(self, crate: str) -> list[str]:
        """A crate, and those that stand on it."""
        found = [crate]
        for it in self.crates:
            if it not in found and set(self.uses[it]) & set(found):
                found.append(it)
        return found


def texts_of(folder: Path) -> Texts:
    """The files below src/ of a crate, by their paths."""
    return {it.relative_to(folder).as_posix(): it.read_text(encoding="utf-8")
            for it in sorted((folder / "src").rglob("*.rt"))}


@dataclass(frozen=True)
class Program:
    """The files of a program, by their paths, and the libraries that each of its crates uses."""

    files: Mapping[str, str]
    uses: Mapping[str, Sequence[str]]


def program_of(sources: Sources, mistakes: Sequence[Optional[Mistake]]) -> Program:
    """The program with a copy for each of these mistakes. None is a copy without a mistake."""
    files: dict[str, str] = {}
    uses: dict[str, Sequence[str]] = {}
    for crate in sources.crates:
        files.update(in_crate(crate, sources.texts[crate]))
        uses[crate] = sources.uses[crate]
    for number, mistake in enumerate(mistakes):
        add_copy(files, uses, sources, mistake, number)
    calls = read_table(kit.ROOT).exports
    copies = [f"{EXPORTS}_{it}" for it in range(len(mistakes))]
    files.update(in_crate(PROGRAM, driver.texts(calls, copies)))
    uses[PROGRAM] = copies
    return Program(files, uses)


def add_copy(
    files: dict[str, str], uses: dict[str, Sequence[str]], sources: Sources,
    mistake: Optional[Mistake], number: int,
) -> None:
    """Adds the crates of a copy to those of a program."""
    crate = crate_of(mistake) if mistake else EXPORTS
    own = sources.upward(crate)
    for it in own:
        texts = sources.texts[it]
        if mistake and it == crate:
            texts = mistake.applied(dict(texts))
        files.update(in_crate(f"{it}_{number}", renamed(texts, own, number)))
        uses[f"{it}_{number}"] = [f"{use}_{number}" if use in own else use
                                  for use in sources.uses[it]]


def in_crate(crate: str, texts: Texts) -> dict[str, str]:
    """A crate's files by their paths in the program."""
    return {f"crates/{crate}/{path}": text for path, text in texts.items()}


def renamed(texts: Texts, crates: Sequence[str], number: int) -> dict[str, str]:
    """The texts with the names of these crates as the copy has them."""
    names = re.compile(rf"\b({'|'.join(crates)})\b")
    return {path: names.sub(rf"\1_{number}", text) for path, text in texts.items()}
