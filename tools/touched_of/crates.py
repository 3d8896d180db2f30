"""The crates of crates.txt, and which stand above which."""
from __future__ import annotations

from dataclasses import dataclass
from typing import Iterable


@dataclass(frozen=True)
class Crates:
    """The lines of crates.txt by the names of their crates, lowest first: the words of each."""

    lines: dict[str, tuple[str, ...]]

    @classmethod
    def of(cls, text: str) -> Crates:
        lines = {}
        for line in text.splitlines():
            head, colon, uses = line.partition("#")[0].partition(":")
            if colon and head.split():
                name, *kind = head.split()
                lines[name] = (*kind, ":", *uses.split())
        return cls(lines)

    def above(self, names: Iterable[str]) -> set[str]:
        """The crates that use these, and those that use them in their turn."""
        found = set(names)
        while more := {it for it, words in self.lines.items() if it not in found
                       and not found.isdisjoint(words)}:
            found |= more
        return found - set(names)

    def changed_since(self, before: Crates) -> set[str]:
        """The crates whose line is new or another than it was."""
        return {it for it, words in self.lines.items() if before.lines.get(it) != words}
