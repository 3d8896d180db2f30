"""What cases of an operation may have in common: that they are valid, a flag, a length, a group."""
from __future__ import annotations

from collections import defaultdict
from dataclasses import dataclass
from typing import Iterator, Mapping, Sequence

from .cases import BLOCK_BYTES, Case, Value, is_text
from .grading import OWN_RULE
from .judging import Verdict

# Flags that no deviations are told by: they tell how a case was chosen, and not what is in it.
NO_CAUSES = (OWN_RULE, "Random", "Sample", "Depth", "Parity", "TwoKeys", "EqualHalves", "WeakKey",
             "NearTheEnd", "Boundary", "KeyOrBlockBit")


@dataclass(frozen=True)
class Scope:
    """Judged cases that have something in common."""

    # What is said of them, which begins with the word `cases` or has it behind one word.
    words: str
    # The flag that they have in common, if it is one.
    flag: str
    # Of scopes that explain as much, that of the highest rank is named.
    rank: int
    judged: frozenset[int]

    def share_in_words(self, count: int) -> str:
        """How many of the cases are meant, in words."""
        every = len(self.judged)
        if count < every:
            return f"{count:,} of the {every:,} {self.words}"
        return f"all {every:,} {self.words}" if every > 1 else f"the only {self.one}"

    @property
    def one(self) -> str:
        """What is said of one case."""
        return self.words.replace("cases", "case", 1)


def scopes(judged: Sequence[Verdict]) -> list[Scope]:
    """What the cases of an operation and a section may have in common."""
    found: dict[tuple[int, str, str], set[int]] = defaultdict(set)
    for it in judged:
        for rank, words, flag in properties(it.case):
            found[rank, words, flag].add(it.case.number)
    return [Scope(words, flag, rank, frozenset(numbers))
            for (rank, words, flag), numbers in found.items()]


def properties(case: Case) -> Iterator[tuple[int, str, str]]:
    """What a case may have in common with others: rank, words, and flag if it is one."""
    yield 4, "cases", ""
    yield 2, "valid cases" if case.is_valid else "invalid cases", ""
    for flag in case.flags:
        # A flag that tells how a case was chosen is the cause of nothing.
        if flag not in NO_CAUSES:
            yield 3, f"cases with the flag {flag}", flag
    for words in (*lengths(case, "input", case.inputs), *lengths(case, "output", case.outputs)):
        yield 1, f"cases whose {words}", ""
    yield 0, f"cases of {case.group.name} ({case.group.comment.rstrip('.')})", ""


def lengths(case: Case, kind: str, members: Mapping[str, Value]) -> Iterator[str]:
    """What is said of the lengths of a case's inputs or outputs."""
    for name, value in members.items():
        if not isinstance(value, str):
            continue
        if is_text(case.operation, name):
            yield f"{kind} {name} has {len(value)} characters"
            continue
        size = len(value) // 2
        yield f"{kind} {name} has {size} bytes"
        if size % BLOCK_BYTES:
            yield f"{kind} {name} has no whole blocks of {BLOCK_BYTES} bytes"
