"""What a run found, as all reports tell it."""
from __future__ import annotations

from collections import Counter
from dataclasses import dataclass
from functools import cached_property
from typing import Sequence

from .cause import Cause
from .causes import causes
from .grading import Grade, area_of, bases_of, grades, order_of
from .judging import Kind, Verdict


@dataclass(frozen=True)
class Result:
    """A run: how the adapter is started, its verdicts, and how many cases were left out."""

    adapter: str
    verdicts: Sequence[Verdict]
    left_out: int
    seconds: float

    @cached_property
    def grades(self) -> list[Grade]:
        """The grade of each area."""
        return grades(self.verdicts)

    @cached_property
    def causes(self) -> list[Cause]:
        """The deviations, summed up."""
        return causes(self.verdicts)

    @cached_property
    def count(self) -> Counter[Kind]:
        """How many cases ended in each way."""
        return Counter(it.kind for it in self.verdicts)

    @cached_property
    def deviations(self) -> int:
        """How many cases deviate."""
        return sum(it.is_deviation for it in self.verdicts)

    @property
    def unsupported(self) -> list[tuple[str, int]]:
        """The operations with unsupported cases, with their counts."""
        count = Counter(it.case.operation for it in self.verdicts if it.kind is Kind.UNSUPPORTED)
        return list(count.items())

    @property
    def not_tried(self) -> list[tuple[str, str]]:
        """Why cases were not tried, with the operations and their counts in words."""
        count = Counter((it.found, it.case.operation) for it in self.verdicts
                        if it.kind is Kind.NOT_TRIED)
        whys = dict.fromkeys(why for why, _ in count)
        return [(why, ", ".join(f"{name} ({number:,})" for (other, name), number in count.items()
                                if other == why)) for why in whys]

    @cached_property
    def first_steps(self) -> list[str]:
        """Which operations are to be looked at first, and which wrong ones rest on right ones."""
        valid = [it for it in self.verdicts if it.case.is_valid and it.kind is not Kind.UNSUPPORTED]
        wrong = sorted({it.case.operation for it in valid if it.is_deviation}, key=order_of)
        right = {it.case.operation for it in valid} - set(wrong)
        lines = []
        for base in wrong:
            above = [it for it in wrong if base in bases_of(it)]
            if above and not bases_of(base) & set(wrong):
                rest = "rests" if len(above) == 1 else "rest"
                lines.append(f"begin with {base}: {', '.join(above)} {rest} on it")
        near = {it for name in wrong for it in bases_of(name)} & right
        near |= {it for it in right for name in wrong if area_of(it) == area_of(name)}
        if near:
            lines.append(f"right in each valid case: {', '.join(sorted(near, key=order_of))}")
        return lines

    @property
    def last_line(self) -> str:
        """The whole in a line."""
        judged = len(self.verdicts) - self.count[Kind.UNSUPPORTED]
        found = f"{self.deviations:,}" if self.deviations else "no"
        line = f"{found} deviation{'' if found == '1' else 's'} in {judged:,} cases"
        if self.count[Kind.NOT_TRIED]:
            line += f", of which {self.count[Kind.NOT_TRIED]:,} were not tried"
        if self.count[Kind.UNSUPPORTED]:
            line += f"; {self.count[Kind.UNSUPPORTED]:,} unsupported"
        if self.left_out:
            line += f"; {self.left_out:,} left out"
        return line


def cases_in_words(numbers: Sequence[int]) -> str:
    """Case numbers with the word before them."""
    return f"case{'' if len(numbers) == 1 else 's'} {ranges(numbers)}"


def ranges(numbers: Sequence[int]) -> str:
    """Case numbers as a short text: `3 to 9, 12`."""
    told: list[str] = []
    ordered = sorted(numbers)
    at = 0
    while at < len(ordered):
        end = at
        while end + 1 < len(ordered) and ordered[end + 1] == ordered[end] + 1:
            end += 1
        joint = " to " if end > at + 1 else ", "
        told.append(f"{ordered[at]}{joint}{ordered[end]}" if end > at else f"{ordered[at]}")
        at = end + 1
    return ", ".join(told)
