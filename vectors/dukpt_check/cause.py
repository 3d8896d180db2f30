"""Deviations that have something in common, as a report tells them."""
from __future__ import annotations

from collections import Counter
from dataclasses import dataclass
from typing import Sequence

from .cases import Note
from .grading import OWN_RULE, area_of
from .judging import Verdict
from .scopes import NO_CAUSES

# Flags that need no explanation under each cause.
PLAIN = frozenset(NO_CAUSES) - {OWN_RULE}
# Of so many flags a report has the counts.
MOST_FLAGS = 6


@dataclass(frozen=True)
class Cause:
    """Deviations of an operation and a section that have something in common."""

    operation: str
    section: str
    # What they have in common, in words.
    words: str
    # The flag that they have in common, if it is one, and what it means.
    flag: str
    note: Note
    verdicts: tuple[Verdict, ...]
    # What wrong and right values have in common, a sentence each.
    hints: tuple[str, ...] = ()

    @property
    def area(self) -> str:
        """The area of the operation."""
        return area_of(self.operation)

    @property
    def kinds(self) -> str:
        """How the cases ended, with the counts."""
        count = Counter(it.kind.value for it in self.verdicts)
        return "; ".join(f"{kind} ({number:,})" for kind, number in count.most_common())

    @property
    def members(self) -> str:
        """The outputs that differ, with the counts, and those that never do."""
        wrong = [it for it in self.verdicts if it.differences]
        count = Counter(difference.member for it in wrong for difference in it.differences)
        told = ", ".join(f"{name} ({number:,})" for name, number in count.most_common())
        right = dict.fromkeys(name for it in wrong for name in it.case.outputs if name not in count)
        return told + (f"; never {', '.join(right)}" if told and right else "")

    @property
    def flags(self) -> str:
        """The flags of the cases with their counts, where there is more than the common one."""
        count = Counter(flag for it in self.verdicts for flag in it.case.flags)
        if set(count) <= {self.flag}:
            return ""
        return ", ".join(f"{flag} ({number:,})" for flag, number in count.most_common(MOST_FLAGS))

    def examples(self, count: int) -> list[Verdict]:
        """So many of the cases, one for each of the most frequent flags first; all for 0."""
        first = {it.case.flags: it for it in reversed(self.verdicts)}
        frequent = Counter(it.case.flags for it in self.verdicts).most_common()
        chosen = [first[flags] for flags, _ in frequent] + list(self.verdicts)
        shown = dict.fromkeys(it.case.number for it in chosen)
        wanted = set(list(shown)[: count or len(shown)])
        return [it for it in self.verdicts if it.case.number in wanted]

    def other_numbers(self, shown: Sequence[Verdict]) -> list[int]:
        """The numbers of the cases that are not shown."""
        seen = {it.case.number for it in shown}
        return [it.case.number for it in self.verdicts if it.case.number not in seen]

    def other_notes(self, shown: Sequence[Verdict]) -> list[tuple[str, Note]]:
        """The flags of cases that are shown, with what they mean, but for the common one."""
        notes = {flag: it.case.note(flag) for it in shown for flag in it.case.flags}
        return [(flag, note) for flag, note in notes.items()
                if flag != self.flag and flag not in PLAIN and note.description]


def cause_of(words: str, flag: str, verdicts: Sequence[Verdict]) -> Cause:
    """The cause of deviations that have a flag in common, or something else."""
    case = verdicts[0].case
    note = case.note(flag) if flag else Note("")
    return Cause(case.operation, case.group.section, words, flag, note, tuple(verdicts))
