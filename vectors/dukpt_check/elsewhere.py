"""Where a wrong value is right: as another output of the case, or as the answer to another case."""
from __future__ import annotations

from collections import Counter, defaultdict
from typing import Iterator, Optional, Sequence

from .cases import Case
from .judging import Verdict, is_equal
from .scopes import NO_CAUSES

# So many cases at least show it.
LEAST = 3
# The inputs that are filled to whole blocks.
PADDED = ("message", "data")
# A shorter value may be that of two cases by accident.
LEAST_DIGITS = 8


def elsewhere(wrong: Sequence[Verdict], others: Sequence[Case]) -> Iterator[str]:
    """What is told of wrong values that are right elsewhere. `others` are all valid cases of the
    operation."""
    yield from exchanged_members(wrong)
    yield from answers_to_longer(wrong, others)
    yield from unequal_answers(wrong)


def exchanged_members(wrong: Sequence[Verdict]) -> Iterator[str]:
    """Outputs that are, in each wrong case, what another one should be."""
    if len(wrong) < LEAST:
        return
    places = [{(it.member, name) for it in verdict.differences
               for name, value in verdict.case.outputs.items()
               if name != it.member and is_equal(value, it.found, False)} for verdict in wrong]
    for member, name in sorted(set.intersection(*places)):
        yield f"found {member} is what {name} should be"


def answers_to_longer(wrong: Sequence[Verdict], others: Sequence[Case]) -> Iterator[str]:
    """Values that are right for an input with more behind it: another padding."""
    answers: dict[tuple[str, str], list[Case]] = defaultdict(list)
    for case in others:
        for name, value in case.outputs.items():
            if isinstance(value, str) and len(value) >= LEAST_DIGITS:
                answers[name, value.upper()].append(case)
    count: Counter[tuple[str, str, str]] = Counter()
    for verdict in wrong:
        for it in verdict.differences:
            for other in answers.get((it.member, str(it.found).upper()), ()):
                more = what_is_behind(verdict.case, other)
                if more is not None:
                    count[it.member, *more] += 1
    for (member, name, behind), number in count.items():
        if number >= LEAST:
            yield (f"in {number} of the cases the found {member} is the right one of the {name}"
                   f" with {behind} behind it: the padding is another one")


def what_is_behind(case: Case, other: Case) -> Optional[tuple[str, str]]:
    """The input that the other case has with more behind it, and what that is, if it is filled to
    whole blocks and all else is equal."""
    changed = [name for name, value in case.inputs.items() if other.inputs.get(name) != value]
    if len(changed) != 1 or case.inputs.keys() != other.inputs.keys():
        return None
    one, more = str(case.inputs[changed[0]]), str(other.inputs[changed[0]])
    behind = more[len(one) :]
    if changed[0] not in PADDED or not more.startswith(one) or behind[2:].strip("0"):
        return None
    return changed[0], "zero bytes" if behind[:2] == "00" else f"{behind[:2]}, and perhaps zeros,"


def unequal_answers(wrong: Sequence[Verdict]) -> Iterator[str]:
    """Cases to which one answer is right, and several were found: something has an effect that has
    to have none."""
    same: dict[tuple[str, str], list[tuple[Case, str]]] = defaultdict(list)
    for verdict in wrong:
        for it in verdict.differences:
            same[it.member, str(it.expected)].append((verdict.case, str(it.found)))
    parts = [part for found in same.values() for part in parts_of(found)]
    told = max(parts, key=lambda it: (it[0] != it[1][0].group.comment, len(it[1])), default=None)
    if told is not None:
        why, cases = told
        comment = cases[0].group.comment
        if why != comment and all(it.group is cases[0].group for it in cases):
            why = f"{why} {comment}"
        yield (f"{len(cases)} cases, {cases[0].number} to {cases[-1].number}, have one right"
               f" answer, and were given several: {why}")


def parts_of(found: Sequence[tuple[Case, str]]) -> Iterator[tuple[str, list[Case]]]:
    """Those of cases with one right answer that have a flag, or a group, and several answers, with
    what flag or group is about."""
    whys: dict[str, list[tuple[Case, str]]] = defaultdict(list)
    for case, value in found:
        for why in (*(case.note(flag).description for flag in case.flags if flag not in NO_CAUSES),
                    case.group.comment):
            whys[why].append((case, value))
    for why, part in whys.items():
        if why and len(part) >= LEAST and len({value for _, value in part}) > 1:
            yield why, [case for case, _ in part]
