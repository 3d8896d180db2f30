"""Sums up deviations: those that have a flag, a length or a group in common are told together."""
from __future__ import annotations

from collections import Counter, defaultdict
from dataclasses import replace
from typing import Iterator, Optional, Sequence

from .cause import MOST_FLAGS, Cause, cause_of
from .elsewhere import elsewhere
from .facts import counted, is_simplest, shared_flags
from .grading import order_of
from .hints import hints_of
from .judging import Kind, Verdict
from .rules import meaning_of, rule_of
from .scopes import NO_CAUSES, Scope, scopes

# A flag, say, is named as what deviations have in common if this part of its cases deviates, and so
# many do, or all.
LEAST_SHARE = 0.5
LEAST_CASES = 2


def causes(verdicts: Sequence[Verdict]) -> list[Cause]:
    """All deviations of cases that were tried, summed up: those of operations that others rest on
    stand first."""
    parts: dict[tuple[str, str], list[Verdict]] = defaultdict(list)
    left = Counter((it.case.operation, it.case.group.section) for it in verdicts
                   if it.kind is Kind.NOT_TRIED)
    for it in verdicts:
        if it.kind not in (Kind.UNSUPPORTED, Kind.NOT_TRIED):
            parts[it.case.operation, it.case.group.section].append(it)
    ordered = sorted(parts.items(), key=lambda it: order_of(it[0][0]))
    return [with_untried(cause, left[part]) for part, judged in ordered
            for cause in causes_of(judged)]


def causes_of(judged: Sequence[Verdict]) -> Iterator[Cause]:
    """The deviations of an operation and a section. A rule without an exception is taken first,
    then all valid cases where most are wrong, and then what explains most of those left."""
    left = {it.case.number: it for it in judged if it.is_deviation}
    all_scopes = scopes(judged)
    cause = by_flag(all_scopes, left) or by_rule(judged) or by_most(judged)
    if cause is not None:
        yield with_hints(cause, judged)
        left = without(left, cause)
    while left:
        scope = max(all_scopes, key=lambda it: worth(it, left))
        if worth(scope, left) == NO_WORTH:
            yield with_hints(rest_of(list(left.values()), judged), judged)
            return
        own = [it for number, it in left.items() if number in scope.judged]
        cause = cause_of(scope.share_in_words(len(own)), scope.flag, own)
        yield with_hints(cause, judged)
        left = without(left, cause)


def without(left: dict[int, Verdict], cause: Cause) -> dict[int, Verdict]:
    """The deviations that are left without those of a cause."""
    own = {it.case.number for it in cause.verdicts}
    return {number: it for number, it in left.items() if number not in own}


def with_untried(cause: Cause, count: int) -> Cause:
    """A cause with how many cases like its own were not tried: more may belong to it."""
    if not count:
        return cause
    told = f"{counted(count, 'cases')} of the operation {'was' if count == 1 else 'were'} not tried"
    return replace(cause, hints=(*cause.hints, told))


def with_hints(cause: Cause, judged: Sequence[Verdict]) -> Cause:
    """A cause with what its values have in common."""
    wrong = [it for it in cause.verdicts if it.differences]
    others = [it.case for it in judged if it.case.is_valid]
    return replace(cause, hints=(*cause.hints, *hints_of(wrong), *elsewhere(wrong, others)))


def by_flag(all_scopes: Sequence[Scope], left: dict[int, Verdict]) -> Optional[Cause]:
    """The cause where all deviations, and no other cases, have a flag."""
    for it in all_scopes:
        if it.flag and it.judged == left.keys():
            return cause_of(it.share_in_words(len(left)), it.flag, list(left.values()))
    return None


def by_rule(judged: Sequence[Verdict]) -> Optional[Cause]:
    """The cause of the valid cases that a rule tells from the right ones."""
    right, wrong = of_valid(judged)
    words = rule_of([it.case for it in right], [it.case for it in wrong])
    if not words:
        return None
    cause = cause_of(f"all {len(wrong):,} valid cases whose {words}, and none of the"
                     f" {len(right):,} others", "", wrong)
    return replace(cause, hints=tuple(meaning_of(words, cause.operation)))


def by_most(judged: Sequence[Verdict]) -> Optional[Cause]:
    """The cause of all wrong valid cases, where most are wrong."""
    right, wrong = of_valid(judged)
    if len(wrong) <= max(len(right), LEAST_CASES):
        return None
    every = len(right) + len(wrong)
    if not right:
        return cause_of(f"all {every:,} valid cases", "", wrong)
    count = Counter(flag for it in right for flag in it.case.flags).most_common(MOST_FLAGS)
    flags = ", ".join(f"{flag} ({number:,})" for flag, number in count) or "no flags"
    return replace(cause_of(f"{len(wrong):,} of the {every:,} valid cases", "", wrong),
                   hints=(f"right: {len(right):,} cases, {flags}", *rules_of_simplest(judged)))


def rules_of_simplest(judged: Sequence[Verdict]) -> Iterator[str]:
    """The rule that tells wrong cases from right ones among the simplest of the operation."""
    for words in dict.fromkeys(is_simplest(it.case) for it in judged):
        right, wrong = of_valid([it for it in judged if words and is_simplest(it.case) == words])
        rule = rule_of([it.case for it in right], [it.case for it in wrong])
        if rule:
            yield (f"of the {len(right) + len(wrong):,} cases with {words}: wrong are all"
                   f" {len(wrong):,} whose {rule}, and no others")


def of_valid(judged: Sequence[Verdict]) -> tuple[list[Verdict], list[Verdict]]:
    """The valid cases that are right, and those that are not."""
    valid = [it for it in judged if it.case.is_valid]
    return [it for it in valid if not it.is_deviation], [it for it in valid if it.is_deviation]


def rest_of(left: Sequence[Verdict], judged: Sequence[Verdict]) -> Cause:
    """The cause of deviations that no flag, length or group explains."""
    flags = [flag for flag in shared_flags([it.case for it in left]) if flag not in NO_CAUSES]
    if flags and len(left) > 1:
        every = sum(flags[0] in it.case.flags for it in judged)
        words = f"{len(left):,} of the {every:,} cases with the flag {flags[0]}"
        return cause_of(words, flags[0], left)
    common = "" if len(left) == 1 else ", in no flag, length or group of which most fail"
    return cause_of(f"{len(left):,} of the {len(judged):,} cases{common}", "", left)


NO_WORTH = (0.0, 0)


def worth(scope: Scope, left: dict[int, Verdict]) -> tuple[float, int]:
    """How well a scope explains the deviations that are left: 1 where these are all that it has and
    it has all of these (Dice's coefficient)."""
    count = len(scope.judged & left.keys())
    if count < LEAST_SHARE * len(scope.judged) or count < min(LEAST_CASES, len(scope.judged)):
        return NO_WORTH
    return round(2 * count / (len(scope.judged) + len(left)), 2), scope.rank
