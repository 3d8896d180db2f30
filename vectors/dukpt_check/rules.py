"""A rule that tells the wrong cases of an operation from the right ones, without an exception."""
from __future__ import annotations

from dataclasses import dataclass
from itertools import combinations
from typing import Iterator, Sequence

from .cases import Case
from .facts import COUNTER_BITS, KEY_PARTS, amounts, counter_of, traits

# With fewer cases on one side a rule is an accident.
LEAST = 4
# The same for a rule about bits of the counter, and how many bits it has at the most.
LEAST_FOR_BITS, MOST_BITS = 20, 5


@dataclass(frozen=True)
class Condition:
    """What holds of each wrong case, and the right ones of which it does not hold."""

    words: str
    excludes: frozenset[int]


def rule_of(right: Sequence[Case], wrong: Sequence[Case]) -> str:
    """What holds of each wrong case and of no right one, in words that follow `whose`; nothing
    where nothing simple does."""
    if len(right) < LEAST or len(wrong) < LEAST:
        return ""
    every = {it.number for it in right}
    found = [it for it in conditions(right, wrong) if it.excludes]
    for it in found:
        if it.excludes == every:
            return it.words
    for one, other in combinations(found, 2):
        if one.excludes | other.excludes == every:
            return f"{one.words}, and whose {other.words}"
    return ""


def conditions(right: Sequence[Case], wrong: Sequence[Case]) -> Iterator[Condition]:
    """What holds of each wrong case, the most telling first."""
    yield from counter_conditions(right, wrong)
    yield from amount_conditions(right, wrong)
    of_wrong = [traits(it) for it in wrong]
    for words in of_wrong[0]:
        if all(it.get(words, False) for it in of_wrong):
            yield Condition(words, frozenset(
                it.number for it in right if not traits(it).get(words, True)))


def counter_conditions(right: Sequence[Case], wrong: Sequence[Case]) -> Iterator[Condition]:
    """Bits of the counter that no right case has, and each wrong one has one of."""
    if min(counter_of(it) for it in (*right, *wrong)) < 0 or len(right) < LEAST_FOR_BITS:
        return
    mask = (1 << COUNTER_BITS) - 1
    for it in right:
        mask &= ~counter_of(it)
    count = bin(mask).count("1")
    if 0 < count <= MOST_BITS and all(counter_of(it) & mask for it in wrong):
        is_top = mask >> (COUNTER_BITS - count) == (1 << count) - 1
        place = f" (the highest of {COUNTER_BITS})" if is_top and count == 1 else ""
        words = f"bit {mask:06X}{place}" if count == 1 else f"one of the bits {mask:06X}"
        yield Condition(f"counter has the {words}" if count == 1 else f"counter has {words}",
                        frozenset(it.number for it in right))


def amount_conditions(right: Sequence[Case], wrong: Sequence[Case]) -> Iterator[Condition]:
    """Lengths and counts: that they are so much, at least so much, or at the most."""
    of_right, of_wrong = [amounts(it) for it in right], [amounts(it) for it in wrong]
    for amount in of_wrong[0]:
        if not all(amount in it for it in (*of_right, *of_wrong)):
            continue
        least, most = (choose(it[amount] for it in of_wrong) for choose in (min, max))
        for low, high in ((least, most), (least, -1), (-1, most)):
            if low == high or low < 0 or high < 0:
                excluded = frozenset(
                    case.number for case, it in zip(right, of_right)
                    if it[amount] < low or 0 <= high < it[amount])
                yield Condition(amount.in_words(low, high), excluded)


# What a rule means that has these words, for operations whose names begin so.
MEANINGS = (
    ("derive", "counter has 2 or more one bits",
     "the first step from the initial key is right, and the next ones are not: each takes the"
     " number with the one bits of the counter so far, the highest first"),
    ("retail_mac", KEY_PARTS, "the second part is used in the triple DES of the last block alone"),
    ("", KEY_PARTS, "where these parts are equal, two of the three passes undo each other, and it"
     " is single DES"),
)


def meaning_of(rule: str, operation: str) -> Iterator[str]:
    """What a rule means, if it is known."""
    for name, words, meaning in MEANINGS:
        if operation.startswith(name) and words in rule:
            yield meaning
