"""A terminal's future key registers, and the keys of a stretch of its life."""
from __future__ import annotations

from math import comb

from .draw import Draw
from .form import Case, Group
from .keys import numbered
from .numbers import (
    ABOVE, BDK, COUNTER_BITS, DUKPT, IKSN, INITIAL, MOST_ONES, around_powers, drawn_counter,
    drawn_iksn, flags_of, greatest_of, ksn, last_counters, least_of, ones, plural)

# How many numbers a terminal has.
LIFE = sum(comb(COUNTER_BITS, count) for count in range(1, MOST_ONES + 1))
# More numbers than a slow implementation makes keys for in the time of an answer.
MANY = 50_000


def register_groups(draw: Draw) -> list[Group]:
    """All groups of `registers.json`."""
    return [registers_at_edges(), registers_by_depth(draw), registers_drawn(draw),
            registers_unusable(draw)]


def registers_at_edges() -> Group:
    """Terminals that are fresh, next to powers of two, and near the end."""
    counters = {*range(1, 18), *around_powers(), *last_counters(16)}
    return Group("registers", "The registers when this number is the next one: fresh, after each of"
                 " the first numbers, next to powers of two, and near the end.", DUKPT,
                 [numbered(IKSN, counter, "Boundary") for counter in sorted(counters)],
                 {"initial_key": INITIAL})


def registers_by_depth(draw: Draw) -> Group:
    """Terminals before a number of each depth."""
    cases = []
    for depth in range(1, MOST_ONES + 1):
        counters = {least_of(depth), greatest_of(depth)}
        while len(counters) < 4:
            counters.add(drawn_counter(draw, depth))
        cases += [numbered(IKSN, counter, "Depth") for counter in sorted(counters)]
    return Group("registers", "Before a number of each depth. Behind a number with ten one bits the"
                 " registers below its own stay empty.", DUKPT, cases, {"initial_key": INITIAL})


def registers_drawn(draw: Draw) -> Group:
    """Terminals at random."""
    cases = []
    for depth in list(range(1, MOST_ONES + 1)) * 3:
        number = drawn_iksn(draw) + drawn_counter(draw, depth)
        cases.append(Case(f"at random, {plural(depth, 'one bit')}",
                          {"initial_key": draw.bytes(16), "ksn": ksn(number)}, ["Random"]))
    return Group("registers", "At random.", DUKPT, cases)


def registers_unusable(draw: Draw) -> Group:
    """Numbers that no terminal has next."""
    counters = [0, least_of(11), least_of(21), ABOVE - 2, 0x1FF801, 0x1FFC00]
    counters += [drawn_counter(draw, draw.between(11, 20)) for _ in range(6)]
    cases = [Case(f"counter {counter:06X}, {plural(ones(counter), 'one bit')}",
                  {"ksn": ksn(IKSN + counter)}, [*flags_of(counter), "Unusable"], "NotUsable")
             for counter in counters]
    return Group("registers", "No terminal has such a number next.", DUKPT, cases,
                 {"initial_key": INITIAL})


# Walks


def walk_groups(draw: Draw) -> list[Group]:
    """All groups of `walk.json`."""
    return [walk_first(), walk_powers(), walk_last(), walk_of_others(draw), walk_life()]


def walked(comment: str, skip: int, count: int, *flags: str) -> Case:
    """A stretch of the sample terminal."""
    return Case(comment, {"skip": skip, "count": count}, [*flags, *flags_of_walk(skip, count)])


def flags_of_walk(skip: int, count: int) -> list[str]:
    """What is told of a stretch."""
    return ["ManyNumbers"] if skip + count > MANY else []


def walk_first() -> Group:
    """The first thousands of numbers."""
    cases = [walked("the first number", 0, 1, "FirstNumber", "Sample")]
    cases += [walked(f"the first {count:,} numbers", 0, count) for count in (10, 100, 1000)]
    cases.append(walked("the 1,000 numbers behind them", 1000, 1000))
    return Group("walk", "From a terminal's first number on.", DUKPT, cases,
                 {"bdk": BDK, "iksn": ksn(IKSN)})


def below(counter: int) -> int:
    """How many usable counters are below a power of two."""
    return sum(comb(counter.bit_length() - 1, count) for count in range(1, MOST_ONES + 1))


def walk_powers() -> Group:
    """Stretches in which every register is filled anew."""
    cases = []
    for place in range(4, COUNTER_BITS):
        passed = below(1 << place)
        skip = max(0, passed - 20)
        cases.append(walked(f"across counter {1 << place:06X}", skip, passed - skip + 21,
                            "PowerOfTwo"))
    return Group("walk", "Across every power of two from 16 on: twenty numbers before it, it, and"
                 " twenty behind it.", DUKPT, cases, {"bdk": BDK, "iksn": ksn(IKSN)})


def walk_last() -> Group:
    """The last thousand numbers."""
    cases = [walked("the last number", LIFE - 1, 1, "LastNumber", "TenOneBits")]
    cases += [walked(f"the last {count:,} numbers", LIFE - count, count, "LastNumber")
              for count in (10, 100, 1000)]
    return Group("walk", "To a terminal's last number.", DUKPT, cases,
                 {"bdk": BDK, "iksn": ksn(IKSN)})


def walk_of_others(draw: Draw) -> Group:
    """Short stretches of other terminals."""
    cases = []
    for _ in range(12):
        skip, count = draw.below(LIFE - 100), draw.between(1, 100)
        cases.append(Case(f"{plural(count, 'number')} behind {skip:,}",
                          {"bdk": draw.bytes(16), "iksn": ksn(drawn_iksn(draw)), "skip": skip,
                           "count": count},
                          ["Random", *flags_of_walk(skip, count)]))
    return Group("walk", "Stretches at random of terminals at random.", DUKPT, cases)


def walk_life() -> Group:
    """All numbers at once."""
    return Group("walk", f"All {LIFE:,} numbers of a terminal.", DUKPT,
                 [walked("a whole life", 0, LIFE, "FirstNumber", "LastNumber")],
                 {"bdk": BDK, "iksn": ksn(IKSN)})
