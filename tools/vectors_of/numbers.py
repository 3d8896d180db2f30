"""Key serial numbers and counters, as the cases are chosen by them."""
from __future__ import annotations

from .draw import Draw
from .form import Case, Group

DUKPT = "ANSI X9.24-1:2009 annex A"
COUNTER_BITS = 21
ABOVE = 1 << COUNTER_BITS
LAST = 0x1FF800
MOST_ONES = 10
# The samples of the standard.
BDK = bytes.fromhex("0123456789ABCDEFFEDCBA9876543210")
IKSN = 0xFFFF9876543210E00000
INITIAL = bytes.fromhex("6AC292FAA1315B4D858AB3A3D7D5933A")


def ksn(number: int) -> bytes:
    """A key serial number as its ten bytes."""
    return number.to_bytes(10, "big")


def ones(counter: int) -> int:
    """How many one bits a counter has."""
    return bin(counter).count("1")


def is_usable(counter: int) -> bool:
    """Whether a counter numbers a transaction."""
    return 0 < counter < ABOVE and ones(counter) <= MOST_ONES


def after(counter: int) -> int:
    """The least usable counter above one that is not the last."""
    counter += 1
    while not is_usable(counter):
        counter += 1
    return counter


def before(counter: int) -> int:
    """The greatest usable counter below one that is not the first."""
    counter -= 1
    while not is_usable(counter):
        counter -= 1
    return counter


def last_counters(count: int) -> list[int]:
    """The last usable counters, in their order."""
    found = [LAST]
    while len(found) < count:
        found.append(before(found[-1]))
    return found[::-1]


def around_powers() -> list[int]:
    """The usable counters next to each power of two, and these."""
    found: list[int] = []
    for place in range(COUNTER_BITS):
        power = 1 << place
        found += [before(power)] if power > 1 else []
        found += [power, after(power)]
    return sorted(set(found))


def least_of(depth: int) -> int:
    """The least counter with so many one bits."""
    return (1 << depth) - 1


def greatest_of(depth: int) -> int:
    """The greatest counter with so many one bits."""
    return least_of(depth) << COUNTER_BITS - depth


def drawn_counter(draw: Draw, depth: int) -> int:
    """A counter with so many one bits."""
    return sum(1 << place for place in draw.places(depth, COUNTER_BITS))


def drawn_iksn(draw: Draw) -> int:
    """An initial key serial number."""
    return int.from_bytes(draw.bytes(10), "big") >> COUNTER_BITS << COUNTER_BITS


def one_bit_iksns() -> list[int]:
    """The initial key serial numbers with a single one bit."""
    return [1 << place for place in range(COUNTER_BITS, 80)]


def plural(count: int, name: str) -> str:
    """A number with the name of what it counts."""
    return f"{count} {name}" if count == 1 else f"{count} {name}s"


def flags_of(counter: int) -> list[str]:
    """What is told of a counter."""
    flags = []
    if counter in (1, LAST):
        flags.append("FirstNumber" if counter == 1 else "LastNumber")
    if ones(counter) == MOST_ONES:
        flags.append("TenOneBits")
    if counter and counter & counter - 1 == 0:
        flags.append("PowerOfTwo")
    return flags


# The operations of numbers


def groups(draw: Draw) -> list[Group]:
    """All groups of `next_number.json`."""
    return [usable_edges(), usable_drawn(draw), usable_of_others(draw), next_edges(),
            next_drawn(draw), next_skips(draw), next_behind_unusable(draw), next_last(draw)]


def usable_case(number: int, comment: str = "") -> Case:
    """The case of a number that numbers a transaction or not."""
    counter = number % ABOVE
    flags = flags_of(counter)
    if not is_usable(counter):
        flags.append("Unusable")
    told = comment or f"counter {counter:06X}, {plural(ones(counter), 'one bit')}"
    return Case(told, {"ksn": ksn(number)}, flags)


def usable_edges() -> Group:
    """Zero, every count of one bits at both ends, and the neighbours of powers of two."""
    counters = {0, ABOVE - 1, *around_powers(), *last_counters(4)}
    counters.update(LAST + above for above in range(1, 5))
    for depth in range(1, COUNTER_BITS + 1):
        counters.update((least_of(depth), greatest_of(depth)))
    return Group("usable", "A counter numbers a transaction if it has one to ten one bits.", DUKPT,
                 [usable_case(IKSN + counter) for counter in sorted(counters)])


def usable_drawn(draw: Draw) -> Group:
    """Counters with each number of one bits, most of them about the limit."""
    depths = [9, 10, 11, 12] * 15 + list(range(1, COUNTER_BITS + 1))
    return Group("usable", "Counters at random with nine to twelve one bits, and with each number"
                 " of them.", DUKPT,
                 [usable_case(drawn_iksn(draw) + drawn_counter(draw, depth)) for depth in depths])


def usable_of_others(draw: Draw) -> Group:
    """The one bits of the initial key serial number do not count."""
    every = (1 << 80) - ABOVE
    numbers = [iksn + counter for iksn in (0, every, 1 << COUNTER_BITS)
               for counter in (0, 1, least_of(10), least_of(11), LAST)]
    return Group("usable", "The bits above the counter are none of its bits.", DUKPT,
                 [usable_case(number, f"initial key serial number {number >> 21 << 21:020X}")
                  for number in numbers])


def next_case(number: int, flags: list[str], comment: str = "") -> Case:
    """The case of a number that has one behind it."""
    counter = number % ABOVE
    return Case(comment or f"after counter {counter:06X}", {"ksn": ksn(number)},
                [*flags_of(counter), *flags])


def next_edges() -> Group:
    """Behind the first, the last, each depth and each power of two."""
    counters = {0, *range(1, 18), *around_powers(), *last_counters(24)[:-1]}
    for depth in range(1, MOST_ONES + 1):
        counters.update((least_of(depth), greatest_of(depth)))
    return Group("next_number", "The next number has the least usable counter above this one.",
                 DUKPT, [next_case(IKSN + counter, []) for counter in sorted(counters - {LAST})])


def next_drawn(draw: Draw) -> Group:
    """Behind numbers at random."""
    cases = []
    for depth in list(range(1, MOST_ONES + 1)) * 10:
        number = drawn_iksn(draw) + drawn_counter(draw, depth)
        cases.append(next_case(number, ["Random"]))
    return Group("next_number", "At random, at each depth.", DUKPT, cases)


def next_skips(draw: Draw) -> Group:
    """Counters with ten one bits whose successors have more."""
    found: list[int] = []
    while len(found) < 60:
        counter = drawn_counter(draw, MOST_ONES)
        if counter != LAST and not is_usable(counter + 1):
            found.append(counter)
    return Group("next_number", "The counter behind has more than ten one bits and is passed over.",
                 DUKPT, [next_case(drawn_iksn(draw) + counter, ["Skips"]) for counter in found])


def next_behind_unusable(draw: Draw) -> Group:
    """Behind counters that number no transaction."""
    counters = [least_of(11), least_of(12), least_of(20), 0x0FFFFF, 0x1FF7FF, 0x17FFFF]
    counters += [drawn_counter(draw, draw.between(11, 14)) for _ in range(20)]
    cases = [next_case(IKSN + counter, ["Unusable", "OwnRule"]) for counter in counters
             if counter < LAST]
    return Group("next_number", "Of a counter that numbers no transaction the least usable one"
                 " above it comes next too.", "this project's own", cases)


def next_last(draw: Draw) -> Group:
    """No number is left, and no carry goes into the initial key serial number."""
    cases = [Case("after the last number", {"ksn": ksn(iksn + LAST)}, ["LastNumber", "TenOneBits"],
                  "Spent") for iksn in (IKSN, 0, (1 << 80) - ABOVE, drawn_iksn(draw))]
    cases += [Case(f"after counter {counter:06X}, above the last number",
                   {"ksn": ksn(IKSN + counter)}, ["Unusable", "OwnRule"], "Spent")
              for counter in (LAST + 1, LAST + 2, LAST + 0x100, ABOVE - 2, ABOVE - 1)]
    return Group("next_number", "The last number has none behind it.", DUKPT, cases)
