"""Initial keys, and the keys of numbers."""
from __future__ import annotations

from .draw import Draw
from .form import Case, Group, Members
from .numbers import (
    ABOVE, BDK, COUNTER_BITS, DUKPT, IKSN, INITIAL, LAST, MOST_ONES, around_powers, drawn_counter,
    drawn_iksn, flags_of, greatest_of, ksn, last_counters, least_of, one_bit_iksns, ones, plural)

MASK = bytes.fromhex("C0C0C0C000000000")
# NIST SP 800-67 names these: a key that deciphers as it enciphers.
WEAK = [bytes.fromhex(it) for it in (
    "0101010101010101", "FEFEFEFEFEFEFEFE", "E0E0E0E0F1F1F1F1", "1F1F1F1F0E0E0E0E")]
# Pairs of which each deciphers what the other enciphers.
SEMI_WEAK = [bytes.fromhex(it) for it in (
    "01FE01FE01FE01FE", "FE01FE01FE01FE01", "1FE01FE00EF10EF1", "E01FE01FF10EF10E",
    "01E001E001F101F1", "E001E001F101F101", "1FFE1FFE0EFE0EFE", "FE1FFE1FFE0EFE0E",
    "011F011F010E010E", "1F011F010E010E01", "E0FEE0FEF1FEF1FE", "FEE0FEE0FEF1FEF1")]
PARITY = b"\x01" * 16


def xor(one: bytes, other: bytes) -> bytes:
    """The exclusive or of two texts of one length."""
    return bytes(a ^ b for a, b in zip(one, other))


def odd(key: bytes) -> bytes:
    """A key with each byte's parity made odd."""
    return bytes(byte & 0xFE | (bin(byte >> 1).count("1") + 1) % 2 for byte in key)


def special_keys(draw: Draw) -> list[tuple[str, bytes, str]]:
    """Keys of 16 bytes that show something: what, the key, and its flag."""
    found = [("zeros", bytes(16), "EqualHalves"), ("ones", b"\xFF" * 16, "EqualHalves")]
    found += [("both halves weak", one + other, "WeakKey") for one in WEAK for other in WEAK]
    found += [("semi-weak halves", one + other, "WeakKey")
              for one, other in zip(SEMI_WEAK[::2], SEMI_WEAK[1::2])]
    found += [("equal halves", half + half, "EqualHalves") for half in map(draw.bytes, [8] * 6)]
    found += [("halves that differ by C0C0C0C000000000", half + xor(half, MASK), "EqualHalves")
              for half in map(draw.bytes, [8] * 3)]
    return found


def parity_keys(draw: Draw) -> list[tuple[str, bytes]]:
    """The same key with other parity bits, several times."""
    found = []
    for _ in range(3):
        right = odd(draw.bytes(16))
        found += [("odd parity", right), ("even parity", xor(right, PARITY)),
                  ("the parity of one byte is even", xor(right, bytes(15) + b"\x01")),
                  ("some parities are even", xor(right, b"\x01\x00" * 8))]
    return found


def wrong_key_flags(size: int) -> list[str]:
    """The flags of a key of a wrong length: some software takes a single DES key."""
    return ["WrongLength", "OwnRule"] if size == 8 else ["WrongLength"]


def wrong_ksn_flags(size: int) -> list[str]:
    """The flags of a number of a wrong length: some software puts FFFF before 8 bytes."""
    return ["WrongLength", "OwnRule"] if size == 8 else ["WrongLength"]


def ksn_of(iksn: int, counter: int) -> Members:
    """The input of a number."""
    return {"ksn": ksn(iksn + counter)}


def numbered(iksn: int, counter: int, *flags: str) -> Case:
    """The case of a counter."""
    return Case(f"counter {counter:06X}, {plural(ones(counter), 'one bit')}",
                ksn_of(iksn, counter), [*flags_of(counter), *flags])


# Initial keys


def initial_groups(draw: Draw) -> list[Group]:
    """All groups of `initial_key.json`."""
    return [initial_of_numbers(), initial_of_keys(draw), initial_drawn(draw),
            not_initial(draw), wrong_lengths()]


def initial_of_numbers() -> Group:
    """Which bits of a number go into its initial key."""
    cases = [Case("the sample of the standard", {"iksn": ksn(IKSN)}, ["Sample"]),
             Case("all bits zero", {"iksn": bytes(10)}),
             Case("all bits one but those of the counter", {"iksn": ksn((1 << 80) - ABOVE)})]
    cases += [Case(f"bit {79 - place} alone", {"iksn": ksn(1 << place)}, ["NumberBit"])
              for place in range(COUNTER_BITS, 80)]
    return Group("initial_key", "The first 59 bits of the number, bit 0 the most significant, are"
                 " enciphered with zeros for the counter.", DUKPT, cases, {"bdk": BDK})


def initial_of_keys(draw: Draw) -> Group:
    """Base derivation keys that show something."""
    cases = [Case(told, {"bdk": key}, [flag]) for told, key, flag in special_keys(draw)]
    cases += [Case(told, {"bdk": key}, ["Parity"]) for told, key in parity_keys(draw)]
    return Group("initial_key", "Base derivation keys that show a wrong cipher, mask or order of"
                 " halves.", DUKPT, cases, {"iksn": ksn(IKSN)})


def initial_drawn(draw: Draw) -> Group:
    """Keys and numbers at random."""
    cases = [Case("at random", {"bdk": draw.bytes(16), "iksn": ksn(drawn_iksn(draw))}, ["Random"])
             for _ in range(60)]
    return Group("initial_key", "At random, with parity at random.", DUKPT, cases)


def not_initial(draw: Draw) -> Group:
    """Each counter bit by itself, and others."""
    counters = [1 << place for place in range(COUNTER_BITS)] + [LAST, ABOVE - 1]
    counters += [drawn_counter(draw, draw.between(2, 20)) for _ in range(8)]
    cases = [Case(f"counter {counter:06X}", {"iksn": ksn(IKSN + counter)},
                  ["CounterNotZero", "OwnRule"], "NotInitial") for counter in counters]
    return Group("initial_key", "A number with a counter is no initial key serial number.",
                 "this project's own", cases, {"bdk": BDK})


def wrong_lengths() -> Group:
    """Keys and numbers that are refused."""
    cases = [Case(f"a base derivation key of {size} bytes", {"bdk": bytes(size)}, ["WrongLength"],
                  "Length") for size in (0, 8, 15, 17, 24, 32)]
    cases += [Case(f"a number of {size} bytes", {"iksn": ksn(IKSN).ljust(12, b"\0")[:size]},
                   wrong_ksn_flags(size), "Length") for size in (0, 8, 9, 11, 12)]
    return Group("initial_key", "Keys and numbers of other lengths.", DUKPT, cases,
                 {"bdk": BDK, "iksn": ksn(IKSN)})


# Keys of numbers


def derive_groups(draw: Draw) -> list[Group]:
    """All groups of `derive.json`."""
    return [derive_samples(), derive_edges(), derive_depths(draw), derive_last(),
            derive_number_bits(), derive_of_keys(draw), derive_drawn(draw),
            from_initial_samples(), from_initial_masks(), from_initial_parity(draw),
            from_initial_number_bits(), from_initial_drawn(draw), derive_lengths(),
            *no_transactions(draw)]


def derive_samples() -> Group:
    """The standard's samples."""
    return Group("derive", "The first numbers of the standard's sample terminal.", DUKPT,
                 [numbered(IKSN, counter, "Sample") for counter in range(1, 33)], {"bdk": BDK})


def derive_edges() -> Group:
    """Numbers next to powers of two."""
    return Group("derive", "The numbers next to each power of two, and these.", DUKPT,
                 [numbered(IKSN, counter, "Boundary") for counter in around_powers()
                  if counter > 32], {"bdk": BDK})


def derive_depths(draw: Draw) -> Group:
    """Numbers of each depth."""
    cases = []
    for depth in range(1, MOST_ONES + 1):
        counters = {least_of(depth), greatest_of(depth)}
        while len(counters) < 10:
            counters.add(drawn_counter(draw, depth))
        cases += [numbered(IKSN, counter, "Depth") for counter in sorted(counters)]
    return Group("derive", "Each depth of the key tree, from one step to ten: its least and"
                 " greatest counter, and some between them.", DUKPT, cases, {"bdk": BDK})


def derive_last() -> Group:
    """The last numbers."""
    return Group("derive", "The last numbers of a terminal's life.", DUKPT,
                 [numbered(IKSN, counter, "NearTheEnd") for counter in last_counters(24)],
                 {"bdk": BDK})


def derive_number_bits() -> Group:
    """Which bits of the number go into which step."""
    cases = [Case(f"bit {79 - iksn.bit_length() + 1} of the number alone",
                  ksn_of(iksn, 1), ["NumberBit"]) for iksn in one_bit_iksns()]
    for iksn in (0, (1 << 80) - ABOVE):
        cases += [numbered(iksn, counter, "NumberBit") for counter in (1, least_of(10), LAST)]
    return Group("derive", "The initial key takes the first 59 bits, each step the last 64.", DUKPT,
                 cases, {"bdk": BDK})


def derive_of_keys(draw: Draw) -> Group:
    """Base derivation keys that show something, at the first depth and the last."""
    these = [(told, key, flag) for told, key, flag in special_keys(draw)]
    these += [(told, key, "Parity") for told, key in parity_keys(draw)]
    cases = [Case(f"{told}; counter {counter:06X}", {"bdk": key, **ksn_of(IKSN, counter)}, [flag])
             for told, key, flag in these for counter in (1, 0x155555 & ~1)]
    return Group("derive", "Base derivation keys that show a wrong cipher, mask, parity or order of"
                 " halves.", DUKPT, cases)


def derive_drawn(draw: Draw) -> Group:
    """Keys and numbers at random."""
    cases = []
    for depth in list(range(1, MOST_ONES + 1)) * 12:
        number = drawn_iksn(draw) + drawn_counter(draw, depth)
        cases.append(Case(f"at random, {plural(depth, 'one bit')}",
                          {"bdk": draw.bytes(16), "ksn": ksn(number)}, ["Random"]))
    return Group("derive", "At random, at each depth, with parity at random.", DUKPT, cases)


def from_initial_samples() -> Group:
    """The standard's sample terminal by its initial key."""
    counters = {1, 2, 3, LAST, *map(least_of, range(1, 11)), *map(greatest_of, range(1, 11))}
    return Group("derive_from_initial", "The standard's sample terminal, from its initial key.",
                 DUKPT, [numbered(IKSN, counter, "Sample") for counter in sorted(counters)],
                 {"initial_key": INITIAL})


def from_initial_masks() -> Group:
    """Initial keys on which each use of the mask shows by itself."""
    zeros, full, both = bytes(8), b"\xFF" * 8, MASK
    keys = [("zeros", zeros + zeros), ("ones", full + full), ("the mask itself", both + both),
            ("the mask in the left half", both + zeros),
            ("the mask in the right half", zeros + both),
            ("ones in the left half", full + zeros), ("ones in the right half", zeros + full),
            ("all but the mask", xor(full, both) * 2)]
    cases = [Case(f"{told}; counter {counter:06X}", {"initial_key": key, **ksn_of(IKSN, counter)},
                  ["StepMask"]) for told, key in keys
             for counter in (1, 2, 3, 1 << 20, least_of(10), LAST)]
    return Group("derive_from_initial", "A step makes the right half of the key itself, and the"
                 " left half of the key xored with C0C0C0C000000000 in both halves.", DUKPT, cases)


def from_initial_parity(draw: Draw) -> Group:
    """Parity bits of the right half go into the xor of a step: nothing may adjust them."""
    cases = [Case(f"{told}; counter {counter:06X}", {"initial_key": key, **ksn_of(IKSN, counter)},
                  ["Parity"]) for told, key in parity_keys(draw) for counter in (1, LAST)]
    return Group("derive_from_initial", "Keys are used and given as they are, with no parity"
                 " adjusted: the right half is xored whole.", DUKPT, cases)


def from_initial_number_bits() -> Group:
    """Which bits of the number go into a step."""
    cases = [Case(f"bit {79 - iksn.bit_length() + 1} of the number alone", ksn_of(iksn, 1),
                  ["NumberBit"]) for iksn in one_bit_iksns()]
    return Group("derive_from_initial", "A step takes the last 64 bits of the number: its first 16"
                 " change nothing.", DUKPT, cases, {"initial_key": INITIAL})


def from_initial_drawn(draw: Draw) -> Group:
    """Keys and numbers at random."""
    cases = []
    for depth in list(range(1, MOST_ONES + 1)) * 8:
        number = drawn_iksn(draw) + drawn_counter(draw, depth)
        cases.append(Case(f"at random, {plural(depth, 'one bit')}",
                          {"initial_key": draw.bytes(16), "ksn": ksn(number)}, ["Random"]))
    return Group("derive_from_initial", "At random, at each depth.", DUKPT, cases)


def derive_lengths() -> Group:
    """Keys and numbers that are refused."""
    cases = [Case(f"a base derivation key of {size} bytes", {"bdk": bytes(size)}, ["WrongLength"],
                  "Length") for size in (0, 8, 15, 17, 24, 32)]
    cases += [Case(f"a number of {size} bytes", {"ksn": (ksn(IKSN + 1) * 2)[:size]},
                   wrong_ksn_flags(size), "Length") for size in (0, 8, 9, 11, 12)]
    return Group("derive", "Keys and numbers of other lengths.", DUKPT, cases,
                 {"bdk": BDK, "ksn": ksn(IKSN + 1)})


def no_transactions(draw: Draw) -> list[Group]:
    """Numbers that no terminal uses, which have no key."""
    counters = {0, LAST + 1, 0x0007FF, 0x0FFFFF, 0x17FFFF, 0x1FF7FF, 0x1FFC00, ABOVE - 2}
    for depth in range(MOST_ONES + 1, COUNTER_BITS + 1):
        counters.update((least_of(depth), greatest_of(depth), drawn_counter(draw, depth)))
    numbers = [IKSN + counter for counter in sorted(counters)]
    # The one bits above the counter are none of its bits.
    numbers += [iksn + counter for iksn in (0, 1 << COUNTER_BITS, (1 << 80) - ABOVE)
                for counter in (0, least_of(MOST_ONES + 1), ABOVE - 1)]
    cases = [no_transaction(number) for number in numbers]
    comment = "No terminal uses a number whose counter is zero or has more than ten one bits."
    return [Group("derive", comment, DUKPT, cases, {"bdk": BDK}),
            Group("derive_from_initial", comment, DUKPT, cases, {"initial_key": INITIAL})]


def no_transaction(number: int) -> Case:
    """The case of a number that numbers no transaction."""
    counter = number % ABOVE
    return Case(f"counter {counter:06X}, {plural(ones(counter), 'one bit')}",
                {"ksn": ksn(number)}, ["NoTransaction"], "NotUsable")
