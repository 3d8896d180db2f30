"""What wrong values have in common with the right ones: halves swapped, parity adjusted, a mask."""
from __future__ import annotations

from typing import Callable, Iterator, Optional, Sequence, Tuple

from .cases import BLOCK_BYTES
from .facts import is_simplest
from .judging import Difference, Verdict, is_equal, spoken_value

# What may hold of a right value and a wrong one, and how it is told.
Relation = Tuple[Callable[[bytes, bytes], bool], str]
Pair = Tuple[bytes, bytes]
# A mask, or a half that is right, is told where so many different values at least show it.
LEAST_VALUES = 3
# Numbers, of which the counter alone differs where all is well with the rest.
NUMBERS = ("ksn", "last_ksn")


def hints_of(wrong: Sequence[Verdict]) -> Iterator[str]:
    """What holds of all wrong values in words, or else of those of the simplest cases."""
    told = hint_of([it for verdict in wrong for it in verdict.differences])
    if told:
        yield told
        return
    simplest = [(words, it) for it in wrong if (words := is_simplest(it.case))]
    for words in dict.fromkeys(words for words, _ in simplest):
        these = [it for other, it in simplest if other == words]
        told = hint_of([it for verdict in these for it in verdict.differences])
        told = told or missing_xor_of(these)
        if told and len(these) >= LEAST_VALUES:
            yield f"of the {len(these):,} cases with {words}: {told}"


def hint_of(differences: Sequence[Difference]) -> str:
    """What holds of all wrong values, in words; nothing where there is no such."""
    if differences and all(isinstance(it.expected, list) for it in differences):
        return hint_of_lists(differences)
    pairs = [pair for it in differences if (pair := bytes_of(it)) is not None]
    if not pairs or len(pairs) < len(differences):
        return ""
    told = relation_of(pairs, RELATIONS)
    if told or len({expected for expected, _ in pairs}) < LEAST_VALUES:
        return told
    members = {it.member for it in differences}
    if members <= set(NUMBERS):
        return relation_of(pairs, OF_NUMBERS)
    return (mask_of(pairs) or relation_of(pairs, BLOCKS if members == {"data"} else HALVES)
            or relation_of(pairs, NIBBLES))


def hint_of_lists(differences: Sequence[Difference]) -> str:
    """What holds of all wrong lists, whose empty places are null."""
    if all(is_reversed(it) for it in differences):
        return "in each wrong value the order of the list is reversed"
    places = [pair for it in differences for pair in places_of(it)]
    if places and all(expected is None for _, expected, _ in places):
        return "in each wrong list only empty places differ: a value where none is expected"
    if places and all(found is None for _, _, found in places):
        return "in each wrong list only full places differ: none where a value is expected"
    return ""


def relation_of(pairs: Sequence[Pair], relations: Sequence[Relation]) -> str:
    """The first of these relations that all pairs have, in words, if they have one."""
    for holds, words in relations:
        if all(holds(expected, found) for expected, found in pairs):
            return f"in each wrong value {words}"
    return ""


def places_of(it: Difference) -> list[tuple[int, object, object]]:
    """The places at which lists differ, with what is expected and found there; none for others."""
    if not (isinstance(it.expected, list) and isinstance(it.found, list)
            and len(it.expected) == len(it.found)):
        return []
    return [(place, *pair) for place, pair in enumerate(zip(it.expected, it.found))
            if not is_equal(*pair, False)]


def spoken_difference(it: Difference) -> tuple[str, str]:
    """What is expected and found, in words: of lists, the places that differ alone."""
    if it.is_missing:
        return spoken_value(it.expected), "no such member"
    places = places_of(it)
    if not places or len(places) == len(it.expected):
        return spoken_value(it.expected), spoken_value(it.found)
    differ = f"(differs at {len(places)} of {len(it.expected)})"
    expected, found = ("; ".join(f"place {pair[0]} {spoken_value(pair[at])}" for pair in places)
                       for at in (1, 2))
    return f"{expected} {differ}", found


def missing_xor_of(wrong: Sequence[Verdict]) -> str:
    """That the right half of a step is not xored with its result, in words, if all show it."""
    for verdict in wrong:
        key = verdict.case.inputs.get("initial_key")
        for it in verdict.differences:
            pair = bytes_of(it)
            if not (isinstance(key, str) and pair and len(pair[0]) == len(pair[1]) == 16
                    and bytes(a ^ b for a, b in zip(*pair))[8:] == bytes.fromhex(key)[8:]):
                return ""
    return ("in each wrong value the second half is the right one xored with the second half of"
            " initial_key: the last xor of a step is missing") if wrong else ""


def is_reversed(it: Difference) -> bool:
    """Whether a list is as expected, but from its end to its beginning."""
    is_list = isinstance(it.expected, list) and isinstance(it.found, list)
    return is_list and is_equal(it.expected[::-1], it.found, False)


def bytes_of(it: Difference) -> Optional[tuple[bytes, bytes]]:
    """The expected and the found bytes of a difference, where both are hexadecimal."""
    if not (isinstance(it.expected, str) and isinstance(it.found, str)):
        return None
    try:
        return bytes.fromhex(it.expected), bytes.fromhex(it.found)
    except ValueError:
        return None


def halves(data: bytes) -> tuple[bytes, bytes]:
    """The two halves of bytes."""
    middle = len(data) // 2
    return data[:middle], data[middle:]


def with_odd_parity(data: bytes) -> bytes:
    """Bytes whose last bits are such that each byte has an odd number of one bits."""
    return bytes(it & 0xFE | (bin(it >> 1).count("1") + 1) % 2 for it in data)


def is_swapped(expected: bytes, found: bytes) -> bool:
    """Whether the halves are exchanged."""
    left, right = halves(expected)
    return len(expected) % 2 == 0 and found == right + left


def has_one_half(place: int) -> Callable[[bytes, bytes], bool]:
    """Whether one half alone is right."""
    def holds(expected: bytes, found: bytes) -> bool:
        """Whether that half is right."""
        return (len(expected) == len(found) and len(expected) % 2 == 0
                and halves(expected)[place] == halves(found)[place])

    return holds


RELATIONS: Sequence[Relation] = (
    (is_swapped, "the two halves are exchanged"),
    (lambda expected, found: found == with_odd_parity(expected),
     "the parity bits are adjusted, and all other bits are right"),
    (lambda expected, found: found == expected[::-1], "the order of the bytes is reversed"),
    (lambda expected, found: len(found) < len(expected) and expected.startswith(found),
     "the end is missing"),
    (lambda expected, found: len(found) < len(expected) and expected.endswith(found),
     "the beginning is missing"),
    (lambda expected, found: len(found) > len(expected) and found.startswith(expected),
     "more follows what is right"),
)
OF_NUMBERS: Sequence[Relation] = (
    (lambda expected, found: len(found) == len(expected)
     and int.from_bytes(expected, "big") >> 21 == int.from_bytes(found, "big") >> 21,
     "only the counter, the last 21 bits, differs"),
)
BLOCKS: Sequence[Relation] = (
    (lambda expected, found: len(found) == len(expected) > BLOCK_BYTES
     and found[:BLOCK_BYTES] == expected[:BLOCK_BYTES],
     "the first block is right, and one behind it is not"),
)
NIBBLES: Sequence[Relation] = (
    (lambda expected, found: len(found) == len(expected)
     and {*bytes(a ^ b for a, b in zip(expected, found)).hex()} <= {"0", "f"},
     "each digit that is not right is the right one xored with F, as by another filler"),
)
HALVES: Sequence[Relation] = (
    (has_one_half(0), "the first half is right, and the second one is not"),
    (has_one_half(1), "the second half is right, and the first one is not"),
)


def mask_of(pairs: Sequence[Pair]) -> str:
    """The mask by which each wrong value differs from the right one, if it is one mask."""
    masks = {bytes(a ^ b for a, b in zip(expected, found)) for expected, found in pairs
             if len(expected) == len(found)}
    if len(masks) != 1 or any(len(a) != len(b) for a, b in pairs):
        return ""
    return f"each wrong value is the right one xored with {masks.pop().hex().upper()}"
