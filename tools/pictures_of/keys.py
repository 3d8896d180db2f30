"""Where the keys are, and how one comes of another: as docs/SECURITY.md and docs/FORMATS.md have it."""
from __future__ import annotations

from typing import Iterator

from .drawing import Line, Rect, arrow, card, label, picture, rect, words

TITLE = "Where the keys are: facility, loading, terminal and host."
TOLD = """\
Key injection facility: from the base derivation key of a key set follows the initial key of each terminal, by \
its initial key serial number. The ledger keeps which were issued, and no key.
Loading: the loading block is the initial key, enciphered and authenticated under the loading key.
Terminal: it takes the initial key out of the loading block, and does not keep it. Its 21 registers have \
the future keys, from which those of all numbers that are left follow; its cell keeps them. For a payment it \
takes the next number: that transaction key leaves the registers before the request goes out. Until the reply, the next begin, reversal or \
load, or a restart it has the response key in memory.
Host: its security module has the base derivation keys and the zone key. It derives the transaction key anew, by \
the key serial number of the frame.
The same three keys follow from the transaction key at both ends: PIN key, request key and response key. The \
request has the PIN block under the PIN key and a MAC under the request key, the reply a MAC under the response \
key. The module enciphers the PIN block anew under the zone key, for the issuer.
Who has the base derivation key has all keys of all its terminals. Who has initial key, or loading key and \
loading block, has all keys of that terminal, past and future. Who has the registers has the keys of the numbers \
that are left. Who has a transaction key has that of one number.
The configuration has the host's keys in the clear, and the loading key."""
HEADS = ("Key injection facility", "Loading", "Terminal", "Host: security module")
LEFTS, WIDTHS = (8.0, 214.0, 420.0, 672.0), (198.0, 198.0, 196.0, 196.0)
TOP, PITCH, HIGH = 62.0, 102.0, 68.0
VARIANTS = (Line("PIN key, request key,", "head"), Line("response key", "head"))
NOT_KEPT = ("the load takes", "it, and does", "not keep it")
BY_FRAME = ("the key serial number", "of the frame: down the", "key tree, a step for", "each one bit of the",
            "counter")
# How many rows of cards each column has room for.
DEPTHS = (3, 3, 5, 6)
MEANINGS = (("red", "all keys of all terminals of the key set"),
            ("brown", "all keys of one terminal: loading key and block, together"),
            ("blue", "the keys of the numbers that this terminal has left"), ("green", "the keys of one number"))


def place(column: int, row: int) -> Rect:
    return Rect(LEFTS[column] + 10, TOP + row * PITCH, WIDTHS[column] - 20, HIGH)


def columns() -> Iterator[str]:
    for left, width, depth, head in zip(LEFTS, WIDTHS, DEPTHS, HEADS):
        yield rect(Rect(left, 8, width, TOP + (depth - 1) * PITCH + HIGH + 2), "band")
        yield words(left + 10, 26, head, "head")


def key(column: int, row: int, kind: str, head: str, *lines: str) -> str:
    return card(place(column, row), [Line(head, "head"), *(Line(it) for it in lines)], kind)


def keys() -> Iterator[str]:
    yield key(0, 0, "red", "Base derivation key", "of a key set, which has many terminals")
    yield key(0, 1, "brown", "Initial key", "of one terminal")
    yield key(0, 2, "", "Ledger", "which initial keys were issued, and no key")
    yield key(1, 0, "brown", "Loading key", "shared with one terminal alone, or used once")
    yield key(1, 1, "brown", "Loading block", "the initial key under it; destroy it after the load")
    yield key(2, 1, "brown", "Initial key", "taken out of the block, and not kept")
    yield key(2, 2, "blue", "21 registers", "in the cell: the keys of all numbers left follow from them")
    yield key(2, 3, "green", "Transaction key", "leaves the registers before the request goes out")
    yield card(place(2, 4), [*VARIANTS, Line("this one stays until the reply")], "green")
    yield key(3, 0, "red", "Base derivation keys", "of all key sets that it serves")
    yield key(3, 3, "green", "Transaction key", "derived anew for a frame")
    yield card(place(3, 4), VARIANTS, "green")
    yield key(3, 5, "", "Zone key", "the PIN block goes to the issuer under it")


def down(column: int, above: int, below: int, *lines: str) -> str:
    """From a card to one further down."""
    start, end = place(column, above), place(column, below)
    x = start.left + 24
    return arrow([(x, start.bottom), (x, end.top)]) + label(
        x + 8, (start.bottom + end.top) / 2 + 4 + 7 * (len(lines) - 1), lines, "start", "soft")


def across(start: Rect, end: Rect, away: float = 0, kind: str = "") -> str:
    return arrow([(start.right if end.left > start.left else start.left, start.centre + away),
                  (end.left if end.left > start.left else end.right, start.centre + away)], kind)


def ways() -> Iterator[str]:
    yield down(0, 0, 1, "by its serial number")
    yield across(place(0, 1), place(1, 1))
    yield down(1, 0, 1, "enciphers")
    yield across(place(1, 1), place(2, 1))
    given, taken = place(1, 0), place(2, 1)
    yield arrow([(given.right, given.centre), (taken.middle, given.centre), (taken.middle, taken.top)])
    yield label(taken.middle + 8, given.centre + 24, NOT_KEPT, "start", "soft")
    yield down(2, 1, 2, "future keys")
    yield down(2, 2, 3, "the next number")
    yield down(2, 3, 4, "a mask each")
    yield down(3, 0, 3, *BY_FRAME)
    yield down(3, 3, 4, "a mask each")
    yield down(3, 4, 5, "PIN block")
    one, other = place(2, 3), place(3, 3)
    yield arrow([(one.right, one.centre), (other.left, one.centre)], "dashed", both=True)
    yield label((one.right + other.left) / 2, one.centre - 6, ("the same",), kind="soft")
    one, other = place(2, 4), place(3, 4)
    yield across(one, other, -10, "blue")
    yield label((one.right + other.left) / 2, one.centre - 16, ("request",), kind="soft")
    yield across(other, one, 12, "green")
    yield label((one.right + other.left) / 2, one.centre + 27, ("reply",), kind="soft")
    one, other = place(0, 0), place(3, 0)
    yield arrow([(one.middle, one.top), (one.middle, one.top - 14), (other.middle, one.top - 14),
                 (other.middle, other.top)], "dashed", both=True)
    yield label((given.middle + taken.middle) / 2, one.top - 18, ("the same",), kind="soft")


def meanings() -> Iterator[str]:
    """What it means to have a key, by the colour of its card."""
    left, top = LEFTS[0], TOP + 3 * PITCH
    yield words(left, top + 12, "Who has such a key has", "head")
    for at, (kind, text) in enumerate(MEANINGS):
        yield card(Rect(left, top + 26 + 34 * at, LEFTS[1] + WIDTHS[1] - left, 23), [Line(text)], kind)


def drawn() -> str:
    return picture(TOP + 5 * PITCH + HIGH + 18, TITLE, TOLD, [*columns(), *ways(), *keys(), *meanings()])
