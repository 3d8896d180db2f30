"""Random banks: configurations in the many ways in which one can be written, and purchases."""
from __future__ import annotations

import random
from dataclasses import dataclass
from typing import Iterable

from ..formats import configuration
from ..formats.configuration import Configuration
from ..standards.dukpt import SPENT

MOST_AMOUNT = 0xFFFFFFFF
PREFIXES = ("FFFF987654", "0000000000", "FFFF987655", "FFFFFFFFFF")


@dataclass(frozen=True)
class Bank:
    """A configuration as a text, and what it says."""

    text: bytes
    says: Configuration


@dataclass(frozen=True)
class Purchase:
    pan: str
    pin: str
    amount: int


def digits(chance: random.Random, least: int, most: int) -> str:
    return "".join(chance.choices("0123456789", k=chance.randint(least, most)))


def hexadecimal(chance: random.Random, *lengths: int) -> str:
    """A text of so many bytes, in either case."""
    text = chance.randbytes(chance.choice(lengths)).hex()
    return text.upper() if chance.random() < 0.5 else text


def quoted(chance: random.Random, text: str) -> str:
    return chance.choice(('"{}"', "'{}'", '"""{}"""')).format(text)


def number(chance: random.Random, value: int) -> str:
    """A whole number in one of TOML's ways to write it."""
    ways = [str(value)] * 4 + [f"+{value}", f"{value:_}", f"0x{value:X}", f"0o{value:o}"]
    return chance.choice(ways + [f"0b{value:b}"])


def random_limit(chance: random.Random) -> int:
    return chance.choice((0, 1, 500, chance.randrange(1 << 32), MOST_AMOUNT))


def key_set_entries(chance: random.Random) -> list[dict[str, str]]:
    prefixes = chance.sample(PREFIXES, chance.randint(1, 3))
    if chance.random() < 0.1:
        prefixes += [f"01020304{last:02X}" for last in range(8 - len(prefixes))]
    return [{"prefix": quoted(chance, prefix), "key": quoted(chance, hexadecimal(chance, 16))}
            for prefix in prefixes]


def card_entries(chance: random.Random) -> list[dict[str, str]]:
    count = chance.choice((0, 1, 2, 3, 5)) if chance.random() < 0.5 else chance.randint(1, 5)
    pans = {digits(chance, 12, 19) for _ in range(count)}
    return [{"pan": quoted(chance, pan), "pin": quoted(chance, digits(chance, 4, 12)),
             "limit": number(chance, random_limit(chance))} for pan in sorted(pans)]


def shuffled(chance: random.Random, lines: Iterable[str]) -> list[str]:
    made = list(lines)
    chance.shuffle(made)
    return made


def inline(chance: random.Random, entry: dict[str, str]) -> str:
    return "{ " + ", ".join(shuffled(chance, (f"{k} = {v}" for k, v in entry.items()))) + " }"


def tables(chance: random.Random, key: str, entries: list[dict[str, str]]) -> list[str]:
    return [line for entry in entries
            for line in [f"[[{key}]]", *shuffled(chance, (f"{k} = {v}" for k, v in entry.items()))]]


def random_room(chance: random.Random) -> int:
    """How many numbers a log has room for: few, many, or more than a host has replies of."""
    return chance.choice((chance.randint(1, 9), chance.randint(10, 60), chance.randint(70, 250)))


@dataclass
class Draft:
    """A configuration before it is written: its keys, and the entries of those that have some, all
    values as texts of TOML."""

    front: dict[str, str]
    entries: dict[str, list[dict[str, str]]]


def random_draft(chance: random.Random, stores: str, log: int) -> Draft:
    front = {
        "lmk": quoted(chance, hexadecimal(chance, 16, 24)),
        "zone": quoted(chance, hexadecimal(chance, 16, 24)),
        "loading": quoted(chance, hexadecimal(chance, 16)),
        "terminals": number(chance, chance.choice((1, 2, 3, 4, 15, 16))),
        "log": number(chance, log),
    }
    if stores == "disk" or chance.random() < 0.5:
        front["stores"] = quoted(chance, stores)
    return Draft(front, {"bdk": key_set_entries(chance), "card": card_entries(chance)})


def text_of(chance: random.Random, draft: Draft) -> bytes:
    """The text of a draft, in an order at random."""
    front, behind = dict(draft.front), []
    for key, entries in draft.entries.items():
        if entries and chance.random() < 0.7:
            behind += tables(chance, key, entries)
        elif entries or chance.random() < 0.5:
            front[key] = "[" + ", ".join(inline(chance, entry) for entry in entries) + "]"
    lines = shuffled(chance, (f"{key} = {value}" for key, value in front.items()))
    return written(chance, lines + behind)


def random_bank(chance: random.Random, stores: str, log: int) -> Bank:
    """A bank with such stores and such a log."""
    text = text_of(chance, random_draft(chance, stores, log))
    return Bank(text, configuration.read(text))


def written(chance: random.Random, lines: list[str]) -> bytes:
    """The text of such lines, here and there with a comment or an empty line between."""
    end = chance.choice(("\n", "\r\n"))
    text = "".join(chance.choice(("", "", "", "# a comment\n", "\n")) + line + end
                   for line in lines)
    return text.encode()


def random_purchase(chance: random.Random, bank: Configuration) -> Purchase:
    """A purchase, mostly with a card of the bank and near its limit."""
    if not bank.cards or chance.random() < 0.15:
        return Purchase(digits(chance, 12, 19), digits(chance, 4, 12), random_limit(chance))
    card = chance.choice(bank.cards)
    pin = digits(chance, 4, 12) if chance.random() < 0.25 else card.pin
    near = chance.choice((0, 1, card.limit - 1, card.limit, card.limit + 1, MOST_AMOUNT))
    return Purchase(card.pan, pin, min(max(near, 0), MOST_AMOUNT))


def random_iksn(chance: random.Random, bank: Configuration) -> int:
    """An initial key serial number of one of the bank's key sets."""
    prefix = chance.choice(bank.bdks).prefix
    low = chance.choice((0, chance.randrange(8) * SPENT, chance.randrange(1 << 40)))
    return (int.from_bytes(prefix, "big") << 40 | low) // SPENT * SPENT


def foreign_iksn(chance: random.Random, bank: Configuration) -> int:
    """One of no key set of the bank."""
    held = {it.prefix for it in bank.bdks}
    prefix = min(held)
    while prefix in held:
        at, bit = chance.randrange(5), 1 << chance.randrange(8)
        prefix = prefix[:at] + bytes([prefix[at] ^ bit]) + prefix[at + 1 :]
    return (int.from_bytes(prefix, "big") << 40 | chance.randrange(1 << 40)) // SPENT * SPENT
