"""Configurations, as docs/FORMATS.md has them, over the TOML reader that Python has.

It was written from that document alone. `read` answers what a configuration says, or raises
`Refused` with the line of its first fault.
"""
from __future__ import annotations

import re
from dataclasses import dataclass
from typing import Any, Callable, Optional

LONGEST = 1_048_576
KEYS = ("lmk", "zone", "loading", "terminals", "log", "stores", "bdk", "card")


class Refused(Exception):
    """Why a text is no configuration."""


@dataclass(frozen=True)
class KeySet:
    prefix: bytes
    key: bytes


@dataclass(frozen=True)
class Card:
    pan: str
    pin: str
    limit: int


@dataclass(frozen=True)
class Configuration:
    lmk: bytes
    zone: bytes
    loading: bytes
    terminals: int
    log: int
    stores: str
    bdks: tuple[KeySet, ...]
    cards: tuple[Card, ...]

    def code(self, pan: str, pin: str, amount: int) -> str:
        """The code of a payment with this card and PIN."""
        card = next((card for card in self.cards if card.pan == pan), None)
        if card is None:
            return "14"
        if card.pin != pin:
            return "55"
        return "51" if amount > card.limit else "00"


def read(data: bytes) -> Configuration:
    if len(data) > LONGEST:
        raise Refused("config: too long")
    table = read_toml(data)
    for place, key in enumerate(sorted(table, key=str.encode), 1):
        if key not in KEYS:
            plain = re.fullmatch("[a-z_-]{1,16}", key)
            raise Refused(f"config: unknown {key if plain else f'key {place}'}")
    return Configuration(
        lmk=value(table, "lmk", is_hex(32, 48), bytes.fromhex),
        zone=value(table, "zone", is_hex(32, 48), bytes.fromhex),
        loading=value(table, "loading", is_hex(32), bytes.fromhex),
        terminals=value(table, "terminals", is_whole(1, 16)),
        log=value(table, "log", is_whole(1, 100_000)),
        stores=value({"stores": "memory", **table}, "stores", is_stores),
        bdks=key_sets(table),
        cards=cards(table),
    )


def read_toml(data: bytes) -> dict[str, Any]:
    try:
        import tomllib
    except ImportError:
        raise AssertionError("this judges with tomllib, which is in Python 3.11") from None
    try:
        return tomllib.loads(data.decode("utf-8"))
    except (UnicodeDecodeError, tomllib.TOMLDecodeError):
        raise Refused("config: not TOML") from None


Test = Callable[[Any], bool]


def is_hex(*lengths: int) -> Test:
    return lambda it: (
        isinstance(it, str) and len(it) in lengths and bool(re.fullmatch("[0-9A-Fa-f]*", it)))


def is_digits(least: int, most: int) -> Test:
    return lambda it: isinstance(it, str) and bool(re.fullmatch(f"[0-9]{{{least},{most}}}", it))


def is_whole(least: int, most: int) -> Test:
    return lambda it: type(it) is int and least <= it <= most


def is_stores(it: Any) -> bool:
    return it in ("memory", "disk")


def value(table: dict[str, Any], key: str, is_right: Test,
          made: Optional[Callable[[Any], Any]] = None) -> Any:
    if key not in table or not is_right(table[key]):
        raise Refused(f"config: bad {key}")
    return made(table[key]) if made else table[key]


def entries(table: dict[str, Any], key: str, least: int, most: int,
            fields: dict[str, Test]) -> list[dict[str, Any]]:
    """The entries of a key. The first of its fields is another one in each of them."""
    found = table.get(key, [])
    if not isinstance(found, list) or not least <= len(found) <= most:
        raise Refused(f"config: bad {key}")
    first, earlier = next(iter(fields)), set()
    for place, entry in enumerate(found, 1):
        right = isinstance(entry, dict) and set(entry) == set(fields) and all(
            is_right(entry[name]) for name, is_right in fields.items())
        if not right or entry[first].upper() in earlier:
            raise Refused(f"config: bad {key} {place}")
        earlier.add(entry[first].upper())
    return found


def key_sets(table: dict[str, Any]) -> tuple[KeySet, ...]:
    fields = {"prefix": is_hex(10), "key": is_hex(32)}
    return tuple(KeySet(bytes.fromhex(it["prefix"]), bytes.fromhex(it["key"]))
                 for it in entries(table, "bdk", 1, 8, fields))


def cards(table: dict[str, Any]) -> tuple[Card, ...]:
    fields = {"pan": is_digits(12, 19), "pin": is_digits(4, 12), "limit": is_whole(0, 0xFFFFFFFF)}
    return tuple(Card(it["pan"], it["pin"], it["limit"])
                 for it in entries(table, "card", 0, 1000, fields))
