"""The configuration: docs/FORMATS.md, "Configuration of dukpt-host", and with keys in the clear
"Configuration"."""
from __future__ import annotations

import re
import tomllib
from dataclasses import dataclass, field
from pathlib import Path
from typing import Any, Callable, Mapping, Sequence

LARGEST = 1 << 20
MOST_SETS, MOST_CARDS = 8, 1000
# Of a PAN, a PIN and a limit.
Card = tuple[bytes, bytes, int]


class Refused(Exception):
    """Why there are no keys: a fault of the documents, of which none has what a value is."""


@dataclass(frozen=True)
class Configuration:
    """The zone key, the base derivation keys by the first five bytes of their numbers, and the
    cards. Its `repr` has none of them."""

    zone: str = field(repr=False)
    keys: Mapping[bytes, str] = field(repr=False)
    cards: Sequence[Card] = field(repr=False)


# Values


def is_text(value: object, form: str) -> bool:
    return isinstance(value, str) and re.fullmatch(form, value) is not None


def is_number(value: object, least: int, most: int) -> bool:
    return type(value) is int and least <= value <= most


def is_block(value: object) -> bool:
    """Whether it may be a key block, as far as is seen without a key."""
    return is_text(value, "[ -~]{1,512}")


def is_double_key(value: object) -> bool:
    return is_text(value, "[0-9A-Fa-f]{32}")


def is_key(value: object) -> bool:
    return is_double_key(value) or is_text(value, "[0-9A-Fa-f]{48}")


def is_card(it: Mapping[str, Any]) -> bool:
    return set(it) == {"pan", "pin", "limit"} and is_text(it["pan"], "[0-9]{12,19}") and is_text(
        it["pin"], "[0-9]{4,12}") and is_number(it["limit"], 0, (1 << 32) - 1)


@dataclass(frozen=True)
class Form:
    """How keys stand in a configuration: its single values, and in an entry of `bdk` the name of
    the key, with what each of them is."""

    values: Mapping[str, Callable[[object], bool]]
    name: str
    is_bdk: Callable[[object], bool]

    def is_key_set(self, it: Mapping[str, Any]) -> bool:
        return set(it) == {"prefix", self.name} and is_text(
            it["prefix"], "[0-9A-Fa-f]{10}") and self.is_bdk(it[self.name])

    def fault(self, text: str, reason: str = "") -> Refused:
        """A fault, with its reason where that is told: not in the form that `dukpt` reads too."""
        told = [text, reason] if reason and self is BLOCKS else [text]
        return Refused(": ".join(["config", *told]))


BLOCKS = Form({"zone": is_block}, "block", is_block)
# What a host over a database does not use is tested too: a file is a configuration for all.
CLEAR = Form({
    "lmk": is_key, "zone": is_key, "loading": is_double_key,
    "terminals": lambda it: is_number(it, 1, 16),
    "log": lambda it: is_number(it, 1, 100_000),
    "stores": lambda it: it in (None, "memory", "disk"),
}, "key", is_double_key)


# A file


def read_configuration(path: str, form: Form) -> Configuration:
    """It raises the first fault."""
    made = read_toml(path)
    if form is BLOCKS and has_clear_keys(made):
        raise Refused("config: keys in the clear: put key blocks in their place, or give"
                      " --test-keys where they are test keys")
    for at, name in enumerate(sorted(made, key=str.encode)):
        if name not in {*form.values, "bdk", "card"}:
            is_plain = re.fullmatch("[a-z_-]{1,16}", name)
            raise Refused(f"config: unknown {name if is_plain else f'key {at + 1}'}")
    for name, is_right in form.values.items():
        if not is_right(made.get(name)):
            raise form.fault(f"bad {name}", "" if name in made else "there is none")
    keys = {bytes.fromhex(it["prefix"]): it[form.name]
            for it in tables(made, form, "bdk", 1, MOST_SETS, "prefix", form.is_key_set)}
    cards = [(it["pan"].encode(), it["pin"].encode(), it["limit"])
             for it in tables(made, form, "card", 0, MOST_CARDS, "pan", is_card)]
    return Configuration(made["zone"], keys, cards)


def read_toml(path: str) -> Mapping[str, Any]:
    try:
        with Path(path).open("rb") as file:
            data = file.read(LARGEST + 1)
    except OSError:
        raise Refused("config: cannot read") from None
    if len(data) > LARGEST:
        raise Refused("config: too long")
    try:
        return tomllib.loads(data.decode("utf-8"))
    except (ValueError, RecursionError):
        raise Refused("config: not TOML") from None


def has_clear_keys(made: Mapping[str, Any]) -> bool:
    """Whether it has the form in which each key stands in the clear."""
    found = made.get("bdk")
    entries = found if isinstance(found, list) else []
    return "lmk" in made or any(isinstance(it, dict) and CLEAR.name in it for it in entries)


def tables(made: Mapping[str, Any], form: Form, name: str, least: int, most: int, key: str,
           is_right: Callable[[Mapping[str, Any]], bool]) -> Sequence[Mapping[str, Any]]:
    """The tables of an array, each of which is right and has a key of its own."""
    found = made.get(name, [])
    if not isinstance(found, list) or len(found) < least:
        raise form.fault(f"bad {name}")
    if len(found) > most:
        raise form.fault(f"bad {name}", f"more than {most}")
    seen: set[str] = set()
    for at, it in enumerate(found, 1):
        if not isinstance(it, dict) or not is_right(it):
            raise form.fault(f"bad {name} {at}")
        if it[key].upper() in seen:
            raise form.fault(f"bad {name} {at}", f"its {key} stands before")
        seen.add(it[key].upper())
    return found
