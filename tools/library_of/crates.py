"""What crates/duk_calls says: version, faults' numbers, each call's arguments and faults."""
from __future__ import annotations

import re
from pathlib import Path
from typing import Iterator

from .calls import Unreadable

# `Fault::Length => 1`, or, of another type's fault, `Fault::Pin(PinFault::PinDigit) => 9`.
FAULT = re.compile(r"Fault::(\w+)(?:\(\w+::(\w+)\))? => (\d+),")
# The words before the variants of a fault of another type, where they are not in their names.
BEFORE = {"Block": "Block", "Pin": ""}

PUBLIC = re.compile(r"((?:^///.*\n)+)pub fn (\w+)\(", re.MULTILINE)
NAMED = re.compile(r"`([A-Z]\w*)`|first fault, as by `(\w+)`")
# A call's function: its name, and between the brackets its arguments, each with its type.
CALL = re.compile(r"^pub fn (\w+)\(([^()]*)\) -> Result<\(\), Fault>", re.MULTILINE)
VERSION = re.compile(r"pub fn version\(\).*?\{\s*0x([0-9A-F_]+)\s*\}", re.DOTALL)


def read_faults(path: Path) -> dict[str, int]:
    """The faults, by their names, with their numbers."""
    found = {}
    for outer, inner, number in FAULT.findall(path.read_text(encoding="utf-8")):
        found[BEFORE[outer] + inner if inner else outer] = int(number)
    return found


def read_orders(folder: Path) -> dict[str, list[str]]:
    """Of each call, the faults in the order in which its comment has them."""
    tails = {}
    for path in sorted(folder.glob("*.rt")):
        for comment, name in PUBLIC.findall(path.read_text(encoding="utf-8")):
            _, refused, tail = " ".join(comment.replace("///", "").split()).partition("Refused with")
            if refused:
                tails[name] = tail
    return {name: list(faults_in(tail, tails)) for name, tail in tails.items()}


def faults_in(tail: str, tails: dict[str, str]) -> Iterator[str]:
    """The faults that stand in a comment; those as by another call are all of that but `Length`."""
    for fault, other in NAMED.findall(tail):
        if fault:
            yield fault
        elif other in tails:
            yield from (it for it in faults_in(tails[other], tails) if it != "Length")


def read_arguments(folder: Path) -> dict[str, list[str]]:
    """Of each call, the arguments in their order, as `ksn: &[u8]`."""
    found: dict[str, list[str]] = {}
    for path in sorted(folder.glob("*.rt")):
        for name, arguments in CALL.findall(path.read_text(encoding="utf-8")):
            if name in found:
                raise Unreadable(f"{path.name}: {name} is there already")
            rows = (" ".join(it.split()) for it in arguments.split(","))
            found[name] = list(filter(None, rows))
    return found


def read_version(path: Path) -> str:
    found = VERSION.search(path.read_text(encoding="utf-8"))
    if found is None:
        raise Unreadable(f"{path.name} has no version")
    number = int(found[1], 16)
    return f"{number >> 16}.{number >> 8 & 255}.{number & 255}"
