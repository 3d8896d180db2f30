"""Reads library/calls.toml, the table of the calls."""
from __future__ import annotations

import re
import tomllib
from pathlib import Path
from typing import Any, Iterator, Mapping, Sequence, Union

from .calls import (
    BYTES, FOR_EACH, IN_OUT, OUT, WAYS, Call, Fault, Group, Parameter, Table, Unreadable)

FILE = ("library", "calls.toml")
NAME = re.compile(r"[a-z][a-z0-9_]*")
# How the lengths of a slice are written that is read, or changed in place.
LENGTHS = re.compile(r"\d+( (or|to) \d+)?|\d+ or more|any|a multiple of \d+")


def read_table(root: Path) -> Table:
    try:
        found = tomllib.loads(root.joinpath(*FILE).read_text(encoding="utf-8"))
    except tomllib.TOMLDecodeError as why:
        raise Unreadable(str(why)) from why
    try:
        return Table(
            version=read_version(found["version"]), since=found["since"],
            support=tuple(found["support"]), faults=tuple(read_faults(found["faults"])),
            groups=tuple(read_group(it, found["faults"]) for it in found["groups"]),
            homes=found["homes"])
    except KeyError as why:
        raise Unreadable(f"{why.args[0]} is missing") from why


def read_version(text: str) -> tuple[int, int, int]:
    if not re.fullmatch(r"\d+\.\d+\.\d+", text):
        raise Unreadable(f"{text} is no version")
    major, minor, patch = map(int, text.split("."))
    return major, minor, patch


def read_faults(faults: Mapping[str, tuple[int, str]]) -> Iterator[Fault]:
    """The faults in the order of their numbers, which leave none out."""
    for at, (name, (number, text)) in enumerate(faults.items(), 1):
        if number != at:
            raise Unreadable(f"{name} has number {number} in the place of {at}")
        yield Fault(number, name, text)


def read_group(group: Mapping[str, Any], faults: Mapping[str, Any]) -> Group:
    calls = tuple(read_call(name, call, faults) for name, call in group["calls"].items())
    return Group(plain(group["about"]), group["specs"], calls)


def read_call(name: str, call: Mapping[str, Any], faults: Mapping[str, Any]) -> Call:
    strange = [it for it in call["faults"] if it not in faults]
    if strange:
        raise Unreadable(f"{name}: {strange[0]} is no fault")
    parameters = tuple(read_parameter(name, it) for it in call["arguments"])
    names = [it.name for it in parameters]
    for one in (*call["faults"], *names):
        if [*call["faults"], *names].count(one) > 1:
            raise Unreadable(f"{name}: {one} stands more than once")
    for it in parameters:
        check_each(name, it, parameters)
    takes, _, count = call.get("takes", "").partition(" ")
    return Call(name, plain(call["about"]), parameters, tuple(call["faults"]), call["answers"],
                call.get("by", ""), takes, int(count or len(parameters)), call.get("gives", ""))


def read_parameter(call: str, row: Sequence[str]) -> Parameter:
    """An argument of its row: name, way, length and words."""
    if len(row) != 4:
        raise Unreadable(f"{call}: {row} has not name, way, length and words")
    name, way, length, words = row
    if not NAME.fullmatch(name) or way not in WAYS:
        raise Unreadable(f"{call}: {name}, {way} is no argument")
    return Parameter(name, way, read_length(f"{call}: {name}", way, length), words)


def check_each(call: str, parameter: Parameter, parameters: Sequence[Parameter]) -> None:
    """That a slice with so many bytes for each of another one stands behind that one."""
    found = FOR_EACH.fullmatch(str(parameter.length))
    if found is None:
        return
    before = parameters[:parameters.index(parameter)]
    if not any((it.kind, it.name, it.length) == (BYTES, found[3], f"a multiple of {found[2]}")
               for it in before):
        raise Unreadable(f"{call}: {parameter.name}: {parameter.length} is no length")


def read_length(place: str, way: str, length: str) -> Union[str, int, None]:
    if length == "number" and way != IN_OUT:
        return None
    if way == OUT and length.isdecimal():
        return int(length)
    if (FOR_EACH if way == OUT else LENGTHS).fullmatch(length):
        return length
    raise Unreadable(f"{place}: {length} is no length")


def plain(text: str) -> str:
    """A text without the ends of its lines."""
    return " ".join(text.split())
