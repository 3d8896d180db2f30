"""The crates in their layers, as crates.txt has them, and what docs/ARCHITECTURE.md says that each is."""
from __future__ import annotations

import re
from dataclasses import dataclass
from pathlib import Path
from typing import AbstractSet, Mapping, Sequence

LIST, DOCUMENT = "crates.txt", "docs/ARCHITECTURE.md"
# A line of the list: the crate, a word of how it is built, and what it uses.
CRATE = re.compile(r"(?P<name>\w+)(?: \w+)?:(?P<uses>(?: \w+)*)")
# A row of the document's table of crates, and how that table begins.
TABLE = re.compile(r"^\| crate \| what it is \|\n\|(?:-+\|)+\n((?:\|.*\n)+)", re.M)
ROW = re.compile(r"\| `(\w+)` \| ([^|]+?) \|")


class Unreadable(Exception):
    """A text that does not say what a picture needs."""


@dataclass(frozen=True)
class Layer:
    """A layer: the comment above it, and its crates."""

    head: str
    crates: Sequence[str]


@dataclass(frozen=True)
class Crates:
    """Layers from the lowest on; of each crate what it stands on directly, and what it is."""

    layers: Sequence[Layer]
    stands_on: Mapping[str, Sequence[str]]
    about: Mapping[str, str]


def read_crates(root: Path) -> Crates:
    layers, uses = read_list((root / LIST).read_text(encoding="utf-8"))
    about = read_table((root / DOCUMENT).read_text(encoding="utf-8"))
    for name in uses:
        if name not in about:
            raise Unreadable(f"{DOCUMENT} does not say in its table what {name} is")
    for name in about:
        if name not in uses:
            raise Unreadable(f"{DOCUMENT} has {name} in its table, which {LIST} has not")
    return Crates(layers, direct(uses), about)


def read_list(text: str) -> tuple[list[Layer], dict[str, list[str]]]:
    """The layers, and what each crate uses of them."""
    layers: list[Layer] = []
    uses: dict[str, list[str]] = {}
    for part in text.split("\n\n")[1:]:
        head, *rows = part.strip().split("\n")
        if not head.startswith("# "):
            raise Unreadable(f"{LIST}: no comment stands above {head}")
        found = [(row, CRATE.fullmatch(row)) for row in rows]
        for row, it in found:
            if it is None or it["name"] in uses:
                raise Unreadable(f"{LIST}: {row} is no line of a further crate")
            uses[it["name"]] = it["uses"].split()
        layers.append(Layer(head.removeprefix("# "), [it["name"] for _, it in found if it]))
    return layers, own(uses)


def own(uses: Mapping[str, Sequence[str]]) -> dict[str, list[str]]:
    """Of what each uses the crates of the list, which stand before it."""
    places = {name: at for at, name in enumerate(uses)}
    held = {name: [it for it in used if it in places] for name, used in uses.items()}
    for name, used in held.items():
        for it in used:
            if places[it] >= places[name]:
                raise Unreadable(f"{LIST}: {name} uses {it}, which does not stand before it")
    return held


def read_table(text: str) -> dict[str, str]:
    found = TABLE.search(text)
    if found is None:
        raise Unreadable(f"{DOCUMENT} has no table of crates")
    about: dict[str, str] = {}
    for row in found[1].splitlines():
        it = ROW.fullmatch(row)
        if it is None or it[1] in about:
            raise Unreadable(f"{DOCUMENT}: {row} is no row of a further crate")
        about[it[1]] = it[2].replace("`", "")
    return about


def direct(uses: Mapping[str, Sequence[str]]) -> dict[str, list[str]]:
    """What each uses, but for what it also reaches through another one that it uses."""
    below = {name: reached(name, uses) for name in uses}
    return {name: [it for it in used if not any(it in below[other] for other in used)]
            for name, used in uses.items()}


def reached(name: str, uses: Mapping[str, Sequence[str]]) -> AbstractSet[str]:
    found: set[str] = set()
    ahead = list(uses[name])
    while ahead:
        it = ahead.pop()
        if it not in found:
            found.add(it)
            ahead += uses[it]
    return found
