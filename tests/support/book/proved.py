"""The book that is proved, through the program `duk_book_driver`, which the gate builds: it settles the same
groups as the model of the book, and what was settled is compared."""
from __future__ import annotations

from typing import Callable, NamedTuple, Optional, Sequence

from ..models.model_book import Asked, Book
from ..program import built, demand_built

Group = Sequence[Asked]


class Settled(NamedTuple):
    """What became of one: whether it is kept from now on, and what was said to it."""

    is_new: bool
    said: Optional[int]


def text_of(it: Asked) -> str:
    number, mac = it.number.hex(), it.mac.hex()
    if it.reversed is None:
        return f"pay {number} {mac} {it.amount} {it.code:02}"
    return f"reverse {number} {mac} {it.reversed.hex()}"


def settled_of(text: str) -> Settled:
    word, _, said = text.partition(" ")
    return Settled(word == "kept", int(said) if word in ("kept", "again") else None)


def settled_by(book: Book, group: Group) -> list[Settled]:
    """What the model settles, one by one."""
    found = []
    for it in group:
        kept = len(book.kept)
        said = book.settle_one(it)
        found.append(Settled(len(book.kept) > kept, said))
    return found


def difference(worlds: Sequence[Sequence[Group]], model: Callable[[], Book] = Book) -> Optional[str]:
    """The first difference between the proved book and the model, a new book for each world."""
    lines: list[str] = []
    wanted: list[list[Settled]] = []
    for world in worlds:
        book = model()
        for group in world:
            lines.append(",".join(map(text_of, group)))
            wanted.append(settled_by(book, group))
        lines.append("")
        wanted.append([])
    given = "".join(f"{line}\n" for line in lines).encode()
    for program in built("duk_book_driver"):
        demand_built(program)
        ended = program.run(given=given)
        if (ended.status, ended.faults) != (0, b""):
            return f"{program.name}: {ended}"
        written = ended.output.decode().splitlines()
        if len(written) != len(lines):
            return f"{program.name} settles {len(written)} groups of {len(lines)}"
        for line, text, other in zip(lines, written, wanted):
            found = [settled_of(it) for it in text.split(",") if it]
            if found != other:
                return f"{program.name} settles {line} as {found}, and not {other}"
    return None
