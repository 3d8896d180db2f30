"""The architecture: each layer of crates.txt a band, each crate a box in it, and what it stands on."""
from __future__ import annotations

from dataclasses import dataclass
from typing import Iterator, Sequence

from .crates import Crates, Layer
from .drawing import (
    LEADING, WIDTH, Line, Rect, card, curve, height_of, picture, rect, words, wrapped)

TITLE = "The crates of this project, in layers."
# How many columns the sheet has, and how many boxes a column of a band at most.
COLUMNS, DEEP = 5, 3
GAP, APART, INSIDE, MARGIN = 22.0, 10.0, 8.0, 8.0
SPREAD = 10.0
HINT = ("The lowest layer is at the foot. A crate stands on those to which its line leads, and on those that it "
        "names behind “on”, there without duk_. What it reaches through another one is left out.")


@dataclass(frozen=True)
class Band:
    """A layer, and where its crates stand: the column and the row of each."""

    layer: Layer
    places: dict[str, tuple[int, int]]

    @property
    def columns(self) -> int:
        return 1 + max(column for column, _ in self.places.values())

    @property
    def rows(self) -> int:
        return 1 + max(row for _, row in self.places.values())


def band_of(layer: Layer, crates: Crates) -> Band:
    """A crate stands to the right of those of its layer that it stands on. One that has none, and none on
    it, fills a column that is short."""
    held = {it: [other for other in crates.stands_on[it] if other in layer.crates] for it in layer.crates}
    alone = [it for it in held if not held[it] and not any(it in others for others in held.values())]
    columns: list[list[str]] = []
    ranks = ranks_of({it: others for it, others in held.items() if it not in alone})
    for rank in range(1 + max(ranks.values(), default=-1)):
        columns += spread([it for it in layer.crates if ranks.get(it) == rank])
    if not columns:
        return Band(layer, placed(spread(alone), held))
    for it in alone:
        shortest = min(columns, key=len)
        (shortest if len(shortest) < DEEP else new_column(columns)).append(it)
    return Band(layer, placed(columns, held))


def new_column(columns: list[list[str]]) -> list[str]:
    columns.append([])
    return columns[-1]


def ranks_of(held: dict[str, list[str]]) -> dict[str, int]:
    """How many stand below each, one on another."""
    ranks: dict[str, int] = {}
    while len(ranks) < len(held):
        for it, others in held.items():
            if all(other in ranks for other in others):
                ranks[it] = 1 + max((ranks[other] for other in others), default=-1)
    return ranks


def spread(names: Sequence[str]) -> list[list[str]]:
    """Columns that are not too deep, and about as deep as each other."""
    count = -(-len(names) // DEEP)
    deep = -(-len(names) // count) if count else 1
    return [list(names[at : at + deep]) for at in range(0, len(names), deep)]


def placed(columns: Sequence[Sequence[str]], held: dict[str, list[str]]) -> dict[str, tuple[int, int]]:
    """Each in the row of what it stands on, and then, from the right on, in the midst of what stands on it,
    where these are free."""
    rows = max(len(it) for it in columns)
    places: dict[str, tuple[int, int]] = {}
    for column, names in enumerate(columns):
        wanted = {it: [places[other][1] for other in held[it] if other in places][:1] for it in names}
        places.update(taken(column, rows, wanted))
    for column, names in reversed(list(enumerate(columns))):
        users = {it: sorted(places[other][1] for other, others in held.items()
                            if it in others and places[other][0] == column + 1) for it in names}
        places.update(taken(column, rows, {it: found[(len(found) - 1) // 2 :][:1] or [places[it][1]]
                                           for it, found in users.items()}))
    return places


def taken(column: int, rows: int, wanted: dict[str, list[int]]) -> dict[str, tuple[int, int]]:
    """Each in the row that it wants, or in the nearest free one; those that want none come last."""
    free = list(range(rows))
    places = {}
    for name in sorted(wanted, key=lambda it: not wanted[it]):
        row = min(free, key=lambda it: abs(it - wanted[name][0]) if wanted[name] else it)
        free.remove(row)
        places[name] = column, row
    return places


def rows_of(bands: Sequence[Band]) -> list[list[Band]]:
    """The bands, as many side by side as the sheet has columns for."""
    rows: list[list[Band]] = []
    for band in bands:
        if rows and sum(it.columns for it in rows[-1]) + band.columns <= COLUMNS:
            rows[-1].append(band)
        else:
            rows.append([band])
    return rows


def beside(name: str, band: Band, crates: Crates) -> list[str]:
    """Those on which a crate stands, and to which a line leads: in the column before its own."""
    column = band.places[name][0]
    return [it for it in crates.stands_on[name]
            if it in band.places and band.places[it][0] == column - 1]


def lines_of(name: str, band: Band, crates: Crates) -> list[Line]:
    others = [it.removeprefix("duk_") for it in crates.stands_on[name] if it not in beside(name, band, crates)]
    held = [Line(name, "name"), Line(crates.about[name], "")]
    return held + [Line(f"on {', '.join(others)}")] if others else held


def head_lines(layer: Layer, width: float) -> list[Line]:
    """Its comment: what stands before a colon, and the rest."""
    first, colon, rest = layer.head.partition(": ")
    held = [Line(first.removesuffix("."), "head")] + ([Line(rest)] if colon else [])
    return [Line(part, it.kind) for it in held for part in wrapped(it.text, it.kind, width - 2 * INSIDE)]


@dataclass(frozen=True)
class Row:
    """Bands side by side: how wide their boxes are, how high their heads, and all below these."""

    bands: Sequence[Band]
    box: float
    head: float = 0
    body: float = 0

    @property
    def height(self) -> float:
        return self.head + self.body

    def width_of(self, band: Band) -> float:
        return band.columns * self.box + (band.columns - 1) * GAP + 2 * INSIDE

    def depths(self, band: Band, crates: Crates) -> list[float]:
        """How high the boxes are, in each row of a band."""
        return [max(height_of(lines_of(name, band, crates), self.box)
                    for name, (_, at) in band.places.items() if at == row) for row in range(band.rows)]


def row_of(bands: Sequence[Band], crates: Crates) -> Row:
    """Bands that take the width of the sheet."""
    columns = sum(it.columns for it in bands)
    between = (len(bands) - 1) * (APART + 2 * INSIDE) + (columns - len(bands)) * GAP
    row = Row(bands, (WIDTH - 2 * MARGIN - 2 * INSIDE - between) / columns)
    heads = (len(head_lines(it.layer, row.width_of(it))) for it in bands)
    body = max(sum(depths) + SPREAD * len(depths) for depths in (row.depths(it, crates) for it in bands))
    return Row(bands, row.box, max(heads) * LEADING + INSIDE + 2, body)


def boxes_of(band: Band, row: Row, crates: Crates, left: float, top: float) -> dict[str, Rect]:
    """Where the boxes of a band stand: in the midst of its height, where a neighbour is higher."""
    depths = row.depths(band, crates)
    first = top + row.head + (row.body - sum(depths) - SPREAD * len(depths)) / 2
    tops = [first + sum(depths[:at]) + SPREAD * at for at in range(band.rows)]
    return {name: Rect(left + INSIDE + column * (row.box + GAP), tops[line], row.box, depths[line])
            for name, (column, line) in band.places.items()}


def drawn_band(band: Band, row: Row, crates: Crates, left: float, top: float) -> Iterator[str]:
    width = row.width_of(band)
    yield rect(Rect(left, top, width, row.height), "band")
    for at, it in enumerate(head_lines(band.layer, width), 1):
        yield words(left + INSIDE, top + at * LEADING + 2, it.text, it.kind)
    boxes = boxes_of(band, row, crates, left, top)
    for name, place in boxes.items():
        for other in beside(name, band, crates):
            yield curve((place.left, place.centre), (boxes[other].right + 1, boxes[other].centre), "thin")
    for name, place in boxes.items():
        yield card(place, lines_of(name, band, crates))


def drawn(crates: Crates) -> str:
    """The picture: the lowest layer stands at the foot."""
    rows = [row_of(it, crates) for it in rows_of([band_of(it, crates) for it in crates.layers])]
    hint = wrapped(HINT, "soft", WIDTH - 2 * MARGIN)
    top = MARGIN + len(hint) * LEADING + INSIDE
    parts = [words(MARGIN, MARGIN + at * LEADING, it, "soft") for at, it in enumerate(hint, 1)]
    for row in reversed(rows):
        left = MARGIN
        for band in row.bands:
            parts += drawn_band(band, row, crates, left, top)
            left += row.width_of(band) + APART
        top += row.height + APART
    return picture(top - APART + MARGIN, TITLE, told(crates), parts)


def told(crates: Crates) -> str:
    """The same in words."""
    lines = []
    for layer in crates.layers:
        lines.append(layer.head)
        for name in layer.crates:
            others = crates.stands_on[name]
            on = f" On {', '.join(others)}." if others else ""
            lines.append(f"{name}: {crates.about[name]}.{on}")
    return "\n".join(lines)
