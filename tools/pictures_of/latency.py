"""How long an answer takes, by how many payments come in a second, as `bench/load` wrote it into
docs/latency.tsv: a panel for each store."""
from __future__ import annotations

from math import log10
from typing import Iterator, Mapping, NamedTuple, Sequence

from .crates import Unreadable
from .drawing import WIDTH, Point, Rect, number, picture, rect, words

TITLE = "The time of an answer by the rate of payments"
STORES = {"journal": "Over a journal", "PostgreSQL": "Over PostgreSQL, with a synchronous standby"}
COLOURS = {1: "blue", 100: "green", 1000: "brown"}
# Payments in a second, and milliseconds.
LEAST_RATE, MOST_RATE, LEAST_TIME, MOST_TIME = 100, 100_000, 0.1, 1000.0
RATES, TIMES = (100, 1000, 10_000, 100_000), (0.1, 1.0, 10.0, 100.0, 1000.0)
STYLE = "<style>.grid { fill: none; stroke: #d5d9de; stroke-width: 1; }</style>"
TOP, HEIGHT, LEGEND = 56.0, 250.0, 20.0
# Left of the first panel, between both, and right of the second.
EDGE, BETWEEN, RIGHT = 52.0, 76.0, 32.0
CROSS = 4
# A rate is not held where fewer are answered, or 99 of 100 take longer.
HELD, LONGEST = 0.9, 1000.0


class Seen(NamedTuple):
    """What was measured at a rate: times in milliseconds."""

    rate: int
    half: float
    most: float
    is_held: bool


Sweeps = Mapping[tuple[str, int], Sequence[Seen]]


def read(text: str) -> tuple[Sweeps, float]:
    """The sweeps of each store and number of connections, and the time of a sync of the disk."""
    head, *lines = (it.split("\t") for it in text.splitlines())
    sweeps: dict[tuple[str, int], list[Seen]] = {}
    syncs = []
    for cells in lines:
        it = dict(zip(head, cells))
        if it["what"] == "sync":
            syncs.append(float(it["p99"]))
        if it["what"] == "open" and int(it["connections"]) in COLOURS:
            rate, most = int(it["offered"]), float(it["p99"])
            is_held = int(it["answered"]) >= HELD * rate and most < LONGEST
            sweeps.setdefault((it["store"], int(it["connections"])), []).append(
                Seen(rate, float(it["p50"]), most, is_held))
    if not sweeps or not syncs:
        raise Unreadable("docs/latency.tsv has no sweeps, or no syncs")
    return sweeps, max(syncs)


def told(sweeps: Sweeps, sync: float) -> str:
    """The picture in words."""
    lines = [f"Of 100 writes with a sync 99 take {sync:.3g} ms at most. In each line below: payments in a second,"
             " and the milliseconds in which 50 and 99 of 100 were answered."]
    for (store, connections), seen in sweeps.items():
        held = "; ".join(f"{it.rate:,}: {it.half:.3g}, {it.most:.3g}" for it in seen if it.is_held)
        lines.append(f"{store}, {connections:,} connections: {held}.")
    return "\n".join(lines)


class Panel:
    def __init__(self, place: Rect) -> None:
        self.place = place

    def x(self, rate: float) -> float:
        return self.place.left + self.place.width * log10(rate / LEAST_RATE) / log10(MOST_RATE / LEAST_RATE)

    def y(self, time: float) -> float:
        part = log10(min(max(time, LEAST_TIME), MOST_TIME) / LEAST_TIME) / log10(MOST_TIME / LEAST_TIME)
        return self.place.bottom - self.place.height * part

    def grid(self) -> Iterator[str]:
        place = self.place
        yield rect(place, "band", 0)
        for rate in RATES:
            yield path([(self.x(rate), place.top), (self.x(rate), place.bottom)], "grid")
            yield words(self.x(rate), place.bottom + 16, f"{rate:,}", "soft", "middle")
        for time in TIMES:
            yield path([(place.left, self.y(time)), (place.right, self.y(time))], "grid")
            yield words(place.left - 6, self.y(time) + 4, f"{time:,.3g}" if time < 1000 else "1,000", "soft", "end")
        yield words(place.middle, place.bottom + 34, "payments in a second", "soft", "middle")

    def lines(self, seen: Sequence[Seen], colour: str) -> Iterator[str]:
        held = [it for it in seen if it.is_held]
        yield path([(self.x(it.rate), self.y(it.half)) for it in held], f"way {colour} dashed")
        yield path([(self.x(it.rate), self.y(it.most)) for it in held], f"way {colour}")
        for it in seen:
            if not it.is_held:
                yield cross((self.x(it.rate), self.place.top + 8), colour)

    def sync(self, time: float) -> str:
        return path([(self.place.left, self.y(time)), (self.place.right, self.y(time))], "way thin dashed")


def path(points: Sequence[Point], kind: str) -> str:
    way = "M" + "L".join(f"{number(x)} {number(y)}" for x, y in points)
    return f'<path d="{way}" class="{kind}"/>' if points else ""


def cross(at: Point, colour: str) -> str:
    x, y = (number(it - CROSS) for it in at)
    size = 2 * CROSS
    return f'<path d="M{x} {y}l{size} {size}m0 -{size}l-{size} {size}" class="way {colour}"/>'


def legend(top: float) -> Iterator[str]:
    left = EDGE
    for connections, colour in COLOURS.items():
        yield path([(left, top - 4), (left + 24, top - 4)], f"way {colour}")
        yield words(left + 30, top, f"{connections:,} connection{'s' if connections > 1 else ''}", "soft")
        left += 160
    yield path([(left, top - 4), (left + 24, top - 4)], "way thin dashed")
    yield words(left + 30, top, "99 of 100 syncs of the disk", "soft")
    yield words(EDGE, top + LEGEND, "Lines: 99 of 100 payments are answered in so many milliseconds. Dashes: 50 of"
                " 100. A cross: a rate that is not held.", "soft")


def drawn(text: str) -> str:
    sweeps, sync = read(text)
    wide = (WIDTH - EDGE - BETWEEN - RIGHT) / 2
    parts = [STYLE, words(8, 22, TITLE, "title")]
    for at, (store, name) in enumerate(STORES.items()):
        panel = Panel(Rect(EDGE + at * (wide + BETWEEN), TOP, wide, HEIGHT))
        parts += [words(panel.place.left, TOP - 10, name, "head"), *panel.grid(), panel.sync(sync)]
        for (of_store, connections), seen in sweeps.items():
            if of_store == store:
                parts += panel.lines(seen, COLOURS[connections])
    top = TOP + HEIGHT + 64
    return picture(top + LEGEND + 14, TITLE, told(sweeps, sync), [*parts, *legend(top)])
