"""What was measured, a row each, as a file of columns with tabs between them, and as tables."""
from __future__ import annotations

from dataclasses import dataclass, fields
from pathlib import Path
from typing import Iterator, Optional, Sequence

QUANTILES = (.5, .99, .999)


@dataclass(frozen=True)
class Row:
    """`what` is `open` (a loop in which none waits), `closed` (each connection has `ahead` requests
    without an answer at once), `alone` (the same to the service below through pipes), `sync` (of the
    disk), or a fault. Times are milliseconds, or microseconds of processor for a payment."""

    what: str
    store: str
    connections: Optional[int] = None
    ahead: Optional[int] = None
    # Requests in a second that were to be sent, and answers in a second.
    offered: Optional[int] = None
    answered: Optional[int] = None
    p50: Optional[float] = None
    p99: Optional[float] = None
    p999: Optional[float] = None
    # How late the clients themselves were, of 99 in 100 requests.
    late: Optional[float] = None
    host_us: Optional[float] = None
    below_us: Optional[float] = None
    # How many frames the host gave to what is below at once, on average.
    group: Optional[float] = None

    @property
    def holds(self) -> bool:
        """Whether what was offered was answered, and not later and later."""
        assert self.offered and self.answered is not None and self.p99 is not None
        return self.answered >= 0.9 * self.offered and self.p99 < 1000


NAMES = [it.name for it in fields(Row)]


def shown(value: object) -> str:
    return "" if value is None else f"{value:.3g}" if isinstance(value, float) and value < 100 else (
        f"{value:.0f}" if isinstance(value, float) else str(value))


def line_of(row: Row) -> str:
    return "\t".join(shown(getattr(row, name)) for name in NAMES)


def write(path: Path, rows: Sequence[Row]) -> None:
    path.write_text("\n".join(["\t".join(NAMES), *map(line_of, rows)]) + "\n", encoding="ascii")


def read(path: Path) -> list[Row]:
    head, *lines = path.read_text(encoding="ascii").splitlines()
    assert head.split("\t") == NAMES
    return [row_of(it.split("\t")) for it in lines]


def row_of(cells: Sequence[str]) -> Row:
    what, store, *numbers = cells
    counts, times = numbers[:4], numbers[4:]
    return Row(what, store, *(int(it) if it else None for it in counts),
               *(float(it) if it else None for it in times))


# Tables


def of_disk(row: Row) -> str:
    return f"{row.what}, {row.store}" if row.store else row.what


def tables(rows: Sequence[Row]) -> Iterator[str]:
    """As docs/PERFORMANCE.md has them."""
    yield "| 200 connections, each with so many in flight | over | answers/s | processor of the host |"
    yield "|---|---|--:|--:|"
    for it in rows:
        if it.what in ("closed", "alone"):
            name = it.store if it.what == "closed" else "the service below alone"
            used = "" if it.host_us is None else f"{it.host_us:.0f} µs"
            yield f"| {it.ahead} | {name} | {it.answered:,} | {used} |"
    yield ""
    yield "| over | connections | payments/s | 50 of 100 | 99 of 100 | 99.9 of 100 |"
    yield "|---|--:|--:|--:|--:|--:|"
    for it in rows:
        if it.what in ("open", "sync"):
            cells = " | ".join(map(shown, (it.p50, it.p99, it.p999)))
            if it.what == "sync":
                yield f"| a write of 4 KiB and its sync | | | {cells} |"
            else:
                cells = cells if it.holds else "more and more | |"
                yield f"| {it.store} | {it.connections:,} | {it.offered:,} | {cells} |"
    yield ""
    yield "| fault | first answer | longest wait |"
    yield "|---|--:|--:|"
    for it in rows:
        if it.what not in ("closed", "alone", "open", "sync"):
            yield f"| {it.what} | {it.p50 / 1000:.2f} s | {it.p999 / 1000:.2f} s |"
