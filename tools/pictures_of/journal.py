"""The states of a journal, and what a start makes of each: as docs/FORMATS.md and docs/OPERATION.md
have them."""
from __future__ import annotations

from typing import Iterator, Sequence

from .drawing import PADDING, Line, Rect, arrow, card, label, picture, rect, words

TITLE = "The states of a journal, and its recovery."
TOLD = """\
A new journal has zeros alone: it keeps nothing.
A start of serve --journal locks the file, syncs, and reads each record. Then the journal is open, or it is \
refused as damaged.
Open: what is accepted of up to 1,024 frames of one read is a group.
The group is written in two steps, each with a sync: its records, behind a closed gate; then the gate of its \
first record, which opens it. After the second sync the answers go out, and the journal is open as before.
Stopped in the middle, by a loss of power or a kill: the gate of that group is closed, and a start does not \
find it; or it is open, and a start finds all of it.
After a loss of power it is started again. After a kill it is copied first, since a sync may have failed \
unseen.
A write or sync that fails: journal: failed. No answer of the group goes out, and no service may be started \
over this file again: copy-journal makes a copy.
The copy has what the old journal keeps, and zeros. It is checked, and started in the place of the old one.
Full: a payment has reason 6 where less than a sixteenth of all records is left, a reversal where none is. \
The service is stopped, records of zeros are appended, and it is started again.
Refused as damaged: bytes that no journal leaves, or a number that is used again. The line is journal: failed, \
before any frame is read; nothing is written, and copy-journal refuses it too."""
# How a record is drawn, by the letter that stands for it here.
CELLS = {"G": "gate", "k": "kept", "w": "written", "t": "torn", "z": "zeros", "x": "wrong"}
LEGEND = (("G", "a group begins: its gate is open", 226), ("k", "the group goes on", 146),
          ("w", "written, gate closed", 160), ("t", "cut off", 82), ("z", "zeros", 60), ("x", "wrong", 50))
CELL, STRIP = 15.0, 22.0
WIDE, HIGH = 216.0, 94.0
COLUMNS, ROWS = (8.0, 322.0, 636.0), (42.0, 212.0, 382.0)
STYLE = """\
<style>
.gate { fill: #0b5cad; stroke: #0b5cad; }
.kept { fill: #a9cdf0; stroke: #0b5cad; }
.written { fill: #f3d2b8; stroke: #a04400; }
.torn { fill: #ffffff; stroke: #a04400; stroke-dasharray: 3, 2; }
.zeros { fill: #ffffff; stroke: #7d8794; }
.wrong { fill: #b3261e; stroke: #b3261e; }
</style>"""


def cell(x: float, y: float, letter: str) -> str:
    return rect(Rect(x, y, CELL - 3, CELL - 3), CELLS[letter], 0)


def place(column: int, row: int) -> Rect:
    return Rect(COLUMNS[column], ROWS[row], WIDE, HIGH)


def state(column: int, row: int, head: str, cells: str, lines: Sequence[str], kind: str = "") -> str:
    """A state: its name, its records where it has some of its own, and what is so of it."""
    at = place(column, row)
    held = [Line(head, "head"), *(Line(it) for it in lines)]
    strip = "".join(cell(at.left + PADDING + CELL * index, at.top + 24, it) for index, it in enumerate(cells))
    return card(at, held, kind, STRIP if cells else 0) + strip


def states() -> Iterator[str]:
    yield state(0, 0, "Full", "GkkkGkGGkkkkk", (
        "A payment has reason 6 once less than a sixteenth is left, a reversal once nothing is.",))
    yield state(1, 0, "Open", "GkkkGkzzzzzzz", (
        "The service has locked it. Each entry uses a new number, and nothing is taken out.",), "blue")
    yield state(2, 0, "A group is being written", "GkkkGkwwwzzzz", (
        "Its records, and a sync; then the gate of the first, which opens all, and a sync.",), "brown")
    yield state(0, 1, "New", "zzzzzzzzzzzzz", ("new-journal has written and synced all of it: it keeps nothing.",))
    yield state(1, 1, "A start reads it", "", (
        "It locks the file and syncs. Then it reads each record, and those with entries once more. It finds "
        "what was kept.",), "blue")
    yield state(2, 1, "Stopped in the middle", "GkkkGkwwtzzzz", (
        "Its gate is closed: none of the group is kept. Or it is open: all of it is.",), "brown")
    yield state(0, 2, "Refused as damaged", "GkkkGkzzxzzzz", (
        "journal: failed, before any frame. Nothing is written. copy-journal refuses it too.",), "red")
    yield state(1, 2, "Copied and checked", "GkkkGkzzzzzzz", (
        "What the old file keeps, and zeros. Until the copy is whole it reads as damaged.",), "green")
    yield state(2, 2, "A write or sync failed", "GkkkGkwwwzzzz", (
        "journal: failed. No answer of the group goes out. Start nothing over this file again.",), "red")


def ways() -> Iterator[str]:
    """What leads from a state to another, with its cause."""
    (full, opened, group), (new, start, stopped), (damaged, copied, failed) = (
        [place(column, row) for column in range(3)] for row in range(3))
    yield arrow([(opened.right, opened.top + 34), (group.left, group.top + 34)])
    yield label((opened.right + group.left) / 2, opened.top + 28, ("up to 1,024", "frames"))
    yield arrow([(group.left, group.top + 62), (opened.right, opened.top + 62)], "green")
    yield label((opened.right + group.left) / 2, opened.top + 78, ("the answers",))
    yield label((opened.right + group.left) / 2, opened.top + 92, ("go out",))
    yield arrow([(opened.left, opened.top + 34), (full.right, full.top + 34)])
    yield label((full.right + opened.left) / 2, full.top + 28, ("no room",))
    yield arrow([(full.right - 30, full.bottom), (full.right - 30, new.top - 36), (start.left + 40, new.top - 36),
                 (start.left + 40, start.top)])
    yield label((full.right + start.left) / 2 - 6, new.top - 42, ("records are appended",))
    yield arrow([(new.right, new.centre), (start.left, start.centre)])
    yield label((new.right + start.left) / 2, new.centre - 6, ("serve", "--journal"))
    yield arrow([(start.middle, start.top), (start.middle, opened.bottom)], "blue")
    yield label(start.middle + 8, start.top - 32, ("all or none of the", "last group is there"), "start")
    yield arrow([(group.middle, group.bottom), (group.middle, stopped.top)], "brown")
    yield label(group.middle + 8, group.bottom + 40, ("loss of power,", "or a kill"), "start")
    yield arrow([(stopped.left, stopped.centre), (start.right, start.centre)], "brown")
    yield label((start.right + stopped.left) / 2, start.centre - 6, ("after a loss", "of power"))
    yield arrow([(group.right, group.centre), (group.right + 16, group.centre), (group.right + 16, failed.centre),
                 (failed.right, failed.centre)], "red")
    yield label(group.right + 10, failed.top - 32, ("a device", "step fails"), "end")
    yield arrow([(failed.left, failed.centre), (copied.right, copied.centre)], "green")
    yield label((copied.right + failed.left) / 2, failed.centre - 6, ("copy-journal",))
    yield arrow([(stopped.left + 36, stopped.bottom), (stopped.left + 36, copied.top - 36),
                 (copied.right - 36, copied.top - 36), (copied.right - 36, copied.top)], "brown")
    yield label((copied.right + stopped.left) / 2, copied.top - 42, ("after a kill",))
    yield arrow([(copied.middle - 44, copied.top), (copied.middle - 44, start.bottom)], "green")
    yield label(copied.middle - 36, copied.top - 18, ("takes its place",), "start")
    yield arrow([(start.left + 30, start.bottom), (start.left + 30, damaged.top - 36),
                 (damaged.right - 30, damaged.top - 36), (damaged.right - 30, damaged.top)], "red")
    yield label((damaged.right + start.left) / 2 - 6, damaged.top - 42, ("bytes of no journal,",))
    yield label((damaged.right + start.left) / 2 - 6, damaged.top - 22, ("or a number twice",))


def legend() -> Iterator[str]:
    x = COLUMNS[0]
    for letter, text, width in LEGEND:
        yield cell(x, 14, letter)
        yield words(x + CELL + 2, 24.5, text, "soft")
        x += width + CELL


def drawn() -> str:
    return picture(ROWS[-1] + HIGH + 8, TITLE, TOLD, [STYLE, *legend(), *ways(), *states()])
