"""The selection functions S1 to S8 as the definitions have them."""
from __future__ import annotations

import re
from pathlib import Path
from typing import Sequence

from .circuit import Unreadable

TABLES = "crates/duk_des/specs/Tables.antt"
NUMBERS = range(1, 9)


def read_boxes(root: Path) -> dict[int, Sequence[int]]:
    """The 64 entries of each box, four rows of 16, by its number."""
    text = (root / TABLES).read_text(encoding="utf-8")
    boxes: dict[int, Sequence[int]] = {}
    for number in NUMBERS:
        found = re.search(rf"^box{number} =\n(.*?)\[\]", text, re.MULTILINE | re.DOTALL)
        entries = [int(it) for it in re.findall(r"\d+", found[1])] if found else []
        if len(entries) != 64:
            raise Unreadable(f"{TABLES} has no box{number} of 64 entries")
        boxes[number] = entries
    return boxes


def tables_of(box: Sequence[int]) -> list[int]:
    """What the four outputs are for each place in a box, the most significant first: bit `i` is
    that of entry `i`."""
    return [sum((entry >> 3 - output & 1) << place for place, entry in enumerate(box))
            for output in range(4)]
