"""Texts in lines, as all that is made has them."""
from __future__ import annotations

import textwrap
from typing import Iterable, Sequence

WIDTH = 100
# What stands for a space that is no place for the end of a line.
GAP = "\0"
NOTE = "Made of library/calls.toml by `tools/library --make`."


def wrapped(text: str, first: str = "", rest: str = "") -> str:
    """A text in lines: the first one begins with `first`, the others with `rest`."""
    return textwrap.fill(text, WIDTH, initial_indent=first, subsequent_indent=rest,
                         break_on_hyphens=False, break_long_words=False)


def filled(items: Iterable[str], indent: str, end: str = ",") -> str:
    """Items in as few lines as there can be, none of which breaks an item."""
    text = wrapped(", ".join(it.replace(" ", GAP) for it in items) + end, indent, indent)
    return text.replace(GAP, " ")


def listed(front: str, items: Sequence[str], back: str, indent: str = "") -> str:
    """Items in one line where they fit, else each in a line, as formatters of Rust have them."""
    line = f"{indent}{front}{', '.join(items)}{back}"
    if len(line) <= WIDTH:
        return line
    return "\n".join([indent + front, *(f"{indent}    {it}," for it in items), indent + back])


def lines(parts: Iterable[str]) -> str:
    """Parts in lines of their own, with an end of line behind the last one."""
    return "".join(f"{it}\n" for it in parts)
