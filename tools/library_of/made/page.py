"""page/call_table.js: the calls and the faults as the page has them."""
from __future__ import annotations

from typing import Iterator

from ..calls import BYTES, COUNT, FOR_EACH, IN_OUT, NUMBER, OUT, Call, Parameter, Table
from .layout import NOTE, filled

HEAD = f"""\
// The calls of the module and their faults. {NOTE}

/** An argument of a call that it reads: a slice or a number. */
export const READ = "read";
/** A slice that a call changes in place. */
export const CHANGED = "changed";
/** How many bytes a call writes of the slice before it, which has room for the most. */
export const COUNT = "count";
/** Another number that a call writes. */
export const WORD = "word";

/**
 * The arguments of each call, in their order. A slice that it writes stands as its length: so many
 * bytes, or so many for each so many of one of the slices and numbers that the call is given.
 */
export const CALLS = {{
"""
NAMES = """};

/** The name of each fault, in the order of the numbers from 1. */
export const FAULT_NAMES = [
"""
NUMBERS = """];

/** The number of each fault. */
export const STATUS = {
"""


def call_table(table: Table) -> str:
    calls = "".join(f"  {it.name}: [{', '.join(arguments(it))}],\n" for it in table.calls)
    names = filled((f'"{it.name}"' for it in table.faults), "  ")
    numbers = filled((f"{it.constant}: {it.number}" for it in table.faults), "  ")
    return f"{HEAD}{calls}{NAMES}{names}\n{NUMBERS}{numbers}\n}};\n"


def arguments(call: Call) -> Iterator[str]:
    counts = [call.counted(it) for it in call.parameters]
    for it in call.parameters:
        if it.kind in (BYTES, NUMBER):
            yield "READ"
        elif it.kind == COUNT:
            yield "COUNT" if it in counts else "WORD"
        else:
            yield "CHANGED" if it.way == IN_OUT else length(call, it)


def length(call: Call, parameter: Parameter) -> str:
    """How many bytes a slice has that is written."""
    found = FOR_EACH.fullmatch(str(parameter.length))
    if found is None:
        return str(parameter.length)
    given = [it.name for it in call.parameters if it.way != OUT]
    return f"{{ size: {found[1]}, each: {found[2]}, of: {given.index(found[3])} }}"
