"""The statuses and the declarations in library/c/dukpt.h."""
from __future__ import annotations

import re
from typing import Iterator

from ..calls import BUFFER, BYTES, COUNT, NUMBER, PREFIX, Call, Group, Parameter, Table
from .layout import GAP, WIDTH, wrapped

FAULT, OK = "DUKPT_FAULT_", "DUKPT_OK"
DONE = "the call is done"
FRONT = "/* ", " * "
TYPES = {BYTES: "const uint8_t *{0}, size_t {0}_size",
         BUFFER: "uint8_t *DUKPT_OUT {0}, size_t {0}_size",
         COUNT: "uint32_t *DUKPT_OUT {0}", NUMBER: "uint32_t {0}"}


def version(table: Table) -> str:
    """The lines of the version."""
    parts = zip(("MAJOR", "MINOR", "PATCH"), table.version)
    lines = [f"#define DUKPT_VERSION_{name} {number}\n" for name, number in parts]
    return "".join(lines) + f'#define DUKPT_VERSION_TEXT "{table.version_text}"\n'


def statuses(table: Table) -> str:
    """The constants of `enum dukpt_status`."""
    meanings = [(f"{OK} = 0", DONE)]
    meanings += [(f"{FAULT}{it.constant} = {it.number}", it.text) for it in table.faults]
    width = max(len(name) for name, _ in meanings)
    rows = []
    for at, (name, text) in enumerate(meanings, 1):
        comma = "," if at < len(meanings) else ""
        front = f"    {name + comma:{width + 1}} /* "
        rows.append(closed(text, front, " " * len(front)) + "\n")
    return "".join(rows)


def declarations(table: Table) -> str:
    """The calls, each behind its comment, in their groups."""
    return "\n".join(text for group in table.groups for text in of_group(table, group))


def of_group(table: Table, group: Group) -> Iterator[str]:
    yield closed(in_c(table, group.about), *FRONT) + "\n"
    for call in group.calls:
        yield f"{comment(table, call)}\n{declaration(call)}\n"


def comment(table: Table, call: Call) -> str:
    answers = "; ".join([FAULT + table.fault(it).constant for it in call.faults] + [OK])
    return "\n".join([
        wrapped(in_c(table, call.about), *FRONT), " *", *rows(table, call), " *",
        closed(f"Answers, in this order: {answers}.", " * ", " * ")])


def closed(text: str, first: str, rest: str) -> str:
    """The last lines of a comment."""
    return wrapped(f"{text}{GAP}*/", first, rest).replace(GAP, " ")


def rows(table: Table, call: Call) -> Iterator[str]:
    """The arguments, each in a line: name, way, length and words."""
    lengths = ["" if it.length is None else str(it.length) for it in call.parameters]
    names = max(len(it.name) for it in call.parameters) + 3
    ways = max(len(it.way) for it in call.parameters) + 2
    for it, length in zip(call.parameters, lengths):
        front = f" *   {it.name:{names}}{it.way:{ways}}{length:{max(map(len, lengths)) + 2}}"
        yield wrapped(in_c(table, it.words), front, " *".ljust(len(front)))


def in_c(table: Table, text: str) -> str:
    """A text with the names of calls and faults in it as C has them."""
    names = {it.name: f"{PREFIX}{it.name}" for it in table.calls}
    names |= {it.name: FAULT + it.constant for it in table.faults}
    return re.sub(r"`(\w+)`", lambda found: names.get(found[1], found[1]), text)


def declaration(call: Call) -> str:
    """A call with its arguments in lines: a number stands behind the slice before it."""
    front = f"DUKPT_STATUS uint32_t {call.export}("
    lines: list[list[Parameter]] = []
    for it in call.parameters:
        fits = lines and len(front + spoken([*lines[-1], it])) < WIDTH
        if it.is_slice or not fits or not lines[-1][-1].is_slice:
            lines.append([])
        lines[-1].append(it)
    parts = f",\n{' ' * len(front)}".join(map(spoken, lines))
    return f"{front}{parts})\n    DUKPT_NONNULL;"


def spoken(parameters: list[Parameter]) -> str:
    return ", ".join(TYPES[it.kind].format(it.name) for it in parameters)
