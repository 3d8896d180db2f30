"""The differences between the table of the calls and what belongs to it: one line each."""
from __future__ import annotations

import shutil
from pathlib import Path
from typing import Callable, Iterable, Iterator

from .build import LINK, SHARED, STATIC
from .calls import Table, Unreadable
from .crates import read_arguments, read_faults, read_orders, read_version
from .made.linking import node
from .made.rattle import TYPES
from .making import stale
from .symbols import exported, soname
from .table import FILE, read_table

CALLS = "crates/duk_calls/src"


def differences(root: Path, out: Path) -> list[str]:
    """Each difference in a line: of the made files, of the proved calls, of the built library."""
    try:
        table = read_table(root)
    except (Unreadable, OSError) as why:
        return [f"{'/'.join(FILE)}: {why}"]
    return [*told(lambda: stale(root, table)), *told(lambda: of_crate(root, table)),
            *told(lambda: of_built(out, table)), *told(lambda: of_links(out))]


def told(compare: Callable[[], Iterable[str]]) -> Iterator[str]:
    """What a comparison finds, or why it ends."""
    try:
        yield from compare()
    except (Unreadable, OSError) as why:
        yield str(why)


def of_crate(root: Path, table: Table) -> Iterator[str]:
    """What the proved calls have else than the table."""
    folder = root / CALLS
    version = read_version(folder / "lib.rt")
    if version != table.version_text:
        yield f"{CALLS}: the version is {version}, and in the table {table.version_text}"
    numbers = read_faults(folder / "fault.rt")
    for name in sorted({*numbers, *(it.name for it in table.faults)}):
        wanted = next((str(it.number) for it in table.faults if it.name == name), "none")
        has = str(numbers.get(name, "none"))
        if has != wanted:
            yield f"{CALLS}: the number of {name} is {has}, and in the table {wanted}"
    yield from of_functions(read_arguments(folder), read_orders(folder), table)


def of_functions(
    arguments: dict[str, list[str]], orders: dict[str, list[str]], table: Table
) -> Iterator[str]:
    """Where the functions have other arguments or faults than the calls, or another order of them.

    The exports are made of the table and hand the arguments on in its order. Two of one type that
    change places there would be named as each other in all that is made, and no contract sees it.
    """
    for call in table.calls:
        typed = [f"{it.name}: {TYPES[it.kind]}" for it in call.parameters]
        for what, found, wanted in (("arguments", arguments, typed),
                                    ("faults", orders, list(call.faults))):
            has = found.pop(call.name, [])
            if has != wanted:
                yield f"{CALLS}: {call.name} has the {what} {', '.join(has) or 'none'}, and in "\
                    f"the table {', '.join(wanted)}"
    for name in {**orders, **arguments}:
        yield f"{CALLS}: {name} is not in the table"


def of_built(out: Path, table: Table) -> Iterator[str]:
    """What the built library has else than the symbols of the table, or that it is not built."""
    if shutil.which("nm") is None:
        yield "nm is not installed: apt-get install binutils"
        return
    versioned = [f"{it}@@{node(table)}" for it in table.symbols]
    for name, wanted in ((STATIC, table.symbols), (SHARED, versioned)):
        file = out / name
        if not file.is_file():
            yield f"{file} is not built: tools/library builds it"
            continue
        has = exported(file)
        yield from (f"{file}: {it} is missing" for it in wanted if it not in has)
        yield from (f"{file}: {it} is no export" for it in has if it not in wanted)


def of_links(out: Path) -> Iterator[str]:
    """How programs find the shared library, when they are linked and when they start."""
    shared = out / SHARED
    if not shared.is_file():
        return
    if soname(shared) != SHARED:
        yield f"{shared}: its soname is {soname(shared)}, and not {SHARED}"
    if (out / LINK).resolve() != shared.resolve():
        yield f"{out / LINK} is no link to {SHARED}"
