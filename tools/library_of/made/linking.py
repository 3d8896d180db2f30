"""The names that the built library has for others, and the sentences of its statuses."""
from __future__ import annotations

from ..calls import Table
from .header import DONE, FAULT, OK
from .layout import NOTE, lines


def node(table: Table) -> str:
    """The version that the symbols have."""
    return f"DUKPT_{table.since}"


def symbol_map(table: Table) -> str:
    names = lines(f"    {it};" for it in table.symbols)
    return (f"/* What libdukpt.so exports: the calls of dukpt.h, and nothing else.\n * {NOTE} */\n"
            f"{node(table)} {{\n  global:\n{names}  local:\n    *;\n}};\n")


def package_symbols(table: Table) -> str:
    """The symbols file of the Debian package, as dpkg-gensymbols sorts it."""
    since = f"{table.since}.0"
    names = sorted([node(table), *table.symbols])
    return "libdukpt.so.0 libdukpt0 #MINVER#\n" + lines(
        f" {it}@{node(table)} {since}" for it in names)


def status_texts(table: Table) -> str:
    """The sentences of the statuses, as an array of support.c has them."""
    texts = [(OK, DONE), *((FAULT + it.constant, it.text) for it in table.faults)]
    return f"/* {NOTE} */\n" + lines(f'[{name}] = "{text}",' for name, text in texts)
