"""The calls and the faults in the package for Python."""
from __future__ import annotations

from ..calls import Call, Table
from .layout import NOTE, WIDTH, filled

HEAD = f'''"""The exports of libdukpt, as library/c/dukpt.h declares them.

Each has its arguments in their order, by name and kind:

| kind | what the call takes |
|---|---|
| `bytes` | `const uint8_t *` and `size_t`: bytes that it reads, and how many they are |
| `buffer` | `uint8_t *` and `size_t`: bytes that it writes, and how many there are |
| `count` | `uint32_t *`: a number that it writes |
| `number` | `uint32_t`: a number that it reads |

Each answers a `uint32_t`: a status, and `dukpt_version` the version.

{NOTE}
"""
from __future__ import annotations

from typing import Final, Literal, Mapping

Kind = Literal["bytes", "buffer", "count", "number"]

EXPORTS: Final[Mapping[str, Mapping[str, Kind]]] = {{
'''


def exports(table: Table) -> str:
    return HEAD + "".join(map(export, table.exports)) + "}\n"


def export(call: Call) -> str:
    kinds = [f'"{it.name}": "{it.kind}"' for it in call.parameters]
    front = f'    "{call.export}": {{'
    line = f"{front}{', '.join(kinds)}}},"
    if len(line) > WIDTH:
        line = f"{front}\n{filled(kinds, ' ' * 8, '},')}"
    return line + "\n"


def faults(table: Table) -> str:
    """The exceptions."""
    return "\n".join(
        f'\nclass {it.name}(DukptError, number={it.number}):\n    """{it.text}"""\n'
        for it in table.faults) + "\n\n"
