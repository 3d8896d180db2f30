"""docs/calls.txt: the calls and the faults in tables."""
from __future__ import annotations

from ..calls import IN, OUT, Call, Parameter, Table

HEAD = """The calls of the library, and the numbers of their faults

C's names begin with `dukpt_`. `docs/LIBRARY.md` says how they are called from C, Python and Rust.
Behind a name stands its length in bytes. What C gives, it writes in the front of a slice that has
at least that length. What it changes in place, as `tdes_encrypt` and `cbc_encrypt` do, has exactly
that length. PINs, PANs, codes and key blocks are ASCII. What has no length is a number of 32 bits.
`frame_length` says how many bytes of a stream to wait for. `dukpt_version` gives 0x{number:06X} for
{text}. The faults come in the order of the last column.

| call | takes | gives | faults |
|---|---|---|---|
"""


def document(table: Table) -> str:
    head = HEAD.format(number=table.version_number, text=table.version_text)
    faults = ", ".join(f"{it.number} `{it.name}`" for it in table.faults)
    return head + "".join(row(table, it) for it in table.calls) + f"\n{faults}.\n"


def row(table: Table, call: Call) -> str:
    counts = [call.counted(it) for it in call.parameters]
    takes = ", ".join(spoken(call, it) for it in call.parameters if it.way != OUT)
    gives = ", ".join(spoken(call, it) for it in call.parameters
                      if it.way != IN and it not in counts)
    numbers = ", ".join(str(table.fault(it).number) for it in call.faults)
    return f"| `{call.name}` | {takes} | {gives} | {numbers} |\n"


def spoken(call: Call, parameter: Parameter) -> str:
    if parameter.length is None:
        return f"`{parameter.name}`"
    up_to = "up to " if call.counted(parameter) else ""
    return f"`{parameter.name}` {up_to}{parameter.length}"
