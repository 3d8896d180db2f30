"""The exports, the safe functions over them and the faults in the crate for Rust."""
from __future__ import annotations

from ..calls import BUFFER, BYTES, COUNT, NUMBER, Call, Fault, Parameter, Table
from .layout import NOTE, WIDTH, listed

EXPORTS = f"""//! The exports of libdukpt, as `library/c/dukpt.h` declares them. `calls` says when a call is
//! sound.
//!
//! {NOTE}

extern "C" {{
"""
KINDS = f"""//! The faults.
//!
//! {NOTE}

/// Why a call is refused. The numbers and the names are those of the library, and do not change any
/// more. A call that is refused has changed nothing.
#[derive(Debug, Clone, Copy, PartialEq, Eq, Hash)]
#[non_exhaustive]
#[repr(u32)]
pub enum Fault {{
"""
DECLARED = {BYTES: "*const u8", BUFFER: "*mut u8", COUNT: "*mut u32", NUMBER: "u32"}
TYPES = {BYTES: "&[u8]", BUFFER: "&mut [u8]", COUNT: "&mut u32", NUMBER: "u32"}
# The words of the macro that makes a call.
WORDS = {BYTES: "read", BUFFER: "write", COUNT: "set", NUMBER: "number"}


def exports(table: Table) -> str:
    return EXPORTS + "".join(map(export, table.exports)) + "}\n"


def export(call: Call) -> str:
    parameters = [it for parameter in call.parameters for it in declared(parameter)]
    return listed(f"pub fn {call.export}(", parameters, ") -> u32;", "    ") + "\n"


def declared(parameter: Parameter) -> list[str]:
    size = [f"{parameter.name}_size: usize"] if parameter.is_slice else []
    return [f"{parameter.name}: {DECLARED[parameter.kind]}", *size]


def calls(table: Table) -> str:
    """The functions, a call each."""
    return "".join(map(function, table.exports))


def function(call: Call) -> str:
    parameters = [f"{it.name}: {TYPES[it.kind]}" for it in call.parameters]
    words = ", ".join(f"{WORDS[it.kind]} {it.name}" for it in call.parameters)
    body = f"    call!({call.export}: {words})"
    if len(body) > WIDTH:
        body = f"    call!({call.export}:\n        {words})"
    return f"\n{listed(f'pub fn {call.name}(', parameters, ') -> u32 {')}\n{body}\n}}\n"


def faults(table: Table) -> str:
    """The enum, its list, and the cause of each fault."""
    variants = "".join(f"    /// {capital(it.text)}.\n    {it.name} = {it.number},\n"
                       for it in table.faults)
    every = "".join(f"        Fault::{it.name},\n" for it in table.faults)
    return f"""{KINDS}{variants}}}

impl Fault {{
    /// Each fault, in the order of the numbers.
    pub const ALL: [Fault; {len(table.faults)}] = [
{every}    ];

    /// What is wrong, as a clause.
    pub(super) fn cause(self) -> &'static str {{
        match self {{
{"".join(map(arm, table.faults))}        }}
    }}
}}
"""


def arm(fault: Fault) -> str:
    front, text = f"            Fault::{fault.name} => ", f'"{fault.text}"'
    if len(line := f"{front}{text},") <= WIDTH:
        return line + "\n"
    return f"{front}{{\n                {text}\n            }}\n"


def capital(text: str) -> str:
    return text[:1].upper() + text[1:]
