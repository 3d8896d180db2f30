"""The `main` of a program that has copies of the library: it makes calls that are asked of it.

Each call comes on standard input: the number of the copy, that of the call by the order of the
exports, and how many parts follow, a byte each; then each argument as a part, two bytes of its
length first. A number is a part of four bytes, the lowest first. The program answers with the
call's status as such a number, and with the parts, as long as they were.
"""
from __future__ import annotations

from typing import Sequence

from library_of.calls import BUFFER, BYTES, COUNT, Call, Parameter

# The status of a call that the program does not have.
NO_CALL = 0xFFFF_FFFF

MAIN = """//! Makes the calls that are asked of it, in the copies of the library.
#![tactic(auto)]

{modules}

use std::fs::File;
use std::io::{{Read, Write}};
use std::process::ExitCode;
use std::{{env, io}};

fn main(rt: HostRuntime) -> io::Result<ExitCode> {{
    let words: Vec<String> = env::args(&rt)?.collect(rt.alloc())?;
    if let [_, name] = words.as_slice() {{
        // Whoever builds the program copies it while it waits here.
        let mut end = [0; 1];
        File::open(&rt, name.as_str())?.read(&mut end)?;
        return Ok(ExitCode::SUCCESS);
    }}
    let mut input = rt.stdin();
    let mut output = rt.stdout();
    let mut head = [0; 3];
    while input.read_exact(&mut head).is_ok() {{
        let mut parts: Vec<Vec<u8>> = Vec::new(rt.alloc());
        for _ in 0..head[2] {{
            let mut size = [0; 2];
            input.read_exact(&mut size)?;
            let size = size[0] as usize * 256 + size[1] as usize;
            let mut part = Vec::from_elem(rt.alloc(), 0, size)?;
            input.read_exact(part.as_mut_slice())?;
            parts.push(part)?;
        }}
        let status = match head[0] {{
{copies}
            _ => {no_call},
        }};
        output.write_all(&status.to_le_bytes())?;
        for part in parts.as_slice() {{
            output.write_all(part.as_slice())?;
        }}
        output.flush()?;
    }}
    Ok(ExitCode::SUCCESS)
}}

pub fn number_of(part: &[u8]) -> u32 {{
    let mut bytes = [0; 4];
    bytes.copy_from_slice(part);
    u32::from_le_bytes(bytes)
}}

pub fn put_number(part: &mut [u8], number: u32) {{
    part.copy_from_slice(&number.to_le_bytes());
}}
"""

COPY = """//! The calls of a copy of the library.

use super::{{number_of, put_number}};

pub fn call(number: u8, parts: &mut [Vec<u8>]) -> u32 {{
    match (number, parts) {{
{arms}
        _ => {no_call},
    }}
}}
"""


def texts(calls: Sequence[Call], copies: Sequence[str]) -> dict[str, str]:
    """The files of the program's own crate, for copies whose exports are in these crates."""
    numbers = range(len(copies))
    main = MAIN.format(
        modules="\n".join(f"mod copy_{it};" for it in numbers), no_call=NO_CALL,
        copies="\n".join(f"            {it} => copy_{it}::call(head[1], parts.as_mut_slice()),"
                         for it in numbers))
    found = {"src/main.rt": main}
    for number, copy in enumerate(copies):
        arms = "\n".join(arm(at, call, copy) for at, call in enumerate(calls))
        found[f"src/copy_{number}.rt"] = COPY.format(arms=arms, no_call=NO_CALL)
    return found


def arm(number: int, call: Call, copy: str) -> str:
    """The arm that makes a call with the parts that it is given."""
    before = [f"let mut {it.name}_number = number_of({it.name}.as_slice());"
              for it in call.parameters if it.kind == COUNT]
    after = [f"put_number({it.name}.as_mut_slice(), {it.name}_number);"
             for it in call.parameters if it.kind == COUNT]
    arguments = ", ".join(map(argument, call.parameters))
    lines = [*before, f"let status = {copy}::{call.export}({arguments});", *after, "status"]
    names = ", ".join(it.name for it in call.parameters)
    body = "\n".join(f"            {it}" for it in lines)
    return f"        ({number}, [{names}]) => {{\n{body}\n        }}"


def argument(parameter: Parameter) -> str:
    """An argument of a call, out of the part of its name."""
    forms = {BYTES: "{}.as_slice()", BUFFER: "{}.as_mut_slice()", COUNT: "&mut {}_number"}
    return forms.get(parameter.kind, "number_of({}.as_slice())").format(parameter.name)
