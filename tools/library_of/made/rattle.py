"""crates/dukpt_c/src/lib.rt: the exports, with the contracts of the calls behind them."""
from __future__ import annotations

from typing import Iterable, Iterator

from ..calls import BUFFER, BYTES, COUNT, IN, NUMBER, Call, Parameter, Table, Unreadable
from .layout import NOTE, WIDTH, listed, wrapped

HEAD = f"""//! The calls of `duk_calls` for C, and for each language that calls C. Built for WebAssembly with
//! memory of 64-bit addresses, it is the module of the page.
//!
//! A slice is a pointer and then a length. Each export but `dukpt_version` gives a status: 0, or
//! the number of a fault, and then nothing was written. No slice overlaps another.
//!
//! {NOTE}
#![tactic(auto)]

ghost use Rattle.std.specs.Prelude.{{◌≡◌}};
"""
CALLS = "duk_calls.specs"
TYPES = {BYTES: "&[u8]", BUFFER: "&mut [u8]", COUNT: "&mut u32", NUMBER: "u32"}
INDENT = " " * 8


def exports(table: Table) -> str:
    uses = "".join(f"ghost use Rattle.{home}.{{{', '.join(sorted(words))}}};\n"
                   for home, words in words_by_home(table).items())
    parts = [f"{HEAD}{uses}\nuse duk_calls::status;", version(table), *map(export, table.calls)]
    return "\n\n".join(parts) + "\n"


def words_by_home(table: Table) -> dict[str, set[str]]:
    """The words that the contracts have, by the file of specs in which they stand."""
    found: dict[str, set[str]] = {}
    for call in table.calls:
        for word in filter(str.isidentifier, call.by.split()):
            if word not in table.homes:
                raise Unreadable(f"{call.name}: no home is told of {word}")
            found.setdefault(table.homes[word], set()).add(word)
    found = {home: found[home] for home in sorted(found)}
    found[f"{CALLS}.Answer"] = {"Reports", "buffer"}
    for group in table.groups:
        words = (it for call in group.calls for it in (call.answers, call.takes, call.gives))
        found.setdefault(f"{CALLS}.{group.specs}", set()).update(filter(None, words))
    return found


def version(table: Table) -> str:
    major, minor, patch = table.version
    return f"""\
/// The version of the calls: major, minor and patch, a byte each, from the third byte down.
#[unsafe(no_mangle)]
pub extern "C" fn dukpt_version() -> u32
    ensures {{ result ≡ 0x{major:02X}{minor:02X}_{patch:02X} }}
{{
    duk_calls::version()
}}"""


def export(call: Call) -> str:
    parameters = [f"{it.name}: {TYPES[it.kind]}" for it in call.parameters]
    names = [it.name for it in call.parameters]
    return "\n".join([
        wrapped(call.about, "/// ", "/// "),
        "#[unsafe(no_mangle)]",
        listed(f'pub extern "C" fn {call.export}(', parameters, ") -> u32"),
        contract(call),
        "{",
        listed(f"status(duk_calls::{call.name}(", names, "))", "    "),
        "}"])


def contract(call: Call) -> str:
    """The clause: in a line where it fits, else with a line for each argument that is made of
    several."""
    words = [call.answers, *call.by.split(), *arguments(call)]
    front, back = "    ensures { Reports result (", ") }"
    if len(line := front + " ".join(words) + back) <= WIDTH:
        return line
    if not any(map(is_joined, words)):
        # The brace at the end is never alone in a line.
        return wrapped(" ".join(words) + back, front, INDENT).replace(f"\n{INDENT}}}", " }")
    return front + f"\n{INDENT}".join(parted(words)) + back


def arguments(call: Call) -> Iterator[str]:
    """What a definition is told of a call: what is read, and what is written, before and after."""
    read = [f"{it.name}.now" if it.is_slice else it.name for it in call.parameters if it.way == IN]
    yield from [joined(call.takes, read[:call.taken]), *read[call.taken:]] if call.takes else read
    for time in ("old", "new"):
        written = list(written_at(call, time))
        if len(written) > 1 and not call.gives:
            raise Unreadable(f"{call.name} gives {len(written)} parts, and nothing joins them")
        yield from [joined(call.gives, written)] if call.gives else written


def written_at(call: Call, time: str) -> Iterator[str]:
    """What a call writes, before or after it: a slice and how many bytes of it are one."""
    counts = [call.counted(it) for it in call.parameters]
    for it in call.parameters:
        if it.way == IN or it in counts:
            continue
        count = call.counted(it)
        yield counted(it, count, time) if count else f"{it.name}.{time}"


def counted(slice_: Parameter, count: Parameter, time: str) -> str:
    return joined("buffer", [f"{slice_.name}.{time}", f"{count.name}.{time}"])


def joined(word: str, words: Iterable[str]) -> str:
    return f"({' '.join([word, *words])})"


def is_joined(word: str) -> bool:
    return word.startswith("(")


def parted(words: Iterable[str]) -> list[str]:
    """Words in lines: each that is joined has one of its own."""
    found: list[list[str]] = [[]]
    for word in words:
        if is_joined(word) or is_joined(found[-1][-1] if found[-1] else ""):
            found.append([])
        found[-1].append(word)
    return [" ".join(it) for it in found]
