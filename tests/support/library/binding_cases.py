"""The cases of the library's calls as a binding sees them: what it is given, and what it gives.

A binding has no buffers. It is given what a call reads, and gives what the call writes, cut to the
number that says how much that is.
"""
from __future__ import annotations

import random
from dataclasses import dataclass
from typing import Iterator, Sequence

# The others register the calls of their own.
from . import (  # noqa: F401
    call_cases, call_cases_of_blocks, call_cases_of_reversals, call_cases_of_texts)
from .call_cases import Argument
from .library_calls import answer

# All calls, those of these modules too.
ALL_CALLS = call_cases.CALLS
# Calls that write over bytes which they are given.
IN_PLACE = ("tdes_encrypt", "tdes_decrypt", "cbc_encrypt", "cbc_decrypt")
# Calls whose number stands behind bytes, and is not their length.
WITHOUT_LENGTH = ("read_refusal", "read_reversal_reply")
# The call that is told how many bytes it is to write, and by which argument.
TOLD = {"unwrap_for": 2}
# The calls over many terminals: how many bytes each has in what is read, and in what is written.
OF_MANY = {"derive_many": (10, 16), "check_requests": (64, 1)}


@dataclass(frozen=True)
class BindingCase:
    """A call without `dukpt_`, what it is given, its status, and what it gives where that is 0."""

    name: str
    given: list[Argument]
    status: int
    gives: list[Argument]
    # All arguments of the call, with the bytes that it writes as they are before it.
    arguments: Sequence[Argument] = ()

    def __str__(self) -> str:
        return f"{self.name}({', '.join(map(shown, self.given))})"


def shown(value: Argument) -> str:
    return value.hex().upper() or "-" if isinstance(value, bytes) else str(value)


def names() -> list[str]:
    """The calls that have a status."""
    return [name.removeprefix("dukpt_") for name in ALL_CALLS]


def kinds(name: str) -> str:
    return ALL_CALLS[f"dukpt_{name}"][0]


def places(name: str) -> list[int]:
    """Where the arguments stand that a call reads."""
    read = "bno" if name in IN_PLACE else "bn"
    return [at for at, kind in enumerate(kinds(name)) if kind in read]


def outputs(name: str, arguments: Sequence[Argument]) -> list[Argument]:
    """What the call writes, out of its arguments behind it."""
    made: list[Argument] = []
    before = ""
    for kind, value in zip(kinds(name), arguments):
        if kind == "c" and before == "o" and name not in WITHOUT_LENGTH:
            made[-1] = made[-1][:value]
        elif kind in "oc":
            made.append(value)
        before = kind
    if name in TOLD:
        made[-1] = made[-1][: arguments[TOLD[name]]]
    if name in OF_MANY:
        each, size = OF_MANY[name]
        made[-1] = made[-1][: size * (len(arguments[1]) // each)]
    return made


def binding_cases(name: str, chance: random.Random, count: int) -> Iterator[BindingCase]:
    """Cases of a call, most of which it takes."""
    read = places(name)
    for it in call_cases.cases(f"dukpt_{name}", chance, count):
        given = [it.given[at] for at in read]
        yield BindingCase(name, given, it.status, outputs(name, it.behind), it.given)


def spoiled(case: BindingCase, chance: random.Random) -> BindingCase:
    """A case of which something that the call reads is changed."""
    arguments, read = list(case.arguments), places(case.name)
    at = chance.choice(read)
    arguments[at] = call_cases.changed(arguments[at], chance)
    found = answer(f"dukpt_{case.name}", arguments)
    given = [arguments[at] for at in read]
    return BindingCase(case.name, given, found.status, outputs(case.name, found.arguments))
