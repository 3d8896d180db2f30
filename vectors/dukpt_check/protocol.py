"""What is said to an adapter and heard of it: one JSON object a line, both ways."""
from __future__ import annotations

import json
from dataclasses import dataclass
from typing import Mapping, Optional, Union

from .cases import Case, Value

NUMBER, OPERATION = "tcId", "operation"
ERROR, UNSUPPORTED = "error", "unsupported"


@dataclass(frozen=True)
class Outputs:
    """An answer with the case's outputs."""

    number: int
    members: Mapping[str, Value]


@dataclass(frozen=True)
class Refusal:
    """An answer that refuses the case, with a reason."""

    number: int
    reason: str


@dataclass(frozen=True)
class Unsupported:
    """An answer that says that the adapter has no such operation."""

    number: int


@dataclass(frozen=True)
class Garbage:
    """A line that is no answer, and why."""

    line: str
    why: str


Answer = Union[Outputs, Refusal, Unsupported, Garbage]


def request_line(case: Case) -> bytes:
    """The line that asks for a case."""
    members = {NUMBER: case.number, OPERATION: case.operation, **case.inputs}
    return json.dumps(members, separators=(", ", ": ")).encode("ascii") + b"\n"


def read_answer(line: bytes) -> Answer:
    """The answer that stands in a line."""
    text = line.decode("utf-8", "replace").strip()
    try:
        members = json.loads(text)
    except (ValueError, RecursionError):
        return Garbage(text, "the line is no JSON")
    if not isinstance(members, dict):
        return Garbage(text, "the line is no JSON object")
    number = number_of(members.pop(NUMBER, None))
    if number is None:
        return Garbage(text, f"the answer has no {NUMBER} that is a number")
    if members.get(UNSUPPORTED) is True:
        return Unsupported(number)
    if ERROR in members:
        return Refusal(number, str(members[ERROR]))
    return Outputs(number, members)


def number_of(value: Value) -> Optional[int]:
    """A case's number, if the value is one: true is no number."""
    return value if isinstance(value, int) and not isinstance(value, bool) else None
