"""Whether an answer to a case is right, and what is wrong with it."""
from __future__ import annotations

import json
from dataclasses import dataclass
from enum import Enum
from typing import Mapping, Optional

from .cases import Case, Value, is_text
from .protocol import Answer, Garbage, Outputs, Refusal, Unsupported


class Kind(Enum):
    """How a case ended. The values are what a report says."""

    RIGHT = "right"
    UNSUPPORTED = "unsupported"
    WRONG = "another value"
    REFUSED = "a valid case is refused"
    ACCEPTED = "an invalid case is accepted"
    GARBAGE = "a line that is no answer"
    OTHER_NUMBER = "an answer with another case's number"
    ENDED = "the adapter ended"
    SILENT = "no answer in time"
    TOO_LONG = "a line without an end"
    NOT_TRIED = "not tried"


# What is no answer, right or wrong.
UNANSWERED = (Kind.ENDED, Kind.SILENT, Kind.TOO_LONG, Kind.NOT_TRIED)


@dataclass(frozen=True)
class Difference:
    """An output that is not as expected. One that is missing has no `found`."""

    member: str
    expected: Value
    found: Value
    is_missing: bool = False


@dataclass(frozen=True)
class Verdict:
    """How a case ended, and what was found, in words."""

    case: Case
    kind: Kind
    found: str = ""
    differences: tuple[Difference, ...] = ()
    # The end of what the adapter wrote to standard error, where it ended or hung.
    said: str = ""

    @property
    def is_deviation(self) -> bool:
        """Whether the case was supported, and is not right."""
        return self.kind not in (Kind.RIGHT, Kind.UNSUPPORTED)

    @property
    def expected(self) -> str:
        """What the case wants, in words."""
        if self.case.is_valid:
            return spoken(self.case.outputs)
        fault = f" ({self.case.fault})" if self.case.fault else ""
        return f"a refusal{fault}"


def judge(case: Case, answer: Answer) -> Verdict:
    """Judges an answer to a case."""
    if isinstance(answer, Garbage):
        return Verdict(case, Kind.GARBAGE, f"{answer.why}: {shortened(answer.line)}")
    if answer.number != case.number:
        return Verdict(case, Kind.OTHER_NUMBER, f"the answer has the number {answer.number}")
    if isinstance(answer, Unsupported):
        return Verdict(case, Kind.UNSUPPORTED)
    if isinstance(answer, Refusal):
        reason = f"a refusal: {shortened(answer.reason)}"
        return Verdict(case, Kind.REFUSED if case.is_valid else Kind.RIGHT, reason)
    return judge_outputs(case, answer)


def judge_outputs(case: Case, answer: Outputs) -> Verdict:
    """Judges an answer that refuses nothing."""
    found = spoken(answer.members)
    if not case.is_valid:
        return Verdict(case, Kind.ACCEPTED, found)
    differences = tuple(
        it for name, value in case.outputs.items()
        if (it := difference(case.operation, name, value, answer.members)) is not None)
    return Verdict(case, Kind.WRONG if differences else Kind.RIGHT, found, differences)


def difference(
    operation: str, name: str, expected: Value, members: Mapping[str, Value]
) -> Optional[Difference]:
    """How an output of an answer differs from the expected one, if it does."""
    if name not in members:
        return Difference(name, expected, None, is_missing=True)
    if is_equal(expected, members[name], is_text(operation, name)):
        return None
    return Difference(name, expected, members[name])


def is_equal(expected: Value, found: Value, is_exact: bool) -> bool:
    """Whether a value is as expected: hexadecimal digits of either case are equal, and true is no
    number."""
    if isinstance(expected, list):
        return (isinstance(found, list) and len(found) == len(expected)
                and all(is_equal(a, b, is_exact) for a, b in zip(expected, found)))
    if type(expected) is not type(found):
        return False
    if isinstance(expected, str) and not is_exact:
        return expected.lower() == found.lower()
    return bool(expected == found)


def spoken(members: Mapping[str, Value]) -> str:
    """Members as a report shows them."""
    told = (f"{name} {spoken_value(value)}" for name, value in members.items())
    return ", ".join(told) or "nothing"


def spoken_value(value: Value) -> str:
    """A value as a report shows it: a text that may be mistaken stands in quotes."""
    if isinstance(value, str) and value.isalnum() and value.isascii():
        return value
    return json.dumps(value)


def shortened(text: str, most: int = 300) -> str:
    """A text in one line, of which the end may be left out."""
    line = " ".join(text.split())
    return line if len(line) <= most else line[:most] + " .."
