"""The form of the files: cases in groups, and their text."""
from __future__ import annotations

import json
from dataclasses import dataclass, field, replace
from typing import Any, Callable, Iterable, Iterator, Mapping, Optional, Sequence, Union

from .draw import Draw
from .flags import FLAGS
from .proved import Proved

Value = Union[bytes, str, int, bool, None, Sequence[Any]]
Members = Mapping[str, Value]

VERSION = "0.1.0"
SCHEMA = "vectors.schema.json"


class Unexpected(Exception):
    """That the proved code answers a case otherwise than it was made for."""


@dataclass(frozen=True)
class Case:
    """What is asked, and with which fault it is to be refused, if it is."""

    comment: str
    inputs: Members
    flags: Sequence[str] = ()
    fault: Optional[str] = None


@dataclass(frozen=True)
class Group:
    """Cases of one operation. What they share stands once."""

    operation: str
    comment: str
    section: str
    cases: Sequence[Case]
    shared: Members = field(default_factory=dict)


@dataclass(frozen=True)
class VectorFile:
    """A file, the number of its first case, and how its groups are made."""

    name: str
    algorithm: str
    first: int
    header: Sequence[str]
    groups: Callable[[Proved, Draw], Iterable[Group]]

    def text(self, proved: Proved) -> str:
        """The text of the file, with the answer of the proved code to each case."""
        used: set[str] = set()
        number, groups = self.first, []
        for group in without_repeats(list(self.groups(proved, Draw(self.name)))):
            lines = []
            for case in group.cases:
                lines.append(compact(answered(proved, group, case, number)))
                used.update(case.flags)
                number += 1
            groups.append(group_text(group, lines))
        front = {
            "algorithm": self.algorithm, "schema": SCHEMA, "generatorVersion": VERSION,
            "numberOfTests": number - self.first, "header": list(self.header)}
        notes = [f"    {compact(name)}: {compact(note)}" for name, note in FLAGS.items()
                 if name in used]
        members = [f"  {compact(name)}: {compact(value)}" for name, value in front.items()]
        members.append('  "notes": {\n' + ",\n".join(notes) + "\n  }")
        members.append('  "testGroups": [\n' + ",\n".join(groups) + "\n  ]")
        return "{\n" + ",\n".join(members) + "\n}\n"


def identity(group: Group, case: Case) -> str:
    """What a case asks, as a text."""
    inputs = shown({**group.shared, **case.inputs})
    return json.dumps([group.operation, inputs], sort_keys=True)


def without_repeats(groups: Sequence[Group]) -> Iterator[Group]:
    """Each case once, where it comes first, with the flags that it has anywhere."""
    flags: dict[str, list[str]] = {}
    for group in groups:
        for case in group.cases:
            flags.setdefault(identity(group, case), []).extend(case.flags)
    for group in groups:
        cases = []
        for case in group.cases:
            own = flags.pop(identity(group, case), None)
            if own is not None:
                cases.append(replace(case, flags=list(dict.fromkeys(own))))
        if cases:
            yield replace(group, cases=cases)


def answered(proved: Proved, group: Group, case: Case, number: int) -> dict[str, Any]:
    """The members of a case, with the answer to it."""
    found = proved.answer(group.operation, {**group.shared, **case.inputs})
    if found.fault != case.fault:
        raise Unexpected(f"{group.operation} {number}, {case.comment}: {found.fault or 'valid'}"
                         f", and not {case.fault or 'valid'}")
    members = {"tcId": number, "comment": case.comment, "flags": list(case.flags),
               "inputs": shown(case.inputs)}
    if found.fault:
        return {**members, "result": "invalid", "fault": found.fault}
    return {**members, "result": "valid", "outputs": shown(found.outputs)}


def group_text(group: Group, lines: Sequence[str]) -> str:
    """The text of a group, with each of its tests on a line."""
    members = {"operation": group.operation, "comment": group.comment, "section": group.section,
               "inputs": shown(group.shared)}
    front = [f"      {compact(name)}: {compact(value)},\n" for name, value in members.items()]
    tests = ",\n".join(f"        {line}" for line in lines)
    return "    {\n" + "".join(front) + '      "tests": [\n' + tests + "\n      ]\n    }"


def shown(members: Members) -> dict[str, Any]:
    """Members as the file has them: bytes in hexadecimal."""
    return {name: shown_value(value) for name, value in members.items()}


def shown_value(value: Value) -> Any:
    """A value as the file has it."""
    if isinstance(value, bytes):
        return value.hex().upper()
    return list(map(shown_value, value)) if isinstance(value, (list, tuple)) else value


def compact(value: Any) -> str:
    """A value on one line."""
    return json.dumps(value, ensure_ascii=True)
