"""What `--json` makes of what a command writes, by docs/COMMANDS.md: the objects of its answers, and
those of standard error.

An object is the list of its members, in their order, as a reader of JSON finds them: pairs of a name and
a text, or a list of texts.
"""
from __future__ import annotations

import json
import re
from typing import Iterable, Sequence, Union

from ..program import Ended, Word

JSON = "--json"
Object = list[tuple[str, Union[str, list[str]]]]

# Names whose member is always an array.
MANY = ("step", "register", "past", "optional-block", "terminal", "payment", "reversal",
        "component", "component-kcv", "component-cmac", "issued")
LINE_REFUSED_TEXT = "line refused"
NOTE = re.compile(rb"(tried \d+ of \d+|passed over \d+|progress \d+( of \d+)?)\n")


class NoObjects(AssertionError):
    """That bytes are no lines of JSON objects."""


# What a reader of JSON finds


def pairs(found: list[tuple[str, object]]) -> object:
    """An object, whose members have texts or lists of texts."""
    for name, it in found:
        if not all(isinstance(text, str) for text in (it if isinstance(it, list) else [it])):
            raise NoObjects(f"{name} has no texts: {it!r}")
    return [(name, it) for name, it in found]


def objects_in(data: bytes) -> list[Object]:
    """One object a line, each of which ends."""
    if data and not data.endswith(b"\n"):
        raise NoObjects(f"the last line has no end: {data[-80:]!r}")
    found = []
    for line in data.split(b"\n")[:-1]:
        try:
            read = json.loads(line.decode(), object_pairs_hook=pairs)
        except ValueError as why:
            raise NoObjects(f"no JSON, {why}: {line[:200]!r}") from why
        if not line.startswith(b"{"):
            raise NoObjects(f"no object: {line[:200]!r}")
        found.append(read)
    return found


# What is to be found of lines


def named(line: str) -> tuple[str, str]:
    """The name of a line, and the rest."""
    two = re.fullmatch("(none stands) (.*)", line)
    return (two[1], two[2]) if two else (line.partition(" ")[0], line.partition(" ")[2])


def object_of(lines: Iterable[str]) -> Object:
    """The object of an answer that has these lines."""
    found: dict[str, Union[str, list[str]]] = {}
    for name, text in map(named, lines):
        if name in MANY:
            found.setdefault(name, []).append(text)
        elif name in found:
            raise ValueError(f"two lines have the name {name}")
        else:
            found[name] = text
    return list(found.items())


def texts(data: bytes) -> list[str]:
    return data.decode().split("\n")[:-1]


def row_of_walk(line: str) -> Object:
    return [("spent", "")] if line == "spent" else list(zip(("ksn", "key"), line.split(" ")))


def row_of_issue(line: str) -> Object:
    word, *others = line.split(" ")
    if word != "issued":
        raise ValueError(f"no line of issue: {line}")
    return list(zip(("iksn", "block", "kcv"), others))


def objects_of(command: str, output: bytes, has_components: bool = False,
               is_new: bool = False) -> list[Object]:
    """The objects of what a command writes over its arguments alone."""
    lines = texts(output)
    if command == "walk":
        return [row_of_walk(line) for line in lines]
    if command == "issue":
        return [row_of_issue(line) for line in lines]
    if command == "wrap":
        return [[("block", line)] for line in lines]
    if command == "lmk" and is_new:
        return [[("component", [line])] for line in lines]
    if command == "kcv" and not has_components:
        starts = [at for at, line in enumerate(lines) if line.startswith("kcv ")]
        return [object_of(lines[start:end]) for start, end in zip(starts, [*starts[1:], len(lines)])]
    return [object_of(lines)] if lines else []


def object_of_item(text: bytes, is_refused: bool) -> Object:
    """The object of the answer to an item: its lines, or its fault with what explains that."""
    lines = texts(text)
    return list(zip(("fault", "explanation"), lines)) if is_refused else object_of(lines)


def objects_of_faults(ended: Ended) -> list[Object]:
    """The objects of what a run says on standard error."""
    data, notes = ended.faults, []
    while found := NOTE.match(data):
        notes.append([("note", found[0].decode()[:-1])])
        data = data[found.end() :]
    if ended.status == 2:
        return [*notes, [("refused", data.decode().removesuffix("\n"))]]
    lines = texts(data)
    return [*notes, list(zip(("fault", "explanation"), lines, strict=False))] if lines else notes


# The words of a run


def is_help(words: Sequence[Word]) -> bool:
    """Whether a run that ends with status 0 prints help, or the version."""
    own = list(map(str, words))
    own = own[: own.index("--")] if "--" in own else own
    first = next((it for it in own if not it.startswith("-")), "")
    return first == "help" or any(it in ("-h", "--help", "-V", "--version") for it in own)


def command_of(words: Sequence[Word]) -> str:
    return next((str(it) for it in words if not str(it).startswith("-")), "")


def wanted(words: Sequence[Word], plain: Ended) -> tuple[list[Object], list[Object]]:
    """The objects of a run over its arguments alone, by the same without `--json`: of standard output,
    and of standard error."""
    objects = objects_of(command_of(words), plain.output, "--components" in words, "--new" in words)
    return objects, objects_of_faults(plain)
