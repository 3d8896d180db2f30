"""The generated text: what each law and each crate reaches, and each definition with who cites it."""
from __future__ import annotations

import re
import textwrap
from pathlib import Path
from typing import Iterable, Iterator

from .proved import laws_in
from .reach import Call, Node, Reach
from .specs import Definition, SpecFile

WIDTH = 110
TITLE = """\
What the public contracts rest on. tools/definitions writes this file; docs/DEFINITIONS.md says how to
read a definition, and in which order.
"""
OF_LAWS = """\
What is to be believed for each law of the headline: the definitions that its clauses of `run` reach,
with those that `World::new` asks for. Lines are those of the whole files, and of the definitions alone.
"""
OF_CRATES = """\
What is to be believed for all public contracts of a crate: the definitions that they reach, in its own
files and in those of the crates below it.
"""
OF_FILES = """\
The files of definitions, with their lines. A definition has the line at which it begins, what it says,
and after < the public calls whose clauses name it; where none does, after <- definitions that do.
"""
# The call that makes a world: what it asks belongs to each law.
FIRST = ("duk_net", "World::new")


class Report:
    """Writes the generated text."""

    def __init__(self, reach: Reach, proved: Path) -> None:
        self.reach, self.proved = reach, proved
        self.public = reach.public()
        self.citing = self.calls_by_definition()
        self.using = self.definitions_by_definition()

    def text(self) -> str:
        parts = [TITLE, "# The laws\n", OF_LAWS, *self.laws(), "# The crates\n", OF_CRATES,
                 *self.crates(), "# The definitions\n", OF_FILES, *self.files()]
        return "\n".join(parts)

    # Sizes

    def size(self, nodes: Iterable[Node]) -> str:
        """The files of these definitions, their lines, and the lines of the definitions."""
        specs = [it for it in self.reach.all_from(nodes) if it[0] == "spec"]
        files = {(it[1], it[2]): self.reach.files[it[1], it[2]] for it in specs}
        own = sum(self.definition(it).lines() for it in specs)
        lines = sum(it.length for it in files.values())
        return f"{len(files):4} files {lines:6,} lines {own:6,} of definitions"

    def definition(self, node: Node) -> Definition:
        found = self.reach.files[node[1], node[2]].named(node[3])
        assert found
        return found

    def laws(self) -> Iterator[str]:
        asked = {node for call in self.reach.calls if (call.crate, call.name) == FIRST
                 for clause, nodes in call.clauses if clause.kind == "requires" for node in nodes}
        every: set[Node] = set(asked)
        for law, clauses in laws_in(self.proved).items():
            names = {it.clause for it in clauses}
            nodes = {node for it in clauses for call in it.calls(self.reach.calls)
                     for clause, cited in call.clauses if clause.name in names for node in cited}
            every |= nodes
            own = sorted({f"{it[2]}.{it[3]}" for it in nodes if it[0] == "spec"})
            yield f"  {law:28} {self.size(nodes | asked)}"
            yield "\n".join(textwrap.wrap(", ".join(own), WIDTH, initial_indent="      ",
                                          subsequent_indent="      "))
        yield f"  {'all of them':28} {self.size(every)}\n"

    def crates(self) -> Iterator[str]:
        for crate in sorted({it.crate for it in self.reach.calls}):
            nodes = {node for call in self.reach.calls if call.crate == crate
                     for _, cited in call.clauses for node in cited}
            if any(it[0] == "spec" for it in self.reach.all_from(nodes)):
                yield f"  {crate:28} {self.size(nodes)}"
        yield ""

    # Who cites a definition

    def calls_by_definition(self) -> dict[Node, list[Call]]:
        found: dict[Node, list[Call]] = {}
        for call in self.reach.calls:
            for node in sorted({node for _, cited in call.clauses for node in cited}):
                found.setdefault(node, []).append(call)
        return found

    def definitions_by_definition(self) -> dict[Node, list[Node]]:
        found: dict[Node, list[Node]] = {}
        for node in sorted(self.public):
            for used in sorted(self.reach.next(node)):
                found.setdefault(used, []).append(node)
        return found

    def cited_by(self, node: Node) -> str:
        calls = [it.name if it.crate == node[1] else f"{it.crate}::{it.name}"
                 for it in self.citing.get(node, [])]
        if calls:
            return f"  < {some(calls, 3)}"
        users = [it[3] if it[1:3] == node[1:3] else f"{it[2]}.{it[3]}"
                 for it in self.using.get(node, [])]
        return f"  <- {some(users, 1)}" if users else ""

    # The files

    def files(self) -> Iterator[str]:
        crate = ""
        for file in sorted(self.reach.files.values(), key=lambda it: (it.crate, it.module)):
            reached = [it for it in file.definitions if node_of(file, it) in self.public]
            if not reached:
                continue
            if file.crate != crate:
                crate = file.crate
                yield f"## {crate}\n"
            yield f"{file.module}.antt {file.length}: {first_sentence(file.head)}"
            yield from (self.line(file, it) for it in reached)
            yield ""

    def line(self, file: SpecFile, definition: Definition) -> str:
        says = first_sentence(definition.comment)
        return f"  {definition.line:4} {definition.name:24} {short(says)}"\
            f"{self.cited_by(node_of(file, definition))}".rstrip()


def node_of(file: SpecFile, definition: Definition) -> Node:
    return ("spec", file.crate, file.module, definition.name)


def some(names: list[str], most: int) -> str:
    more = f" and {len(names) - most} more" if len(names) > most else ""
    return ", ".join(names[:most]) + more


def first_sentence(text: str) -> str:
    return re.split(r"(?<=\w{2})\.(?= |$)|(?<=\))\.(?= |$)", text, maxsplit=1)[0]


def short(text: str) -> str:
    return textwrap.shorten(text, 64, placeholder=" ..")
