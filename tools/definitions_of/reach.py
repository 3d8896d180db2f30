"""What each public clause reaches: the definitions that it cites, and those that they cite."""
from __future__ import annotations

import re
from dataclasses import dataclass, field
from pathlib import Path
from typing import Iterable, Iterator, Optional

from .code import Clause, Imports, Item, Module, read_code
from .public import Code
from .specs import Definition, SpecFile, read_specs
from .text import split_list, words_of

# A definition is ("spec", crate, module, name); a type of the code ("type", crate, name), and with
# its private fields ("inside", crate, name); a ghost member ("member", crate, trait, name).
Node = tuple[str, ...]


@dataclass
class Call:
    """A public function or ghost member, with what each of its clauses cites."""

    crate: str
    name: str
    line: int
    path: Path
    clauses: list[tuple[Clause, set[Node]]] = field(default_factory=list)

    def names(self) -> list[str]:
        return list(dict.fromkeys(clause.name for clause, _ in self.clauses))


class Reach:
    """The public calls, the definitions, and who cites whom."""

    def __init__(self, root: Path) -> None:
        self.root = root
        self.files = read_specs(root)
        self.code = Code(read_code(root))
        self.edges: dict[Node, set[Node]] = {}
        self.calls = [self.call(*it) for it in self.code.public_functions()]

    # What a name means

    def meant(self, imports: Imports, name: str, after: str = "") -> Iterator[Node]:
        """What an imported name means; of a module, with what stands after it, as in `module.name`."""
        path, old = imports[name]
        parts = path.split(".")
        if len(parts) < 3 or parts[0] != "Rattle" or parts[2] != "specs":
            return
        crate, inside = parts[1], parts[3:]
        if inside and inside[0] == "declared":
            yield from self.declared(crate, inside[1:], old)
        elif old or after.startswith("."):
            yield from self.defined(crate, ".".join(inside), old or after[1:])

    def declared(self, crate: str, path: list[str], old: Optional[str]) -> Iterator[Node]:
        """A type of the code, by the path of its generated module."""
        names = [it for it in path if (crate, it) in self.code.types]
        if names:
            seen = "inside" if path[-1] in ("TheInside", "TheView") else "type"
            yield (seen, crate, names[-1])

    def defined(self, crate: str, module: str, name: str) -> Iterator[Node]:
        file = self.files.get((crate, module))
        if file and name in file.given_on:
            yield from self.meant(file.uses, name)
        elif file and file.named(name):
            yield ("spec", crate, module, name)

    def cited(self, words: list[str], imports: Imports, bound: set[str]) -> set[Node]:
        """What the words of a clause or a definition cite by imported names."""
        found: set[Node] = set()
        for place, word in enumerate(words):
            before = words[place - 1] if place else ""
            after = words[place + 1] if place + 1 < len(words) else ""
            label = before in ("{", ";") and after == "=" or before == "pub" and after == ":"
            if word in imports and not label and (word not in bound or imports[word][1] is None):
                found.update(self.meant(imports, word, after))
        return found

    # What a definition cites

    def next(self, node: Node) -> set[Node]:
        if node not in self.edges:
            kind, crate, *rest = node
            if kind == "spec":
                file = self.files[crate, rest[0]]
                definition = file.named(rest[1])
                assert definition
                self.edges[node] = self.cited_by_definition(file, definition)
            elif kind == "member":
                self.edges[node] = self.cited_by_member(crate, *rest)
            else:
                self.edges[node] = self.shown_by_type(kind, self.code.types[crate, rest[0]])
        return self.edges[node]

    def cited_by_definition(self, file: SpecFile, definition: Definition) -> set[Node]:
        own: Imports = {it.name: (f"Rattle.{file.crate}.specs.{file.module}", it.name)
                        for it in file.definitions if it is not definition}
        imports = {**file.uses, **own}
        return self.cited(definition.words(), imports, definition.bound())

    def cited_by_member(self, crate: str, trait: str, name: str) -> set[Node]:
        item = self.code.types[crate, trait]
        module = self.code.module_of[id(item)]
        member = next(it for it in item.members if it.name == name and it.kind == "ghost")
        return self.cited_by_clause(module, member, member.clauses[0])

    def shown_by_type(self, kind: str, item: Item) -> set[Node]:
        """The value of a type that has a model, and where it has public fields what holds of them;
        else, and where private fields are seen, its fields' types."""
        module = self.code.module_of[id(item)]
        if kind == "inside":
            return {self.node_of(it) for it in self.code.types_in(item.head + item.body, module)}
        model = self.code.model_of(item)
        if not model:
            return {self.node_of(it) for it in self.code.shown(item)}
        module, impl = model
        seen = ("Value", "view", "invariant") if self.code.has_public_fields(item) else ("Value",)
        values = [it for it in impl.members if it.kind == "ghost" and it.name in seen]
        found: set[Node] = set()
        for value in values:
            found |= self.cited_by_clause(module, value, value.clauses[0])
        return found

    def node_of(self, item: Item) -> Node:
        return ("type", self.code.module_of[id(item)].crate, item.name)

    # What a clause cites

    def call(self, crate: str, name: str, module: Module, item: Item) -> Call:
        call = Call(crate, name, item.line, module.path)
        for clause in item.clauses:
            call.clauses.append((clause, self.cited_by_clause(module, item, clause)))
        return call

    def cited_by_clause(self, module: Module, item: Item, clause: Clause) -> set[Node]:
        imports = {**module.ghost, **(item.of.ghost if item.of else {})}
        words = words_of(clause.text)
        parameters = parameters_of(item)
        found = self.cited(words, imports, set(parameters) - {"result"})
        for name, text in parameters.items():
            if name in words:
                found |= {self.node_of(it) for it in self.code.types_in(text, module)}
        return found | self.members_in(words, module, item)

    def members_in(self, words: list[str], module: Module, item: Item) -> set[Node]:
        """The ghost members of bounds that a clause names, as `C.meaning`; in a trait its own."""
        found: set[Node] = set()
        bounds = bounds_of(item.head) | (bounds_of(item.of.head) if item.of else {})
        if item.of and item.of.kind == "trait":
            found |= {self.member(item.of, it) for it in words if self.has_member(item.of, it)}
        for word, after in zip(words, words[1:]):
            for bound in bounds.get(word, []):
                for trait in self.code.types_in(bound, module):
                    if after.startswith(".") and self.has_member(trait, after[1:]):
                        found.add(self.member(trait, after[1:]))
        return found

    def has_member(self, trait: Item, name: str) -> bool:
        return any(it.kind == "ghost" and it.name == name for it in trait.members)

    def member(self, trait: Item, name: str) -> Node:
        return ("member", self.code.module_of[id(trait)].crate, trait.name, name)

    # Whole reaches

    def all_from(self, nodes: Iterable[Node]) -> set[Node]:
        found, todo = set(), list(nodes)
        while todo:
            node = todo.pop()
            if node not in found:
                found.add(node)
                todo.extend(self.next(node))
        return found

    def public(self) -> set[Node]:
        """The definitions that public clauses reach."""
        roots = [node for call in self.calls for _, nodes in call.clauses for node in nodes]
        return {it for it in self.all_from(roots) if it[0] == "spec"}


def parameters_of(item: Item) -> dict[str, str]:
    """The parameters of a function with their types, and `result` with that of the answer."""
    found: dict[str, str] = {}
    if item.kind != "fn":
        return found
    start = without_angles(item.head).find("(")
    if start < 0:
        return found
    depth = 0
    for place in range(start, len(item.head)):
        depth += (item.head[place] == "(") - (item.head[place] == ")")
        if not depth:
            break
    own = item.of.head if item.of else ""
    for part in split_list(item.head[start + 1:place]):
        name, colon, text = part.partition(":")
        if re.fullmatch(r"(&\s*)?('\w+\s+)?(mut\s+)?self", part):
            found["self"] = own.partition(" for ")[2] or own
        elif colon:
            found[name.replace("mut ", "").strip()] = text
    answer = item.head[place + 1:].replace("Self", own.partition(" for ")[2] or own)
    found["result"] = answer
    return found


def without_angles(text: str) -> str:
    """The text with blanks in place of its first part in angles, which are a function's generics."""
    if not text.lstrip().startswith("<"):
        return text
    depth = 0
    for place, sign in enumerate(text):
        depth += (sign == "<") - (sign == ">" and text[place - 1] not in "-=")
        if sign == ">" and not depth:
            return " " * (place + 1) + text[place + 1:]
    return text


def bounds_of(head: str) -> dict[str, list[str]]:
    """The bounds of type parameters, as far as they are written where these are introduced."""
    found: dict[str, list[str]] = {}
    for name, bound in re.findall(r"\b([A-Z]\w*)\s*:\s*([^,>{]+)", head):
        found.setdefault(name, []).append(bound)
    return found
