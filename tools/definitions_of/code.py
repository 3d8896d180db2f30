"""The code: crates/NAME/src/**/*.rt, as far as its contracts and types go."""
from __future__ import annotations

import re
from dataclasses import dataclass, field
from pathlib import Path
from typing import Optional

from .text import closing, line_at, masked, split_list

SPACE = re.compile(r"\s+")
ATTRIBUTE = re.compile(r"#!?\[")
VISIBLE = re.compile(r"pub\b(\s*\()?")
HEAD = re.compile(
    r"(?:(?:const|unsafe|async|extern)\s+)*(fn)\s+(\w+)"
    r"|(const|static|type|struct|enum|trait|mod)\s+(\w+)|(impl|use|macro_rules!)|(ghost)\s+(use\b|\w+)")
GHOST_USE = re.compile(r"ghost use (\S+?)(?:\.\{(.*?)\}| as (\S+))?;", re.S)
CLAUSE = re.compile(r"\s*(requires|ensures)\b\s*(\w*)\s*")
# How a clause without a name is called.
NAMELESS = "·"
Imports = dict[str, tuple[str, Optional[str]]]


@dataclass
class Clause:
    """A clause of a contract, or a ghost member. One without a name is called `NAMELESS`."""

    kind: str
    name: str
    text: str
    line: int


@dataclass
class Item:
    """A function, a type, a trait, an implementation. `head` is what stands before its body."""

    kind: str
    name: str
    module: tuple[str, ...]
    public: bool
    line: int
    head: str = ""
    body: str = ""
    clauses: list[Clause] = field(default_factory=list)
    members: list["Item"] = field(default_factory=list)
    ghost: Imports = field(default_factory=dict)
    of: Optional["Item"] = None


@dataclass
class Module:
    """A file of the code: what it imports, and its items."""

    crate: str
    name: tuple[str, ...]
    path: Path
    items: list[Item] = field(default_factory=list)
    ghost: Imports = field(default_factory=dict)
    uses: dict[str, tuple[str, ...]] = field(default_factory=dict)
    given_on: dict[str, tuple[str, ...]] = field(default_factory=dict)
    public_modules: set[str] = field(default_factory=set)


def read_ghost_use(text: str, into: Imports) -> None:
    path, names, alias = GHOST_USE.match(SPACE.sub(" ", text)).groups()
    for name in (names or "").split(","):
        if name.strip():
            old, _, new = name.strip().partition(" as ")
            into[new or old] = (path, old)
    if names is None:
        into[alias or path.rpartition(".")[2]] = (path, None)


def read_use(text: str, before: tuple[str, ...], into: dict[str, tuple[str, ...]]) -> None:
    """The names that a tree of imports brings, each with its path."""
    for part in split_list(text):
        head, brace, rest = part.partition("{")
        path = before + tuple(it for it in head.strip().split(" as ")[0].split("::") if it.strip())
        if brace:
            read_use(rest.rpartition("}")[0], path, into)
        elif path[-1] != "*":
            whole = path[:-1] if path[-1] == "self" else path
            into[part.partition(" as ")[2].strip() or whole[-1]] = whole


class Reader:
    """Reads the items of one file, in whose text comments and strings are masked."""

    def __init__(self, module: Module, text: str) -> None:
        self.module, self.text = module, text

    def read(self, at: int, end: int, into: list[Item], within: Optional[Item]) -> None:
        while at < end:
            at = self.read_item(at, end, into, within)

    def read_item(self, at: int, end: int, into: list[Item], within: Optional[Item]) -> int:
        text = self.text
        if found := SPACE.match(text, at):
            return found.end()
        if found := ATTRIBUTE.match(text, at):
            return closing(text, found.end() - 1)
        public = False
        if found := VISIBLE.match(text, at):
            public = not found[1]
            at = closing(text, found.end() - 1) if found[1] else found.end()
            at = SPACE.match(text, at).end()
        found = HEAD.match(text, at)
        if not found:
            return self.after(at, end)
        kind = found[1] or found[3] or found[5] or found[6]
        name = found[2] or found[4] or found[7] or ""
        if kind in ("use", "ghost", "mod"):
            return self.read_line(kind, name, public, at, found.end(), into, within)
        item = Item(kind, name, self.module.name, public, line_at(text, at), of=within)
        into.append(item)
        return self.read_rest(item, found.end())

    def read_line(self, kind: str, name: str, public: bool, at: int, after: int,
                  into: list[Item], within: Optional[Item]) -> int:
        """An import, a module or a ghost member."""
        text = self.text
        if kind == "ghost" and name != "use":
            end = self.after(at, len(text))
            into.append(self.ghost_member(name, text[at:end], at, within))
            return end
        end = text.index(";", after) + 1 if kind != "mod" else self.after(at, len(text))
        if kind == "ghost":
            read_ghost_use(text[at:end], within.ghost if within else self.module.ghost)
        elif kind == "use":
            found: dict[str, tuple[str, ...]] = {}
            read_use(SPACE.sub(" ", text[after:end - 1]).strip(), (), found)
            self.module.uses.update(found)
            if public:
                self.module.given_on.update(found)
        elif public:
            self.module.public_modules.add(name)
        return end

    def ghost_member(self, name: str, text: str, at: int, within: Optional[Item]) -> Item:
        item = Item("ghost", name, self.module.name, True, line_at(self.text, at), of=within)
        item.clauses = [Clause("ghost", name, text[text.index("{") + 1:text.rindex("}")], item.line)]
        return item

    def after(self, at: int, end: int) -> int:
        """The place after what begins here and ends with a semicolon or a body."""
        while at < end:
            sign = self.text[at]
            if sign == ";":
                return at + 1
            at = closing(self.text, at) if sign in "([{" else at + 1
            if sign == "{":
                rest = re.compile(r"\s*[;,]").match(self.text, at)
                return rest.end() if rest else at
        return end

    def read_rest(self, item: Item, at: int) -> int:
        """The head of an item, its clauses and its body."""
        text, start = self.text, at
        while text[at] not in "{;" and not (item.kind == "fn" and re.compile(
                r"\b(requires|ensures)\b").match(text, at)):
            at = closing(text, at) if text[at] in "([" else at + 1
        item.head = text[start:at]
        while item.kind == "fn" and (found := CLAUSE.match(text, at)):
            at = closing(text, found.end())
            item.clauses.append(Clause(found[1], found[2] or NAMELESS, text[found.end() + 1:at - 1],
                                       line_at(text, found.start(1))))
            at = SPACE.match(text, at).end() if SPACE.match(text, at) else at
        if text[at] == ";":
            return at + 1
        end = closing(text, at)
        item.body = text[at + 1:end - 1]
        if item.kind in ("trait", "impl"):
            self.read(at + 1, end - 1, item.members, item)
        return end


def read_module(crate: str, source: Path, path: Path) -> Module:
    name = path.relative_to(source).with_suffix("").parts
    module = Module(crate, () if name in (("lib",), ("main",)) else name, path)
    text = masked(path.read_text(encoding="utf-8"))
    Reader(module, text).read(0, len(text), module.items, None)
    return module


def read_code(root: Path) -> dict[str, dict[tuple[str, ...], Module]]:
    """The modules of each crate by their names."""
    crates: dict[str, dict[tuple[str, ...], Module]] = {}
    for path in sorted(root.glob("crates/*/src/**/*.rt")):
        crate = path.relative_to(root).parts[1]
        module = read_module(crate, root / "crates" / crate / "src", path)
        crates.setdefault(crate, {})[module.name] = module
    return crates
