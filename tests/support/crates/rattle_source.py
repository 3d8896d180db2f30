"""Reads the functions of the sources: their names, what they give, their clauses and their bodies, as trees
of tokens. It knows as much of the language as the bodies here need, and no more."""
from __future__ import annotations

import re
from dataclasses import dataclass
from typing import Iterator, Sequence, Union

TOKEN = re.compile(
    r"""(?P<space>\s+|//[^\n]*|/\*.*?\*/)
    |(?P<text>b?r(?P<hashes>\#*)".*?"(?P=hashes)|b?"(?:\\.|[^"\\])*")
    |(?P<char>b?'(?:\\(?:x..|u\{.*?\}|.)|[^'\\])')
    |(?P<life>'\w+)
    |(?P<word>\w+)
    |(?P<sign>=>|->|::|==|!=|<=|>=|&&|\|\||\.\.=|\.\.|.)""", re.VERBOSE | re.DOTALL)
# Where a clause begins, which is no part of the code: its words, and its name.
CLAUSE = re.compile(r"(?:requires|ensures|decreases|ghost)\b\*?(?:\s*\w+)?\s*[=:]?\s*\{")
GHOST_USE = re.compile(r"ghost use [^;]*;")
OPENING, CLOSING = "([{", ")]}"


@dataclass(frozen=True)
class Token:
    text: str
    line: int


@dataclass(frozen=True)
class Group:
    """What stands in a pair of brackets."""

    bracket: str
    trees: tuple["Tree", ...]
    line: int


Tree = Union[Token, Group]


@dataclass(frozen=True)
class Function:
    """A function, or the value of a constant. `owner` is the head of the impl around it, or what it is;
    `brought` has the crate of each name that its file brings in. Its body begins behind a line."""

    file: str
    brought: dict[str, str]
    owner: str
    name: str
    takes: str
    gives: str
    clauses: tuple[str, ...]
    body: tuple[Tree, ...]
    line: int

    @property
    def crate(self) -> str:
        return self.file.split("/")[0]

    @property
    def place(self) -> str:
        return f"{self.file} {self.name}"


@dataclass(frozen=True)
class Enumeration:
    """An enum, with its variants."""

    name: str
    variants: tuple[str, ...]


def is_token(tree: Tree, *texts: str) -> bool:
    return isinstance(tree, Token) and tree.text in texts


def is_group(tree: Tree, bracket: str) -> bool:
    return isinstance(tree, Group) and tree.bracket == bracket


def written(trees: Sequence[Tree]) -> str:
    """The trees as one line, a space between two tokens."""
    parts = []
    for it in trees:
        if isinstance(it, str):
            continue
        if isinstance(it, Token):
            parts.append(it.text)
        else:
            inner = written(it.trees)
            parts.append(it.bracket + (f" {inner} " if inner else "") + CLOSING[OPENING.index(it.bracket)])
    return " ".join(parts)


def tokens_of(text: str) -> Iterator[Union[Token, str]]:
    """The tokens, and between them, as strings, the clauses."""
    at, line = 0, 1
    while at < len(text):
        before = text[at - 1] if at else " "
        ghost = None if before.isalnum() or before in "_." else GHOST_USE.match(text, at)
        clause = None if before.isalnum() or before in "_." else CLAUSE.match(text, at)
        if ghost:
            end = ghost.end()
        elif clause:
            end = end_of_braces(text, clause.end())
            yield text[at:end]
        else:
            found = TOKEN.match(text, at)
            end = found.end()
            if found.lastgroup != "space":
                yield Token(found.group(), line)
        line += text.count("\n", at, end)
        at = end


def end_of_braces(text: str, at: int) -> int:
    """The place behind the brace that closes one which was opened before this place."""
    depth = 1
    while depth:
        depth += {"{": 1, "}": -1}.get(text[at], 0)
        at += 1
    return at


def trees_of(text: str) -> list[Union[Tree, str]]:
    """The trees of a file, with the clauses among those of its items."""
    stack: list[tuple[str, int, list]] = [("", 0, [])]
    for it in tokens_of(text):
        if isinstance(it, str):
            stack[-1][2].append(it)
        elif it.text in tuple(OPENING):
            stack.append((it.text, it.line, []))
        elif it.text in tuple(CLOSING):
            bracket, line, inner = stack.pop()
            if OPENING.index(bracket) != CLOSING.index(it.text):
                raise ValueError(f"line {it.line}: `{it.text}` closes `{bracket}` of line {line}")
            stack[-1][2].append(Group(bracket, tuple(inner), line))
        else:
            stack[-1][2].append(it)
    if len(stack) != 1:
        raise ValueError(f"line {stack[-1][1]}: `{stack[-1][0]}` is not closed")
    return stack[0][2]


def brought_in(text: str) -> dict[str, str]:
    """The names that a file brings in, each with its crate; those of its own crate have none."""
    found = {}
    for first, names in re.findall(r"^(?:pub )?use (\w+)::([^;]+);", text, re.MULTILINE):
        for name in re.findall(r"\w+", names):
            found[name] = "" if first in ("crate", "self", "super") else first
    return found


def items_of(file: str, brought: dict[str, str], trees: Sequence[Union[Tree, str]],
             owner: str = "") -> Iterator[Union[Function, Enumeration]]:
    """The functions, constants and enums of a file, those of its impls and modules among them."""
    at = 0
    while at < len(trees):
        head, at = head_at(trees, at)
        if not head:
            continue
        plain = [it for it in head if not isinstance(it, str)]
        words = [it.text for it in plain if isinstance(it, Token)]
        kind = next((it for it in words if it in ("fn", "enum", "impl", "mod", "trait", "const", "static",
                                                  "struct", "use", "type")), "")
        if kind == "const" and "fn" in words:
            kind = "fn"
        last = plain[-1] if plain else None
        if kind == "fn":
            yield function_of(file, brought, owner, head, plain)
        elif kind in ("const", "static") and any(is_token(it, "=") for it in plain):
            first = next(place for place, it in enumerate(plain) if is_token(it, "="))
            yield Function(file, brought, kind, words[words.index(kind) + 1], "", "", (),
                           tuple(plain[first + 1 :]), plain[0].line)
        elif kind == "enum" and isinstance(last, Group):
            yield Enumeration(words[words.index("enum") + 1], variants_of(last))
        elif kind in ("impl", "mod", "trait") and isinstance(last, Group):
            yield from items_of(file, brought, last.trees, written(plain[:-1]))


def head_at(trees: Sequence[Union[Tree, str]], at: int) -> tuple[list[Union[Tree, str]], int]:
    """The trees of the item that begins at a place, and the place behind it. Attributes are left out."""
    head: list[Union[Tree, str]] = []
    while at < len(trees):
        it = trees[at]
        if not isinstance(it, str) and is_token(it, "#"):
            at += 3 if is_token(trees[at + 1], "!") else 2
            continue
        at += 1
        if isinstance(it, str):
            head.append(it)
        elif is_token(it, ";"):
            return head, at
        else:
            head.append(it)
            is_value = any(not isinstance(one, str) and is_token(one, "=", "use") for one in head)
            if is_group(it, "{") and not is_value:
                return head, at
    return head, at


def function_of(file: str, brought: dict[str, str], owner: str, head: Sequence[Union[Tree, str]],
                plain: Sequence[Tree]) -> Function:
    at = next(place for place, it in enumerate(plain) if is_token(it, "fn"))
    body = plain[-1].trees if is_group(plain[-1], "{") else ()
    arrow = next((place for place, it in enumerate(plain) if is_token(it, "->")), None)
    gives = []
    for it in plain[arrow + 1 :] if arrow is not None else []:
        if is_group(it, "{") or is_token(it, "where"):
            break
        gives.append(it)
    takes = next((it for it in plain if is_group(it, "(")), Group("(", (), 0))
    return Function(file, brought, owner, plain[at + 1].text, written(takes.trees), written(gives),
                    tuple(it for it in head if isinstance(it, str)),
                    tuple(it for it in body if not isinstance(it, str)), plain[-1].line)


def variants_of(group: Group) -> tuple[str, ...]:
    """The names of the variants in a declaration's braces."""
    found, is_first, at = [], True, 0
    trees = [it for it in group.trees if not isinstance(it, str)]
    while at < len(trees):
        if is_token(trees[at], "#"):
            at += 2
            continue
        if is_first and isinstance(trees[at], Token):
            found.append(trees[at].text)
        is_first = is_token(trees[at], ",")
        at += 1
    return tuple(found)


def read_items(texts: dict[str, str]) -> list[Union[Function, Enumeration]]:
    """The items of files, which are given by their names."""
    found: list[Union[Function, Enumeration]] = []
    for name, text in texts.items():
        try:
            found += items_of(name, brought_in(text), trees_of(text))
        except (ValueError, IndexError, StopIteration) as why:
            raise ValueError(f"{name} is not understood: {why!r}") from why
    return found
