"""Where the sources say that memory was refused, and why they may there: an allocation's own error is
handed on, or what stands for one."""
from __future__ import annotations

import re
from dataclasses import dataclass
from typing import Iterable, Iterator, Optional, Sequence, Union

from .rattle_source import Enumeration, Function, Group, Token, Tree, is_group, is_token, written

# The error of an allocation, and the variants that stand for it.
ERRORS = ("AllocError", "AllocFailed")
VARIANT = re.compile(r"(?:No|OutOf)?Memory")
# What is printed of it.
TEXT = re.compile(r'b?"(?:out of memory|NoMemory)(?:\\n)?"')
# The errors of the kit that tell of one, as a condition on what was caught.
OF_MEMORY = re.compile(
    r"(?P<name>\w+) \. (?:is_memory \(\)|kind \(\) == (?:io :: )?ErrorKind :: OutOfMemory)")
MATCHES = re.compile(r"[\w .()]+ == (?:Err \( )?(?:\w+ :: )*(?:AllocError|(?:No|OutOf)?Memory)(?: \))?")
# A pattern that such an error alone matches.
REFUSED = re.compile(
    r"(?:Err \( )?&? ?(?:\w+ :: )*(?:AllocError|(?:No|OutOf)?Memory)(?: \{ .* \})?(?: \))?")
# A clause by which a function is refused nothing but memory.
ONLY_MEMORY = re.compile(r"IfErr result \(λ (\w+)\. \1 ≡ (?:\w+\.)?(?:No|OutOf)Memory\)")
# What of the kit answers with an error, or with nothing, where memory is refused, and else never.
KIT = frozenset((
    "Vec::from_slice", "Vec::from_array", "Vec::with_capacity", "String::from_str", "Box::new", "clone",
    "extend_from_slice", "insert", "or_try_insert_with", "push", "push_str", "to_string", "try_reserve",
    "try_reserve_exact"))


@dataclass(frozen=True)
class Caught:
    """What a fault is made behind: a value that matched a pattern, or did not; a condition that held; or
    an error that is mapped."""

    value: tuple[Tree, ...]
    pattern: tuple[Tree, ...] = ()
    guard: str = ""
    condition: str = ""

    def __str__(self) -> str:
        if self.condition:
            return self.condition
        guard = f" if {self.guard}" if self.guard else ""
        return f"{written(self.pattern)}{guard} of {written(self.value)}"


@dataclass(frozen=True)
class Making:
    """A place that makes such a fault, behind what."""

    function: Function
    line: int
    what: str
    caught: Optional[Caught]

    def __str__(self) -> str:
        return f"{self.function.file}:{self.line}: {self.function.name}: {self.what} behind " \
            f"{self.caught or 'nothing'}"


def is_fault(tree: Tree, makers: frozenset[str]) -> bool:
    if not isinstance(tree, Token):
        return False
    return tree.text in ERRORS or tree.text in makers or bool(
        VARIANT.fullmatch(tree.text) or TEXT.fullmatch(tree.text))


class Walk:
    """Finds the makings in a function. `makers` are the functions that make such a fault of nothing, so
    that a call of one is a making."""

    def __init__(self, function: Function, makers: Iterable[str] = ()) -> None:
        self.function = function
        self.makers = frozenset(makers) - {function.name}
        self.found: list[Making] = []
        self.walk(function.body, None)

    def walk(self, trees: Sequence[Tree], caught: Optional[Caught]) -> None:
        at = 0
        while at < len(trees):
            at = self.step(trees, at, caught)

    def step(self, trees: Sequence[Tree], at: int, caught: Optional[Caught]) -> int:
        """Walks over what begins at a place, and gives the place behind it."""
        it = trees[at]
        if is_token(it, "match"):
            return self.walk_match(trees, at, caught)
        if is_token(it, "if", "while"):
            return self.walk_if(trees, at, caught)
        if is_token(it, "let"):
            return self.walk_let(trees, at, caught)
        if is_token(it, "==", "!="):
            return end_of_operand(trees, at + 1)
        if is_token(it, "|") and (at == 0 or is_token(trees[at - 1], ",", "move", "(")):
            return 1 + next(place for place in range(at + 1, len(trees)) if is_token(trees[place], "|"))
        if is_token(it, "matches") and len(trees) > at + 2 and is_token(trees[at + 1], "!"):
            inner = trees[at + 2].trees
            self.walk(inner[: place_of(inner, ",")], caught)
            return at + 3
        if is_token(it, "map_err", "ok_or") and at + 1 < len(trees) and is_group(trees[at + 1], "("):
            self.walk(trees[at + 1].trees, Caught(call_before(trees, at - 1)))
            return at + 2
        if isinstance(it, Group):
            self.walk(it.trees, caught)
        elif is_fault(it, self.makers) and not is_type(trees, at):
            self.found.append(Making(self.function, it.line, written(path_to(trees, at)), caught))
        return at + 1

    def walk_match(self, trees: Sequence[Tree], at: int, caught: Optional[Caught]) -> int:
        end = place_of(trees, "{", at)
        value = tuple(trees[at + 1 : end])
        self.walk(value, caught)
        for pattern, guard, body in arms_of(trees[end].trees):
            self.walk(body, Caught(value, pattern, written(guard)))
        return end + 1

    def walk_if(self, trees: Sequence[Tree], at: int, caught: Optional[Caught]) -> int:
        end = place_of(trees, "{", at)
        condition = trees[at + 1 : end]
        if is_token(condition[0], "let"):
            middle = place_of(condition, "=")
            pattern, value = tuple(condition[1:middle]), tuple(condition[middle + 1 :])
            self.walk(value, caught)
            held, other = Caught(value, pattern), Caught(value, (Token("else", 0), *pattern))
        else:
            self.walk(condition, caught)
            held = Caught(tuple(condition), condition=written(condition))
            other = Caught((), condition=f"not {written(condition)}")
        self.walk(trees[end].trees, held)
        if end + 2 < len(trees) and is_token(trees[end + 1], "else") and is_group(trees[end + 2], "{"):
            self.walk(trees[end + 2].trees, other)
            return end + 3
        return end + 1

    def walk_let(self, trees: Sequence[Tree], at: int, caught: Optional[Caught]) -> int:
        """A `let` with an `else`; of another one nothing but its pattern is passed over."""
        equal = place_of(trees, "=", at)
        stop = place_of(trees, ";", at)
        if stop < equal:
            return stop
        pattern = tuple(it for it in trees[at + 1 : equal])
        other = place_of(trees, "else", equal)
        is_refutable = any(is_group(it, "(") or is_group(it, "{") for it in pattern) \
            and isinstance(pattern[0], Token)
        if other < stop and is_refutable:
            value = tuple(trees[equal + 1 : other])
            self.walk(value, caught)
            self.walk(trees[other + 1].trees, Caught(value, (Token("else", 0), *pattern)))
            return other + 2
        return equal + 1


def place_of(trees: Sequence[Tree], text: str, at: int = 0) -> int:
    """The first place from this one on of a token, or of a group in such brackets."""
    found = (place for place in range(at, len(trees))
             if is_token(trees[place], text) or is_group(trees[place], text))
    return next(found, len(trees))


def arms_of(trees: Sequence[Tree]) -> Iterator[tuple[tuple[Tree, ...], Sequence[Tree], Sequence[Tree]]]:
    """The pattern, the condition and the body of each arm."""
    at = 0
    while at < len(trees):
        arrow = place_of(trees, "=>", at)
        head = trees[at:arrow]
        guard = place_of(head, "if")
        end = arrow + 2 if is_group(trees[arrow + 1], "{") else place_of(trees, ",", arrow)
        if end < len(trees) and not is_token(trees[end], ",") and is_group(trees[arrow + 1], "{") \
                and is_token(trees[end], ".", "?"):
            end = place_of(trees, ",", arrow)
        yield tuple(head[:guard]), head[guard + 1 :], trees[arrow + 1 : end]
        at = end + 1 if end < len(trees) and is_token(trees[end], ",") else end


def end_of_operand(trees: Sequence[Tree], at: int) -> int:
    """The place behind what is compared with."""
    while at < len(trees) and (is_group(trees[at], "(") or is_part(trees[at])):
        at += 1
    return at


def is_part(tree: Tree) -> bool:
    """Whether a token may stand in a value without a space."""
    return isinstance(tree, Token) and (
        tree.text in ("::", ".", "&", "*") or tree.text[0].isalnum() or tree.text[0] in "_\"'")


def path_to(trees: Sequence[Tree], at: int) -> Sequence[Tree]:
    first = at
    while first >= 2 and is_token(trees[first - 1], "::") and isinstance(trees[first - 2], Token):
        first -= 2
    return trees[first : at + 1]


def is_type(trees: Sequence[Tree], at: int) -> bool:
    """Whether a name stands in the place of a type: an argument of one, or before a path."""
    behind = trees[at + 1] if at + 1 < len(trees) else None
    before = trees[at - 1] if at else None
    if behind is not None and is_token(behind, "::"):
        return True
    return before is not None and is_token(before, "<") or (
        before is not None and is_token(before, ",") and behind is not None and is_token(behind, ">"))


def call_before(trees: Sequence[Tree], end: int) -> tuple[Tree, ...]:
    """The call that ends before this place, back to the start of its statement."""
    first = end
    while first and not is_token(trees[first - 1], ";", "=", "=>", "return", ",", "{"):
        first -= 1
    return tuple(trees[first:end])


def is_of_kit(name: str, function: Function) -> bool:
    """Whether a function says of a name of its own that it is a collection of the kit."""
    said = f"{function.takes} {written(function.body)}"
    return bool(re.search(rf"\b{name} (?:: (?:& )?(?:mut )?|= )(?:Vec|String)\b", said))


def bound_to(name: str, trees: Sequence[Tree]) -> Sequence[Tree]:
    """What a name is bound to by the one `let` of it, where there is one."""
    found = []
    for at, it in enumerate(trees):
        if isinstance(it, Group):
            found += [one for one in [bound_to(name, it.trees)] if one]
        elif is_token(it, "let") and is_token(trees[at + 1], name) and is_token(trees[at + 2], "="):
            found.append(trees[at + 3 : place_of(trees, ";", at)])
    return found[0] if len(found) == 1 else ()


class Sources:
    """What the functions of the sources say of the errors that they give."""

    def __init__(self, items: Sequence[Union[Function, Enumeration]]) -> None:
        self.functions: dict[str, list[Function]] = {}
        self.of_memory_alone = set(ERRORS)
        for it in items:
            if isinstance(it, Function):
                self.functions.setdefault(it.name, []).append(it)
            elif len(it.variants) == 1 and VARIANT.fullmatch(it.variants[0]):
                self.of_memory_alone.add(it.name)

    def gives_only_memory(self, function: Function) -> bool:
        """Whether an error of a function, or where it gives none nothing, says that memory was refused:
        by its type, or by a clause."""
        error = re.fullmatch(r"Result < .*, (\w+)(?: < .* >)? >", function.gives)
        return bool(error and error[1] in self.of_memory_alone
                    or any(ONLY_MEMORY.search(it) for it in function.clauses))

    def is_allocation(self, value: Sequence[Tree], function: Function) -> bool:
        """Whether a value in a function is what a call gives that is refused nothing but memory."""
        if len(value) == 1 and isinstance(value[0], Token):
            value = bound_to(value[0].text, function.body)
        if len(value) < 2 or not is_group(value[-1], "(") or not isinstance(value[-2], Token):
            return False
        name, before = value[-2].text, value[-3] if len(value) > 2 else None
        kind = value[-4].text if len(value) > 3 and isinstance(value[-4], Token) else ""
        known = self.functions.get(name, [])
        if before is not None and is_token(before, "."):
            if kind and is_of_kit(kind, function):
                return name in KIT
            known = [it for it in known if it.owner]
        elif kind[:1].isupper():
            known = [it for it in known if re.search(rf"\b{kind}\b", it.owner)]
            name = f"{kind}::{name}"
        else:
            crate = function.brought.get(name) or function.crate
            known = [it for it in known if not it.owner and it.crate == crate]
        return all(self.gives_only_memory(it) for it in known) if known else name in KIT

    def is_handed_on(self, making: Making) -> bool:
        """Whether an allocation's own error is handed on there."""
        owner, caught = making.function.owner, making.caught
        if re.match(r"impl (?:< .*? > )?From < Alloc(?:Error|Failed < \w+ >) > for", owner):
            return True
        if caught is None:
            return False
        if caught.condition:
            tried = re.fullmatch(r"(?:.*) \. is_err \(\)", caught.condition)
            return bool(OF_MEMORY.fullmatch(caught.condition) or MATCHES.fullmatch(caught.condition)
                        or tried and self.is_allocation(caught.value[:-3], making.function))
        if not caught.pattern:
            return self.is_allocation(caught.value, making.function)
        return all(self.is_refusal(it, caught, making.function) for it in alternatives(caught.pattern))

    def is_refusal(self, pattern: Sequence[Tree], caught: Caught, function: Function) -> bool:
        """Whether what matches a pattern says that memory was refused."""
        text = written(pattern)
        if REFUSED.fullmatch(text):
            return True
        name = re.fullmatch(r"Err \( (\w+) \)", text)
        found = OF_MEMORY.fullmatch(caught.guard)
        if name and found and found["name"] == name[1]:
            return True
        is_other = name or text == "None" or re.match(r"else (?:Ok|Some) \(", text)
        return bool(is_other) and self.is_allocation(caught.value, function)


def alternatives(pattern: Sequence[Tree]) -> list[Sequence[Tree]]:
    found: list[list[Tree]] = [[]]
    for it in pattern:
        if is_token(it, "|"):
            found.append([])
        else:
            found[-1].append(it)
    return list(found)


def makings(items: Sequence[Union[Function, Enumeration]], makers: Iterable[str] = ()) -> list[Making]:
    functions = [it for it in items if isinstance(it, Function)]
    return [one for it in functions for one in Walk(it, makers).found]
