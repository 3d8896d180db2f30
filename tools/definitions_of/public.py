"""Which items of the code can be reached from outside their crate, and under which name."""
from __future__ import annotations

import re
from typing import Iterator, Optional

from .code import Item, Module
from .text import split_list

TYPES = ("struct", "enum", "type", "trait")
Modules = dict[tuple[str, ...], Module]


class Code:
    """The items of all crates."""

    def __init__(self, crates: dict[str, Modules]) -> None:
        self.crates = crates
        self.types: dict[tuple[str, str], Item] = {}
        self.impls: list[tuple[str, Module, Item]] = []
        self.module_of: dict[int, Module] = {}
        for crate, module in self.modules():
            for item in module.items:
                self.module_of[id(item)] = module
                if item.kind in TYPES:
                    self.types.setdefault((crate, item.name), item)
                elif item.kind == "impl":
                    self.impls.append((crate, module, item))
        self.exported = {id(item): name for crate in crates
                         for name, item in self.exports(crate, (), "")}
        self.public_types = self.reached_types()

    def modules(self) -> Iterator[tuple[str, Module]]:
        for crate, modules in self.crates.items():
            for module in modules.values():
                yield crate, module

    def exports(self, crate: str, name: tuple[str, ...], before: str) -> Iterator[tuple[str, Item]]:
        """The public items of a module with their paths from the crate on. Of a program, `main`."""
        module = self.crates[crate].get(name)
        if not module:
            return
        for item in module.items:
            if item.public or item.name == "main" and not name:
                yield before + item.name, item
        for child in module.public_modules:
            yield from self.exports(crate, name + (child,), f"{before}{child}::")
        for new, path in module.given_on.items():
            yield from self.given_on(crate, name, path, before + new)

    def given_on(self, crate: str, name: tuple[str, ...], path: tuple[str, ...],
                 called: str) -> Iterator[tuple[str, Item]]:
        path = path[1:] if path[0] == "crate" else name + path[path[0] == "self":]
        yield from self.exports(crate, path, f"{called}::")
        holder = self.crates[crate].get(path[:-1])
        for item in holder.items if holder else ():
            if item.name == path[-1] and item.kind not in ("impl", "ghost"):
                yield called, item
        if holder and path[-1] in holder.given_on:
            yield from self.given_on(crate, path[:-1], holder.given_on[path[-1]], called)

    def type_named(self, crate: str, module: Optional[Module], name: str) -> Optional[Item]:
        """The type or trait that this name means in a module."""
        path = module.uses.get(name) if module else None
        if path and path[0] in self.crates and path[0] != crate:
            return self.type_named(path[0], self.crates[path[0]].get(()), path[-1])
        return self.types.get((crate, path[-1] if path else name))

    def types_in(self, text: str, module: Module) -> list[Item]:
        found = [self.type_named(module.crate, module, name)
                 for name in dict.fromkeys(re.findall(r"\b[A-Z]\w*", text))]
        return [it for it in found if it]

    def shown(self, item: Item) -> list[Item]:
        """The types that a type or a function shows: of a struct those of its public fields."""
        module = self.module_of[id(item.of or item)]
        text = item.head + (item.body if item.kind == "enum" else public_fields(item))
        return self.types_in(text, module)

    def has_public_fields(self, item: Item) -> bool:
        return bool(public_fields(item))

    def reached_types(self) -> set[int]:
        """The types that are exported, or shown by what is public."""
        found: set[int] = set()
        todo = [it for key, it in self.types.items() if id(it) in self.exported]
        for _, module in self.modules():
            for item in module.items:
                if item.kind == "fn" and id(item) in self.exported:
                    todo += self.shown(item)
        while todo:
            item = todo.pop()
            if id(item) not in found:
                found.add(id(item))
                todo += self.shown(item)
                for fn in self.methods(item):
                    todo += self.shown(fn)
        return found

    def methods(self, item: Item) -> Iterator[Item]:
        """The methods of a type that are called from outside, or those of a trait."""
        if item.kind == "trait":
            yield from (it for it in item.members if it.kind == "fn")
        for crate, module, impl in self.impls:
            trait, type_ = parts_of_impl(impl)
            if type_ and self.type_named(crate, module, type_) is item:
                yield from (it for it in impl.members if it.kind == "fn" and (trait or it.public))

    def public_functions(self) -> Iterator[tuple[str, str, Module, Item]]:
        """Each public function, and each ghost member of a public trait or implementation: its
        crate, its name from the crate on, its module, and itself."""
        for crate, module in self.modules():
            for item in module.items:
                if item.kind == "fn" and id(item) in self.exported:
                    yield crate, self.exported[id(item)], module, item
                elif item.kind == "trait" and id(item) in self.public_types:
                    for member in item.members:
                        yield crate, f"{item.name}::{member.name}", module, member
                elif item.kind == "impl":
                    yield from self.public_members(crate, module, item)

    def public_members(self, crate: str, module: Module,
                       impl: Item) -> Iterator[tuple[str, str, Module, Item]]:
        trait, name = parts_of_impl(impl)
        type_ = self.type_named(crate, module, name) if name else None
        of_trait = self.type_named(crate, module, trait) if trait else None
        if type_ and id(type_) not in self.public_types:
            return
        if of_trait and id(of_trait) not in self.public_types:
            return
        if trait == "Model" or not type_ and not of_trait:
            return
        for member in impl.members:
            if trait or member.public:
                yield crate, f"{name or trait}::{member.name}", module, member

    def model_of(self, item: Item) -> Optional[tuple[Module, Item]]:
        """The implementation of `Model` for a type."""
        for crate, module, impl in self.impls:
            trait, name = parts_of_impl(impl)
            if trait == "Model" and name and self.type_named(crate, module, name) is item:
                return module, impl
        return None


def public_fields(item: Item) -> str:
    if item.kind != "struct":
        return ""
    return " ".join(it for it in split_list(item.body)
                    if re.match(r"(#\[[^]]*\]\s*)*pub\b(?!\()", it))


def parts_of_impl(impl: Item) -> tuple[Optional[str], Optional[str]]:
    """The trait of an implementation, if it is of one, and its type; of a type parameter none."""
    head = without_generics(impl.head)
    trait, for_, type_ = head.partition(" for ")
    if not for_:
        trait, type_ = "", head
    type_ = type_.split(" where ")[0]
    generics = impl.head[:impl.head.index(head[0])] if head else ""
    name = last_name(type_)
    if name and re.search(rf"[<,]\s*{name}\s*[:,>]", generics):
        name = None
    return last_name(trait), name


def without_generics(text: str) -> str:
    """The head of an implementation without what stands in angles."""
    found, depth = "", 0
    for place, sign in enumerate(text):
        if sign == "<":
            depth += 1
        elif sign == ">" and text[place - 1] not in "-=":
            depth -= 1
        elif not depth:
            found += sign
    return re.sub(r"\s+", " ", found).strip()


def last_name(path: str) -> Optional[str]:
    names = re.findall(r"\w+", path.replace("&mut", "").replace("&", ""))
    return names[-1] if names else None
