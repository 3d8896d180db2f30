"""Differences that are planted in the statement of the book and in its model, in order that they are
found."""
from __future__ import annotations

from typing import NamedTuple, Optional

from ..models.model_book import NONE_STANDS, UNDONE, Asked, Book
from .cluster import SCHEMA

LANES = 4


class Plant(NamedTuple):
    """A text of the schema and another one in its place, and over how many connections that shows."""

    name: str
    old: str
    new: str
    lanes: int = 1


LOCKS = Plant("terminals that are there are not taken",
              "on conflict (iksn) do update set iksn = excluded.iksn where false",
              "on conflict (iksn) do nothing", LANES)
SCANS = Plant("plans read the whole table", """set enable_seqscan = off set enable_hashjoin = off
set enable_mergejoin = off""", "")
PATH = Plant("names are looked up as the caller wants", "set search_path = pg_catalog, pg_temp", "")
TEMPORARY = Plant("names are looked up in temporary things first", "pg_catalog, pg_temp", "pg_catalog")
FUNCTIONS = ("terminal_of", "settle")
PLANTS = (
    Plant("a terminal has some bits of its counter", "get_byte(ksn, 7) & 224", "get_byte(ksn, 7) & 240"),
    Plant("two terminals are one", "get_byte(ksn, 7) & 224", "get_byte(ksn, 7) & 192"),
    Plant("of equal numbers the last is kept", """place)
        order by ksn, place) as first
    where kind = 1""", """place)
        order by ksn, place desc) as first
    where kind = 1"""),
    Plant("of equal reversals the last is kept", """order by ksn, place) as first
            where kind = 2""", """order by ksn, place desc) as first
            where kind = 2"""),
    Plant("answers in another order", ") order by given.place)", ") order by given.ksn)"),
    Plant("a payment that was reversed is known again", "entry.reversed_by is null and not exists",
          "not exists"),
    Plant("a reversal of the group is not seen by a repeat", "earlier.place < given.place", "false"),
    Plant("a repeat before its reversal is refused", "earlier.place < given.place", "true"),
    Plant("a reversal of the group is not seen by a late payment", "earlier.place < first.place",
          "false"),
    Plant("a payment before its reversal is not kept", "earlier.place < first.place", "true"),
    Plant("a reversal of a used number counts", "if it.ksn <> all (undone) then", "if true then"),
    Plant("another MAC is known again", "and entry.mac = given.mac", ""),
    Plant("a reversal of another number is known again",
          "and entry.reverses is not distinct from given.reverses", ""),
    Plant("a declined payment is undone", "and paid.kind = 1 and paid.code = 0", "and paid.kind = 1"),
    Plant("the last reversal of a number is told", "where reversed.reversed_by is null", ""),
    Plant("a kept number is not marked as reversed", "where reversed.reversed_by is null",
          "where false"),
    LOCKS,
)


class AnyMac(Book):
    """Another MAC is known again."""

    def said_again(self, it: Asked) -> Optional[int]:
        return super().said_again(it._replace(mac=self.kept[it.number].asked.mac))


class KnownWhereUndone(Book):
    """A payment that was reversed is known again."""

    def said_again(self, it: Asked) -> Optional[int]:
        reversals, self.reversals = self.reversals, {}
        found = super().said_again(it)
        self.reversals = reversals
        return found


class NewWhereReversed(Book):
    """A number that was reversed is new."""

    def settle_one(self, it: Asked) -> Optional[int]:
        if it.number not in self.kept:
            self.reversals.pop(it.number, None)
        return super().settle_one(it)


class NothingStands(Book):
    """A reversal finds nothing."""

    def first_said(self, it: Asked) -> int:
        return it.code if it.is_payment else NONE_STANDS


class Undoes(Book):
    """A declined payment is undone."""

    def first_said(self, it: Asked) -> int:
        found = it.reversed is not None and self.kept.get(it.reversed)
        return UNDONE if found and found.asked.is_payment else super().first_said(it)


MODELS = (AnyMac, KnownWhereUndone, NewWhereReversed, NothingStands, Undoes)


def with_plant(plant: Optional[Plant] = None) -> str:
    """The statements that put the functions in the place of those that are there, with a difference."""
    made = "".join(map(function_of_schema, FUNCTIONS))
    if plant:
        assert made.count(plant.old) == 1, plant.name
        made = made.replace(plant.old, plant.new)
    return made


def function_of_schema(name: str) -> str:
    schema = SCHEMA.read_text(encoding="utf-8")
    start = schema.index(f"create function dukpt.{name}(")
    return schema[start : schema.index("$$;\n", start) + 4].replace("create", "create or replace", 1)
