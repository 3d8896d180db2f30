"""What tills were told, beside what stands in the book."""
from __future__ import annotations

from typing import Iterable, NamedTuple, Optional, Sequence

from tests.support.book.cluster import Cluster
from tests.support.formats.journal_records import UNDONE

from .tills import Deal, Wrong

QUESTION = """select encode(ksn, 'hex'), kind, amount, code, encode(mac, 'hex'), encode(reverses, 'hex'),
state, encode(reversed_by, 'hex') from dukpt.number"""
STANDING = "select count(*), coalesce(sum(amount), 0) from dukpt.standing"
NONE, PAYMENT, REVERSAL = "0", "1", "2"


class Row(NamedTuple):
    """A number of the book, as the database writes it; empty where there is nothing."""

    kind: str
    amount: str
    code: str
    mac: str
    reverses: str
    state: str
    reversed_by: str


Book = dict[str, Row]


def book_of(database: Cluster) -> Book:
    rows = [line.split("|") for line in database.sql(QUESTION).splitlines()]
    book = {number: Row(*fields) for number, *fields in rows}
    if len(book) != len(rows):
        raise Wrong("a number has two rows")
    return book


def hexadecimal(number: Optional[bytes]) -> str:
    assert number is not None
    return number.hex()


def payment_row(deal: Deal) -> Row:
    by = hexadecimal(deal.reversal.number) if deal.told is not None and deal.reversal else ""
    return Row(PAYMENT, str(deal.amount), str(deal.code), deal.payment.frame[-8:].hex(), "", "", by)


def reversal_row(deal: Deal) -> Row:
    assert deal.reversal is not None
    return Row(REVERSAL, "", "", deal.reversal.mac.hex(), hexadecimal(deal.payment.number),
               str(deal.told), "")


def lost(book: Book, deals: Iterable[Deal]) -> list[str]:
    """The numbers whose acknowledged answer is not in the book, or is another one there."""
    found = []
    for it in deals:
        number = hexadecimal(it.payment.number)
        if it.is_known:
            kept, wanted = book.get(number), payment_row(it)
            # Whether a reversal of it whose answer nobody has came there, nobody knows.
            if kept is None or kept[:-1] != wanted[:-1] or it.told is not None and kept != wanted:
                found.append(number)
        if it.told is not None and it.reversal:
            own = hexadecimal(it.reversal.number)
            if book.get(own) != reversal_row(it):
                found.append(own)
    return found


def judge(book: Book, standing: str, deals: Sequence[Deal]) -> str:
    """That a book has what tills were told and nothing else, where each deal has come to its end."""
    missing = lost(book, deals)
    if missing:
        raise Wrong(f"{len(missing)} acknowledged answers are not in the book, as {missing[0]}")
    numbers = set()
    for it in deals:
        number = hexadecimal(it.payment.number)
        numbers.add(number)
        if it.reversal:
            numbers.add(hexadecimal(it.reversal.number))
        if not it.is_known:
            check_given_up(book[number], it)
    strangers = book.keys() - numbers
    if strangers:
        raise Wrong(f"the book has {len(strangers)} numbers that no till knows, as {min(strangers)}")
    stands = [it.amount for it in deals if it.stands]
    if standing != f"{len(stands)}|{sum(stands)}":
        raise Wrong(f"{standing} stand in the book, and {len(stands)}|{sum(stands)} at the tills")
    return f"{len(book):,} numbers, {len(stands):,} payments stand, with {sum(stands):,}"


def check_given_up(kept: Row, deal: Deal) -> None:
    """A payment that was reversed without its answer is kept as its reversal was told: undone where
    it was approved."""
    reversed_ = payment_row(deal)
    absent = Row(NONE, "", "", "", "", "", reversed_.reversed_by)
    possible = [reversed_] if deal.told == UNDONE else [absent] if deal.code == 0 else [reversed_, absent]
    if kept not in possible:
        raise Wrong(f"a reversal is told {deal.told}, and the payment is kept as {kept}")
