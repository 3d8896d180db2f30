"""Journals as files: writing them, spoiling them, and reading them strictly.

docs/FORMATS.md has the layout, under "Disk of a journal".
"""
from __future__ import annotations

import random
from dataclasses import dataclass
from typing import Any, Callable, Iterator, Optional, Sequence, TypeVar, Union

from ..standards.dukpt import counter_of, iksn_of, serial_text, usable

RECORD = 32
MOST_FOLLOWERS = 4095
OPEN = 1
# The kinds of records.
PAYMENT, REVERSAL = 1, 2
PAYMENTS_ALONE = (PAYMENT,)
BOTH_KINDS = (PAYMENT, REVERSAL)
# The states that a reversal is told, and what is added to them in a record.
NONE_STANDS, UNDONE = 0, 1
OF_A_STATE = 128
CODES = {0: "approved", 14: "no such card", 30: "PIN block unreadable",
         51: "over the card's limit", 55: "wrong PIN"}
STATES = (OF_A_STATE + NONE_STANDS, OF_A_STATE + UNDONE)
# What is shown of a state.
STATE_WORDS = {NONE_STANDS: "00 none stands", UNDONE: "01 undone"}


# A journal by hand: one payment; then a group of two, whose second gate is closed, though not zero.
BY_HAND = """
01 01 0000 FFFF9876543210E00001 00000001 00 A05619896B683F13 0000000000
01 01 0001 FFFF9876543210E00008 000004D2 33 0102030405060708 0000000000
7F 01 0000 0123456789ABCDE00001 FFFFFFFF 00 1112131415161718 0000000000
00 01 0007 0000000000000000FFFF FFFFFFFF FF FFFFFFFFFFFFFFFF FFFFFFFFFF
"""
BY_HAND_ROWS = [
    ["0", "FFFF9876543210E00001", "1", "00 approved", "A05619896B683F13", "alone", ""],
    ["1", "FFFF9876543210E00008", "1234", "51 over the card's limit", "0102030405060708",
     "records 1 to 2", ""],
    ["2", "0123456789ABCDE00001", "4294967295", "00 approved", "1112131415161718",
     "records 1 to 2", ""],
]
BY_HAND_SUMS = [["FFFF9876543210E00000", "2", "1", "0", "1"],
                ["0123456789ABCDE00000", "1", "1", "0", "4294967295"]]
# One that begins with a reversal of a number that never came. A payment of 700 is undone, twice; one
# of 20 stands; a declined one is reversed.
REVERSED_BY_HAND = """
01 02 0000 FFFF9876543210E00001 00000008 80 A1A2A3A4A5A6A7A8 0000000000
01 01 0001 FFFF9876543210E00002 000002BC 00 0102030405060708 0000000000
02 01 0000 FFFF9876543210E00004 00000014 00 1112131415161718 0000000000
01 02 0000 FFFF9876543210E00005 00000002 81 2122232425262728 0000000000
01 01 0002 0123456789ABCDE00001 00000005 33 3132333435363738 0000000000
00 02 0000 FFFF9876543210E00006 00000002 81 4142434445464748 0000000000
FF 02 0000 0123456789ABCDE00002 00000001 80 5152535455565758 0000000000
00 02 0007 0000000000000000FFFF FFFFFFFF FF FFFFFFFFFFFFFFFF FFFFFFFFFF
"""
REVERSED_BY_HAND_ROWS = [
    ["0", "FFFF9876543210E00001", "reversal of FFFF9876543210E00008", "00 none stands",
     "A1A2A3A4A5A6A7A8", "alone", ""],
    ["1", "FFFF9876543210E00002", "700", "00 approved", "0102030405060708", "records 1 to 2",
     "undone by record 3"],
    ["2", "FFFF9876543210E00004", "20", "00 approved", "1112131415161718", "records 1 to 2", ""],
    ["3", "FFFF9876543210E00005", "reversal of FFFF9876543210E00002", "01 undone",
     "2122232425262728", "alone", ""],
    ["4", "0123456789ABCDE00001", "5", "51 over the card's limit", "3132333435363738",
     "records 4 to 6", ""],
    ["5", "FFFF9876543210E00006", "reversal of FFFF9876543210E00002", "01 undone",
     "4142434445464748", "records 4 to 6", ""],
    ["6", "0123456789ABCDE00002", "reversal of 0123456789ABCDE00001", "00 none stands",
     "5152535455565758", "records 4 to 6", ""],
]
REVERSED_BY_HAND_SUMS = [["FFFF9876543210E00000", "2", "2", "1", "20"],
                         ["0123456789ABCDE00000", "1", "0", "0", "0"]]


@dataclass(frozen=True)
class Payment:
    serial: int
    amount: int
    code: int
    mac: bytes

    def record(self, gate: int, followers: int = 0) -> bytes:
        return record_of(gate, PAYMENT, followers, self.serial, self.amount, self.code, self.mac)


@dataclass(frozen=True)
class Reversal:
    """A reversal under the number `serial`, of another one of its terminal."""

    serial: int
    reversed: int
    state: int
    mac: bytes

    def record(self, gate: int, followers: int = 0) -> bytes:
        counter = counter_of(self.reversed)
        told = OF_A_STATE + self.state
        return record_of(gate, REVERSAL, followers, self.serial, counter, told, self.mac)


Entry = Union[Payment, Reversal]


def record_of(
    gate: int, kind: int, followers: int, serial: int, number: int, decided: int, mac: bytes
) -> bytes:
    """A record: `number` is its amount or counter, and `decided` its code or what was told."""
    return (bytes([gate, kind]) + followers.to_bytes(2, "big") + serial.to_bytes(10, "big")
            + number.to_bytes(4, "big") + bytes([decided]) + mac + bytes(5))


@dataclass(frozen=True)
class Place:
    """The first and the last byte of what breaks a rule."""

    first: int
    last: int


Group = Sequence[Entry]


def journal_of(groups: Sequence[Group], room: int, chance: Optional[random.Random] = None) -> bytes:
    """A journal of these groups, with so many records more. What may be anything is zero, or is
    drawn: the gates of followers, which are closed, and closed records behind the groups, as a stop
    leaves them. Of these the first has any gate, and the others have zero; an only record is zeros."""
    closed = (lambda: 0) if chance is None else (lambda: chance.choice((0, 0, 2, 0xFF)))
    records = [entry.record(closed() if at else OPEN, 0 if at else len(group) - 1)
               for group in groups for at, entry in enumerate(group)]
    gates, is_only = [0 if at else closed() for at in range(room)], not records and room == 1
    rest = (bytes(RECORD) if chance is None or is_only or chance.random() < 0.4
            else bytes([gate]) + chance.randbytes(RECORD - 1) for gate in gates)
    return b"".join([*records, *rest])


# What reading comes to: of each entry the first and last record of its group, and the entry.
Row = tuple[int, int, Any]


def read_journal(data: bytes, kinds: Sequence[int] = PAYMENTS_ALONE) -> Union[list[Row], Place]:
    """The entries of a journal, or the first place where it breaks a rule. It may have records of
    these kinds."""
    rows, place = read_rows(data, kinds)
    return rows if place is None else place


def read_entries(data: bytes) -> Union[list[Row], Place]:
    """The payments and reversals of a journal, or the first place where it breaks a rule."""
    return read_journal(data, BOTH_KINDS)


def read_shown(data: bytes) -> Union[list[Row], Place]:
    """The entries of a journal over which a host comes up; or else the first place where it breaks a
    rule, or has a number that was used before."""
    rows, place = read_rows(data, BOTH_KINDS)
    for record, _ in repeats_in([it for _, _, it in rows]):
        return Place(RECORD * record + 4, RECORD * record + 13)
    return rows if place is None else place


def read_rows(data: bytes, kinds: Sequence[int]) -> tuple[list[Row], Optional[Place]]:
    """The entries in front, and the first place where a rule is broken behind them, if one is. What
    is missing or cut off stands behind the whole records."""
    records = [data[at : at + RECORD] for at in range(0, len(data) - RECORD + 1, RECORD)]
    cut = Place(RECORD * len(records), max(RECORD * len(records), len(data) - 1))
    rows: list[Row] = []
    end = 0
    while end < len(records) and records[end][0] == OPEN:
        first, last = end, end + int.from_bytes(records[end][2:4], "big")
        for at in range(first, last + 1):
            if at == len(records):
                return rows, cut
            wrong = wrong_bytes(records[at], at > first, kinds)
            if wrong:
                return rows, Place(RECORD * at + wrong[0], RECORD * at + wrong[-1])
            rows.append((first, last, entry_in(records[at])))
        end = last + 1
    later = [at for at in range(end, len(records)) if records[at][0] == OPEN]
    if later:
        return rows, Place(RECORD * later[0], RECORD * later[0])
    return rows, cut if not data or len(data) % RECORD else None


def entry_in(record: bytes) -> Entry:
    serial, number = int.from_bytes(record[4:14], "big"), int.from_bytes(record[14:18], "big")
    if record[1] == REVERSAL:
        return Reversal(serial, iksn_of(serial) + number, record[18] - OF_A_STATE, record[19:27])
    return Payment(serial, number, record[18], record[19:27])


def wrong_bytes(record: bytes, is_follower: bool, kinds: Sequence[int]) -> Sequence[int]:
    """Which bytes of an entry's record break a rule first."""
    followers, serial = int.from_bytes(record[2:4], "big"), int.from_bytes(record[4:14], "big")
    counts = (0,) if is_follower else range(MOST_FOLLOWERS + 1)
    reversed_counter = int.from_bytes(record[14:18], "big")
    is_reversal = record[1] == REVERSAL
    rules = (
        ((0,), not (is_follower and record[0] == OPEN)),
        ((1,), record[1] in kinds),
        ((2, 3), followers in counts),
        ((11, 12, 13), usable(counter_of(serial))),
        ((14, 15, 16, 17), not is_reversal
         or usable(reversed_counter) and reversed_counter != counter_of(serial)),
        ((18,), record[18] in (STATES if is_reversal else CODES)),
        *(((at,), record[at] == 0) for at in range(27, RECORD)),
    )
    return next((places for places, holds in rules if not holds), ())


@dataclass(frozen=True)
class Total:
    """What the payments of an initial key serial number come to: how many, how many of these were
    approved, how many of those are undone, and the amount of the others that were approved."""

    payments: int = 0
    approved: int = 0
    undone: int = 0
    amount: int = 0


def totals_of(entries: Group) -> dict[int, Total]:
    """The totals by initial key serial number, in the order of the first entries."""
    reversed_ = {it.reversed for it in entries if isinstance(it, Reversal)}
    return {iksn: total_of([it for it in entries if iksn_of(it.serial) == iksn], reversed_)
            for iksn in dict.fromkeys(iksn_of(it.serial) for it in entries)}


def total_of(entries: Group, reversed_: set[int]) -> Total:
    payments = [it for it in entries if isinstance(it, Payment)]
    approved = [it for it in payments if it.code == 0]
    standing = [it for it in approved if it.serial not in reversed_]
    return Total(len(payments), len(approved), len(approved) - len(standing),
                 sum(it.amount for it in standing))


# What the page shows of them


def rows_of(rows: Sequence[Row]) -> list[list[str]]:
    """The rows that entries have."""
    undone = dict(undone_in([it for _, _, it in rows]))
    return [[str(record), serial_text(it.serial), *decided(it), it.mac.hex().upper(),
             "alone" if first == last else f"records {first} to {last}",
             f"undone by record {undone[record]}" if record in undone else ""]
            for record, (first, last, it) in enumerate(rows)]


def decided(entry: Entry) -> tuple[str, str]:
    """What was asked for, and what came of it."""
    if isinstance(entry, Reversal):
        return f"reversal of {serial_text(entry.reversed)}", STATE_WORDS[entry.state]
    return str(entry.amount), f"{entry.code:02} {CODES[entry.code]}"


def repeats_in(entries: Group) -> Iterator[tuple[int, int]]:
    """Of each entry whose number was used before its record, and the first one that used it. An
    entry uses its own number, and a reversal the one that it reverses."""
    first: dict[int, int] = {}
    for record, it in enumerate(entries):
        if it.serial in first:
            yield record, first[it.serial]
        for number in (it.serial, it.reversed) if isinstance(it, Reversal) else (it.serial,):
            first.setdefault(number, record)


def without_repeats(groups: Sequence[Group]) -> list[list[Entry]]:
    """The groups without the entries whose numbers were used before them, as a host makes them."""
    again = {record for record, _ in repeats_in([it for group in groups for it in group])}
    kept = [[it for record, it in enumerate(group, start) if record not in again]
            for start, group in zip(starts_of(groups), groups)]
    return [group for group in kept if group]


def undone_in(entries: Group) -> Iterator[tuple[int, int]]:
    """Of each approved payment that is reversed its record, and the first one that reverses it."""
    reversals = {it.reversed: record for record, it in reversed(list(enumerate(entries)))
                 if isinstance(it, Reversal)}
    for record, it in enumerate(entries):
        if isinstance(it, Payment) and it.code == 0 and it.serial in reversals:
            yield record, reversals[it.serial]


def sums_of(rows: Sequence[Row]) -> list[list[str]]:
    return [[serial_text(iksn), *map(str, (it.payments, it.approved, it.undone, it.amount))]
            for iksn, it in totals_of([it for _, _, it in rows]).items()]


def rows_in(groups: Sequence[Group]) -> list[Row]:
    """The rows of groups, as they were given and not as they were written."""
    rows: list[Row] = []
    for group in groups:
        first = len(rows)
        rows += [(first, first + len(group) - 1, it) for it in group]
    return rows


# Journals and damage at random


T = TypeVar("T")


class Journals:
    """What draws them."""

    def __init__(self, chance: random.Random) -> None:
        self.chance = chance
        self.left: dict[str, list[int]] = {}

    def in_turn(self, what: str, ways: Sequence[T]) -> T:
        """One of these ways. Each of them comes, in an order at random, before one comes again, so
        that few draws leave none out."""
        left = self.left.setdefault(what, [])
        if not left:
            left += self.chance.sample(range(len(ways)), len(ways))
        return ways[left.pop()]

    def serial(self, iksn: int) -> int:
        counter = 0
        while not usable(counter):
            counter = self.chance.getrandbits(21) & self.chance.getrandbits(21)
        return iksn + counter

    def payment(self, iksn: int) -> Payment:
        amount = self.chance.choice((0, 1, self.chance.randrange(10_000), (1 << 32) - 1,
                                     self.chance.getrandbits(32)))
        code = self.chance.choice((0, *CODES))
        return Payment(self.serial(iksn), amount, code, self.chance.randbytes(8))

    def groups(self, count: int, longest: int = 6, terminals: int = 4) -> list[list[Payment]]:
        """So many groups of payments, of a few terminals; some numbers come again."""
        iksns = [iksn_of(self.chance.getrandbits(80)) for _ in range(terminals)]
        groups: list[list[Payment]] = []
        for _ in range(count):
            size = self.chance.choice((1, 1, self.chance.randint(1, longest)))
            group = [self.payment(self.chance.choice(iksns)) for _ in range(size)]
            if groups and self.chance.random() < 0.2:
                serial = self.chance.choice(self.chance.choice(groups)).serial
                group[-1] = Payment(serial, group[-1].amount, group[-1].code, group[-1].mac)
            groups.append(group)
        return groups

    def reversal(self, numbers: Sequence[int]) -> Reversal:
        """Of one of these numbers, under another one of its terminal."""
        of = self.chance.choice(numbers)
        own = self.serial(iksn_of(of))
        while own == of:
            own = self.serial(iksn_of(of))
        return Reversal(own, of, self.chance.choice((UNDONE, NONE_STANDS)),
                        self.chance.randbytes(8))

    def entry_groups(self, count: int) -> list[list[Entry]]:
        """So many groups, in which reversals stand: of payments before and behind them, of numbers
        that no payment has, and more than one of some."""
        groups: list[list[Entry]] = [list(group) for group in self.groups(count)]
        numbers = [it.serial for group in groups for it in group]
        numbers += [self.serial(iksn_of(it)) for it in numbers[:2]]
        for group in groups:
            while self.chance.random() < 0.4:
                group.insert(self.chance.randrange(len(group) + 1), self.reversal(numbers))
        return groups

    def journal(self, count: int) -> tuple[list[list[Payment]], bytes]:
        """One of payments alone."""
        groups = self.groups(count)
        return groups, journal_of(groups, self.chance.randrange(6), self.chance)

    def entry_journal(self, count: int) -> tuple[list[list[Entry]], bytes]:
        groups = self.entry_groups(count)
        return groups, journal_of(groups, self.chance.randrange(6), self.chance)


# A kind of damage: what it does to a journal of these groups, and where it stands then.
Damage = Callable[[Journals, Sequence[Group], bytes], tuple[bytes, Place]]


def starts_of(groups: Sequence[Group]) -> list[int]:
    """The first record of each group, and the first one behind the groups."""
    starts = [0]
    for group in groups:
        starts.append(starts[-1] + len(group))
    return starts


def put(data: bytes, record: int, at: int, value: bytes) -> tuple[bytes, Place]:
    """A journal with other bytes in a record, and their place."""
    first = RECORD * record + at
    return data[:first] + value + data[first + len(value) :], Place(first, first + len(value) - 1)


def any_entry(journals: Journals, groups: Sequence[Group]) -> int:
    return journals.chance.randrange(starts_of(groups)[-1])


def any_of(kind: type, journals: Journals, groups: Sequence[Group]) -> int:
    entries = [it for group in groups for it in group]
    return journals.chance.choice([at for at, it in enumerate(entries) if isinstance(it, kind)])


def no_reversal(journals: Journals, groups: Sequence[Group], data: bytes) -> tuple[bytes, Place]:
    """A payment has the kind of a reversal: its amount is the counter that is reversed, or its code
    is no state."""
    record = any_of(Payment, journals, groups)
    data, _ = put(data, record, 1, bytes([REVERSAL]))
    wrong = wrong_bytes(data[RECORD * record : RECORD * (record + 1)], record not in starts_of(groups),
                        BOTH_KINDS)
    return data, Place(RECORD * record + wrong[0], RECORD * record + wrong[-1])


def no_payment(journals: Journals, groups: Sequence[Group], data: bytes) -> tuple[bytes, Place]:
    """A reversal has the kind of a payment: its state is no code."""
    record = any_of(Reversal, journals, groups)
    return put(data, record, 1, bytes([PAYMENT]))[0], Place(RECORD * record + 18, RECORD * record + 18)


def unknown_kind(journals: Journals, groups: Sequence[Group], data: bytes) -> tuple[bytes, Place]:
    kind = journals.in_turn("kind", (0, 3, journals.chance.randint(3, 255)))
    return put(data, any_entry(journals, groups), 1, bytes([kind]))


def no_code(journals: Journals, groups: Sequence[Group], data: bytes) -> tuple[bytes, Place]:
    code = journals.chance.choice([it for it in range(256) if it not in CODES])
    return put(data, any_of(Payment, journals, groups), 18, bytes([code]))


def no_state(journals: Journals, groups: Sequence[Group], data: bytes) -> tuple[bytes, Place]:
    state = journals.chance.choice([it for it in range(256) if it not in STATES])
    return put(data, any_of(Reversal, journals, groups), 18, bytes([state]))


def unusable_reversed(journals: Journals, groups: Sequence[Group], data: bytes
                      ) -> tuple[bytes, Place]:
    """No number has the counter that is reversed: it is zero, has many one bits, or is too long."""
    value = journals.in_turn("reversed", (
        0, many_ones(journals, 11), many_ones(journals, 21),
        1 << 21, 1 << 24 | 1, journals.chance.randrange(1 << 21, 1 << 32)))
    return put(data, any_of(Reversal, journals, groups), 14, value.to_bytes(4, "big"))


def many_ones(journals: Journals, ones: int) -> int:
    """A counter with so many one bits."""
    return sum(1 << it for it in journals.chance.sample(range(21), ones))


def own_reversed(journals: Journals, groups: Sequence[Group], data: bytes
                 ) -> tuple[bytes, Place]:
    """A reversal is of its own number."""
    record = any_of(Reversal, journals, groups)
    own = counter_of(int.from_bytes(data[RECORD * record + 4 : RECORD * record + 14], "big"))
    return put(data, record, 14, own.to_bytes(4, "big"))


def unusable_counter(journals: Journals, groups: Sequence[Group], data: bytes
                     ) -> tuple[bytes, Place]:
    counter = many_ones(journals, journals.in_turn("ones", (0, 11, 21)))
    record = any_entry(journals, groups)
    front = data[RECORD * record + 11] & 0xE0
    return put(data, record, 11, (front << 16 | counter).to_bytes(3, "big"))


def no_zeros(journals: Journals, groups: Sequence[Group], data: bytes) -> tuple[bytes, Place]:
    at, value = journals.chance.randrange(27, RECORD), journals.chance.randint(1, 255)
    return put(data, any_entry(journals, groups), at, bytes([value]))


def open_inside(journals: Journals, groups: Sequence[Group], data: bytes) -> tuple[bytes, Place]:
    return put(data, a_follower(journals, groups), 0, bytes([OPEN]))


def open_behind(journals: Journals, groups: Sequence[Group], data: bytes) -> tuple[bytes, Place]:
    """Behind the groups and one closed record at least."""
    end = starts_of(groups)[-1]
    data = data.ljust(RECORD * (end + 2), b"\x00")
    record = journals.chance.randrange(end + 1, len(data) // RECORD)
    return put(data, record, 0, bytes([OPEN]))


def following_follower(journals: Journals, groups: Sequence[Group], data: bytes
                       ) -> tuple[bytes, Place]:
    followers = journals.in_turn("following", (1, 256, journals.chance.randint(1, 0xFFFF)))
    return put(data, a_follower(journals, groups), 2, followers.to_bytes(2, "big"))


def a_follower(journals: Journals, groups: Sequence[Group]) -> int:
    return journals.chance.choice([start + at for start, group in zip(starts_of(groups), groups)
                                   for at in range(1, len(group))])


def too_many(journals: Journals, groups: Sequence[Group], data: bytes) -> tuple[bytes, Place]:
    """More followers than a group may have, with records for all of them behind it."""
    followers = journals.in_turn("followers", (MOST_FOLLOWERS + 1, journals.chance.randint(4096, 9000)))
    record = journals.chance.choice(starts_of(groups)[:-1])
    data = data.ljust(RECORD * (record + followers + 1), b"\x00")
    return put(data, record, 2, followers.to_bytes(2, "big"))


def past_the_end(journals: Journals, groups: Sequence[Group], data: bytes) -> tuple[bytes, Place]:
    """The file ends inside the last group, sometimes inside a record; or more follow there."""
    first, end = starts_of(groups)[-2:]
    if end - first > 1 and journals.chance.random() < 0.5:
        end = journals.chance.randint(first + 1, end - 1)
    else:
        least = end - first
        followers = journals.chance.choice(
            (least, MOST_FOLLOWERS, journals.chance.randint(least, MOST_FOLLOWERS)))
        data = put(data, first, 2, followers.to_bytes(2, "big"))[0]
    size = RECORD * end + journals.chance.choice((0, 0, 1, 2, RECORD - 1))
    return data[:size].ljust(size, b"\x00"), Place(RECORD * end, max(RECORD * end, size - 1))


def used_again(journals: Journals, groups: Sequence[Group], data: bytes) -> tuple[bytes, Place]:
    """The number of an entry, or one that it reverses, stands in a group behind the groups."""
    entries, end = [it for group in groups for it in group], starts_of(groups)[-1]
    used = [it.serial for it in entries]
    used += [it.reversed for it in entries if isinstance(it, Reversal)]
    again = Payment(journals.chance.choice(used), 1, 0, bytes(8)).record(OPEN)
    rest = data[RECORD * (end + 1) :]
    return data[: RECORD * end] + again + rest, Place(RECORD * end + 4, RECORD * end + 13)


def broken_size(journals: Journals, groups: Sequence[Group], data: bytes) -> tuple[bytes, Place]:
    """A piece of a record stands at the end."""
    piece = journals.chance.randint(1, RECORD - 1)
    return data + bytes(piece), Place(len(data), len(data) + piece - 1)


DAMAGES: tuple[Damage, ...] = (
    unknown_kind, no_reversal, no_code, unusable_counter, no_zeros, open_inside, open_behind,
    following_follower, too_many, past_the_end, broken_size)
# Those of a journal that has a reversal.
REVERSAL_DAMAGES: tuple[Damage, ...] = (no_payment, no_state, unusable_reversed, own_reversed)


def scratched(journals: Journals, data: bytes) -> bytes:
    """A journal with a few bytes changed anywhere, most of them where rules speak of them."""
    found = bytearray(data)
    for _ in range(journals.chance.choice((1, 1, 2, 3))):
        record = RECORD * journals.chance.randrange(len(data) // RECORD)
        at = journals.chance.choice((0, 0, 1, 2, 3, 3, 11, 12, 13, 18, 27, 31,
                                     journals.chance.randrange(RECORD)))
        value = journals.chance.choice((0, 1, 1, 2, 14, journals.chance.randrange(256)))
        found[record + at] = value
    return bytes(found)
