"""The terminals' side of payments: requests, and the answers that a host owes them.

It is written from the public standards and docs/FORMATS.md alone: DES (NIST SP 800-67), the retail
MAC (ANSI X9.19), PIN blocks of format 0 (ISO 9564-1) and the keys of DUKPT (ANSI X9.24-1:2009
annex A), under the sample keys of that standard and for the card of tests/data/commands/bank.toml.

All payments go through DES at once. A value that each of them has is a list of columns, one for
each of its bits, the most significant first: column i is an integer that holds bit i of every
payment's value. `every` has a one for each payment.
"""
from __future__ import annotations

from collections import deque
from dataclasses import dataclass
from functools import lru_cache
from typing import Iterable, Optional, Sequence

from ..standards.des import BOX, FIRST, KEY_BITS, LAST, MIXED, ROUND_BITS, SPREAD, TURNS

Columns = list[int]


def columns(values: Sequence[bytes]) -> Columns:
    """The columns of values of equal length, one of each payment."""
    width = 8 * len(values[0])
    text = bin(int.from_bytes(b"\x01" + b"".join(values), "big"))[3:]
    return [int(text[at::width], 2) for at in range(width)]


def values(bits: Columns, count: int) -> list[bytes]:
    """The values of so many payments of which these are the columns."""
    rows = [bin(1 << count | column)[3:] for column in bits]
    text, size = "".join(map("".join, zip(*rows))), len(bits) // 8
    data = int(text, 2).to_bytes(size * count, "big")
    return [data[at : at + size] for at in range(0, len(data), size)]


def picked(bits: Columns, places: Sequence[int]) -> Columns:
    """The bits at these places, counted from 1 at the left."""
    return [bits[place - 1] for place in places]


def xor(one: Columns, other: Columns) -> Columns:
    return [a ^ b for a, b in zip(one, other)]


def masked(bits: Columns, mask: str, every: int) -> Columns:
    """The bits, each turned where the mask, in hexadecimal, has a one."""
    ones = bin(1 << len(bits) | int(mask, 16))[3:]
    return [bit ^ every if one == "1" else bit for bit, one in zip(bits, ones)]


# DES and the retail MAC


def substituted(box: int, six: Columns, every: int) -> Columns:
    """The four bits that a box has for six."""
    entries = BOX[64 * box : 64 * box + 64]
    # For each value of the six bits, the payments that have it.
    holders = [every]
    for bit in six:
        holders = [part for held in holders for part in (held & ~bit, held & bit)]
    four = [0, 0, 0, 0]
    for value, held in enumerate(holders):
        row, column = value >> 4 & 2 | value & 1, value >> 1 & 15
        entry = entries[16 * row + column]
        for at in range(4):
            if entry >> 3 - at & 1:
                four[at] |= held
    return four


def round_keys(key: Columns) -> list[Columns]:
    halves = picked(key, KEY_BITS)
    left, right, rounds = halves[:28], halves[28:], []
    for count in TURNS:
        left, right = left[count:] + left[:count], right[count:] + right[:count]
        rounds.append(picked(left + right, ROUND_BITS))
    return rounds


def des(rounds: list[Columns], block: Columns, every: int) -> Columns:
    """A block of each payment behind sixteen rounds: those of a key, or the same backwards."""
    state = picked(block, FIRST)
    left, right = state[:32], state[32:]
    for key in rounds:
        wide, mixed = xor(picked(right, SPREAD), key), []
        for box in range(8):
            mixed += substituted(box, wide[6 * box : 6 * box + 6], every)
        left, right = right, xor(left, picked(mixed, MIXED))
    return picked(right + left, LAST)


def triple_des(key: Columns, block: Columns, every: int) -> Columns:
    left, right = round_keys(key[:64]), round_keys(key[64:])
    return des(left, des(right[::-1], des(left, block, every), every), every)


def retail_mac(key: Columns, text: Columns, every: int) -> Columns:
    left, right = round_keys(key[:64]), round_keys(key[64:])
    text = text + [0] * (-len(text) % 64)
    block = [0] * 64
    for at in range(0, len(text), 64):
        block = des(left, xor(block, text[at : at + 64]), every)
    return des(left, des(right[::-1], block, every), every)


# Keys

BDK = bytes.fromhex("0123456789ABCDEFFEDCBA9876543210")
IKSN = 0xFFFF9876543210E00000
MASK = "C0C0C0C000000000" * 2
PIN_VARIANT = "00000000000000FF" * 2
REQUEST_VARIANT = "000000000000FF00" * 2
RESPONSE_VARIANT = "00000000FF000000" * 2


def number_of(counter: int) -> bytes:
    """The key serial number of a counter."""
    return (IKSN + counter).to_bytes(10, "big")


def usable(counter: int) -> bool:
    return 1 <= bin(counter).count("1") <= 10


def initial_key() -> bytes:
    key, first = columns([BDK]), columns([number_of(0)[:8]])
    halves = triple_des(key, first, 1) + triple_des(masked(key, MASK, 1), first, 1)
    return values(halves, 1)[0]


def half_step(key: Columns, block: Columns, every: int) -> Columns:
    right = key[64:]
    return xor(des(round_keys(key[:64]), xor(block, right), every), right)


def keys_of(counters: Sequence[int]) -> dict[int, bytes]:
    """The keys of counters, of those that they come from, and of 0: from level to level."""
    wanted = set(counters)
    for counter in counters:
        while counter:
            wanted.add(counter)
            counter &= counter - 1
    keys = {0: initial_key()}
    for level in range(1, 11):
        here = [counter for counter in wanted if bin(counter).count("1") == level]
        if not here:
            continue
        every = (1 << len(here)) - 1
        # The parent of a number lacks its last one bit.
        parents = columns([keys[counter & counter - 1] for counter in here])
        block = columns([number_of(counter)[2:] for counter in here])
        made = half_step(masked(parents, MASK, every), block, every)
        made += half_step(parents, block, every)
        keys.update(zip(here, values(made, len(here))))
    return keys


def key_lines(counters: Sequence[int]) -> list[str]:
    """Of each counter the three lines of keys that `dukpt derive` prints."""
    made, lines = keys_of(counters), []
    for counter in counters:
        pin_key = values(masked(columns([made[counter]]), PIN_VARIANT, 1), 1)[0]
        for name, key in (("initial", made[0]), ("key", made[counter]), ("pin", pin_key)):
            lines.append(f"{name} {key.hex().upper()}")
    return lines


# Frames


@dataclass(frozen=True)
class Exchange:
    """The bytes of a frame, and what a host answers to them: a request of a number that it accepts
    once, with the reply to it, or bytes with no number here that it refuses whenever they come."""

    frame: bytes
    answer: bytes
    number: Optional[bytes] = None


@dataclass(frozen=True)
class Purchase:
    pan: str
    # None stands for a PIN block of eight zero bytes, which is no PIN's.
    pin: Optional[str]
    amount: int
    # What the reply says to it.
    code: str


# The card of tests/data/commands/bank.toml has this PAN and PIN, and the limit 10,000.
PAN, PIN = "4012345678909", "1234"
# They come in turn.
PURCHASES = (
    Purchase(PAN, PIN, 1, "00"),
    Purchase(PAN, PIN, 10000, "00"),
    Purchase(PAN, PIN, 10001, "51"),
    Purchase(PAN, "4321", 1, "55"),
    Purchase("5012345678909", PIN, 1, "14"),
    Purchase(PAN, None, 1, "30"),
)
# How many of the requests that it accepted a host answers again, the last ones of its run.
KEPT = 64
# How many payments are made at least, and kept for whoever asks for so many.
AT_ONCE = 2000


def framed(body: bytes) -> bytes:
    return len(body).to_bytes(2, "big") + body


def pin_block(pin: str, pan: str) -> bytes:
    of_pin = f"0{len(pin):X}{pin}".ljust(16, "F")
    of_account = "0000" + pan[:-1][-12:].rjust(12, "0")
    return (int(of_pin, 16) ^ int(of_account, 16)).to_bytes(8, "big")


def clear_request(number: bytes, it: Purchase) -> tuple[bytes, bytes]:
    """A request's body up to its PIN block, and that block in clear."""
    body = b"\x01\x01" + number + bytes([len(it.pan)]) + it.pan.encode()
    block = bytes(8) if it.pin is None else pin_block(it.pin, it.pan)
    return body + it.amount.to_bytes(4, "big"), block


def requests(keys: Columns, clear: Iterable[tuple[bytes, bytes]], every: int) -> list[bytes]:
    """Requests of clear PIN blocks, under the transaction keys; all PANs have one length."""
    bodies, blocks = zip(*clear)
    enciphered = triple_des(masked(keys, PIN_VARIANT, every), columns(blocks), every)
    text = columns(bodies) + enciphered
    mac = retail_mac(masked(keys, REQUEST_VARIANT, every), text, every)
    return [framed(body) for body in values(text + mac, len(bodies))]


def replies(keys: Columns, bodies: Sequence[bytes], every: int) -> list[bytes]:
    text = columns(bodies)
    mac = retail_mac(masked(keys, RESPONSE_VARIANT, every), text, every)
    return [framed(body) for body in values(text + mac, len(bodies))]


def refusal(number: bytes, reason: int) -> bytes:
    return framed(b"\x01\x03" + number + bytes([reason]))


def payments_of(counters: Sequence[int], purchases: Sequence[Purchase]) -> list[Exchange]:
    """The payment of each purchase under the counter beside it."""
    made, every = keys_of(counters), (1 << len(counters)) - 1
    keys, numbers = columns([made[it] for it in counters]), [number_of(it) for it in counters]
    asked = [clear_request(number, it) for number, it in zip(numbers, purchases)]
    bodies = [b"\x01\x02" + number + it.code.encode() for number, it in zip(numbers, purchases)]
    frames, answers = requests(keys, asked, every), replies(keys, bodies, every)
    return [Exchange(*it) for it in zip(frames, answers, numbers)]


def first_counters(count: int) -> list[int]:
    """The first so many usable counters."""
    counters: list[int] = []
    counter = 0
    while len(counters) < count:
        counter += 1
        if usable(counter):
            counters.append(counter)
    return counters


@lru_cache(2)
def made_payments(count: int) -> tuple[Exchange, ...]:
    counters = first_counters(count)
    return tuple(payments_of(counters, [PURCHASES[it % len(PURCHASES)] for it in counters]))


def payments(count: int) -> tuple[Exchange, ...]:
    """The payments of the first so many usable counters, with the purchases in turn."""
    # Many at once take little more time than a few.
    return made_payments(max(count, AT_ONCE))[:count]


@lru_cache(1)
def refused_requests() -> tuple[Exchange, ...]:
    """Frames that are refused with each of the reasons 1 to 4."""
    good = payments_of([1], PURCHASES[1:2])[0]
    assert good.number is not None
    body = good.frame[2:]
    malformed = [b"", b"\x01", body[:-1], body + b"\x00", bytes(62), b"\x02" + body[1:],
                 good.answer[2:], body[:12] + b"\x0b" + body[13:]]
    # A key set that nobody has, and counters of eleven one bits and of none.
    renumbered = [(b"\x00" + good.number[1:], 2), (number_of(0x7FF), 3), (number_of(0), 3)]
    wrong_mac = good.frame[:-1] + bytes([good.frame[-1] ^ 1])
    wrong_amount = good.frame[:31] + bytes([good.frame[31] ^ 1]) + good.frame[32:]
    return (
        *(Exchange(framed(it), refusal(bytes(10), 1)) for it in malformed),
        *(Exchange(good.frame[:4] + number + good.frame[14:], refusal(number, reason))
          for number, reason in renumbered),
        *(Exchange(it, refusal(good.number, 4)) for it in (wrong_mac, wrong_amount)),
    )


# The host's side


def answered(
    given: Iterable[Exchange], used: Iterable[bytes], room: int
) -> tuple[list[bytes], list[bytes]]:
    """The answer to each request in turn in one run of a service whose log has room for so many
    numbers and keeps the used ones, and the numbers that it keeps in the end."""
    listed, answers = list(used), []
    known = set(listed)
    recent: deque[bytes] = deque(maxlen=KEPT)
    for it in given:
        if it.number is None or it.frame in recent:
            answers.append(it.answer)
        elif it.number in known:
            answers.append(refusal(it.number, 5))
        elif len(listed) == room:
            answers.append(refusal(it.number, 6))
        else:
            listed.append(it.number)
            known.add(it.number)
            recent.append(it.frame)
            answers.append(it.answer)
    return answers, listed


def split(stream: bytes) -> tuple[list[bytes], bytes]:
    """The whole frames at the front of a stream, and the bytes behind them."""
    frames, at = [], 0
    while at + 2 <= len(stream):
        end = at + 2 + int.from_bytes(stream[at : at + 2], "big")
        if end > len(stream):
            break
        frames.append(stream[at:end])
        at = end
    return frames, stream[at:]
