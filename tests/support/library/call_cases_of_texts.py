"""The cases of `call_cases` for ciphers, MACs, PIN blocks, requests and their answers."""
from __future__ import annotations

from typing import Callable, Iterator, Sequence

from ..formats.frames import CODES, REASONS, bytes_of, write_refusal
from ..standards import many
from ..standards.dukpt import counter_of, iksn_of, usable
from ..standards.pin_blocks import pin_block, pin_in
from .call_cases import FRAME_ROOM, Argument, Chance, Drawn, drawn
from .library_calls import STATUS

Ciphers = Callable[[many.Lines, many.Lines], list[bytes]]
Chains = Callable[[many.Lines, many.Lines, many.Lines], list[bytes]]


# Ciphers and MACs


def block_drawn(name: str, cipher: Ciphers) -> None:
    @drawn(name, "bo")
    def draw(chance: Chance, count: int) -> Iterator[Drawn]:
        keys, blocks = chance.tdes_keys(count), chance.bytes(count, 8)
        for key, block, made in zip(keys, blocks, cipher(keys, blocks)):
            yield [key, block], 0, [made]


def chain_drawn(name: str, chain: Chains) -> None:
    @drawn(name, "bbo")
    def draw(chance: Chance, count: int) -> Iterator[Drawn]:
        keys, befores = chance.tdes_keys(count), chance.bytes(count, 8)
        texts = chance.bytes(count, *range(0, 48, 8))
        for key, before, text, made in zip(keys, befores, texts, chain(keys, befores, texts)):
            yield [key, before, text], 0, [made]


block_drawn("tdes_encrypt", many.encrypted)
block_drawn("tdes_decrypt", many.decrypted)
chain_drawn("cbc_encrypt", many.chained)
chain_drawn("cbc_decrypt", many.unchained)


def mac_drawn(name: str, made: Ciphers, sizes: Sequence[int], lengths: range) -> None:
    @drawn(name, "bbo")
    def draw(chance: Chance, count: int) -> Iterator[Drawn]:
        keys, messages = chance.bytes(count, *sizes), chance.bytes(count, *lengths)
        olds = chance.bytes(count, 8)
        for key, message, old, mac in zip(keys, messages, olds, made(keys, messages)):
            yield [key, message, old], 0, [mac]


mac_drawn("cmac", many.cmacs, (16, 24), range(40))
mac_drawn("retail_mac", many.retail_macs, (16,), range(1, 40))


# PIN blocks


@drawn("pin_block", "bbo")
def of_pin(chance: Chance, count: int) -> Iterator[Drawn]:
    for pin, pan, old in zip(chance.pins(count), chance.pans(count), chance.bytes(count, 8)):
        yield [pin.encode(), pan.encode(), old], 0, [pin_block(pin, pan).to_bytes(8, "big")]


@drawn("pin_of_block", "bboc")
def pin_of(chance: Chance, count: int) -> Iterator[Drawn]:
    """One in four is the block of another PAN, of a PIN that is too short, or is any."""
    olds = zip(chance.bytes(count, 12), chance.numbers(count))
    pins, pans, others = chance.pins(count), chance.pans(count), chance.pans(count)
    for pin, pan, other, old in zip(pins, pans, others, olds):
        way = chance.chance.randrange(12)
        shown = pin[:3] if way == 0 else pin
        block = pin_block(shown, other if way == 1 else pan)
        block = chance.chance.getrandbits(64) if way == 2 else block
        found = pin_in(block, pan)
        status = STATUS["NotAPinBlock"] if found is None else 0
        written = (found or "").encode()
        yield [block.to_bytes(8, "big"), pan.encode(), *old], status, [written, len(written)]


# Frames


def requests(chance: Chance, count: int) -> Iterator[list[Argument]]:
    """Key, number, PAN, PIN, amount, and the request of them."""
    keys, serials = chance.keys(count), chance.serials(count)
    pans, pins, amounts = chance.pans(count), chance.pins(count), chance.numbers(count)
    made = many.requests(keys, serials, pans, pins, amounts)
    for key, serial, pan, pin, *rest in zip(keys, serials, pans, pins, amounts, made):
        yield [key, bytes_of(serial), pan.encode(), pin.encode(), *rest]


@drawn("payment_request", "bbbbnoc")
def payment_request(chance: Chance, count: int) -> Iterator[Drawn]:
    olds = zip(chance.bytes(count, FRAME_ROOM), chance.numbers(count))
    for (*given, frame), old in zip(requests(chance, count), olds):
        yield [*given, *old], 0, [frame, len(frame)]


@drawn("read_request", "booccoo")
def of_request(chance: Chance, count: int) -> Iterator[Drawn]:
    olds = zip(chance.bytes(count, 10), chance.bytes(count, 19), chance.numbers(count),
               chance.numbers(count), chance.bytes(count, 8), chance.bytes(count, 8))
    for (_, serial, pan, _, amount, frame), old in zip(requests(chance, count), olds):
        yield [frame, *old], 0, [serial, pan, len(pan), amount, frame[-16:-8], frame[-8:]]


@drawn("check_request", "bb")
def check_request(chance: Chance, count: int) -> Iterator[Drawn]:
    for key, *_, frame in requests(chance, count):
        yield [key, frame], 0, []


@drawn("check_requests", "bbo")
def check_requests(chance: Chance, count: int) -> Iterator[Drawn]:
    """One in eight numbers is any; one frame in twelve is no request's, and one has another MAC."""
    sizes, bases = chance.group_sizes(count), chance.keys(count)
    each = [base for base, size in zip(bases, sizes) for _ in range(size)]
    pairs = zip(chance.usables(len(each)), chance.serials(len(each)))
    serials = [one if chance.chance.random() < 0.875 else other for one, other in pairs]
    keys = many.transaction_keys(many.initial_keys(each, list(map(iksn_of, serials))), serials)
    frames = many.requests(keys, serials, chance.pans(len(each)), chance.pins(len(each)),
                           chance.numbers(len(each)))
    told = iter([told_of(chance, serial, frame) for serial, frame in zip(serials, frames)])
    for base, size in zip(bases, sizes):
        these = [next(told) for _ in range(size)]
        places = b"".join(place for place, _ in these)
        old = chance.chance.randbytes(size)
        yield [base, places, old], 0, [bytes(result for _, result in these)]


def told_of(chance: Chance, serial: int, frame: bytes) -> tuple[bytes, int]:
    """The 64 bytes of a frame, which is perhaps another one, and what is told of it."""
    way = chance.chance.randrange(12)
    result = 0 if usable(counter_of(serial)) else STATUS["NotUsable"]
    if way == 0:
        frame, result = frame[:3] + b"\2" + frame[4:], STATUS["NotARequest"]
    if way == 1:
        frame, result = frame[:-1] + bytes([frame[-1] ^ 1]), result or STATUS["BadMac"]
    return frame + chance.chance.randbytes(FRAME_ROOM - len(frame)), result


@drawn("request_pin", "bboc")
def request_pin(chance: Chance, count: int) -> Iterator[Drawn]:
    olds = zip(chance.bytes(count, 12), chance.numbers(count))
    for (key, _, _, pin, _, frame), old in zip(requests(chance, count), olds):
        yield [key, frame, *old], 0, [pin, len(pin)]


@drawn("request_reply", "bbboc")
def request_reply(chance: Chance, count: int) -> Iterator[Drawn]:
    keys, serials = chance.keys(count), chance.serials(count)
    codes = [chance.chance.choice((*CODES, *CODES, "05")) for _ in range(count)]
    made = many.replies(keys, serials, codes)
    olds = zip(chance.bytes(count, FRAME_ROOM), chance.numbers(count))
    for key, serial, code, old, frame in zip(keys, serials, codes, olds, made):
        status = 0 if code in CODES else STATUS["NotACode"]
        yield [key, bytes_of(serial), code.encode(), *old], status, [frame, len(frame)]


@drawn("request_refusal", "bnoc")
def request_refusal(chance: Chance, count: int) -> Iterator[Drawn]:
    olds = zip(chance.bytes(count, FRAME_ROOM), chance.numbers(count))
    for serial, old in zip(chance.serials(count), olds):
        reason = chance.chance.randrange(8)
        if reason in REASONS:
            frame = write_refusal(serial, reason)
            yield [bytes_of(serial), reason, *old], 0, [frame, len(frame)]
        else:
            yield [bytes_of(serial), reason, *old], STATUS["NotAReason"], []


def replies(chance: Chance, count: int) -> Iterator[tuple[bytes, int, str, bytes]]:
    """Key, number, code, and the reply of them."""
    keys, serials = chance.keys(count), chance.serials(count)
    codes = [chance.chance.choice(CODES) for _ in range(count)]
    return zip(keys, serials, codes, many.replies(keys, serials, codes))


@drawn("read_reply", "boo")
def of_reply(chance: Chance, count: int) -> Iterator[Drawn]:
    olds = zip(chance.bytes(count, 10), chance.bytes(count, 2))
    for (_, serial, code, frame), old in zip(replies(chance, count), olds):
        yield [frame, *old], 0, [bytes_of(serial), code.encode()]


@drawn("read_refusal", "boc")
def of_refusal(chance: Chance, count: int) -> Iterator[Drawn]:
    olds = zip(chance.bytes(count, 10), chance.numbers(count))
    for serial, old in zip(chance.serials(count), olds):
        reason = chance.chance.choice(REASONS)
        yield [write_refusal(serial, reason), *old], 0, [bytes_of(serial), reason]


@drawn("check_reply", "bbb")
def check_reply(chance: Chance, count: int) -> Iterator[Drawn]:
    for key, serial, _, frame in replies(chance, count):
        mine = chance.chance.random() < 0.9
        asked = serial if mine else serial ^ 1 << chance.chance.randrange(80)
        yield [key, bytes_of(asked), frame], 0 if mine else STATUS["NotMine"], []
