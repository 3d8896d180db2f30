"""The calls of libdukpt over security modules and over the frames of hosts, by the formats of this
bench."""
from __future__ import annotations

from dataclasses import dataclass, field
from typing import Optional, Sequence

from ..formats import frames
from ..standards import key_blocks
from ..standards.des import decrypt_block
from ..standards.dukpt import counter_of, derive, pin_key, prefix_of, request_key, usable
from ..standards.macs import retail_mac
from ..standards.pin_blocks import PAN_LENGTHS, PIN_LENGTHS, pin_in
from .library_blocks import of_block
from .library_values import (
    BLOCK, ROOM, STATUS, TDES_KEYS, Fault, Value, demand, number, octets, parts, roomy, sized)

IMAGE, ENTRY, ENTRIES, CARD, PREFIX = 4706, 520, 9, 37, 5
BDK, ZONE = 0, 1
PAYMENT, REVERSAL = 1, 2
KEPT, KNOWN_AGAIN, USED, FULL = 1, 2, 3, 4
CODES = (b"00", b"14", b"30", b"51", b"55")


@dataclass
class Held:
    """The keys of a module."""

    lmk: bytes
    zone: Optional[bytes] = None
    bdks: dict[bytes, bytes] = field(default_factory=dict)

    def load(self, kind: int, prefix: bytes, block: bytes) -> None:
        """Loads the key of a key block, or is refused with its first fault."""
        header, key = of_block(key_blocks.unwrap, self.lmk, block)
        usage, modes = (b"B0", b"XN") if kind == BDK else (b"P0", b"EBN")
        demand(header[:3] == usage + b"T" and header[3] in modes, "WrongUse")
        if kind == ZONE:
            demand(self.zone is None, "ZoneTaken")
            self.zone = key
            return
        demand(len(key) == 16, "WrongUse")
        demand(prefix not in self.bdks, "PrefixTaken")
        demand(len(self.bdks) < ENTRIES - 1, "SlotsFull")
        self.bdks[prefix] = key


def image_of(lmk: bytes, entries: Sequence[tuple[int, bytes, bytes]] = ()) -> bytes:
    """The image of a module with these entries: kind, prefix and key block of each."""
    made = b"".join(entry_of(*it).ljust(ENTRY, b"\0") for it in entries)
    head = bytes([len(entries), len(lmk)]) + lmk.ljust(24, b"\0")
    return made.ljust(ENTRY * ENTRIES, b"\0") + head


def entry_of(kind: int, prefix: bytes, block: bytes) -> bytes:
    return len(block).to_bytes(2, "big") + bytes([kind]) + prefix + block


def entries_in(image: bytes) -> list[tuple[int, bytes, bytes]]:
    """The entries that are used: kind, prefix and key block of each."""
    return [(it[2], it[3:8], it[8 : 8 + number(it[:2])])
            for it in parts(image[: ENTRY * image[ENTRY * ENTRIES]], ENTRY)]


def held_in(image: bytes) -> Held:
    """The keys of an image. It is refused where it is none."""
    count, size = image[ENTRY * ENTRIES], image[ENTRY * ENTRIES + 1]
    held = Held(image[ENTRY * ENTRIES + 2 :][:size])
    demand(len(held.lmk) in TDES_KEYS and count <= ENTRIES, "NotAModule")
    for kind, prefix, block in entries_in(image):
        demand(kind in (BDK, ZONE), "NotAModule")
        try:
            held.load(kind, prefix, block)
        except Fault as why:
            raise Fault("NotAModule") from why
    return held


def write_module(lmk: bytes, image: bytes) -> Sequence[Value]:
    demand(len(lmk) in TDES_KEYS)
    roomy((image, IMAGE))
    return [image_of(lmk)]


def loaded(image: bytes, kind: int, prefix: bytes, block: bytes) -> bytes:
    """An image with an entry more."""
    held_in(image).load(kind, prefix, block)
    made, count = bytearray(image), image[ENTRY * ENTRIES]
    entry = entry_of(kind, prefix, block)
    made[ENTRY * count : ENTRY * count + len(entry)] = entry
    made[ENTRY * ENTRIES] = count + 1
    return bytes(made)


def write_bdk_loaded(prefix: bytes, block: bytes, image: bytes) -> Sequence[Value]:
    sized((image, IMAGE), (prefix, PREFIX))
    return [loaded(image, BDK, prefix, block)]


def write_zone_loaded(block: bytes, image: bytes) -> Sequence[Value]:
    sized((image, IMAGE))
    return [loaded(image, ZONE, bytes(PREFIX), block)]


@dataclass(frozen=True)
class Card:
    pan: str
    pin: str
    limit: int


def cards_in(data: bytes) -> list[Card]:
    """The cards of their bytes."""
    found = []
    for place in parts(data, CARD):
        pan, pin = place[1 : 1 + place[0]], place[21 : 21 + place[20]]
        for text, lengths in ((pan, PAN_LENGTHS), (pin, PIN_LENGTHS)):
            demand(len(text) in lengths and all(it in b"0123456789" for it in text), "NotACard")
        found.append(Card(pan.decode(), pin.decode(), number(place[33:])))
    return found


def card_bytes(card: Card) -> bytes:
    pan, pin = card.pan.encode(), card.pin.encode()
    return (bytes([len(pan)]) + pan.ljust(19, b"\0") + bytes([len(pin)]) + pin.ljust(12, b"\0")
            + card.limit.to_bytes(4, "big"))


def code_of(key: bytes, request: frames.Request, cards: Sequence[Card]) -> bytes:
    """The code of an authentic request under its transaction key."""
    block = number(decrypt_block(pin_key(key), request.block.to_bytes(BLOCK, "big")))
    pin = pin_in(block, request.pan)
    if pin is None:
        return b"30"
    card = next((it for it in cards if it.pan == request.pan), None)
    if card is None:
        return b"14"
    if card.pin != pin:
        return b"55"
    return b"51" if request.amount > card.limit else b"00"


def key_in(held: Held, serial: int) -> bytes:
    """The transaction key of a number, or the reason against it."""
    base = held.bdks.get(prefix_of(serial))
    if base is None:
        raise Fault("NoKeySet")
    demand(usable(counter_of(serial)), "NotUsable")
    return derive(base, serial)


def judged(held: Held, cards: Sequence[Card], place: bytes) -> bytes:
    """What the frame at the begin of a place is."""
    frame = place[: 2 + number(place[:2])]
    reversal, request = frames.read_reversal(frame), frames.read_request(frame)
    asked = reversal or request
    if asked is None:
        return frames.write_refusal(0, 1)
    try:
        key = key_in(held, asked.serial)
    except Fault as why:
        return frames.write_refusal(asked.serial, 2 if str(why) == "NoKeySet" else 3)
    if retail_mac(request_key(key), asked.text) != asked.mac:
        return frames.write_refusal(asked.serial, 4)
    if reversal is not None:
        numbers = octets(reversal.serial) + octets(reversal.other)
        return bytes([REVERSAL, 0]) + numbers + reversal.mac
    assert request is not None
    return (bytes([PAYMENT, 0]) + octets(request.serial) + request.amount.to_bytes(4, "big")
            + code_of(key, request, cards) + request.mac)


def write_judged(image: bytes, cards: bytes, places: bytes, judgements: bytes) -> Sequence[Value]:
    sized((image, IMAGE))
    demand(len(cards) % CARD == 0 and len(places) % ROOM == 0)
    roomy((judgements, len(places)))
    held = held_in(image)
    demand(held.zone is not None, "NoZone")
    known = cards_in(cards)
    return [b"".join(judged(held, known, it).ljust(ROOM, b"\0") for it in parts(places, ROOM))]


def answered(held: Held, said: bytes) -> bytes:
    """The answer to what a place says."""
    serial, other, became = number(said[2:12]), number(said[12:22]), said[1]
    is_payment = said[0] == PAYMENT
    demand(said[0] in (PAYMENT, REVERSAL), "NotSettled")
    demand(became in (KEPT, KNOWN_AGAIN, USED, FULL), "NotSettled")
    if is_payment:
        demand(became in (USED, FULL) or said[16:18] in CODES, "NotSettled")
    else:
        demand(frames.reverses(serial, other), "NotSettled")
        demand(became in (USED, FULL) or said[30] in (0, 1), "NotSettled")
    key = key_in(held, serial)
    if became in (USED, FULL):
        return frames.write_refusal(serial, 5 if became == USED else 6)
    if is_payment:
        return frames.write_reply(key, serial, said[16:18].decode())
    return frames.write_reversal_reply(key, serial, other, said[30])


def answer_place(held: Held, said: bytes) -> bytes:
    try:
        return answered(held, said).ljust(ROOM, b"\0")
    except Fault as why:
        return bytes([STATUS[str(why)]]).ljust(ROOM, b"\0")


def write_answers(image: bytes, settled: bytes, answers: bytes) -> Sequence[Value]:
    sized((image, IMAGE))
    demand(len(settled) % ROOM == 0)
    roomy((answers, len(settled)))
    held = held_in(image)
    return [b"".join(answer_place(held, it) for it in parts(settled, ROOM))]
