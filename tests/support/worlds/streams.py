"""Random streams of frames to a host, and logs that a service may find."""
from __future__ import annotations

import random
from typing import Callable

from ..formats.configuration import Configuration
from ..formats.frames import (
    LONGEST_BODY, framed, request_of_block, write_refusal, write_reply, write_request)
from ..formats.images import RECORD, log_disk, record_of
from ..models.model_host import KEPT
from ..standards.dukpt import SPENT, derive, next_counter, prefix_of
from ..standards.pin_blocks import pin_in
from .worlds import Purchase, foreign_iksn, random_iksn, random_purchase

LAST = 0x1FF800
UNUSABLE = (0, 0x7FF, 0xFFF, 0x1FFC00, 0x1FFFFF)


class Frames:
    """Frames for a host, and those that came before, from which some come again."""

    def __init__(self, chance: random.Random, bank: Configuration) -> None:
        self.chance = chance
        self.bank = bank
        self.keys = {it.prefix: it.key for it in bank.bdks}
        self.earlier: list[bytes] = []
        # A terminal whose numbers come one after the other, and the last of them.
        self.serial = random_iksn(chance, bank)

    def key(self, serial: int) -> bytes:
        """The transaction key of a number, or one under another key set where it has none."""
        return derive(self.keys.get(prefix_of(serial), self.bank.bdks[0].key), serial)

    def purchase(self) -> Purchase:
        return random_purchase(self.chance, self.bank)

    def request(self, serial: int) -> bytes:
        it = self.purchase()
        return write_request(self.key(serial), serial, it.pan, it.pin, it.amount)

    def next_number(self) -> int:
        self.serial += next_counter(self.serial % SPENT) - self.serial % SPENT
        return self.serial

    def any_number(self) -> int:
        counter = self.chance.choice((1, LAST, next_counter(self.chance.randrange(LAST))))
        return random_iksn(self.chance, self.bank) + counter

    def right(self) -> bytes:
        chance = self.chance.random()
        return self.request(self.next_number() if chance < 0.8 else self.any_number())

    def again(self) -> bytes:
        """A frame that came before: one of the last, any, or about the last that is kept."""
        if not self.earlier:
            return self.right()
        back = self.chance.choice((1, self.chance.randint(1, 5),
                                   self.chance.randint(1, len(self.earlier)),
                                   self.chance.randint(KEPT - 5, KEPT + 25)))
        return self.earlier[-min(back, len(self.earlier))]

    def other_purchase(self) -> bytes:
        """A request of the number that came last, with a right MAC of its own."""
        return self.request(self.serial) if self.serial % SPENT else self.right()

    def unreadable(self) -> bytes:
        """A request with a right MAC whose PIN block is that of no PIN."""
        serial, it = self.next_number(), self.purchase()
        block = self.chance.choice((0, self.chance.randrange(1 << 64)))
        while pin_in(block, it.pan) is not None:
            block = self.chance.randrange(1 << 64)
        return request_of_block(self.key(serial), serial, it.pan, it.amount, block)

    def foreign(self) -> bytes:
        counter = self.chance.choice((1, LAST, *UNUSABLE))
        return self.request(foreign_iksn(self.chance, self.bank) + counter)

    def uncounted(self) -> bytes:
        return self.request(random_iksn(self.chance, self.bank) + self.chance.choice(UNUSABLE))

    def changed(self) -> bytes:
        """A request with a bit turned behind its length."""
        frame = bytearray(self.chance.choice((self.right, self.again))())
        if len(frame) > 2:
            frame[self.chance.randrange(2, len(frame))] ^= 1 << self.chance.randrange(8)
        return bytes(frame)

    def misshapen(self) -> bytes:
        """A request that is cut, drawn out, of another version or kind, or of another PAN."""
        body = self.request(self.serial + 1)[2:]
        return framed(self.chance.choice((
            body[: self.chance.randrange(len(body))],
            (body + self.chance.randbytes(8))[: self.chance.randint(len(body) + 1, LONGEST_BODY)],
            bytes([self.chance.choice((0, 2, 255))]) + body[1:],
            body[:1] + bytes([self.chance.choice((0, 2, 3, 4))]) + body[2:],
            body[:12] + bytes([self.chance.choice((0, 11, 12, 13, 19, 20))]) + body[13:],
            body[:13] + self.chance.choice((b"/", b":", b"a", b"\x00")) + body[14:],
        )))

    def noise(self) -> bytes:
        """A frame of bytes at random, or one that is for a terminal."""
        serial = self.serial + 1
        return self.chance.choice((
            framed(self.chance.randbytes(self.chance.randint(0, LONGEST_BODY))),
            framed(b""), framed(b"\x01"), framed(bytes(LONGEST_BODY)),
            write_reply(self.key(serial), serial, "00"),
            write_refusal(serial, 5),
        ))

    def draw(self) -> bytes:
        kinds: tuple[Callable[[], bytes], ...] = (
            self.again, self.again, self.again, self.other_purchase, self.unreadable,
            self.unreadable, self.foreign, self.uncounted, self.changed, self.misshapen, self.noise)
        is_right = self.chance.random() < 0.4
        frame = self.right() if is_right else self.chance.choice(kinds)()
        self.earlier.append(frame)
        return frame

    def stream(self) -> bytes:
        """A stream at random. Some have more requests than a host keeps the replies of."""
        frames: list[bytes] = []
        if self.chance.random() < 0.2:
            for _ in range(KEPT + self.chance.randint(0, 3)):
                self.earlier.append(self.request(self.next_number()))
                frames.append(self.earlier[-1])
            frames += self.chance.sample(frames[:5], 4)
        frames += [self.draw() for _ in range(self.chance.randint(0, 30))]
        return b"".join(frames) + self.end()

    def end(self) -> bytes:
        """What stands behind the last frame: mostly nothing, or a part of one, or no frame."""
        part = self.right()
        return self.chance.choice((
            b"", b"", b"", part[: self.chance.randrange(1, len(part))], part[:1], b"\xff",
            self.chance.choice((b"\x00\x3f", b"\x01\x00", b"\xff\xff")) + part))


def random_log(chance: random.Random, bank: Configuration) -> bytes:
    """A log that a service may find: new, with numbers, with what a stop leaves behind them, or
    damaged."""
    serials = {random_iksn(chance, bank) + next_counter(chance.randrange(LAST))
               for _ in range(chance.choice((0, 0, 1, 5)))}
    room = chance.choice((0, 3, 20, 100, 200))
    log = log_disk(sorted(serials), room or (0 if serials else 1))
    if chance.random() < 0.3:
        log = with_a_part(chance, log, len(serials))
    return damaged(chance, bank, log) if chance.random() < 0.3 else log


def with_a_part(chance: random.Random, log: bytes, kept: int) -> bytes:
    """A log with what a stop leaves behind its numbers: a record in part, which is never the only one."""
    part = bytes([chance.choice((0, 2, 0xFF))]) + chance.randbytes(RECORD - 1)
    rest = log[RECORD * (kept + 1) :]
    return log[: RECORD * kept] + part + (rest if kept or rest else bytes(RECORD))


def damaged(chance: random.Random, bank: Configuration, log: bytes) -> bytes:
    """A log that no service leaves: a byte behind a number, a number twice or one that is not
    usable, an open record behind a closed one, or a wrong size."""
    iksn = random_iksn(chance, bank)
    record = record_of(iksn + 1)
    return chance.choice((
        record[:-1] + b"\x01" + log,
        record + record_of(iksn + 2) + record,
        record_of(iksn + chance.choice(UNUSABLE)) + log,
        log + bytes(RECORD) + record,
        log[:-1],
        log + b"\x00",
        b"",
    ))
