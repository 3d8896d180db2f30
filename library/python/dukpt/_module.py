"""A host's security module, and the two steps of a host that keeps its book elsewhere."""
from __future__ import annotations

import ctypes
import os
from contextlib import contextmanager
from enum import IntEnum
from threading import Condition
from types import TracebackType
from typing import Iterable, Iterator, NamedTuple, NoReturn, Optional, Union

from ._library import (
    Buffer, Data, as_bytes, as_number, call, fault_of, room, wipe_host_stack)
from ._requests import place_of
from ._reversals import NONE_STANDS, Reversal
from ._values import shown
from .faults import NotACard

# The bytes of an image, of a card, and of a place for a frame or what is judged or settled of one.
IMAGE, CARD, PLACE = 4706, 37, 64
# The kinds of what is judged, in the first byte: that of a frame is zero.
PAYMENT, REVERSAL = 1, 2


class Card(NamedTuple):
    """A card as its issuer knows it: PAN (12 to 19 ASCII digits), PIN (4 to 12) and the greatest
    amount of a payment, in the smallest unit of the currency. Its `repr` has neither of the first
    two."""

    pan: bytes
    pin: bytes
    limit: int

    def __repr__(self) -> str:
        return shown(self, "pan", "pin")


class Refused(NamedTuple):
    """A frame that is refused, whatever the book keeps, with the whole frame of its answer."""

    frame: bytes

    def __repr__(self) -> str:
        return shown(self)


class Payment(NamedTuple):
    """An authentic request: key serial number (10 bytes), amount in the smallest unit of the
    currency, the code that the issuer gives it (two ASCII digits), and MAC (8), by which the same
    request is known again."""

    ksn: bytes
    amount: int
    code: bytes
    mac: bytes

    def __repr__(self) -> str:
        return shown(self, text="code")


class Settlement(IntEnum):
    """What becomes of an authentic frame by what a book keeps."""

    KEPT = 1
    KNOWN_AGAIN = 2
    USED = 3
    FULL = 4


class Settled(NamedTuple):
    """An authentic frame with what became of it. The code of a payment that is known again is the
    one that was kept; the state is that of a reversal which is kept or known again."""

    candidate: Union[Payment, Reversal]
    settlement: Settlement
    state: int = NONE_STANDS


Judged = Union[Refused, Payment, Reversal]


class Module:
    """A host's security module: a local master key (16 or 24 bytes), at most eight base derivation
    keys and a zone key, each from a key block under the local master key, and the cards of an
    issuer.

    `judge` tells what frames are, whatever the book keeps. The book settles those that are
    authentic, and `answer` makes their answers. Neither keeps anything, so that threads may share a
    module. A process that was forked may not: there each call raises a `RuntimeError`, as after
    `close`, which writes zeros over the keys. A `with` closes the module at its end.

    >>> from dukpt import check_reply, derive, payment_request, wrap
    >>> lmk, bdk, ksn = bytes(range(24)), bytes(16), bytes.fromhex("FFFF9876543210E00001")
    >>> request = payment_request(derive(bdk, ksn), ksn, b"4012345678909", b"1234", 500)
    >>> with Module(lmk, [Card(b"4012345678909", b"1234", 500)]) as module:
    ...     module.load_bdk(bytes.fromhex("FFFF987654"), wrap(lmk, b"B0TX00N", bdk, bytes(6)))
    ...     module.load_zone(wrap(lmk, b"P0TB00N", bytes(16), bytes(6)))
    ...     payment, refused = module.judge([request, b""])
    ...     answers = module.answer([Settled(payment, Settlement.KEPT)])
    >>> payment.code, refused
    (b'00', Refused(frame=000D01030000000000000000000001))
    >>> check_reply(derive(bdk, ksn), ksn, answers[0])
    """

    __slots__ = ("_cards", "_changed", "_image", "_process", "_users")

    _image: Optional[Buffer]
    _cards: Optional[Buffer]

    def __init__(self, lmk: Data, cards: Iterable[Card] = ()) -> None:
        """Raises `Length`, then `NotACard`."""
        self._image, self._cards, self._users = None, None, 0
        self._changed, self._process = Condition(), os.getpid()
        image = room(IMAGE)
        call("dukpt_module_new", lmk=lmk, image=image)
        # From here on it is overwritten, also where a card is refused.
        self._image = image
        self._cards = packed(cards)

    def load_bdk(self, prefix: Data, block: Data) -> None:
        """Loads the base derivation key of a key block, for the key serial numbers that begin with
        these five bytes. The block has usage B0, algorithm T, mode X or N, and a key of 16 bytes.

        Raises `Length`, then a fault of the block, as `unwrap` does, then `WrongUse`,
        `PrefixTaken`, `SlotsFull`.
        """
        with self._alone() as image:
            call("dukpt_module_load_bdk", prefix=prefix, block=block, image=image)

    def load_zone(self, block: Data) -> None:
        """Loads the zone key of a key block, under which PIN blocks come to the issuer. The block
        has usage P0, algorithm T, and mode E, B or N.

        Raises a fault of the block, as `unwrap` does, then `WrongUse`, `ZoneTaken`.
        """
        with self._alone() as image:
            call("dukpt_module_load_zone", block=block, image=image)

    def judge(self, frames: Iterable[Data]) -> list[Judged]:
        """What frames are, in their order: refused, or a payment or a reversal for the book. The
        issuer is asked about each payment, whether or not the book keeps it.

        Raises `NoZone`.
        """
        places = b"".join(place_of(as_bytes(f"frames[{at}]", it)) for at, it in enumerate(frames))
        return list(map(judged_of, parted(self.judge_places(places))))

    def judge_places(self, frames: Data) -> bytes:
        """What `judge` tells, in the form of `dukpt_host_judge`: of frames at the begin of 64 bytes
        each, 64 bytes for each. It takes less time than `judge`, which makes an object for each.

        Raises `Length`, then `NoZone`.
        """
        places = as_bytes("frames", frames)
        judged = room(len(places))
        with self._held() as (image, cards):
            try:
                call("dukpt_host_judge", image=image, cards=cards, frames=places, judged=judged)
            finally:
                wipe_host_stack()
        return judged.raw

    def answer(self, settled: Iterable[Settled]) -> list[bytes]:
        """The frames of the answers to what the book settled, in their order.

        Raises `NotSettled`, `NoKeySet` or `NotUsable` of the first that is none of what this module
        judged.
        """
        places = b"".join(map(settled_place, settled))
        return list(map(answer_of, parted(self.answer_places(places))))

    def answer_places(self, settled: Data) -> bytes:
        """What `answer` makes, in the form of `dukpt_host_answer`: of 64 bytes for each that was
        settled, 64 bytes for each answer, which begin with the number of a fault where there is
        none.

        Raises `Length`.
        """
        places = as_bytes("settled", settled)
        answers = room(len(places))
        with self._held() as (image, _):
            try:
                call("dukpt_host_answer", image=image, settled=places, answers=answers)
            finally:
                wipe_host_stack()
        return answers.raw

    def close(self) -> None:
        """Waits for calls that are under way, and writes zeros over the keys and the cards. After
        it each call raises a `RuntimeError`."""
        if os.getpid() != self._process:
            # The calls that were under way are the other process's, and perhaps its lock is held.
            self._wipe()
            return
        with self._changed:
            self._changed.wait_for(lambda: self._users == 0)
            self._wipe()

    def __enter__(self) -> Module:
        return self

    def __exit__(self, kind: Optional[type[BaseException]], raised: Optional[BaseException],
                 trace: Optional[TracebackType]) -> None:
        self.close()

    def __del__(self) -> None:
        # Nothing uses it any more. Where a fork copied it, its lock may be held for ever.
        if hasattr(self, "_process"):
            self._wipe()

    def _wipe(self) -> None:
        for held in (self._image, self._cards):
            if held is not None:
                ctypes.memset(held, 0, len(held))
        self._image, self._cards = None, None

    @contextmanager
    def _held(self) -> Iterator[tuple[Buffer, Buffer]]:
        """The image and the cards, which nothing changes meanwhile."""
        self._demand_own_process()
        with self._changed:
            image, cards = self._image, self._cards
            if image is None or cards is None:
                raise RuntimeError("the module is closed")
            self._users += 1
        try:
            yield image, cards
        finally:
            with self._changed:
                self._users -= 1
                self._changed.notify_all()

    @contextmanager
    def _alone(self) -> Iterator[Buffer]:
        """The image, which nothing reads meanwhile."""
        self._demand_own_process()
        with self._changed:
            self._changed.wait_for(lambda: self._users == 0)
            if self._image is None:
                raise RuntimeError("the module is closed")
            yield self._image

    def _demand_own_process(self) -> None:
        """A fork copies the keys, and perhaps in the midst of a change."""
        if os.getpid() != self._process:
            raise RuntimeError(
                "the module is of another process, and a fork copied it: make one in each process")

    def __reduce__(self) -> NoReturn:
        raise TypeError("a module is not copied: it has keys")

    def __repr__(self) -> str:
        return f"<dukpt.Module{', closed' if self._image is None else ''}>"


def packed(cards: Iterable[Card]) -> Buffer:
    """Cards as the library reads them. A fault says the place of a card, and nothing of it."""
    places = list(map(card_place, cards))
    held = room(CARD * len(places))
    for at, place in enumerate(places):
        if place is None:
            raise NotACard(f"cards[{at}]")
        ctypes.memmove(ctypes.byref(held, CARD * at), place, CARD)
    return held


def card_place(card: Card) -> Optional[bytes]:
    """A card in its bytes, and nothing where it is none."""
    pan, pin = as_bytes("pan", card.pan), as_bytes("pin", card.pin)
    if not (12 <= len(pan) <= 19 and 4 <= len(pin) <= 12 and (pan + pin).isdigit()):
        return None
    limit = as_number("limit", card.limit).to_bytes(4, "big")
    return (bytes([len(pan)]) + pan.ljust(19, b"\0") + bytes([len(pin)]) + pin.ljust(12, b"\0")
            + limit)


def parted(places: bytes) -> list[bytes]:
    return [places[at : at + PLACE] for at in range(0, len(places), PLACE)]


def judged_of(place: bytes) -> Judged:
    """What the library says that a frame is."""
    if place[0] == PAYMENT:
        return Payment(place[2:12], int.from_bytes(place[12:16], "big"), place[16:18], place[18:26])
    if place[0] == REVERSAL:
        return Reversal(place[2:12], place[12:22], place[22:30])
    return Refused(frame_in(place))


def settled_place(settled: Settled) -> bytes:
    """What was settled, as the library reads it. What does not fit is nothing that was settled."""
    candidate = settled.candidate
    if not isinstance(candidate, (Payment, Reversal)):
        raise TypeError(
            f"candidate is to be a Payment or a Reversal, and not {type(candidate).__name__}")
    if isinstance(candidate, Payment):
        fields = [candidate.ksn, as_number("amount", candidate.amount).to_bytes(4, "big"),
                  candidate.code, candidate.mac]
        kind, widths, state = PAYMENT, [10, 4, 2, 8], b""
    else:
        fields = [candidate.ksn, candidate.reversed, candidate.mac]
        kind, widths = REVERSAL, [10, 10, 8]
        state = bytes([min(as_number("state", settled.state), 0xFF)])
    held = [as_bytes("candidate", it) for it in fields]
    if [len(it) for it in held] != widths:
        return bytes(PLACE)
    return (bytes([kind, settled.settlement]) + b"".join(held) + state).ljust(PLACE, b"\0")


def answer_of(place: bytes) -> bytes:
    """The frame of an answer. It raises the fault that stands in its place."""
    if place[0]:
        raise fault_of(place[0])
    return frame_in(place)


def frame_in(place: bytes) -> bytes:
    """The frame at the begin of a place."""
    return place[: 2 + int.from_bytes(place[:2], "big")]
