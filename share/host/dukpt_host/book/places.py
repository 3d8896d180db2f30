"""What the library makes of frames, and of what is settled: 64 bytes for each, which its header
`dukpt.h` describes under `dukpt_host_judge` and `dukpt_host_answer`. They stay in this form here,
since an object for each of them would take a third of the time of a payment."""
from __future__ import annotations

from struct import Struct
from typing import Any, Final, Iterable, Optional, Sequence

PLACE: Final = 64
# The kinds of what is judged, by its first byte: a refusal begins with the length of its frame.
REFUSED, PAYMENT, REVERSAL = 0, 1, 2
# What becomes of it, in its second byte. What is kept is known again from then on, with the same
# answer.
KNOWN_AGAIN, USED = 2, 3
# Number, amount, code and MAC of a payment; number, reversed number and MAC of a reversal.
OF_PAYMENT, OF_REVERSAL = Struct(">xx10sI2s8s"), Struct(">xx10s10s8s")
STATE = 30


class NotAnswered(Exception):
    """That the library has no answer to what was settled."""


def places_of(frames: Iterable[bytes]) -> bytes:
    """Frames, each at the begin of its place."""
    return b"".join([it.ljust(PLACE, b"\0") for it in frames])


def parted(places: bytes) -> list[bytes]:
    return [places[at : at + PLACE] for at in range(0, len(places), PLACE)]


def frame_in(place: bytes) -> bytes:
    """The frame at the begin of a place."""
    if place[0]:
        raise NotAnswered(f"the library answers what was settled by fault {place[0]}")
    return place[: 2 + place[1]]


def row_of(judged: bytes) -> Sequence[Any]:
    """The arguments of the function of the book that stand for a payment or a reversal."""
    if judged[0] == PAYMENT:
        number, amount, code, mac = OF_PAYMENT.unpack_from(judged)
        return PAYMENT, number, mac, amount, int(code), None
    number, reverses, mac = OF_REVERSAL.unpack_from(judged)
    return REVERSAL, number, mac, None, None, reverses


def settled(judged: bytes, said: Optional[int]) -> bytes:
    """What that function says of one: a code, a state, or nothing where its number is used."""
    kind = judged[:1]
    if said is None:
        return kind + bytes([USED]) + judged[2:]
    if kind[0] == PAYMENT:
        return b"%b%c%b%02d%b" % (kind, KNOWN_AGAIN, judged[2:16], said, judged[18:])
    return b"%b%c%b%c%b" % (kind, KNOWN_AGAIN, judged[2:STATE], said, judged[STATE + 1:])
