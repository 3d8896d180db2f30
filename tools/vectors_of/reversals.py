"""Reversals and their replies: the frames with which a terminal undoes a payment."""
from __future__ import annotations

from .draw import Draw
from .form import Case, Group
from .frames import OWN, Frames, number, put, spoiled_fronts
from .numbers import BDK, IKSN, LAST, drawn_counter, drawn_iksn, ksn
from .proved import Proved


def groups(proved: Proved, draw: Draw) -> list[Group]:
    """The groups of reversals."""
    make = Frames(proved)
    return [reversals_made(draw), reversals_read(make, draw), reversal_replies_read(make, draw),
            reversal_replies_checked(make, draw)]


def pair(draw: Draw) -> tuple[bytes, bytes]:
    """Two numbers of one terminal."""
    iksn = drawn_iksn(draw)
    one, other = (drawn_counter(draw, depth) for depth in (draw.between(1, 5), draw.between(6, 10)))
    return ksn(iksn + one), ksn(iksn + other)


def wrong_pairs(draw: Draw) -> list[tuple[str, bytes, bytes, str]]:
    """Two numbers of which the first reverses the second in vain: what, they, and the fault."""
    own = ksn(IKSN + 2)
    found = [("its own number", own, own, "SameNumber"),
             ("a counter of zero", own, ksn(IKSN), "NotUsable"),
             ("a counter of eleven one bits", own, ksn(IKSN + 0x7FF), "NotUsable"),
             ("all counter bits", own, ksn(IKSN + 0x1FFFFF), "NotUsable"),
             ("the same counter of another terminal", own, ksn(IKSN + 0x200000 + 2), "OtherIksn"),
             ("a number of another terminal", own, ksn(IKSN + 0x200000 + 1), "OtherIksn"),
             ("another first byte", own, b"\xFE" + ksn(IKSN + 1)[1:], "OtherIksn")]
    return found + [("a terminal at random", own, number(draw), "OtherIksn")]


def reversals_made(draw: Draw) -> Group:
    """Reversals of numbers of the same terminal, and of others."""
    cases = [Case(f"counter {other:06X}, under {counter:06X}",
                  {"ksn": ksn(IKSN + counter), "reversed": ksn(IKSN + other)})
             for counter, other in ((2, 1), (1, 2), (3, 1), (LAST, LAST - 0x400), (LAST, 1),
                                    (1, LAST))]
    for _ in range(15):
        own, other = pair(draw)
        cases.append(Case("at random", {"bdk": draw.bytes(16), "ksn": own, "reversed": other},
                          ["Random"]))
    cases += [Case(told, {"ksn": own, "reversed": other}, ["WrongReversed"], fault)
              for told, own, other, fault in wrong_pairs(draw)]
    return Group("reversal", "A reversal has a number of its own, and that of a payment of the same"
                 " terminal.", OWN, cases, {"bdk": BDK})


def reversal_of(make: Frames, bdk: bytes, own: bytes, other: bytes) -> bytes:
    """A reversal, with a right MAC whatever its numbers."""
    return make.sealed(make.library.derive(bdk, own), b"\x01\x04" + own + other)


def reversals_read(make: Frames, draw: Draw) -> Group:
    """Reversals that are read, and bytes that are none."""
    cases = []
    for _ in range(6):
        own, other = pair(draw)
        cases.append(Case("at random", {"frame": reversal_of(make, draw.bytes(16), own, other)},
                          ["Random"]))
    key = make.library.derive(BDK, ksn(IKSN + 2))
    right = reversal_of(make, BDK, ksn(IKSN + 2), ksn(IKSN + 1))
    cases.append(Case("a wrong MAC is not seen", {"frame": put(right, 31, right[31] ^ 1)},
                      ["NotCompared"]))
    wrong = spoiled_fronts(lambda text: make.sealed(key, text), right[2:-8])
    wrong += [(told, reversal_of(make, BDK, own, other))
              for told, own, other, _ in wrong_pairs(draw)]
    cases += [Case(told, {"frame": frame}, ["NotAFrame"], "NotAReversal") for told, frame in wrong]
    return Group("read_reversal", "The fields of a reversal, whatever its MAC.", OWN, cases)


def reversal_reply(make: Frames, bdk: bytes, own: bytes, other: bytes, state: int) -> bytes:
    """A reversal's reply, with a right MAC whatever its numbers and state."""
    return make.answered(make.library.derive(bdk, own), b"\x01\x05" + own + other + bytes([state]))


def wrong_reversal_replies(make: Frames, draw: Draw) -> list[tuple[str, bytes]]:
    """Bytes that are no reversal's reply: what, and they."""
    own, other = ksn(IKSN + 2), ksn(IKSN + 1)
    key = make.library.derive(BDK, own)
    found = spoiled_fronts(lambda text: make.answered(key, text),
                           reversal_reply(make, BDK, own, other, 1)[2:-8])
    found += [(f"state {state}", reversal_reply(make, BDK, own, other, state))
              for state in (2, 3, 0x30, 0x31, 128, 129, 255)]
    return found + [(told, reversal_reply(make, BDK, one, two, 1))
                    for told, one, two, _ in wrong_pairs(draw)]


def reversal_replies_read(make: Frames, draw: Draw) -> Group:
    """Such replies that are read, and bytes that are none."""
    cases = []
    for state in (0, 1, 0, 1, 0, 1):
        own, other = pair(draw)
        cases.append(Case(f"state {state}",
                          {"frame": reversal_reply(make, draw.bytes(16), own, other, state)}))
    right = reversal_reply(make, BDK, ksn(IKSN + 2), ksn(IKSN + 1), 1)
    cases.append(Case("a wrong MAC is not seen", {"frame": put(right, 32, right[32] ^ 1)},
                      ["NotCompared"]))
    cases += [Case(told, {"frame": frame}, ["NotAFrame"], "NotAReversalReply")
              for told, frame in wrong_reversal_replies(make, draw)]
    return Group("read_reversal_reply", "The fields of the reply to a reversal, whatever its MAC.",
                 OWN, cases)


def reversal_replies_checked(make: Frames, draw: Draw) -> Group:
    """Replies to this reversal, to others, and changed ones."""
    own, other = ksn(IKSN + 2), ksn(IKSN + 1)
    key, right = make.library.derive(BDK, own), reversal_reply(make, BDK, own, other, 1)
    cases = [Case(f"state {state}", {"frame": reversal_reply(make, BDK, own, other, state)})
             for state in (0, 1)]
    for _ in range(6):
        bdk, (one, two) = draw.bytes(16), pair(draw)
        frame = reversal_reply(make, bdk, one, two, draw.below(2))
        cases.append(Case("at random", {"bdk": bdk, "ksn": one, "reversed": two, "frame": frame},
                          ["Random"]))
    cases += [Case(f"a bit of byte {at} is turned", {"frame": put(right, at, right[at] ^ 1)},
                   ["BadMac"], "BadMac") for at in range(24, 33)]
    for told, one, two in (("to a reversal under another number", ksn(IKSN + 3), other),
                           ("to the reversal of another number", own, ksn(IKSN + 3)),
                           ("both numbers change places", other, own)):
        frame = make.answered(key, b"\x01\x05" + one + two + b"\x01")
        cases.append(Case(told, {"frame": frame}, ["NotMine"], "NotMine"))
    cases += [Case("the MAC is under the request key", {"frame": make.sealed(key, right[2:-8])},
                   ["BadMac"], "BadMac"),
              Case("under another base derivation key",
                   {"frame": reversal_reply(make, draw.bytes(16), own, other, 1)}, ["WrongKey"],
                   "BadMac"),
              Case("the reply to a payment", {"frame": make.library.request_reply(key, own, b"00")},
                   ["NotMine"], "NotMine")]
    cases += [Case(told, {"frame": frame}, ["NotAFrame"], "NotAReversalReply")
              for told, frame in wrong_reversal_replies(make, draw)[::2] if frame[3:4] != b"\x02"]
    return Group("check_reversal_reply", "It is a reversal's reply where it has both numbers, and"
                 " the MAC under the response key.", OWN, cases,
                 {"bdk": BDK, "ksn": own, "reversed": other})
