"""Requests, replies and refusals: the frames between this project's terminals and hosts."""
from __future__ import annotations

from typing import Callable

from .draw import Draw
from .form import Case, Group
from .numbers import IKSN, drawn_counter, drawn_iksn, ksn
from .pins import PAN_LENGTHS, PIN_LENGTHS, wrong_words
from .proved import Proved

OWN = "this project's own, over ISO 9564-1 format 0 and ANSI X9.19"
# The key of the standard's first sample number, and another payment's.
KEY = bytes.fromhex("042666B49184CFA368DE9628D0397BC9")
KSN = ksn(IKSN + 1)
OTHER_KEY = bytes.fromhex("C46551CEF9FD24B0AA9AD834130D3BC7")
PAN, PIN = "4012345678909", "1234"
CODES = ("00", "14", "30", "51", "55")
MOST = (1 << 32) - 1

# How contents without a MAC become a frame.
Seal = Callable[[bytes], bytes]


class Frames:
    """Writes frames, right ones and wrong ones, over the proved MACs."""

    def __init__(self, proved: Proved) -> None:
        self.library = proved.library

    def request(self, key: bytes = KEY, pan: str = PAN, pin: str = PIN, amount: int = 1) -> bytes:
        """The request of a payment under the sample number."""
        return self.library.payment_request(key, KSN, pan.encode(), pin.encode(), amount)

    def sealed(self, key: bytes, contents: bytes) -> bytes:
        """Contents with their MAC and their length, as in a request or a reversal."""
        return framed(contents + self.library.retail_mac(self.library.request_key(key), contents))

    def request_seal(self, contents: bytes) -> bytes:
        """Contents as those of a request under the sample key."""
        return self.sealed(KEY, contents)

    def answer_seal(self, contents: bytes) -> bytes:
        """Contents as those of an answer under the sample key."""
        return self.answered(KEY, contents)

    def answered(self, key: bytes, contents: bytes) -> bytes:
        """The same, as in an answer."""
        return framed(contents + self.library.retail_mac(self.library.response_key(key), contents))


def framed(contents: bytes) -> bytes:
    """Contents behind their length."""
    return len(contents).to_bytes(2, "big") + contents


def put(frame: bytes, at: int, value: int) -> bytes:
    """A frame with another byte at a place."""
    return frame[:at] + bytes([value]) + frame[at + 1 :]


def groups(proved: Proved, draw: Draw) -> list[Group]:
    """The groups of requests, replies and refusals."""
    make = Frames(proved)
    return [requests_made(draw), requests_refused(draw), requests_read(make, draw),
            *not_requests(make), requests_checked(make, draw), pins_of_requests(make, draw),
            replies_made(draw), replies_read(make, draw), replies_checked(make, draw),
            refusals_made(draw), refusals_read(make, draw), lengths_told()]


def spoiled_fronts(seal: Seal, text: bytes) -> list[tuple[str, bytes]]:
    """Bytes that are no frame of contents that end with a MAC, or with none: they have another
    length, version, kind or end. What, and the bytes; a MAC is right where it can be."""
    frame = seal(text)
    contents = frame[2:]
    found = [("no bytes", b""), ("one byte", b"\x00"), ("a length of zero alone", bytes(2)),
             ("a length alone", frame[:2]), ("no contents behind version and kind", frame[:4])]
    found += [(f"a length that is {told}", (len(contents) + change).to_bytes(2, "big") + contents)
              for told, change in (("one too small", -1), ("one too large", 1),
                                   ("two too large: it counts itself", 2))]
    found += [("the length with its bytes in the other order", frame[1::-1] + contents)]
    found += [(f"version {version}", seal(put(text, 0, version))) for version in (0, 2, 0x10, 255)]
    found += [(f"kind {kind}", seal(put(text, 1, kind))) for kind in (0, 1, 2, 3, 4, 5, 6, 255)
              if kind != text[1]]
    found += [("a byte too few, by a right length", seal(text[:-1])),
              ("a byte too many, by a right length", seal(text + b"\x00")),
              ("eight bytes too few", framed(contents[:-8])),
              ("a byte behind the frame", frame + b"\x00"),
              ("the last byte is missing", frame[:-1]),
              ("two frames", frame + frame), ("the contents alone", contents)]
    return found


# Requests


def requests_made(draw: Draw) -> Group:
    """Requests with PINs, PANs and amounts of many kinds."""
    cases = [payment("the sample of docs/FORMATS.md", PAN, PIN, 1, "Sample")]
    for digits in PIN_LENGTHS:
        for count in PAN_LENGTHS:
            cases.append(payment(f"a PIN of {digits} digits, a PAN of {count}", draw.digits(count),
                                 draw.digits(digits), draw.below(1 << 32)))
    cases += [payment(f"amount {amount}", PAN, PIN, amount)
              for amount in (0, 1, 255, 256, 65535, 65536, (1 << 24) - 1, 1 << 24, 1 << 31, MOST)]
    cases += [Case("at random", {"key": draw.bytes(16), "ksn": number(draw),
                                 "pan": draw.digits(16), "pin": draw.digits(4),
                                 "amount": draw.below(1 << 32)}, ["Random"]) for _ in range(20)]
    return Group("payment_request", "The request of a payment.", OWN, cases,
                 {"key": KEY, "ksn": KSN})


def payment(comment: str, pan: str, pin: str, amount: int, *flags: str) -> Case:
    """The case of a payment."""
    return Case(comment, {"pan": pan, "pin": pin, "amount": amount}, flags)


def number(draw: Draw) -> bytes:
    """A number of some terminal."""
    return ksn(drawn_iksn(draw) + drawn_counter(draw, draw.between(1, 10)))


def requests_refused(draw: Draw) -> Group:
    """PINs and PANs of which no request is made."""
    cases = [Case(f"PIN: {told}", {"pin": word}, ["WrongPin"], fault)
             for told, word, fault in wrong_words("Pin", PIN_LENGTHS, draw)[::2]]
    cases += [Case(f"PAN: {told}", {"pan": word}, ["WrongPan"], fault)
              for told, word, fault in wrong_words("Pan", PAN_LENGTHS, draw)[::2]]
    return Group("payment_request", "PINs and PANs that are refused.", OWN, cases,
                 {"key": KEY, "ksn": KSN, "pan": PAN, "pin": PIN, "amount": 1})


def requests_read(make: Frames, draw: Draw) -> Group:
    """Requests that are read, right or not."""
    cases = [Case(f"a PAN of {count} digits",
                  {"frame": make.request(draw.bytes(16), draw.digits(count), PIN,
                                         draw.below(1 << 32))}) for count in PAN_LENGTHS]
    cases += [Case(f"amount {amount}", {"frame": make.request(amount=amount)})
              for amount in (0, 255, 256, 65536, 1 << 31, MOST)]
    right = make.request()
    cases += [Case(told, {"frame": frame}, ["NotCompared"]) for told, frame in (
        ("a wrong MAC is not seen", put(right, 47, right[47] ^ 1)),
        ("nor a PIN block of zeros", right[:32] + bytes(8) + right[40:]),
        ("nor an unusable counter", right[:4] + bytes(10) + right[14:]))]
    return Group("read_request", "The fields of a request, whatever its MAC.", OWN, cases)


def not_requests(make: Frames) -> list[Group]:
    """What is no request, for each operation that reads one."""
    frames = spoiled_fronts(make.request_seal, make.request()[2:-8])
    for count in (0, 1, 11, 20, 21, 255):
        # The PAN has as many digits as its number says, where that may be.
        contents = (b"\x01\x01" + KSN + bytes([count]) + b"4" * min(count, 60) + bytes(12))
        frames.append((f"a PAN of {count} digits", make.sealed(KEY, contents)))
    right = make.request()
    frames += [("a PAN of one digit more than there is", put(right, 14, 14)),
               ("a PAN of one digit less than there is", put(right, 14, 12))]
    for place in range(13):
        letter = b":/A \x00"[place % 5]
        contents = put(right, 15 + place, letter)[2:-8]
        frames.append((f"{letter:02X} for digit {place} of the PAN", make.sealed(KEY, contents)))
    cases = [Case(told, {"frame": frame}, ["NotAFrame"], "NotARequest") for told, frame in frames]
    about = "Bytes that are no request; where they have a MAC, it is right."
    return [Group("read_request", about, OWN, cases),
            Group("check_request", about, OWN, cases[::3], {"key": KEY}),
            Group("request_pin", about, OWN, cases[1::3], {"key": KEY})]


def requests_checked(make: Frames, draw: Draw) -> Group:
    """A right MAC, and each way in which it is wrong."""
    right = make.request()
    cases = [Case("the sample of docs/FORMATS.md", {"frame": right}, ["Sample"])]
    for count in PAN_LENGTHS:
        key = draw.bytes(16)
        cases.append(Case(f"a PAN of {count} digits",
                          {"key": key, "frame": make.request(key, draw.digits(count))}))
    # Behind the fields that would make it another frame.
    for at in (*range(4, 14), *range(28, len(right))):
        cases.append(Case(f"a bit of byte {at} is turned", {"frame": put(right, at, right[at] ^ 1)},
                          ["BadMac"], "BadMac"))
    cases += [Case(f"another digit at place {place} of the PAN",
                   {"frame": put(right, 15 + place, 0x30 + (right[15 + place] + 3) % 10)},
                   ["BadMac"], "BadMac") for place in range(13)]
    contents = right[2:-8]
    keys = [("the response key", make.library.response_key(KEY)),
            ("the PIN key", make.library.pin_key(KEY)), ("the transaction key", KEY)]
    cases += [Case(f"the MAC is under {told}",
                   {"frame": framed(contents + make.library.retail_mac(key, contents))}, ["BadMac"],
                   "BadMac") for told, key in keys]
    whole = make.library.retail_mac(make.library.request_key(KEY), right[:-8])
    cmac = make.library.cmac(make.library.request_key(KEY), contents)
    cases += [Case(told, {"frame": framed(contents + mac)}, ["BadMac"], "BadMac") for told, mac in (
        ("the MAC is over the length too", whole), ("it is a CMAC", cmac),
        ("it is zeros", bytes(8)))]
    cases += [Case(told, {"key": key, "frame": right}, ["WrongKey"], "BadMac") for told, key in (
        ("the key of another number", OTHER_KEY), ("a key at random", draw.bytes(16)))]
    return Group("check_request", "The MAC is that of the contents before it under the request"
                 " key.", OWN, cases, {"key": KEY})


def pins_of_requests(make: Frames, draw: Draw) -> Group:
    """PINs of each length, and blocks that are no PIN block."""
    cases = []
    for digits in PIN_LENGTHS:
        key, pan = draw.bytes(16), draw.digits(draw.between(12, 19))
        cases.append(Case(f"a PIN of {digits} digits",
                          {"key": key, "frame": make.request(key, pan, draw.digits(digits))}))
    right = make.request()
    cases.append(Case("a wrong MAC is not seen", {"frame": put(right, 47, right[47] ^ 1)},
                      ["NotCompared"]))
    wrong = [("another key", right, OTHER_KEY)]
    for told, block in (("a PIN block of format 1", bytes.fromhex("141234FFFFFFFFFF")),
                        ("a PIN of 3 digits", bytes.fromhex("03123FFFFFFFFFFF")),
                        ("zeros", bytes(8)),
                        ("the PIN field alone", bytes.fromhex("041234FFFFFFFFFF"))):
        hidden = make.library.tdes_encrypt(make.library.pin_key(KEY), block)
        wrong.append((told, make.sealed(KEY, right[2:32] + hidden), KEY))
    other = right[2:14] + b"\x0d" + b"9999999999999" + right[28:40]
    wrong.append(("the block of another PAN", make.sealed(KEY, other), KEY))
    cases += [Case(told, {"key": key, "frame": frame}, ["WrongFormat"], "NotAPinBlock")
              for told, frame, key in wrong]
    return Group("request_pin", "The PIN of a request's block, under the PIN key.", OWN, cases,
                 {"key": KEY})


# Replies and refusals


def replies_made(draw: Draw) -> Group:
    """Each code, and others."""
    cases = [Case(f"code {code}", {"code": code}, ["Sample"] if code == "00" else [])
             for code in CODES]
    cases += [Case("at random", {"key": draw.bytes(16), "ksn": number(draw),
                                 "code": draw.pick(CODES)}, ["Random"]) for _ in range(15)]
    cases += [Case(f"code {code!r}", {"code": code}, ["WrongCode"], "NotACode")
              for code in ("01", "05", "10", "15", "31", "50", "52", "54", "56", "99", "AA", "  ")]
    cases += [Case(f"code {code!r}", {"code": code}, ["WrongLength"], "Length")
              for code in ("", "0", "000")]
    return Group("reply", "The reply to a request that is accepted.", OWN, cases,
                 {"key": KEY, "ksn": KSN})


def replies_read(make: Frames, draw: Draw) -> Group:
    """Replies that are read, and bytes that are none."""
    right = make.library.request_reply(KEY, KSN, b"00")
    cases = [Case(f"code {code}", {"frame": make.library.request_reply(draw.bytes(16), number(draw),
                                                               code.encode())}) for code in CODES]
    cases.append(Case("a wrong MAC is not seen", {"frame": put(right, 23, right[23] ^ 1)},
                      ["NotCompared"]))
    cases += [Case(told, {"frame": frame}, ["NotAFrame"], "NotAReply")
              for told, frame in wrong_replies(make)]
    return Group("read_reply", "The fields of a reply, whatever its MAC.", OWN, cases)


def wrong_replies(make: Frames) -> list[tuple[str, bytes]]:
    """Bytes that are no reply: what, and they."""
    found = spoiled_fronts(make.answer_seal, make.library.request_reply(KEY, KSN, b"00")[2:-8])
    found += [(f"code {code!r}", make.answered(KEY, b"\x01\x02" + KSN + code))
              for code in (b"01", b"05", b"99", b"AA", b"\x00\x00", b" 0")]
    refusal = make.library.request_refusal(KSN, 4)
    return found + [("a refusal", refusal), ("a request", make.request())]


def replies_checked(make: Frames, draw: Draw) -> Group:
    """Replies to this payment, to others, and changed ones."""
    right, cases = make.library.request_reply(KEY, KSN, b"00"), []
    for code in CODES:
        frame = make.library.request_reply(KEY, KSN, code.encode())
        cases.append(Case(f"code {code}", {"frame": frame}, ["Sample"] if code == "00" else []))
    for _ in range(10):
        key, ksn_ = draw.bytes(16), number(draw)
        frame = make.library.request_reply(key, ksn_, draw.pick(CODES).encode())
        cases.append(Case("at random", {"key": key, "ksn": ksn_, "frame": frame}, ["Random"]))
    for at in range(4, 14):
        other = put(right, at, right[at] ^ 1)[2:-8]
        cases.append(Case(f"byte {at}, of the number, is another, under a right MAC",
                          {"frame": make.answered(KEY, other)}, ["NotMine"], "NotMine"))
    for at in range(16, 24):
        cases.append(Case(f"a bit of byte {at} is turned", {"frame": put(right, at, right[at] ^ 1)},
                          ["BadMac"], "BadMac"))
    cases += [Case("another code under the same MAC", {"frame": right[:14] + code + right[16:]},
                   ["BadMac"], "BadMac") for code in (b"51", b"14")]
    cases += [Case(told, {"frame": make.library.request_reply(KEY, ksn(other), b"00")}, ["NotMine"],
                   "NotMine") for told, other in (
        ("a reply to another number of the terminal", IKSN + 2),
        ("one to the same counter of another terminal", IKSN + (1 << 21) + 1))]
    cases += [Case("the MAC is under the request key", {"frame": make.sealed(KEY, right[2:-8])},
                   ["BadMac"], "BadMac"),
              Case("the key of another number", {"key": OTHER_KEY, "frame": right}, ["WrongKey"],
                   "BadMac")]
    cases += [Case(told, {"frame": frame}, ["NotAFrame"], "NotAReply")
              for told, frame in wrong_replies(make)[::2]]
    return Group("check_reply", "A reply is a payment's where it has its number, and the MAC under"
                 " its response key.", OWN, cases, {"key": KEY, "ksn": KSN})


def refusals_made(draw: Draw) -> Group:
    """Each reason, and others."""
    cases = [Case(f"reason {reason}", {"reason": reason}) for reason in range(1, 7)]
    cases += [Case("of no number", {"ksn": bytes(10), "reason": 1}),
              Case("at random", {"ksn": number(draw), "reason": 3}, ["Random"])]
    cases += [Case(f"reason {reason}", {"reason": reason}, ["WrongCode"], "NotAReason")
              for reason in (0, 7, 8, 255, 256, 257, MOST)]
    return Group("refusal", "The refusal of a request, which has no MAC.", OWN, cases, {"ksn": KSN})


def refusals_read(make: Frames, draw: Draw) -> Group:
    """Refusals that are read, and bytes that are none."""
    cases = [Case(f"reason {reason}", {"frame": make.library.request_refusal(number(draw), reason)})
             for reason in range(1, 7)]
    wrong = spoiled_fronts(framed, make.library.request_refusal(KSN, 4)[2:])
    wrong += [(f"reason {reason}", framed(b"\x01\x03" + KSN + bytes([reason])))
              for reason in (0, 7, 0x31, 255)]
    wrong.append(("a reply", make.library.request_reply(KEY, KSN, b"00")))
    cases += [Case(told, {"frame": frame}, ["NotAFrame"], "NotARefusal") for told, frame in wrong]
    return Group("read_refusal", "The fields of a refusal.", OWN, cases)


def lengths_told() -> Group:
    """The first bytes of frames of any length."""
    cases = [Case(f"contents of {size} bytes", {"bytes": size.to_bytes(2, "big") + bytes(more)})
             for size in (0, 1, 13, 22, 30, 46, 52, 61, 62) for more in (0, 3)]
    cases += [Case(f"contents of {size} bytes", {"bytes": size.to_bytes(2, "big")}, ["TooLong"],
                   "TooLong") for size in (63, 64, 255, 256, 0x1600, 0xFFFF)]
    cases += [Case(f"{len(part)} bytes", {"bytes": part}, ["NotAFrame"], "PartOfFrame")
              for part in (b"", b"\x00", b"\xFF")]
    return Group("frame_length", "How many bytes a frame has in all, by its first two.", OWN, cases)
