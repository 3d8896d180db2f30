"""The retail MAC, and CMAC over triple DES."""
from __future__ import annotations

from typing import Sequence

from .draw import Draw
from .form import Case, Group
from .keys import parity_keys, special_keys, wrong_key_flags
from .numbers import plural
from .proved import Proved

RETAIL, CMAC = "ANSI X9.19", "NIST SP 800-38B"
# The variant of the standard's first sample key that makes the MACs of requests.
REQUEST_KEY = bytes.fromhex("042666B4918430A368DE9628D03984C9")
SAMPLE = bytes.fromhex("0123456789ABCDEFFEDCBA9876543210")
NOW = b"Now is the time for all "
# The keys and the message of the examples of NIST SP 800-38B.
TWO_KEYS = bytes.fromhex("4CF15134A2850DD58A3D10BA80570D38")
THREE_KEYS = bytes.fromhex("8AA83BF8CBDA10620BC1BF19FBB6CD58BC313D4A371CA8B5")
EXAMPLE = bytes.fromhex("6BC1BEE22E409F96E93D7E117393172AAE2D8A571E03AC9C9EB76FAC45AF8E51")
LONGEST = (65, 127, 128, 129, 255, 256, 257, 1000)


def sized(draw: Draw, sizes: Sequence[int]) -> list[Case]:
    """A message of each length."""
    return [Case(plural(size, "byte"), {"message": draw.bytes(size)}, [flag_of(size)])
            for size in sizes]


def flag_of(size: int) -> str:
    """What is told of a message of so many bytes."""
    if size == 0:
        return "Empty"
    return "LastBlockInPart" if size % 8 else "WholeBlocks"


def endings(draw: Draw) -> list[Case]:
    """Messages that paddings tell apart: zeros fill to whole blocks, 80 and zeros too."""
    cases = []
    for size in (1, 5, 7, 8, 13, 16):
        text = draw.bytes(size - 1) + b"\x5A"
        for tail, told in ((b"", "no zero"), (b"\x00", "a zero byte"), (bytes(2), "two zero bytes"),
                           (bytes(8), "eight zero bytes"), (b"\x80", "a byte 80"),
                           (b"\x80\x00", "80 and a zero byte"),
                           (b"\x80" + bytes(7), "80 and zeros")):
            flags = ["TrailingZeros"] if tail else []
            cases.append(Case(f"{told} behind {size} of other bytes", {"message": text + tail},
                              flags))
    cases += [Case(f"{size} zero bytes", {"message": bytes(size)}, ["TrailingZeros"])
              for size in (1, 7, 8, 9, 16, 17)]
    cases += [Case(told, {"message": message}, ["TrailingZeros"]) for told, message in (
        ("a padding of its own", b"\x80" + bytes(7)), ("80 alone", b"\x80"),
        ("a length in front, as other paddings have it", bytes(7) + b"\x40" + draw.bytes(8)))]
    return cases


def of_keys(draw: Draw) -> list[Case]:
    """The keys that show something."""
    cases = [Case(told, {"key": key}, [flag]) for told, key, flag in special_keys(draw)]
    return cases + [Case(told, {"key": key}, ["Parity"]) for told, key in parity_keys(draw)]


def at_random(draw: Draw, sizes: tuple[int, ...]) -> list[Case]:
    """Keys of these lengths, with messages at random."""
    return [Case(f"at random, a key of {size} bytes",
                 {"key": draw.bytes(size), "message": draw.bytes(draw.between(1, 100))}, ["Random"])
            for size in sizes for _ in range(30)]


# The retail MAC


def retail_groups(draw: Draw) -> list[Group]:
    """All groups of `retail_mac.json`."""
    return [
        Group("retail_mac", "The standard's examples, and requests under a key of DUKPT.", RETAIL,
              retail_samples()),
        Group("retail_mac", "Each length to 64 bytes, and longer ones. Zero bytes fill the last"
              " block.", RETAIL, sized(draw, range(1, 65)) + sized(draw, LONGEST),
              {"key": REQUEST_KEY}),
        Group("retail_mac", "Messages that tell paddings apart: with zeros to whole blocks, a"
              " message and the same with zeros behind have one MAC.", RETAIL, endings(draw),
              {"key": SAMPLE}),
        Group("retail_mac", "Keys that show a wrong cipher or half. Equal halves make it the MAC of"
              " single DES.", RETAIL, of_keys(draw), {"message": draw.bytes(21)}),
        Group("retail_mac", "At random.", RETAIL, at_random(draw, (16,))),
        Group("retail_mac", "An empty message has no MAC here.", "this project's own",
              [Case("no bytes", {"key": SAMPLE, "message": b""}, ["Empty", "OwnRule"], "Length")]),
        Group("retail_mac", "Keys of other lengths: this MAC has a left and a right key.", RETAIL,
              [Case(f"a key of {size} bytes", {"key": (SAMPLE + SAMPLE)[:size]},
                    wrong_key_flags(size), "Length") for size in (0, 7, 8, 15, 17, 24, 32)],
              {"message": NOW})]


def retail_samples() -> list[Case]:
    """The standard's examples, and a request of this project."""
    request = bytes.fromhex("0101FFFF9876543210E000010D34303132333435363738393039"
                            "000000011B9C1845EB993A7A")
    return [Case("Now is the time for all ", {"key": SAMPLE, "message": NOW}, ["Sample"]),
            Case("Now is the time for it", {"key": SAMPLE, "message": NOW[:20] + b"it"},
                 ["Sample"]),
            Case("the contents of a request", {"key": REQUEST_KEY, "message": request}, ["Sample"])]


# CMAC


def cmac_groups(proved: Proved, draw: Draw) -> list[Group]:
    """All groups of `cmac.json`."""
    samples = [Case(f"{size} bytes, a key of {len(key)}", {"key": key, "message": EXAMPLE[:size]},
                    ["Sample", *(["Empty"] if size == 0 else [])])
               for key in (TWO_KEYS, THREE_KEYS) for size in (0, 8, 20, 32)]
    return [
        Group("cmac", "The standard's keys and message.", CMAC, samples),
        Group("cmac", "Each length to 64 bytes, and longer ones, under two keys.", CMAC,
              sized(draw, range(65)) + sized(draw, LONGEST), {"key": TWO_KEYS}),
        Group("cmac", "The same under three keys.", CMAC,
              sized(draw, range(65)) + sized(draw, LONGEST), {"key": THREE_KEYS}),
        Group("cmac", "Messages that end as the padding does: all have other MACs.", CMAC,
              endings(draw), {"key": TWO_KEYS}),
        Group("cmac", "The subkeys are doubled twice: keys for each first bit before a doubling.",
              CMAC, doublings(proved, draw)),
        Group("cmac", "Keys that show a wrong cipher or parity.", CMAC, of_keys(draw),
              {"message": draw.bytes(21)}),
        Group("cmac", "At random.", CMAC, at_random(draw, (16, 24))),
        Group("cmac", "Keys of other lengths.", CMAC,
              [Case(f"a key of {size} bytes", {"key": (THREE_KEYS + SAMPLE)[:size]},
                    wrong_key_flags(size), "Length") for size in (0, 7, 8, 15, 17, 23, 25, 32)],
              {"message": NOW})]


def doublings(proved: Proved, draw: Draw) -> list[Case]:
    """Keys of which the first two bits of an enciphered block of zeros are each of four: these
    say whether a doubling comes back with 1B."""
    cases: list[Case] = []
    for bits in range(4):
        for size in (16, 16, 24, 24):
            key = draw.bytes(size)
            while proved.library.tdes_encrypt(key, bytes(8))[0] >> 6 != bits:
                key = draw.bytes(size)
            cases += [Case(f"first bits {bits:02b}, {length} bytes",
                           {"key": key, "message": draw.bytes(length)}, ["Subkeys"])
                      for length in (0, 8, 11)]
    return cases
