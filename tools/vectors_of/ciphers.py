"""Triple DES on blocks and in cipher block chaining, and check values of keys."""
from __future__ import annotations

from .draw import Draw
from .form import Case, Group
from .keys import SEMI_WEAK, WEAK, parity_keys, special_keys, wrong_key_flags, xor

TDES, CBC = "NIST SP 800-67 section 3", "NIST SP 800-38A section 6.2"
CHECK_VALUES = "ANSI X9.24-1:2017 annex A"
WRONG_KEYS = (0, 7, 8, 15, 17, 23, 25, 32)
ODD = b"\x01" * 8
# The key and the text of an example of NIST SP 800-67.
QUICK = bytes.fromhex("0123456789ABCDEF23456789ABCDEF01456789ABCDEF0123")
FOX = b"The qufck brown fox jump"
# The keys and blocks of the known answers for the substitution boxes (NIST SP 800-17).
SUBSTITUTION = """
7CA110454A1A6E57 01A1D6D039776742 0131D9619DC1376E 5CD54CA83DEF57DA
07A1133E4A0B2686 0248D43806F67172 3849674C2602319E 51454B582DDF440A
04B915BA43FEB5B6 42FD443059577FA2 0113B970FD34F2CE 059B5E0851CF143A
0170F175468FB5E6 0756D8E0774761D2 43297FAD38E373FE 762514B829BF486A
07A7137045DA2A16 3BDD119049372802 04689104C2FD3B2F 26955F6835AF609A
37D06BB516CB7546 164D5E404F275232 1F08260D1AC2465E 6B056E18759F5CCA
584023641ABA6176 004BD6EF09176062 025816164629B007 480D39006EE762F2
49793EBC79B3258F 437540C8698F3CFA 4FB05E1515AB73A7 072D43A077075292
49E95D6D4CA229BF 02FE55778117F12A 018310DC409B26D6 1D9D5C5018F728C2
1C587F1C13924FEF 305532286D6F295A"""


def groups(draw: Draw) -> list[Group]:
    """All groups of `tdes.json`."""
    found = []
    for operation in ("tdes_encrypt", "tdes_decrypt"):
        found += [boxes(operation), one_bit_blocks(operation), one_bit_keys(operation),
                  of_keys(operation, draw), example(operation), drawn_blocks(operation, draw),
                  wrong_lengths(operation)]
    for operation in ("cbc_encrypt", "cbc_decrypt"):
        found += [chains(operation, draw), chain_vectors(operation, draw),
                  wrong_chains(operation)]
    return found


# Blocks


def boxes(operation: str) -> Group:
    """Known answers for the substitution boxes."""
    words = [bytes.fromhex(word) for word in SUBSTITUTION.split()]
    cases = [Case("both halves of the key are equal", {"key": key + key, "block": block},
                  ["EqualHalves"]) for key, block in zip(words[::2], words[1::2])]
    return Group(operation, "Keys and blocks that try each entry of the substitution boxes (NIST SP"
                 " 800-17), with equal halves, which make it single DES.", TDES, cases)


def one_bit_blocks(operation: str) -> Group:
    """A block of zeros with each bit turned."""
    cases = [Case(f"bit {at} of the block alone", {"block": (1 << 63 - at).to_bytes(8, "big")},
                  ["KeyOrBlockBit"]) for at in range(64)]
    return Group(operation, "Each bit of a block by itself.", TDES, cases, {"key": ODD + ODD})


def one_bit_keys(operation: str) -> Group:
    """Each bit of both halves, parity bits too, which change nothing."""
    cases = []
    for at in range(128):
        key = xor(ODD + ODD, (1 << 127 - at).to_bytes(16, "big"))
        cases.append(Case(f"bit {at} of the key is turned", {"key": key},
                          ["KeyOrBlockBit", *(["Parity"] if at % 8 == 7 else [])]))
    return Group(operation, "Each bit of a key by itself. A turned parity bit changes nothing.",
                 TDES, cases, {"block": bytes(8)})


def of_keys(operation: str, draw: Draw) -> Group:
    """The keys that show something."""
    block = draw.bytes(8)
    cases = [Case(told, {"key": key}, [flag]) for told, key, flag in special_keys(draw)]
    cases += [Case(told, {"key": key}, ["Parity"]) for told, key in parity_keys(draw)]
    return Group(operation, "Weak keys, semi-weak keys, equal halves and parities.", TDES, cases,
                 {"block": block})


def example(operation: str) -> Group:
    """The standard's example, with its keys in each combination that means another one."""
    one, two, three = (QUICK[at : at + 8] for at in (0, 8, 16))
    keys = [("three keys", QUICK, "Sample"),
            ("the first key is the third too", one + two, "TwoKeys"),
            ("the same in 24 bytes", one + two + one, "TwoKeys"),
            ("the first two keys are equal: single DES under the third", one + one + three,
             "EqualHalves"),
            ("the last two keys are equal: single DES under the first", one + two + two,
             "EqualHalves"),
            ("all three keys are equal", one * 3, "EqualHalves"),
            ("the keys in another order", three + two + one, "ThreeKeys")]
    cases = [Case(told, {"key": key, "block": FOX[at : at + 8]}, [flag])
             for told, key, flag in keys for at in (0, 8, 16)]
    return Group(operation, "The keys and blocks of the standard's example.", TDES, cases)


def drawn_blocks(operation: str, draw: Draw) -> Group:
    """Keys and blocks at random."""
    cases = [Case("at random", {"key": draw.bytes(size), "block": draw.bytes(8)}, ["Random"])
             for size in (16, 24) for _ in range(25)]
    return Group(operation, "At random, under two and three keys.", TDES, cases)


def wrong_lengths(operation: str) -> Group:
    """Keys and blocks that are refused."""
    cases = [Case(f"a key of {size} bytes", {"key": (QUICK + FOX)[:size]},
                  wrong_key_flags(size), "Length") for size in WRONG_KEYS]
    cases += [Case(f"a block of {size} bytes", {"block": FOX[:size]}, ["WrongLength"], "Length")
              for size in (0, 7, 9, 16)]
    return Group(operation, "Keys and blocks of other lengths.", TDES, cases,
                 {"key": QUICK, "block": FOX[:8]})


# Chains


def chains(operation: str, draw: Draw) -> Group:
    """Each number of blocks to nine, and longer ones; none gives none."""
    cases = []
    for size in (16, 24):
        for count in [*range(10), 16, 31, 32, 100]:
            inputs = {"key": draw.bytes(size), "iv": draw.bytes(8), "data": draw.bytes(8 * count)}
            told = f"{count} block" if count == 1 else f"{count} blocks"
            cases.append(Case(f"{told}, a key of {size} bytes", inputs,
                              ["Random"] if count else ["Empty"]))
    return Group(operation, "Whole blocks of any number.", CBC, cases)


def chain_vectors(operation: str, draw: Draw) -> Group:
    """Initial vectors that show where they are added."""
    key, text = draw.bytes(16), draw.bytes(24)
    cases = [Case(told, {"iv": iv}) for told, iv in (
        ("zeros", bytes(8)), ("ones", b"\xFF" * 8), ("the first block", text[:8]),
        ("the second block", text[8:16]))]
    cases += [Case(f"bit {at} alone", {"iv": (1 << 63 - at).to_bytes(8, "big")})
              for at in range(0, 64, 7)]
    cases += [Case("equal blocks", {"iv": iv, "data": text[:8] * 5}, ["EqualBlocks"])
              for iv in (bytes(8), text[:8])]
    return Group(operation, "Initial vectors.", CBC, cases, {"key": key, "data": text})


def wrong_chains(operation: str) -> Group:
    """Lengths that are refused."""
    text = FOX + FOX
    cases = [Case(f"data of {size} bytes", {"data": text[:size]}, ["WrongLength"], "Length")
             for size in (*range(1, 8), 9, 12, 15, 17, 31)]
    cases += [Case(f"an initial vector of {size} bytes", {"iv": bytes(size)}, ["WrongLength"],
                   "Length") for size in (0, 4, 7, 9, 16)]
    cases += [Case(f"a key of {size} bytes", {"key": (QUICK + QUICK)[:size]},
                   wrong_key_flags(size), "Length") for size in WRONG_KEYS]
    return Group(operation, "Nothing is padded: other lengths are refused.", CBC, cases,
                 {"key": QUICK, "iv": bytes(8), "data": FOX})


# Check values


def check_groups(draw: Draw) -> list[Group]:
    """All groups of `check_value.json`."""
    kinds = (("check_value", "The first three bytes of a block of zeros, enciphered."),
             ("cmac_check_value", "The first five bytes of the CMAC of a block of zeros."))
    return [Group(operation, about, CHECK_VALUES, cases)
            for (operation, about), cases in zip(kinds, [check_cases(draw)] * 2)]


def check_cases(draw: Draw) -> list[Case]:
    """Keys of each kind."""
    samples = [("the sample base derivation key", "0123456789ABCDEFFEDCBA9876543210"),
               ("the sample initial key", "6AC292FAA1315B4D858AB3A3D7D5933A"),
               ("the key of the sample's first number", "042666B49184CFA368DE9628D0397BC9")]
    cases = [Case(told, {"key": bytes.fromhex(key)}, ["Sample"]) for told, key in samples]
    cases += [Case(told, {"key": key}, [flag]) for told, key, flag in special_keys(draw)]
    cases += [Case(told, {"key": key}, ["Parity"]) for told, key in parity_keys(draw)]
    one, two, three = (draw.bytes(8) for _ in range(3))
    cases += [Case(told, {"key": key}, [flag]) for told, key, flag in (
        ("three keys", one + two + three, "ThreeKeys"),
        ("the first and third of three are equal", one + two + one, "TwoKeys"),
        ("the same in 16 bytes", one + two, "TwoKeys"),
        ("all three are equal", one * 3, "EqualHalves"),
        ("three weak keys", WEAK[0] + WEAK[1] + WEAK[2], "WeakKey"),
        ("three semi-weak keys", b"".join(SEMI_WEAK[:3]), "WeakKey"))]
    cases += [Case(f"at random, {size} bytes", {"key": draw.bytes(size)}, ["Random"])
              for size in (16, 24) for _ in range(25)]
    return cases + [Case(f"{size} bytes", {"key": (QUICK + QUICK)[:size]},
                         wrong_key_flags(size), "Length") for size in WRONG_KEYS]
