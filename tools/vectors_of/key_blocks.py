"""Key blocks of version B that are written."""
from __future__ import annotations

from .draw import Draw
from .form import Case, Group

BLOCK = "ANSI X9.143 (TR-31), version B"
# The published example of ANSI X9.143.
SAMPLE_KBPK = bytes.fromhex("DD7515F2BFC17F85CE48F3CA25CB21F6")
SAMPLE_KEY = bytes.fromhex("3F419E1CB7079442AA37474C2EFBF8B8")
HEADERS = ("B0TX00N", "B1TX00N", "P0TB00N", "P0TE00E", "P0TD00S", "K0TB00E", "K1TD00N", "D0TB00E",
           "M1TG00N", "M3TV00E", "M6TC00S", "V0TN00N", "V2TV00N", "C0TC00E", "E0TX00N", "E6TX01E",
           "I0TE00N", "K0TN99E", "P0TBc1N")
# They can be printed, and mean nothing in the standard, or no key of triple DES.
UNKNOWN_HEADERS = ("~~~~~~~", "       ", "b0tx00n", "00TN00N", "P0AB00N")


def groups(draw: Draw) -> list[Group]:
    """The groups of blocks that are written."""
    return [wrap_paddings(draw), wrap_headers(draw), wrap_wrong_headers(draw),
            wrap_wrong_paddings(draw), wrap_lengths(draw)]


def sizes() -> list[tuple[int, int]]:
    """The lengths of protection key and key."""
    return [(kbpk, key) for kbpk in (16, 24) for key in (16, 24)]


def paddings(key: int) -> range:
    """The lengths of padding that a key of so many bytes may have."""
    return range(-(key + 2) % 8, 240 - 2 - key + 1, 8)


def header_flags(header: str) -> list[str]:
    """What is told of a header."""
    return ["Header", "OwnRule"] if header in UNKNOWN_HEADERS else ["Header"]


def wrap_paddings(draw: Draw) -> Group:
    """Each length of padding, for keys and protection keys of each length."""
    cases = [Case("the published example: its padding is given",
                  {"kbpk": SAMPLE_KBPK, "header": "P0TE00E", "key": SAMPLE_KEY,
                   "padding": bytes.fromhex("1C2965473CE2")}, ["Sample"])]
    for kbpk, key in sizes():
        protection, secret = draw.bytes(kbpk), draw.bytes(key)
        cases += [Case(f"a key of {key} bytes under one of {kbpk}, {size} bytes of padding",
                       {"kbpk": protection, "header": "B1TX00N", "key": secret,
                        "padding": draw.bytes(size)}, ["Padding"]) for size in paddings(key)]
    return Group("wrap", "Each length of padding that fills blocks and leaves 512 characters at"
                 " most.", BLOCK, cases)


def wrap_headers(draw: Draw) -> Group:
    """Header fields, paddings and keys of many kinds."""
    cases = []
    for header in (*HEADERS, *UNKNOWN_HEADERS):
        for kbpk, key in ((16, 16), (24, 24)):
            cases.append(Case(f"header {header!r}",
                              {"kbpk": draw.bytes(kbpk), "header": header, "key": draw.bytes(key),
                               "padding": draw.bytes(6)}, header_flags(header)))
    for told, padding in (("zeros", bytes(6)), ("ones", b"\xFF" * 6)):
        cases.append(Case(f"a padding of {told}",
                          {"kbpk": SAMPLE_KBPK, "header": "P0TE00E", "key": SAMPLE_KEY,
                           "padding": padding}, ["Padding"]))
    for told, secret in (
            ("zeros", bytes(16)), ("ones", b"\xFF" * 24), ("equal halves", b"\x5B" * 16)):
        cases.append(Case(f"a key of {told}",
                          {"kbpk": SAMPLE_KBPK, "header": "P0TE00E", "key": secret,
                           "padding": draw.bytes(6)}, ["EqualHalves"]))
    return Group("wrap", "Header fields are taken as they are.", BLOCK, cases)


def bad_headers() -> list[tuple[str, str]]:
    """Seven characters of which one cannot be printed: what, and they."""
    found = []
    for at in range(7):
        for told, letter in (("07", "\x07"), ("1F", "\x1F"), ("7F", "\x7F")):
            header = "P0TE00E"
            found.append((f"character {told} at place {5 + at}",
                          header[:at] + letter + header[at + 1 :]))
    return found


def wrap_wrong_headers(draw: Draw) -> Group:
    """A character that cannot be printed at each place, and too few or many."""
    cases = [Case(told, {"header": header}, ["HeaderField"], "BlockHeaderField")
             for told, header in bad_headers()]
    cases += [Case(f"{len(header)} characters", {"header": header}, ["WrongLength"], "Length")
              for header in ("", "P0TE00", "P0TE00E0", "P0TE00E0000")]
    return Group("wrap", "The seven header fields can be printed.", BLOCK, cases,
                 {"kbpk": SAMPLE_KBPK, "key": SAMPLE_KEY, "padding": draw.bytes(6)})


def wrap_wrong_paddings(draw: Draw) -> Group:
    """Paddings that do not fill whole blocks, or too many of them."""
    cases = []
    for key in (16, 24):
        for size in (*range(6), 7, 8, 9, 13, 15, 21, 23, 100, 240 - 2 - key - 1):
            cases.append(Case(f"{size} bytes of padding behind a key of {key}",
                              {"key": draw.bytes(key), "padding": draw.bytes(size)}, ["Padding"],
                              "BlockPadLength"))
        for size in (240 - 2 - key + 8, 240 - 2 - key + 16):
            cases.append(Case(f"{size} bytes of padding, a key of {key}: above 512 characters",
                              {"key": draw.bytes(key), "padding": draw.bytes(size)},
                              ["Padding", "OwnRule"], "BlockPadLength"))
    return Group("wrap", "Length, key and padding fill whole blocks.", BLOCK, cases,
                 {"kbpk": SAMPLE_KBPK, "header": "P0TE00E"})


def wrap_lengths(draw: Draw) -> Group:
    """Keys and protection keys of other lengths."""
    wrong = (0, 8, 15, 17, 23, 25, 32)
    cases = [Case(f"a protection key of {size} bytes",
                  {"kbpk": draw.bytes(size), "key": SAMPLE_KEY}, ["WrongLength"], "Length")
             for size in wrong]
    cases += [Case(f"a key of {size} bytes", {"kbpk": SAMPLE_KBPK, "key": draw.bytes(size)},
                   ["WrongLength", "OwnRule"], "Length") for size in wrong]
    return Group("wrap", "Triple DES keys of 16 and 24 bytes alone are taken.", BLOCK, cases,
                 {"header": "P0TE00E", "padding": draw.bytes(6)})
