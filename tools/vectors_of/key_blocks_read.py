"""Key blocks of version B that are read, with each way to be wrong."""
from __future__ import annotations

from .draw import Draw
from .form import Case, Group
from .key_block_text import (
    AUTHENTICATION, ENCRYPTION, Parts, Sealer, optional_block, padding_block)
from .key_blocks import (
    BLOCK, HEADERS, SAMPLE_KBPK, UNKNOWN_HEADERS, bad_headers, header_flags, paddings, sizes)
from .proved import Proved

OWN = "this project's own"
# The published example of ANSI X9.143.
SAMPLE = "B0080P0TE00E000094B420079CC80BA3461F86FE26EFC4A3B8E4FA4C5F5341176EED7B727B8A248E"


def groups(proved: Proved, draw: Draw) -> list[Group]:
    """The groups of blocks that are read."""
    seal = Sealer(proved)
    base = Parts(draw.bytes(16), draw.bytes(16), draw.bytes(6))
    return [unwrap_paddings(seal, draw), unwrap_headers(seal, draw), unwrap_optional(seal, draw),
            unwrap_letters(seal, draw), unwrap_length(seal, base), unwrap_bounds(seal, base),
            unwrap_version(seal, base), unwrap_header(seal, base),
            unwrap_wrong_optional(seal, base), unwrap_hex(seal, base),
            unwrap_macs(seal, base, draw), unwrap_binding(seal, base, draw),
            unwrap_payload(seal, base, draw), unwrap_key_lengths(seal, base)]


def read(seal: Sealer, comment: str, parts: Parts, *flags: str, fault: str | None = None) -> Case:
    """The case of a block with these parts, sealed as version B says."""
    return read_text(comment, parts.kbpk, seal.text(parts), *flags, fault=fault)


def read_text(comment: str, kbpk: bytes, text: str, *flags: str, fault: str | None = None) -> Case:
    """The case of a text."""
    return Case(comment, {"kbpk": kbpk, "block": text}, flags, fault)


def drawn(draw: Draw, kbpk: int, key: int, **others: object) -> Parts:
    """Parts with keys of these lengths, drawn."""
    return Parts(draw.bytes(kbpk), draw.bytes(key), draw.bytes(6)).but(**others)


def unwrap_paddings(seal: Sealer, draw: Draw) -> Group:
    """Each length of padding, for keys and protection keys of each length."""
    cases = [read_text("the published example", SAMPLE_KBPK, SAMPLE, "Sample")]
    for kbpk, key in sizes():
        parts = drawn(draw, kbpk, key)
        cases += [read(seal, f"a key of {key} bytes under one of {kbpk}, {size} of padding",
                       parts.but(padding=draw.bytes(size)), "Padding") for size in paddings(key)]
    return Group("unwrap", "Each length of padding.", BLOCK, cases)


def unwrap_headers(seal: Sealer, draw: Draw) -> Group:
    """Header fields of many kinds."""
    cases = [read(seal, f"header {header!r}", drawn(draw, 16, 16, header=header),
                  *header_flags(header)) for header in (*HEADERS, *UNKNOWN_HEADERS)]
    for told, padding in (("zeros", bytes(6)), ("ones", b"\xFF" * 6)):
        cases.append(read(seal, f"a padding of {told}", drawn(draw, 24, 16, padding=padding),
                          "Padding"))
    return Group("unwrap", "Header fields are given as they are.", BLOCK, cases)


def optional_blocks() -> list[tuple[str, tuple[str, ...]] | tuple[str, tuple[str, ...], str]]:
    """What optional blocks there are, they, and whether only this project takes them."""
    one, two = optional_block("KS", "FFFF9876543210E00000"), optional_block("LB", "a label")
    return [("a key set identifier", (one,)), ("a label with small letters", (two,)),
            ("two blocks", (one, two)),
            ("four blocks", (one, two, optional_block("10", "free"),
                             optional_block("99", "12345678"))),
            ("the longest content", (optional_block("LB", "0" * 251),)),
            ("a label of 44 characters", (optional_block("LB", "0" * 44),)),
            ("no content", (optional_block("LB", ""),), "OwnRule"),
            ("the same twice", (one, one), "OwnRule"),
            ("a length with small letters", ("KS1e" + "0" * 26,), "OwnRule")]


def unwrap_optional(seal: Sealer, draw: Draw) -> Group:
    """Optional blocks are passed over, and are under the MAC."""
    cases = []
    for told, blocks, *own in optional_blocks():
        text = "".join(blocks)
        filled = (*blocks, padding_block(len(text)))
        for kbpk, key in ((16, 16), (24, 24)):
            parts = drawn(draw, kbpk, key, optional="".join(filled), count=f"{len(filled):02}")
            cases.append(read(seal, f"{told} and a PB, under a key of {kbpk} bytes", parts,
                              "OptionalBlocks", *own))
        if len(text) % 8 == 0:
            parts = drawn(draw, 16, 16, optional=text, count=f"{len(blocks):02}")
            cases.append(read(seal, f"{told}, and no PB", parts, "OptionalBlocks", *own))
    cases += [read(seal, f"a PB of {size + 4} characters alone",
                   drawn(draw, 16, 16, optional=optional_block("PB", "0" * size), count="01"),
                   "OptionalBlocks") for size in (4, 12, 20, 28, 60, 124)]
    for count in (10, 12, 20, 24):
        many = optional_block("LB", "1234") * count
        cases.append(read(seal, f"{count} blocks",
                          drawn(draw, 16, 16, optional=many, count=f"{count}"), "OptionalBlocks"))
    return Group("unwrap", "Optional blocks: their content is not looked at.", BLOCK, cases)


def unwrap_letters(seal: Sealer, draw: Draw) -> Group:
    """What is taken here beyond what is written: small letters, and other reserved characters."""
    cases = []
    for size in (16, 24):
        parts = drawn(draw, size, size)
        text = seal.text(parts)
        small = text[:16] + text[16:].lower()
        cases += [read_text("hexadecimal with small letters", parts.kbpk, small, "OwnRule"),
                  read_text("the MAC alone with small letters", parts.kbpk,
                            text[:-16] + text[-16:].lower(), "OwnRule")]
        cases += [read(seal, f"{reserved!r} for the reserved characters",
                       parts.but(reserved=reserved), "OwnRule") for reserved in ("01", "  ", "FF")]
    return Group("unwrap", "Hexadecimal digits are read in either case, and the reserved characters"
                 " may be any.", OWN, cases)


# Each fault by itself. Where it comes before the MAC is looked at, the MAC is right all the same.


def unwrap_length(seal: Sealer, base: Parts) -> Group:
    """The length in the header is not that of the text, and the MAC is over that header."""
    cases = [read(seal, f"the header says {length!r} of 80", base.but(length=length), "BlockLength",
                  fault="BlockLength")
             for length in ("0000", "0072", "0079", "0081", "0088", "0096", "0512", "0800", "8000",
                            "9999", "  80", "80  ", "+080", "0x50", "008O", "0050")]
    text = seal.text(base)
    cases += [read_text(f"cut by {size} at its end", base.kbpk, text[:-size], "Truncated",
                        fault="BlockLength") for size in (1, 2, 8, 16, 32, 48, 64, 79, 80)]
    cases += [read_text(f"{told} behind its end", base.kbpk, text + tail, "Truncated",
                        fault="BlockLength")
              for told, tail in (("a zero", "0"), ("eight zeros", "0" * 8),
                                 ("sixteen zeros", "0" * 16), ("the block again", text))]
    cases.append(read_text("a line's end behind its end", base.kbpk, text + "\n", "Truncated",
                           "OwnRule", fault="BlockLength"))
    cases += [read_text("a space before its front", base.kbpk, " " + text[:-1], "Truncated",
                        fault="BlockLength")]
    return Group("unwrap", "The length in the header is that of the text in characters.", BLOCK,
                 cases)


def unwrap_bounds(seal: Sealer, base: Parts) -> Group:
    """Texts shorter or longer than this project takes, or of no multiple of 8."""
    single = Parts(base.kbpk, base.key[:8], bytes(6))
    cases = [read(seal, "64 characters, with a single DES key", single, "BlockLength", "OwnRule",
                  fault="BlockLength")]
    cases += [read(seal, f"{size} bytes of padding: above 512 characters",
                   base.but(padding=bytes(size)), "BlockLength", "OwnRule", fault="BlockLength")
              for size in (230, 238, 998)]
    cases.append(read(seal, "520 characters",
                      base.but(optional=optional_block("LB", "1234"), count="01",
                               padding=bytes(222)), "BlockLength", "OwnRule",
                      fault="BlockLength"))
    cases += [read(seal, f"an optional block of {size} characters: no multiple of 8",
                   base.but(optional=optional_block("LB", "x" * (size - 4)), count="01"),
                   "BlockLength", fault="BlockLength") for size in (4, 5, 7, 9, 12, 20)]
    return Group("unwrap", "A text has 80 to 512 characters here, and a multiple of 8.", BLOCK,
                 cases)


def unwrap_version(seal: Sealer, base: Parts) -> Group:
    """Other versions, sealed as B."""
    cases = [read(seal, f"version {version!r}", base.but(version=version), "BlockVersion",
                  fault="BlockVersion") for version in "ACDE0b \x00\x7F8"]
    return Group("unwrap", "The first character is B: another version's binding is another.", BLOCK,
                 cases)


def unwrap_header(seal: Sealer, base: Parts) -> Group:
    """Header fields that are refused, under a right MAC."""
    cases = [read(seal, told, base.but(header=header), "HeaderField", fault="BlockHeaderField")
             for told, header in bad_headers()]
    cases += [read(seal, f"{count!r} for the number of optional blocks", base.but(count=count),
                   "HeaderField", fault="BlockHeaderField")
              for count in ("0A", "0 ", " 0", "+0", "-0", "0x", "AA", "0:", "/0", "\x000")]
    return Group("unwrap", "The fields can be printed, and the number of optional blocks has two"
                 " decimal digits.", BLOCK, cases)


def unwrap_wrong_optional(seal: Sealer, base: Parts) -> Group:
    """Optional blocks that do not end where the ciphertext begins. The MAC is right."""
    right = optional_block("LB", "1234")
    wrong = {
        "one is said, and none is there": ("", "01"),
        "two are said, and one is there": (right, "02"),
        "99 are said, and one is there": (right, "99"),
        "one is said, and two are there": (right + right, "01"),
        "a length of 00": ("LB001234", "01"), "a length of 01": ("LB011234", "01"),
        "a length of 02": ("LB021234", "01"), "a length of 03": ("LB031234", "01"),
        "a length beyond the text": ("LBFF1234", "01"),
        "a length that leaves no ciphertext": ("LB201234", "01"),
        "a length that leaves half a block": ("LB101234", "01"),
        "a length that is not hexadecimal": ("LB0G1234", "01"),
        "a length with a space": ("LB 81234", "01"), "a length with a sign": ("LB+81234", "01"),
        "a length of the content alone": ("LB041234", "01"),
        "the second has a length of 00": (right + "PB001234", "02"),
        "the second is longer than the text": (right + "PBF01234", "02")}
    cases = [read(seal, told, base.but(optional=text, count=count), "OptionalBlocks",
                  fault="BlockOptionalBlock") for told, (text, count) in wrong.items()]
    cases.append(read(seal, "a length that leaves half a block of a longer text",
                      base.but(optional="LB101234", count="01", padding=bytes(14)),
                      "OptionalBlocks", fault="BlockOptionalBlock"))
    cases.append(read_text("four blocks of two characters: what is left is whole blocks",
                           base.kbpk, two_characters(seal, base), "OptionalBlocks",
                           fault="BlockOptionalBlock"))
    return Group("unwrap", "So many optional blocks follow the header, each of the length that it"
                 " says, and what is left is ciphertext and MAC.", BLOCK, cases)


def two_characters(seal: Sealer, base: Parts) -> str:
    """A text that a reader would take who takes a length of 2: four blocks, each two characters
    behind the one before, the last with its length in the ciphertext, and then all of that."""
    texts = (seal.text(base.but(optional="LB020202", count="04", padding=fill.to_bytes(6, "big")))
             for fill in range(1 << 16))
    return next(text for text in texts if text[24:26] == "02")


def unwrap_hex(seal: Sealer, base: Parts) -> Group:
    """Characters that are no hexadecimal digits, at both ends of ciphertext and MAC."""
    text = seal.text(base)
    cases = []
    for at, told in ((16, "first of the ciphertext"), (17, "second"), (40, "one in the middle"),
                     (63, "last of the ciphertext"), (64, "first of the MAC"), (79, "last")):
        for letter in "Gg Z-+:/@`\x00\n":
            cases.append(read_text(f"{letter!r} for the {told}", base.kbpk,
                                   text[:at] + letter + text[at + 1 :], "BlockHex",
                                   fault="BlockHex"))
    block = optional_block("PB", "0000")
    cases.append(read(seal, "an optional block that the header does not count",
                      base.but(optional=block * 2), "BlockHex", fault="BlockHex"))
    return Group("unwrap", "Ciphertext and MAC are hexadecimal digits.", BLOCK, cases)


def turned(text: str, at: int) -> str:
    """A text with the lowest bit of a hexadecimal digit turned."""
    return text[:at] + f"{int(text[at], 16) ^ 1:X}" + text[at + 1 :]


def unwrap_macs(seal: Sealer, base: Parts, draw: Draw) -> Group:
    """One thing changed behind the sealing."""
    text, cases = seal.text(base), []
    for at in range(64, 80):
        cases.append(read_text(f"a bit of digit {at - 64} of the MAC is turned", base.kbpk,
                               turned(text, at), "BlockMac", fault="BlockMac"))
    for at in range(16, 64, 3):
        cases.append(read_text(f"a bit of character {at} of the ciphertext is turned", base.kbpk,
                               turned(text, at), "BlockMac", fault="BlockMac"))
    for at in (5, 6, 7, 8, 9, 10, 11, 14, 15):
        other = "1" if text[at] != "1" else "2"
        cases.append(read_text(f"{other} for {text[at]} at character {at} of the header", base.kbpk,
                               text[:at] + other + text[at + 1 :], "BlockMac", fault="BlockMac"))
    with_block = base.but(optional=optional_block("LB", "labelled1234"), count="01")
    text = seal.text(with_block)
    for at in (16, 17, 20, 31):
        cases.append(read_text(f"character {at}, of an optional block, is changed", base.kbpk,
                               text[:at] + "z" + text[at + 1 :], "BlockMac", fault="BlockMac"))
    cases += [read_text("a small letter in a header field", base.kbpk,
                        seal.text(base).replace("P0TE", "p0TE"), "BlockMac", fault="BlockMac")]
    longer = seal.text(base.but(padding=draw.bytes(22)))
    for cut in (16, 32):
        text = f"B{len(longer) - cut:04}{longer[5:-16 - cut]}{longer[-16:]}"
        cases.append(read_text(f"{cut // 16} blocks of the ciphertext are left out, and the length"
                               " is that of the rest", base.kbpk, text, "Truncated",
                               fault="BlockMac"))
    swapped = longer[:16] + longer[32:48] + longer[16:32] + longer[48:]
    cases.append(read_text("two blocks of the ciphertext change places", base.kbpk, swapped,
                           "BlockMac", fault="BlockMac"))
    return Group("unwrap", "The MAC is over the header with its optional blocks, and over the"
                 " payload in clear.", BLOCK, cases)


def unwrap_binding(seal: Sealer, base: Parts, draw: Draw) -> Group:
    """Blocks sealed otherwise than version B says, and other protection keys."""
    cases = []
    for size in (16, 24):
        parts = base.but(kbpk=draw.bytes(size))
        encryption = seal.derived(parts.kbpk, ENCRYPTION)
        authentication = seal.derived(parts.kbpk, AUTHENTICATION)
        other = 1 if size == 16 else 0
        ways = {
            "both keys change places": (authentication, encryption),
            "one key for both, that to encipher": (encryption, encryption),
            "one key for both, that of the MAC": (authentication, authentication),
            "the protection key itself for both": (parts.kbpk, parts.kbpk),
            "keys derived for the other length": (
                seal.derived(parts.kbpk, ENCRYPTION, other),
                seal.derived(parts.kbpk, AUTHENTICATION, other)),
            "keys of the variants of version A": tuple(
                bytes(byte ^ mask for byte in parts.kbpk) for mask in (0x45, 0x4D))}
        cases += [read_text(f"{told}, {size} bytes", parts.kbpk, seal.sealed(parts, *keys),
                            "Binding", fault="BlockMac") for told, keys in ways.items()]
        right = seal.text(parts)
        half = len(parts.kbpk) // 2
        others = {"a protection key at random": draw.bytes(size),
                  "one of the other length": (parts.kbpk * 2)[: 40 - size],
                  "the halves of the protection key change places":
                      parts.kbpk[half:] + parts.kbpk[:half],
                  "a bit of the protection key is turned":
                      parts.kbpk[:-1] + bytes([parts.kbpk[-1] ^ 2])}
        cases += [read_text(f"{told}, {size} bytes", kbpk, right, "WrongKey", fault="BlockMac")
                  for told, kbpk in others.items()]
        cases.append(read_text(f"a parity bit of the protection key is turned, {size} bytes",
                               parts.kbpk[:-1] + bytes([parts.kbpk[-1] ^ 1]), right, "Parity"))
        zero_vector = seal.library.cbc_encrypt(encryption, bytes(8), parts.payload)
        cases.append(read_text(f"zeros for the initial vector, {size} bytes", parts.kbpk,
                               right[:16] + zero_vector.hex().upper() + right[-16:], "Binding",
                               fault="BlockMac"))
    return Group("unwrap", "Both keys are derived of the protection key by CMAC, and the MAC is the"
                 " initial vector.", BLOCK, cases)


def unwrap_payload(seal: Sealer, base: Parts, draw: Draw) -> Group:
    """A wrong length of the key, or too few bytes for it, under a right MAC."""
    cases = []
    for bits in (0, 1, 8, 56, 64, 112, 120, 127, 129, 136, 168, 184, 191, 193, 200, 256, 384, 16,
                 0x8000, 0x8080, 0xFFFF):
        cases.append(read(seal, f"a length of {bits} bits", base.but(bits=bits, padding=bytes(30)),
                          "Payload", fault="BlockPayload"))
    cases += [read(seal, "192 bits, and 22 bytes behind", base.but(
        bits=192, padding=draw.bytes(6)), "Payload", fault="BlockPayload")]
    cases += [read(seal, f"{bits} bits of {size + 16} bytes", base.but(
        bits=bits, padding=draw.bytes(size)), "Payload")
        for bits, size in ((192, 14), (128, 14), (192, 22), (128, 22))]
    return Group("unwrap", "The key, of triple DES by the header, has 128 or 192 bits, which the"
                 " payload has behind its length.", BLOCK, cases)


def unwrap_key_lengths(seal: Sealer, base: Parts) -> Group:
    """Protection keys of other lengths."""
    text = seal.text(base)
    cases = [read_text(f"a protection key of {size} bytes", (base.kbpk * 3)[:size], text,
                       "WrongLength", fault="Length") for size in (0, 8, 15, 17, 23, 25, 32)]
    return Group("unwrap", "Protection keys of other lengths.", BLOCK, cases)
