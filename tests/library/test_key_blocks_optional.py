"""Key blocks with optional blocks, at the built library: each that is written, read or refused."""
from __future__ import annotations

import ctypes
from typing import Optional, Sequence

from ..support.case import Case
from ..support.library.library import built_library
from ..support.library.library_calls import STATUS
from ..support.standards.des import cbc_decrypt
from ..support.standards.key_blocks import ENCRYPTION, BlockFault, derived, header, sealed, unwrap
from ..vectors.test_ciphers import vectors

TEXT_ROOM, CONTENT_ROOM = 512, 251
ROUNDS, SPOILED = 60, 400
FIELDS, PADDING = b"B1TX00N", bytes(6)
Block = tuple[bytes, bytes]

# Optional blocks that are refused, by why.
REFUSED = {
    "an id alone": b"KS0EabcdefghijKS",
    "one digit of a length": b"KS0DabcdefghiKS0",
    "a length of 3": b"KS03    ",
    "a length of 0": b"KS00    ",
    "a length that is none": b"KS0Gabcd",
    "one character is missing": b"KS09abcd",
    "one character is left": b"KS07abc ",
    "no multiple of 8": b"KS09abcde",
    "half a block of the cipher": b"KS04",
    "a control character": b"KS08ab\x1fd",
    "a delete character": b"KS08abc\x7f",
    "a byte beyond ASCII in an id": b"K\xd308abcd",
    "a hundred blocks": b"KS04" * 100,
}
# The first and the last that are taken, beside them.
TAKEN = {
    "none": b"",
    "the characters at both ends": b" ~08 ~ ~",
    "small letters in the length": b"KS0cabcdefghPB0c" + bytes(range(0x30, 0x38)),
    "99 blocks": b"KS04" * 98 + b"PB080000",
    "the longest block": b"KSFF" + b"x" * 251 + b"PB0900000",
}


def written(blocks: Sequence[Block]) -> bytes:
    """Optional blocks as they stand in the text."""
    return b"".join(b"%b%02X%b" % (name, 4 + len(content), content) for name, content in blocks)


def padded(blocks: Sequence[Block]) -> list[Block]:
    """The same with a padding block, where they do not fill whole blocks of 8."""
    missing = -len(written(blocks)) % 8
    return [*blocks, (b"PB", b"0" * ((missing - 4) % 8))] if missing else [*blocks]


def content_of(blocks: Sequence[Block], name: bytes) -> Optional[bytes]:
    """The content of the first with an id."""
    return next((content for its, content in blocks if its == name), None)


class TestOptionalBlocks(Case):
    def setUp(self) -> None:
        super().setUp()
        self.library = ctypes.CDLL(str(built_library() / "libdukpt.so.0"))
        self.protection, self.key = self.chance.randbytes(16), self.chance.randbytes(16)

    def call(self, name: str, given: Sequence[bytes], room: int) -> tuple[int, bytes]:
        """The status of a call, and what it writes."""
        words: list[object] = []
        for value in given:
            words += [(ctypes.c_char * max(len(value), 1))(*value), ctypes.c_size_t(len(value))]
        made, length = (ctypes.c_char * room)(), ctypes.c_uint32(0)
        words += [made, ctypes.c_size_t(room), ctypes.byref(length)]
        status = int(getattr(self.library, f"dukpt_{name}")(*words))
        return status, made.raw[: length.value]

    def wrap(
        self, optional: bytes, fields: bytes = FIELDS, padding: bytes = PADDING
    ) -> tuple[int, bytes]:
        given = self.protection, fields, optional, self.key, padding
        return self.call("wrap_with", given, TEXT_ROOM)

    def optional(self, text: bytes, name: bytes) -> tuple[int, bytes]:
        return self.call("unwrap_optional", (self.protection, text, name), CONTENT_ROOM)

    def sealed(self, optional: bytes, count: int, padding: bytes = PADDING) -> bytes:
        """The key block with these optional blocks, by the bench's own ciphers."""
        payload = (8 * len(self.key)).to_bytes(2, "big") + self.key + padding
        length = 32 + len(optional) + 2 * len(payload)
        return sealed(self.protection, header(FIELDS, length, count) + optional, payload)

    def drawn(self) -> list[Block]:
        """Some optional blocks with few ids, so that one comes twice."""
        names = [b"KS", b"LB", b"KC", b"KS"][: self.chance.randrange(1, 5)]
        printed = range(0x20, 0x7F)
        return padded([(self.chance.choice(names),
                        bytes(self.chance.choices(printed, k=self.chance.randrange(40))))
                       for _ in range(self.chance.randrange(6))])

    def test_published(self) -> None:
        for protection, text, fields, key, name, content in vectors("optional_blocks.txt"):
            self.protection, self.key = bytes.fromhex(protection), bytes.fromhex(key)
            optional = written([(name.encode(), content.encode())])
            hidden = bytes.fromhex(text[16 + len(optional) :])
            payload = cbc_decrypt(derived(self.protection, ENCRYPTION), hidden[-8:], hidden[:-8])
            made = self.wrap(optional, fields.encode(), payload[2 + len(self.key) :])
            self.assertEqual(made, (0, text.encode()))
            self.assertEqual(self.optional(text.encode(), name.encode()), (0, content.encode()))

    def test_drawn(self) -> None:
        """Each id's first content comes back, for keys of both lengths."""
        found = 0
        for _ in range(ROUNDS * self.times):
            self.protection = self.chance.randbytes(self.chance.choice((16, 24)))
            self.key = self.chance.randbytes(self.chance.choice((16, 24)))
            blocks = self.drawn()
            text = self.sealed(written(blocks), len(blocks))
            self.assertEqual(self.wrap(written(blocks)), (0, text), blocks)
            self.assertEqual(unwrap(self.protection, text), (FIELDS, self.key))
            for name in (b"KS", b"LB", b"KC", b"PB", b"SK", b"K\x00"):
                found += self.check_content(text, blocks, name)
        self.tells(f"{found} contents")

    def check_content(self, text: bytes, blocks: Sequence[Block], name: bytes) -> bool:
        """That a content is found, or none, rightly; and whether one is."""
        content = content_of(blocks, name)
        wanted = (0, content) if content is not None else (STATUS["NoOptionalBlock"], b"")
        self.assertEqual(self.optional(text, name), wanted, (text, name))
        return content is not None

    def test_refused(self) -> None:
        """What is not written, before wrong padding, and after a wrong field."""
        for why, optional in REFUSED.items():
            for padding in (PADDING, b""):
                status, _ = self.wrap(optional, padding=padding)
                self.assertEqual(status, STATUS["BlockOptionalBlock"], why)
            status, _ = self.wrap(optional, fields=b"B1TX00\x7f")
            self.assertEqual(status, STATUS["BlockHeaderField"], why)

    def test_taken(self) -> None:
        for why, optional in TAKEN.items():
            count, at = 0, 0
            while at < len(optional):
                count, at = count + 1, at + int(optional[at + 2 : at + 4], 16)
            self.assertEqual(self.wrap(optional), (0, self.sealed(optional, count)), why)
            self.assertEqual(self.wrap(optional, padding=b"")[0], STATUS["BlockPadLength"], why)

    def test_longest(self) -> None:
        """The optional blocks count to the 512 characters."""
        most = written([(b"LB", bytes([0x30 + at % 10]) * 100) for at in range(4)])
        for length in (*range(0, 32, 8), 40):
            optional = most + written([(b"PB", b"0" * (length + 4))])
            whole = 32 + len(optional) + 48
            status, text = self.wrap(optional)
            self.assertEqual(status, 0 if whole <= 512 else STATUS["BlockPadLength"], whole)
            self.assertEqual(text, self.sealed(optional, 5) if whole <= 512 else b"", whole)

    def test_spoiled(self) -> None:
        """A text with a character changed has the fault that the bench finds, or its content."""
        told: dict[str, int] = {}
        for _ in range(SPOILED * self.times):
            blocks = self.drawn()
            text = bytearray(self.sealed(written(blocks), len(blocks)))
            text[self.chance.randrange(len(text))] = self.chance.randrange(0x20, 0x7F)
            try:
                unwrap(self.protection, bytes(text))
            except BlockFault as why:
                status, _ = self.optional(bytes(text), b"KS")
                self.assertEqual(status, STATUS[f"Block{why}"], bytes(text))
                told[str(why)] = told.get(str(why), 0) + 1
            else:
                self.check_content(bytes(text), blocks, b"KS")
        self.assertLessEqual({"Mac", "OptionalBlock"}, set(told))
        self.tells(", ".join(f"{count} {why}" for why, count in sorted(told.items())))
