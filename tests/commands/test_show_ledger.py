"""`new-ledger` and `show ledger`: rows by hand, each changed byte, and damage at random, as a
reader of docs/FORMATS.md has them; and what `issue` keeps."""
from __future__ import annotations

import re
from zlib import crc32

from ..support.case import ProgramCase
from ..support.commands.everyday_rows import BASE, FIRST
from ..support.commands.issuing import bytes_of, numbers_from
from ..support.formats.ledger_file import (
    IDENTITY, RECORD, DamagedLedger, Kept, Made, header_of, kept_in, ledger_image, record,
    shown_ledger)
from ..support.formats.log_file import log_image
from ..support.program import ROOT, Ended

LOADING = "DD7515F2BFC17F85CE48F3CA25CB21F6"
BY_HAND = [
    "01D544554B0D0A1A 02 02 0000000000 20 0123456789ABCDEF 00000000 D8555752",
    "01 02 0000 FFFF9876543210C00000 000000 000000 00000000 000000 1AF5FB02 00",
    "01 01 0000 FFFF9876543210E00000 AF8C07 08D7B4 00000001 000000 551124A5 00",
]
KEPT = [Kept(bytes.fromhex("FFFF9876543210C00000")),
        Kept(bytes.fromhex("FFFF9876543210E00000"),
             Made(bytes.fromhex("AF8C07"), bytes.fromhex("08D7B4"), 1))]
LINES = """\
version 2
identity 0123456789ABCDEF
issued FFFF9876543210C00000
issued FFFF9876543210E00000 AF8C07 08D7B4 1
numbers 2
room 2
"""
ROOM = 4
DAMAGES = 300


class TestShowLedger(ProgramCase):
    """Ledgers that are made here."""

    def setUp(self) -> None:
        super().setUp()
        self.home = self.folder(in_memory=True)

    def shown(self, image: bytes) -> Ended:
        (self.home / "ledger").write_bytes(image)
        return self.program.run("show", "ledger", "ledger", folder=self.home)

    def assert_shown(self, image: bytes) -> bool:
        """That it is shown as the model says; and whether it is damaged."""
        try:
            lines, fault = shown_ledger(image), ""
        except DamagedLedger as damaged:
            lines, fault = "", f"ledger refused at {damaged.args[0]}: Damaged\n"
        ended = self.shown(image)
        self.assert_ended(ended, int(bool(fault)), lines.encode(), fault.encode(), image.hex())
        self.assertEqual((self.home / "ledger").read_bytes(), image, "shown and changed")
        return bool(fault)

    def test_rows(self) -> None:
        image = ledger_image(KEPT, ROOM)
        self.assertEqual(image, bytes.fromhex("".join(BY_HAND)) + bytes(2 * RECORD))
        self.assert_ended(self.shown(image), 0, LINES.encode(), b"")
        for other in (b"", bytes(5), bytes(RECORD), header_of()[:-1], header_of(), log_image([], 4)):
            self.assert_shown(other)

    def test_documented(self) -> None:
        """The rows of docs/FORMATS.md are these."""
        text = (ROOT / "docs" / "FORMATS.md").read_text()
        part = text.partition("## Disk of a ledger\n")[2].partition("## A file that is")[0]
        rows = re.findall(r"^\| \d \| ([0-9A-F ]+) \|$", part, re.MULTILINE)
        self.assertEqual(rows, BY_HAND)

    def test_copied(self) -> None:
        """Of numbers that were copied from a ledger in the form of a log nothing else is known,
        before and behind such as a run issued, and where one stands twice."""
        copied = [Kept(it) for it in bytes_of(numbers_from(int(FIRST, 16), 3))]
        made = Kept(copied[2].number, Made(b"\x00\x01\xAB", b"\xFF\x00\x00", 4294967295))
        known = " 0001AB FF0000 4294967295"
        for kept in (copied, [*copied, made], [made, *copied], [made, copied[0], made],
                     copied[:1] * 3):
            lines = "".join(f"issued {it.number.hex().upper()}{known * (it is made)}\n"
                            for it in kept)
            wanted = (f"version 2\nidentity 0123456789ABCDEF\n{lines}numbers {len(kept)}\n"
                      f"room {ROOM - len(kept)}\n")
            image = ledger_image(kept, ROOM)
            self.assert_ended(self.shown(image), 0, wanted.encode(), b"", image.hex())
            self.assertFalse(self.assert_shown(image))

    def test_no_issues(self) -> None:
        """Records with a right check sum that are no issue: another kind, followers, a counter,
        zeros that are none; and of a copied number check values or a run."""
        for what, at, value in (
                ("kind 0", 1, 0), ("kind 3", 1, 3), ("followers", 2, 1), ("a follower", 3, 1),
                ("a counter", 11, 1), ("a counter", 13, 1), ("a zero", 24, 1), ("a zero", 26, 1),
                ("a check value", 14, 1), ("that of the other key", 19, 1), ("a run", 23, 1)):
            said = bytearray(record(KEPT[0], 1))
            said[at] = value
            check = crc32(IDENTITY.to_bytes(8, "big") + (1).to_bytes(8, "big") + said[1:27])
            said[27:31] = check.to_bytes(4, "little")
            image = header_of() + bytes(said) + bytes(RECORD)
            self.assert_ended(self.shown(image), 1, b"", b"ledger refused at 1: Damaged\n", what)
            (self.home / "it").write_bytes(image)
            ended = self.program.run("issue", BASE, LOADING, FIRST, "1", "--ledger", "it",
                                     folder=self.home)
            self.assert_ended(ended, 1, b"", b"ledger: damaged\n", what)

    def test_room(self) -> None:
        """Behind what is kept closed records are room, and a large ledger has a line for each."""
        kept = [Kept(it) for it in bytes_of(numbers_from(int(FIRST, 16), 70_000))]
        for count, room in ((0, 0), (0, 3), (5000, 5000), (4095, 5000), (70_000, 70_001)):
            self.assertFalse(self.assert_shown(ledger_image(kept[:count], room)))
        torn = bytes([2]) + self.chance.randbytes(RECORD - 1)
        self.assertFalse(self.assert_shown(ledger_image(kept[:2], 2) + torn + torn))

    def test_what_cannot_be_read(self) -> None:
        (self.home / "folder").mkdir()
        for name in ("missing", "folder", "", ".", "missing/ledger"):
            ended = self.program.run("show", "ledger", name, folder=self.home)
            self.assert_ended(ended, 1, b"", b"ledger: cannot read\n", name)
        for name, fault in (("/dev/null", "ledger refused at 0: Damaged"),
                            ("/dev/zero", "ledger: too long"),
                            ("/proc/self/mem", "ledger: cannot read")):
            ended = self.program.run("show", "ledger", name, folder=self.home)
            self.assert_ended(ended, 1, b"", f"{fault}\n".encode(), name)

    def test_changed_bytes(self) -> None:
        image = ledger_image(KEPT, ROOM)
        for at in range(len(image)):
            changed = bytearray(image)
            changed[at] ^= 1 << self.chance.randrange(8)
            is_damaged = self.assert_shown(bytes(changed))
            if at < RECORD * (1 + len(KEPT)) and (at < RECORD or at % RECORD):
                self.assertTrue(is_damaged, at)

    def test_damage(self) -> None:
        for _ in range(DAMAGES):
            run = self.chance.choice((1, 7, (1 << 32) - 1))
            one = Kept(bytes.fromhex(FIRST), self.chance.choice((Made(b"abc", b"def", run), None)))
            kept = [one] * self.chance.randrange(ROOM)
            changed = bytearray(ledger_image(kept, ROOM, self.chance.randrange(1 << 64)))
            for _ in range(self.chance.randrange(3)):
                changed[self.chance.randrange(len(changed))] = self.chance.choice((0, 1, 2, 255))
            size = len(changed)
            cut = self.chance.choice((size, size, self.chance.randrange(size)))
            self.assert_shown(bytes(changed[:cut]))

    def test_issued(self) -> None:
        """A new ledger keeps nothing; then it keeps what two runs issued."""
        ended = self.program.run("new-ledger", "new", "3", folder=self.home)
        self.assert_ended(ended, 0, b"", b"")
        image = (self.home / "new").read_bytes()
        identity = int.from_bytes(image[16:24], "big")
        self.assertEqual(image, ledger_image([], 3, identity))
        wanted: list[Kept] = []
        for count, more in ((1, ()), (2, ("--skip-issued",))):
            words = ("issue", BASE, LOADING, FIRST, str(count), "--ledger", "new", *more)
            ended = self.program.run(*words, folder=self.home)
            self.assertEqual(ended.status, 0, ended)
            iksn, _, value = ended.output.split()[1:]
            made = Made(bytes.fromhex(value.decode()), bytes.fromhex("08D7B4"), count)
            wanted.append(Kept(bytes.fromhex(iksn.decode()), made))
            self.assertEqual(kept_in((self.home / "new").read_bytes()), wanted)
        self.assertEqual((self.home / "new").read_bytes()[RECORD : 2 * RECORD],
                         record(wanted[0], 1, identity))

    def test_other_files(self) -> None:
        """`issue` tells a ledger in the form of a log, and refuses every other file as it is."""
        self.program.run("new-journal", "journal", "3", folder=self.home)
        others = {"journal": "damaged", "empty": "damaged", "key": "damaged"}
        (self.home / "empty").write_bytes(b"")
        (self.home / "key").write_bytes(BASE.encode())
        for room in (1, 2, 3):
            (self.home / f"log{room}").write_bytes(log_image([bytes.fromhex(FIRST)], room))
            others[f"log{room}"] = "version 1, use copy-ledger"
        for name, fault in others.items():
            before = (self.home / name).read_bytes()
            words = ("issue", BASE, LOADING, FIRST, "1", "--ledger", name)
            ended = self.program.run(*words, folder=self.home)
            self.assert_ended(ended, 1, b"", f"ledger: {fault}\n".encode(), name)
            self.assertEqual((self.home / name).read_bytes(), before)
