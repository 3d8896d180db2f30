"""`show`: rows for each kind and each fault, and frames, blocks, images and logs at random with
damage, as a reader of docs/FORMATS.md has them."""
from __future__ import annotations

import fcntl
import os
import random
import re
import threading
from collections import Counter
from pathlib import Path
from typing import Callable, Optional

from ..support.case import ProgramCase
from ..support.commands.commands import shown
from ..support.commands.everyday import NUMBERS, nth_counter
from ..support.commands.everyday_cases import Case
from ..support.commands.everyday_rows import FIRST, INITIAL, KEY_BLOCK, REPLY, REQUEST
from ..support.commands.leaks import leaks
from ..support.commands.shown import ALGORITHMS, EXPORTABILITIES, MODES, USAGES, ended, log_ended
from ..support.formats.frames import (
    CODES, NO_NUMBER, REASONS, STATES, write_refusal, write_reply, write_request, write_reversal,
    write_reversal_reply)
from ..support.formats.images import IMAGE_1, IMAGE_2, RECORD, image_of, log_disk
from ..support.program import COMMANDS, SECONDS, Ended, spoken
from ..support.quick import QuickRuns
from ..support.standards.dukpt import SPENT, Registers, initial_key, key_of, registers_at
from ..support.standards.key_blocks import header
from ..support.worlds.worlds import digits

IKSN = int(FIRST, 16)
# So many of each kind, on all programs that are tried.
CASES = 10_000
# The characters of one byte that an item of a batch may have.
ONE_BYTE = [byte for byte in range(0x01, 0x80) if byte not in b"\r\n"]
PLACES = re.compile(rb"(\w+) refused at (\d+): (\w+)\n")
FRAME_FAULTS = {"Hex", "Length", "Version", "Kind", "Size", "PanLength", "PanDigit", "Code", "Reason",
                "Reversed", "State"}
BLOCK_FAULTS = {"Length", "Version", "HeaderField", "OptionalBlock", "Hex"}
IMAGE_FAULTS = {"Hex", "Version", "Length", "Iksn", "Counter", "Registers", "Past"}
REFUSAL = "000D0103FFFF9876543210E0000105"
# Of payment 1, under number 2.
REVERSAL = "001E0104FFFF9876543210E00002FFFF9876543210E000013B8EA61D9F5F532F"
UNDONE = "001F0105FFFF9876543210E00002FFFF9876543210E00001012DEBE27352A69B94"
# A block with two optional blocks, and letters of two bytes in one of them.
OPTIONAL = KEY_BLOCK[:12] + "0200" + "KS04" + "ab0C\u00e9\u00e9\u00e9\u00e9" + KEY_BLOCK[16:]
OPTIONAL = "B0096" + OPTIONAL[5:]
NEW_IMAGE = image_of(registers_at(bytes.fromhex(INITIAL), IKSN, 1))

FRAMES = (
    (REQUEST, "frame request\nksn FFFF9876543210E00001\npan 4012345678909\namount 1\n"
              "pin-block 1B9C1845EB993A7A\nmac A05619896B683F13\n"),
    (REQUEST.lower(), "frame request\nksn FFFF9876543210E00001\npan 4012345678909\namount 1\n"
                      "pin-block 1B9C1845EB993A7A\nmac A05619896B683F13\n"),
    (REPLY, "frame reply\nksn FFFF9876543210E00001\ncode 00 approved\nmac 591B50E0CA98FE70\n"),
    (REPLY.replace("3030", "3134"), "frame reply\nksn FFFF9876543210E00001\ncode 14 no such card\n"
                                    "mac 591B50E0CA98FE70\n"),
    (REPLY.replace("3030", "3330"), "frame reply\nksn FFFF9876543210E00001\n"
                                    "code 30 PIN block unreadable\nmac 591B50E0CA98FE70\n"),
    (REPLY.replace("3030", "3531"), "frame reply\nksn FFFF9876543210E00001\n"
                                    "code 51 over the card's limit\nmac 591B50E0CA98FE70\n"),
    (REPLY.replace("3030", "3535"), "frame reply\nksn FFFF9876543210E00001\ncode 55 wrong PIN\n"
                                    "mac 591B50E0CA98FE70\n"),
    (REFUSAL, "frame refusal\nksn FFFF9876543210E00001\nreason 5 used\n"),
    ("000D01030000000000000000000001",
     "frame refusal\nksn 00000000000000000000\nreason 1 malformed\n"),
    (REFUSAL[:-1] + "2", "frame refusal\nksn FFFF9876543210E00001\nreason 2 unknown key set\n"),
    (REFUSAL[:-1] + "3", "frame refusal\nksn FFFF9876543210E00001\nreason 3 bad counter\n"),
    (REFUSAL[:-1] + "4", "frame refusal\nksn FFFF9876543210E00001\nreason 4 bad MAC\n"),
    (REFUSAL[:-1] + "6", "frame refusal\nksn FFFF9876543210E00001\nreason 6 log full\n"),
    (REVERSAL, "frame reversal\nksn FFFF9876543210E00002\nreversed FFFF9876543210E00001\n"
               "mac 3B8EA61D9F5F532F\n"),
    # The number that is used may be any.
    (REVERSAL.replace("E00002", "FFFFFF"), "frame reversal\nksn FFFF9876543210FFFFFF\n"
                                           "reversed FFFF9876543210E00001\nmac 3B8EA61D9F5F532F\n"),
    (UNDONE, "frame reversal-reply\nksn FFFF9876543210E00002\nreversed FFFF9876543210E00001\n"
             "state 01 undone\nmac 2DEBE27352A69B94\n"),
    (UNDONE[:48] + "00" + UNDONE[50:],
     "frame reversal-reply\nksn FFFF9876543210E00002\nreversed FFFF9876543210E00001\n"
     "state 00 none stands\nmac 2DEBE27352A69B94\n"),
)
# Numbers that no reversal under number 2 reverses.
NOT_REVERSED = ("FFFF9876543210E00002", "FFFF9876543210E00000", "FFFF9876543210FFFFFF",
                "FFFF9876543210C00001", "FFFE9876543210E00001")
FRAME_REFUSALS = (
    ("0", 1, "Hex"), ("x", 0, "Hex"), (REFUSAL[:-1], 29, "Hex"), (REFUSAL + "g", 30, "Hex"),
    (" " + REFUSAL, 0, "Hex"), ("000D\u00e9", 4, "Hex"), ("", 0, "Length"), ("00", 0, "Length"),
    (REFUSAL[:-2], 0, "Length"), (REFUSAL + "00", 0, "Length"), ("01" + REFUSAL[2:], 0, "Length"),
    ("000D0203" + REFUSAL[8:], 2, "Version"), ("000D0003" + REFUSAL[8:], 2, "Version"),
    ("000D0106" + REFUSAL[8:], 3, "Kind"), ("000D0100" + REFUSAL[8:], 3, "Kind"),
    ("000D0101" + REFUSAL[8:], 0, "Size"), ("000D0102" + REFUSAL[8:], 0, "Size"),
    ("000E" + REFUSAL[4:] + "00", 0, "Size"), ("00020103", 0, "Size"), ("00020101", 0, "Size"),
    (REQUEST[:28] + "0C" + REQUEST[30:], 14, "PanLength"),
    (REQUEST[:28] + "00" + REQUEST[30:], 14, "PanLength"),
    (REQUEST[:30] + "3A" + REQUEST[32:], 15, "PanDigit"),
    (REQUEST[:54] + "2F" + REQUEST[56:], 15, "PanDigit"),
    (REPLY.replace("3030", "3031"), 14, "Code"), (REPLY.replace("3030", "0000"), 14, "Code"),
    (REFUSAL[:-2] + "00", 14, "Reason"), (REFUSAL[:-2] + "07", 14, "Reason"),
    ("000D0104" + REFUSAL[8:], 0, "Size"), ("000D0105" + REFUSAL[8:], 0, "Size"),
    (REVERSAL[:6] + "05" + REVERSAL[8:], 0, "Size"), (UNDONE[:6] + "04" + UNDONE[8:], 0, "Size"),
    *((frame[:28] + number + frame[48:], 14, "Reversed")
      for frame in (REVERSAL, UNDONE, UNDONE[:48] + "02" + UNDONE[50:]) for number in NOT_REVERSED),
    (UNDONE[:48] + "02" + UNDONE[50:], 24, "State"), (UNDONE[:48] + "FF" + UNDONE[50:], 24, "State"),
)
BLOCKS = (
    (KEY_BLOCK,
     "version B\nlength 80\nusage P0 PIN encryption\nalgorithm T TDEA\n"
     "mode E encrypt or wrap only\nkey-version 00\n"
     "exportability E exportable under a trusted key, in a form of ANSI X9.24\noptional-blocks 0\n"
     "reserved 00\nciphertext 94B420079CC80BA3461F86FE26EFC4A3B8E4FA4C5F534117\n"
     "mac 6EED7B727B8A248E\n"),
    ("B0080B1TX00N00" + "zz" + KEY_BLOCK[16:].lower(),
     "version B\nlength 80\nusage B1 initial DUKPT key\nalgorithm T TDEA\nmode X derive other keys\n"
     "key-version 00\nexportability N not exportable\noptional-blocks 0\nreserved zz\n"
     "ciphertext 94b420079cc80ba3461f86fe26efc4a3b8e4fa4c5f534117\nmac 6eed7b727b8a248e\n"),
    ("B0080 10#~ ~" + "0000" + KEY_BLOCK[16:],
     "version B\nlength 80\nusage  1 unknown\nalgorithm 0 unknown\nmode # unknown\nkey-version ~ \n"
     "exportability ~ unknown\noptional-blocks 0\nreserved 00\n"
     "ciphertext 94B420079CC80BA3461F86FE26EFC4A3B8E4FA4C5F534117\nmac 6EED7B727B8A248E\n"),
    (OPTIONAL,
     "version B\nlength 96\nusage P0 PIN encryption\nalgorithm T TDEA\nmode E encrypt or wrap only\n"
     "key-version 00\nexportability E exportable under a trusted key, in a form of ANSI X9.24\n"
     "optional-blocks 2\nreserved 00\noptional-block KS04\n"
     "optional-block ab0C\\xC3\\xA9\\xC3\\xA9\\xC3\\xA9\\xC3\\xA9\n"
     "ciphertext 94B420079CC80BA3461F86FE26EFC4A3B8E4FA4C5F534117\nmac 6EED7B727B8A248E\n"),
)
# What is no printable character of ASCII is escaped, so that each field keeps to its line.
BLOCKS += tuple(
    (KEY_BLOCK[:14] + reserved + KEY_BLOCK[16:], BLOCKS[0][1].replace("reserved 00", f"reserved {line}"))
    for reserved, line in (
        ("\n\\", r"\x0A\\"), ("\x1b[", r"\x1B["), ("~\x7f", r"~\x7F"), (" \x1f", r" \x1F"),
        ("\u00e9", r"\xC3\xA9"), ("\t\"", r"\x09" + '"')))
BLOCK_REFUSALS = (
    ("", 1, "Length"), ("B", 1, "Length"), (KEY_BLOCK[:-1], 1, "Length"),
    (KEY_BLOCK + "0", 1, "Length"), (KEY_BLOCK[:-8], 1, "Length"),
    ("B0088" + KEY_BLOCK[5:], 1, "Length"), ("b0088" + KEY_BLOCK[5:], 1, "Length"),
    ("F0088" + KEY_BLOCK[5:], 1, "Length"), ("#", 1, "Length"),
    # Of a block of another version no length is looked at.
    ("A0088" + KEY_BLOCK[5:], 0, "Version"), ("A0072" + KEY_BLOCK[5:72], 0, "Version"),
    ("C0088" + KEY_BLOCK[5:], 0, "Version"), ("D0112" + KEY_BLOCK[5:], 0, "Version"),
    ("E" + KEY_BLOCK[1:-1], 0, "Version"), ("A", 0, "Version"), ("E\u00e9", 0, "Version"),
    ("B008\u0660" + KEY_BLOCK[6:], 1, "Length"), ("A" + KEY_BLOCK[1:], 0, "Version"),
    ("b" + KEY_BLOCK[1:], 0, "Version"), (KEY_BLOCK[:5] + "\u00e9" + KEY_BLOCK[7:], 5, "HeaderField"),
    (KEY_BLOCK[:11] + "\x7f" + KEY_BLOCK[12:], 11, "HeaderField"),
    (KEY_BLOCK[:9] + "\x1f" + KEY_BLOCK[10:], 9, "HeaderField"),
    (KEY_BLOCK[:12] + "x0" + KEY_BLOCK[14:], 12, "HeaderField"),
    (KEY_BLOCK[:13] + " " + KEY_BLOCK[14:], 13, "HeaderField"),
    (KEY_BLOCK[:12] + "01" + KEY_BLOCK[14:], 16, "OptionalBlock"),
    (KEY_BLOCK[:13] + "1" + "00KS04" + KEY_BLOCK[20:], 20, "OptionalBlock"),
    (OPTIONAL[:13] + "1" + OPTIONAL[14:], 20, "OptionalBlock"),
    (OPTIONAL[:18] + "03" + OPTIONAL[20:], 16, "OptionalBlock"),
    (OPTIONAL[:22] + "0g" + OPTIONAL[24:], 20, "OptionalBlock"),
    (OPTIONAL[:22] + "FF" + OPTIONAL[24:], 20, "OptionalBlock"),
    (KEY_BLOCK[:16] + "g" + KEY_BLOCK[17:], 16, "Hex"), (KEY_BLOCK[:79] + "/", 79, "Hex"),
    (KEY_BLOCK[:70] + "\u00e9" + KEY_BLOCK[72:], 70, "Hex"),
)


def write_bytes(path: Path, data: bytes) -> None:
    """Into a pipe, a byte at a time, once somebody reads it."""
    with open(path, "wb", buffering=0) as it:
        for byte in data:
            it.write(bytes([byte]))


class ShowCase(ProgramCase):
    weight = 3

    def setUp(self) -> None:
        super().setUp()
        self.home = self.folder()

    def prints(self, text: str, *words: str) -> None:
        found = self.program.run("show", *words, folder=self.home)
        self.assert_ended(found, 0, text.encode(), b"", spoken(["show", *words]))

    def refuses(self, line: str, *words: str) -> None:
        found = self.program.run("show", *words, folder=self.home)
        self.assert_ended(found, 1, b"", f"{line}\n".encode(), spoken(["show", *words]))


class Rows(ShowCase):
    """What is printed of each kind, and each fault."""

    def test_frames(self) -> None:
        for what, text in FRAMES:
            self.prints(text, "frame", what)
            self.prints(text, "frame", "--show", what)
        for what, place, fault in FRAME_REFUSALS:
            self.refuses(f"frame refused at {place}: {fault}", "frame", what)
        self.assertEqual({fault for _, _, fault in FRAME_REFUSALS}, FRAME_FAULTS)

    def test_blocks(self) -> None:
        for what, text in BLOCKS:
            self.prints(text, "block", what)
            self.prints(text, "block", what, "--show")
        for what, place, fault in BLOCK_REFUSALS:
            self.refuses(f"block refused at {place}: {fault}", "block", what)
        self.assertEqual({fault for _, _, fault in BLOCK_REFUSALS}, BLOCK_FAULTS)

    def test_words_of_a_block(self) -> None:
        """Each value of the tables, and values beside them."""
        for name, at, table in (("usage", 5, USAGES), ("algorithm", 7, ALGORITHMS),
                                ("mode", 8, MODES), ("exportability", 11, EXPORTABILITIES)):
            others = ("10", "b0", "B9", "ZZ") if name == "usage" else ("0", "t", "z", "~")
            for value in (*table, *others):
                block = KEY_BLOCK[:at] + value + KEY_BLOCK[at + len(value) :]
                found = self.program.run("show", "block", block)
                self.assertEqual((found.status, found.faults), (0, b""), block)
                line = f"{name} {value} {table.get(value, 'unknown')}"
                self.assertIn(line.encode(), found.output.splitlines(), block)

    def test_an_image(self) -> None:
        """A new terminal, whose keys are printed where that is asked for alone."""
        lines = ["version 2", f"iksn {FIRST}", "next FFFF9876543210E00001"]
        fields = [f"register {place} {21 - place}" for place in range(21)]
        keys = [shown(key_of(bytes.fromhex(INITIAL), IKSN + (1 << place))) for place in range(21)]
        hidden = [*lines, *(f"{field} filled" for field in fields)]
        open_ = [*lines, *(f"{field} {key}" for field, key in zip(fields, keys))]
        for image in (shown(NEW_IMAGE), NEW_IMAGE.hex()):
            self.prints("".join(f"{it}\n" for it in hidden), "image", image)
            self.prints("".join(f"{it}\n" for it in open_), "image", image, "--show")
        old = shown(image_of(registers_at(bytes.fromhex(INITIAL), IKSN, 1), 1))
        self.prints("".join(f"{it}\n" for it in ["version 1", *hidden[1:]]), "image", old)

    def test_a_spent_image(self) -> None:
        """Of a terminal that was loaded before, twice."""
        past = (IKSN + 3 * SPENT, 0)
        image = image_of(Registers(IKSN, SPENT, (bytes(16),) * 21, past))
        lines = ["version 2", f"iksn {FIRST}", "next spent"]
        lines += [f"register {place} {21 - place} empty" for place in range(21)]
        lines += ["past FFFF9876543211400000", "past 00000000000000000000"]
        for words in ([], ["--show"]):
            self.prints("".join(f"{it}\n" for it in lines), "image", shown(image), *words)

    def test_refused_images(self) -> None:
        good, faults = NEW_IMAGE, set()
        old = image_of(registers_at(bytes.fromhex(INITIAL), IKSN, 1), 1)
        second = image_of(registers_at(bytes.fromhex(INITIAL), IKSN, 2))
        for image, place, fault in (
            (b"", 0, "Version"), (b"\x00" + good[1:], 0, "Version"),
            (b"\x03" + good[1:], 0, "Version"), (b"\x02", 1, "Length"),
            (good[:-1], IMAGE_2 - 1, "Length"), (good + b"\x00", IMAGE_2, "Length"),
            (good + bytes(9), IMAGE_2, "Length"), (b"\x01" + good[1:], IMAGE_1, "Length"),
            (b"\x02" + old[1:], IMAGE_1, "Length"), (old[:-3], IMAGE_1 - 3, "Length"),
            (good[:10] + b"\x01" + good[11:], 1, "Iksn"), (good[:8] + b"\xf0" + good[9:], 1, "Iksn"),
            (good[:11] + bytes(3) + good[14:], 11, "Counter"),
            (good[:11] + b"\x20\x00\x01" + good[14:], 11, "Counter"),
            (good[:11] + b"\x00\x07\xff" + good[14:], 11, "Counter"),
            (second[:14] + good[14:], 14, "Registers"),
            (good[:11] + b"\x20\x00\x00" + good[14:], 14, "Registers"),
            (good[:IMAGE_1] + b"\x09" + good[IMAGE_1 + 1 :], IMAGE_1, "Past"),
            (good[:IMAGE_1] + b"\x00" + b"\x01" + good[IMAGE_1 + 2 :], IMAGE_1, "Past"),
            (good[:-1] + b"\x01", IMAGE_1, "Past"),
            (good[:IMAGE_1] + b"\x01" + good[1:11] + bytes(70), IMAGE_1, "Past"),
            (good[:IMAGE_1] + b"\x02" + bytes(80), IMAGE_1, "Past"),
            (good[:IMAGE_1] + b"\x01" + bytes(9) + b"\x01" + bytes(70), IMAGE_1, "Past"),
        ):
            self.refuses(f"image refused at {place}: {fault}", "image", shown(image))
            faults.add(fault)
        for text, place in (("0", 1), ("02g", 2), (shown(good)[:-1], 2 * IMAGE_2 - 1), (" ", 0)):
            self.refuses(f"image refused at {place}: Hex", "image", text)
        self.assertEqual(faults | {"Hex"}, IMAGE_FAULTS)

    def test_logs(self) -> None:
        path = self.home / "log"
        one, other = IKSN, 7 * SPENT
        for numbers, room, text in (
            ([], 1, "numbers 0\nroom 1\n"),
            ([one], 0, f"numbers 1\nroom 0\nterminal {FIRST} 1 {FIRST} {FIRST}\n"),
            ([one + 5, other + 1, one + 1], 4,
             "numbers 3\nroom 4\nterminal FFFF9876543210E00000 2 FFFF9876543210E00005 "
             "FFFF9876543210E00001\nterminal 00000000000000E00000 1 00000000000000E00001 "
             "00000000000000E00001\n"),
            ([other, one], 1, f"numbers 2\nroom 1\nterminal 00000000000000E00000 1 00000000000000E00000 "
                              f"00000000000000E00000\nterminal {FIRST} 1 {FIRST} {FIRST}\n"),
        ):
            path.write_bytes(log_disk(numbers, room))
            self.prints(text, "log", "log")
            self.prints(text, "log", str(path), "--show")
        # Numbers of a host's log and of a ledger are not in one, nor is a counter of neither, nor one twice.
        for numbers, place in (
            ([one + 1, one + 1], 1), ([one, one], 1), ([one + 1, one], 1), ([one, one + 1], 1),
            ([one + 1, other + 1, one + 2, other + 1], 3), ([one, other, other, one], 2),
            ([one + 0x1FFFFF], 0), ([one + 1, one + 0x7FF], 1), ([one, one + 0x7FF], 1),
            ([one + 0x1FF800, one + 0x1FF801, one + 0x1FF800], 1),
        ):
            path.write_bytes(log_disk(numbers, 3))
            self.refuses(f"log refused at {place}: Damaged", "log", "log")
        whole = log_disk([one], 2)
        for data, place in (
            (b"", 0), (bytes(1), 0), (bytes(15), 0), (bytes(17), 1), (whole[:-1], 2),
            (whole + whole, 3), (bytes(32) + whole, 2), (bytes(16) + whole + bytes(1), 1),
            (whole[:11] + b"\x01" + whole[12:], 0), (whole[:15] + b"\x01" + whole[16:], 0),
        ):
            path.write_bytes(data)
            self.refuses(f"log refused at {place}: Damaged", "log", "log")
            self.assertEqual(path.read_bytes(), data)

    def test_logs_that_cannot_be_read(self) -> None:
        (self.home / "folder").mkdir()
        for name in ("missing", "folder", "", ".", "missing/log"):
            self.refuses("log: cannot read", "log", name)
        self.refuses("log refused at 0: Damaged", "log", "/dev/null")

    def test_logs_without_an_end(self) -> None:
        """What never ends is too long; one that fails before that cannot be read."""
        self.refuses("log: too long", "log", "/dev/zero")
        self.refuses("log: cannot read", "log", "/proc/self/mem")

    def test_a_pipe_as_a_log(self) -> None:
        """It is read to its end, however its bytes come."""
        os.mkfifo(self.home / "pipe")
        for data in (log_disk([IKSN + 1, IKSN + 2], 3), log_disk([IKSN], 1)[:-1], b""):
            writer = threading.Thread(target=write_bytes, args=(self.home / "pipe", data))
            writer.start()
            wanted = log_ended(data)
            found = self.program.run("show", "log", "pipe", folder=self.home)
            writer.join(SECONDS)
            self.assert_ended(found, wanted.status, wanted.output, wanted.faults, data.hex())

    def test_stored_logs(self) -> None:
        """The logs that `serve` is tried on: as a reader of their format has them."""
        for path in sorted((COMMANDS / "logs").glob("*.log")):
            wanted = log_ended(path.read_bytes())
            found = self.program.run("show", "log", path)
            self.assert_ended(found, wanted.status, wanted.output, wanted.faults, path.name)

    def test_kinds(self) -> None:
        for kind in ("", "x", "Frame", "frames", "frame ", "LOG", "@frame", "ledgers", "Ledger"):
            self.refuses("KIND refused", kind, REQUEST)
        self.refuses("WHAT: cannot read", "x", "@missing")

    def test_references(self) -> None:
        """WHAT of each kind; of a log it is the path that stands in the file."""
        (self.home / "it").write_text(f"{REQUEST}\nmore\n")
        self.prints(FRAMES[0][1], "frame", "@it")
        (self.home / "log").write_bytes(bytes(RECORD))
        (self.home / "it").write_text("log\r\n")
        self.prints("numbers 0\nroom 1\n", "log", "@it")

    def test_a_log_in_use(self) -> None:
        """It is read beside the service, which has it, and is left as it is."""
        (self.home / "log").write_bytes(log_disk([IKSN + 1], 3))
        with open(self.home / "log", "rb") as other:
            fcntl.flock(other, fcntl.LOCK_EX)
            self.prints("numbers 1\nroom 3\nterminal FFFF9876543210E00000 1 FFFF9876543210E00001 "
                        "FFFF9876543210E00001\n", "log", "log")


class Damaged:
    """Texts at random, whole ones and damaged ones."""

    def __init__(self, chance: random.Random) -> None:
        self.chance = chance

    def one_in(self, count: int) -> bool:
        return self.chance.randrange(count) == 0

    def written(self, data: bytes) -> str:
        """Bytes in digits of either case, now and then with a character that is none."""
        text = data.hex() if self.one_in(2) else shown(data)
        if self.one_in(10) and text:
            at = self.chance.randrange(len(text))
            text = self.chance.choice((text[:-1], text[:at] + self.chance.choice("g/:@`G\u00e9 ")
                                       + text[at + 1 :]))
        return text

    def changed(self, data: bytes, *places: int) -> bytes:
        """With a byte changed, mostly at one of these places, or cut, or with more behind."""
        way = self.chance.randrange(8)
        at = self.chance.choice([it for it in places if it < len(data)])
        if way == 2:
            at = self.chance.randrange(len(data))
        if way == 0:
            return data[: self.chance.randrange(len(data))]
        if way == 1:
            return data + self.chance.randbytes(self.chance.choice((1, 8, 16)))
        value = self.chance.choice((self.chance.randrange(256), data[at] ^ 1, 0, 1, 2))
        return data[:at] + bytes([value]) + data[at + 1 :]

    def serial(self) -> int:
        return self.iksn() + nth_counter(self.chance.randrange(NUMBERS))

    def iksn(self) -> int:
        return self.chance.randrange(1 << 59) * SPENT

    def numbers(self) -> tuple[int, int]:
        """Those of a reversal, and now and then two of which the first may not reverse the second."""
        serial = self.serial()
        other = self.chance.choice((self.serial(), serial, serial ^ 1 << self.chance.randrange(21)))
        first = serial - serial % SPENT + nth_counter(self.chance.randrange(NUMBERS))
        return serial, other if self.one_in(8) else first

    def frame(self) -> str:
        chance, key, serial = self.chance, self.chance.randbytes(16), self.serial()
        frame = chance.choice((
            lambda: write_request(key, serial, digits(chance, 12, 19), digits(chance, 4, 12),
                                  chance.randrange(1 << 32)),
            lambda: write_reply(key, serial, chance.choice(CODES)),
            lambda: write_reversal(key, *self.numbers()),
            lambda: write_reversal_reply(key, *self.numbers(), chance.choice(STATES)),
            lambda: write_refusal(chance.choice((serial, NO_NUMBER)), chance.choice(REASONS))))()
        if self.one_in(2):
            # At version, kind, number of digits, code or reason, digits or a state.
            changed = self.changed(frame[2:], 0, 1, 12, 12, 12, 13, 14, 22)
            # With the length of what it is now, or that of before.
            frame = (len(changed).to_bytes(2, "big") if self.one_in(2) else frame[:2]) + changed
        return self.written(frame)

    def optional(self) -> bytes:
        size = self.chance.choice((4, 5, 8, 20, 60))
        content = bytes(self.chance.choice(ONE_BYTE) for _ in range(size - 4))
        return b"%c%c%02X" % (self.chance.choice(b"KPT"), self.chance.choice(b"SBV"), size) + content

    def block(self) -> str:
        chance = self.chance
        fields = chance.choice(("B1TX00N", "P0TE00E", "B0TX00N", "".join(
            chance.choice(" ~0BPETXN19") for _ in range(7)))).encode()
        blocks = [self.optional() for _ in range(chance.choice((0, 0, 1, 2, 3)))]
        before = b"".join(blocks)
        # Filled up to whole blocks of sixteen.
        short = -len(before) % 16
        if short:
            short += 16 if short < 4 else 0
            blocks.append(b"PB%02X" % short + b"0" * (short - 4))
        before = b"".join(blocks)
        # Ciphertext and MAC, of which nothing is asked but that they are digits.
        rest = chance.randbytes(chance.choice((24, 32)) + 8).hex().upper().encode()
        text = header(fields, 16 + len(before) + len(rest), len(blocks)) + before + rest
        if self.one_in(2):
            at = chance.randrange(chance.choice((16, 40, len(text))))
            text = text[:at] + chance.choice((b"\x1f", b"0", b"9", b"g", b" ", b"F")) + text[at + 1 :]
        if self.one_in(8):
            text = self.changed(text, *range(5))
        return text.replace(b"\x00", b"0").decode("ascii", "replace")

    def image(self) -> str:
        chance, iksn = self.chance, self.iksn()
        counter = chance.choice((1, 2, SPENT, nth_counter(chance.randrange(NUMBERS))))
        past = tuple({self.iksn() for _ in range(chance.choice((0, 0, 1, 8)))} - {iksn})
        first = initial_key(chance.randbytes(16), iksn)
        registers = (Registers(iksn, SPENT, (bytes(16),) * 21, past) if counter == SPENT
                     else registers_at(first, iksn, counter, past))
        image = image_of(registers, chance.choice((1, 2, 2)))
        if self.one_in(2):
            image = self.image_changed(image)
        return self.written(image)

    def image_changed(self, image: bytes) -> bytes:
        """At one of its fields."""
        chance = self.chance
        at = chance.choice((0, chance.randrange(1, 11), chance.randrange(11, 14), 13,
                            chance.randrange(14, IMAGE_1), len(image) - 1,
                            min(IMAGE_1 + chance.randrange(12), len(image) - 1)))
        way = chance.randrange(8)
        if way == 0:
            return image[:at]
        if way == 1:
            return image + bytes(chance.choice((1, 81)))
        value = chance.choice((chance.randrange(256), image[at] ^ 1))
        return image[:at] + bytes([value]) + image[at + 1 :]

    def log(self) -> bytes:
        """Of a few terminals, with numbers in any order, or a ledger, and anything in closed records;
        now and then with a number that is of neither, of the other one, or there before."""
        chance, count = self.chance, self.chance.choice((0, 1, 5, 30))
        terminals = [self.iksn() for _ in range(chance.randint(1, 4))]
        numbers = [chance.choice(terminals) + nth_counter(chance.randrange(NUMBERS))
                   for _ in range(count)] if self.one_in(2) else [self.iksn() for _ in range(count)]
        if numbers and self.one_in(3):
            numbers[chance.randrange(count)] = chance.choice((
                chance.choice(numbers), self.iksn(), self.serial(),
                self.iksn() + chance.randrange(1 << 21)))
        data = log_disk(numbers, chance.choice((0, 1, 4)))
        if self.one_in(3):
            data += bytes([chance.choice((0, 2, 255))]) + chance.randbytes(15)
        if data and self.one_in(2):
            at = chance.choice((0, 0, 10, 11, 15)) + RECORD * chance.randrange(len(data) // RECORD)
            data = data[:at] + bytes([chance.choice((0, 1, 2))]) + data[at + 1 :]
        return data + bytes(1) if self.one_in(12) else data


class Random(ShowCase):
    """As a reader of the formats has them: each line, each fault and each place; and no secret that
    is not asked for."""

    weight = 25

    def play(self, kind: str, draw: Callable[[Damaged], str], faults: set[str]) -> None:
        tally, damaged = Counter[str](), Damaged(self.own_chance())
        with QuickRuns(self.program) as runs:
            for _ in range(self.share_of(CASES)):
                what, show = draw(damaged), damaged.one_in(2)
                if what.startswith(("-", "@")):
                    continue
                wanted = ended(kind, what, show)
                words = ["show", kind, what, *(["--show"] if show else [])]
                found = runs.run([word.encode() for word in words])
                self.assert_ended(found, wanted.status, wanted.output, wanted.faults, spoken(words))
                self.assertEqual(leaks(Case(words), found), [], spoken(words))
                tally[self.fault_of(found, kind) or "done"] += 1
        self.assertEqual(set(tally), faults | {"done"}, dict(tally))
        self.tells(", ".join(f"{name} {tally[name]}" for name in sorted(tally)))

    def fault_of(self, found: Ended, kind: str) -> Optional[str]:
        if found.status == 0:
            return None
        line = PLACES.fullmatch(found.faults)
        self.assertTrue(line and line[1] == kind.encode(), found.faults)
        return line[3].decode() if line else None

    def test_frames(self) -> None:
        self.play("frame", Damaged.frame, FRAME_FAULTS)

    def test_blocks(self) -> None:
        self.play("block", Damaged.block, BLOCK_FAULTS)

    def test_images(self) -> None:
        self.play("image", Damaged.image, IMAGE_FAULTS)

    def test_logs(self) -> None:
        """Damaged or not, the file is as before."""
        path, tally, damaged = self.home / "log", Counter[str](), Damaged(self.own_chance())
        with QuickRuns(self.program) as runs:
            for _ in range(self.share_of(CASES)):
                data = damaged.log()
                path.write_bytes(data)
                wanted, found = log_ended(data), runs.run([b"show", b"log", os.fsencode(path)])
                self.assert_ended(found, wanted.status, wanted.output, wanted.faults, data.hex())
                self.assertEqual(path.read_bytes(), data)
                tally[self.fault_of(found, "log") or "done"] += 1
        self.assertEqual(set(tally), {"Damaged", "done"}, dict(tally))
        self.tells(f"{dict(tally)}")

    def test_no_secret(self) -> None:
        """Without --show no sixteen bytes of an image's registers are printed."""
        for _ in range(20):
            iksn, first = Damaged(self.chance).iksn(), self.chance.randbytes(16)
            registers = registers_at(first, iksn, nth_counter(self.chance.randrange(NUMBERS)))
            found = self.program.run("show", "image", shown(image_of(registers)))
            self.assertEqual(found.status, 0)
            for key in filter(any, registers.keys):
                self.assertNotIn(shown(key).encode(), found.output)
            asked = self.program.run("show", "image", shown(image_of(registers)), "--show")
            for key in filter(any, registers.keys):
                self.assertIn(shown(key).encode(), asked.output)


class LostOutput(ShowCase):
    """Of a log with many terminals, whose lines are more than one write takes."""

    def test_many_terminals(self) -> None:
        numbers = [at * SPENT + 1 for at in range(1500)]
        (self.home / "log").write_bytes(log_disk(numbers, 1))
        wanted = log_ended((self.home / "log").read_bytes())
        self.assertEqual(self.program.run("show", "log", "log", folder=self.home), wanted)
        with open("/dev/full", "wb") as full:
            found = self.program.run("show", "log", "log", folder=self.home, output=full.fileno())
        self.assert_ended(found, 1, b"", b"write failed\n", "on /dev/full")
