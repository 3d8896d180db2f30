"""What is pasted into the page with dirt around it: it is read as the clean value, and a wrong
character is named by its code and its place."""
from __future__ import annotations

import unicodedata

from ..support.formats.frames import write_request
from ..support.library.call_cases import Chance
from ..support.page.browser import BACKSPACE
from ..support.page.page_paste import HYPHENS, LINES, SIGNS, SPACES, UNSEEN, PasteCase
from ..support.page.page_values import BASE, DERIVED, IKSN, INITIAL, derived, upper
from ..support.standards import many
from ..support.standards.dukpt import iksn_of
from ..support.standards.pin_blocks import pin_block
from ..vectors.test_ciphers import vectors
from .test_page_frames import READ, parts_of

CASES = 100
# Characters that are no digits and stand between none: letters, digits of other scripts, signs, and
# what is not seen by itself.
WRONG = ["G", "g", "z", "é", "Ж", "٣", "１", "漢", "\U0001F511", ".", "/", ";", "_", "+", "“", "–", "\\",
         "\u0301", "\x07", "\ue000"]
# The values of the working set as the page is opened, and what follows from them.
NUMBER, PIN, PAN = "FFFF9876543210E00001", "1234", "4012345678909"
PIN_KEY = "042666B49184CF5C68DE9628D0397B36"
KEY = next(vectors("dukpt.txt"))[1]
FILLED = "16 digits: filled with FFFF at the front"


def named(character: str) -> str:
    """How a fault calls a character: it is shown where it is seen by itself."""
    code = f"U+{ord(character):04X}"
    is_seen = unicodedata.category(character)[0] in "LNPS"
    return f"“{character}” ({code})" if is_seen else code


class TestDirt(PasteCase):
    def test_keys_and_numbers(self) -> None:
        chance, count = Chance(self.chance), CASES * self.times
        serials, keys = chance.usables(count), chance.keys(count)
        cases = [[self.dirty_hex(key), self.dirty_hex(serial.to_bytes(10, "big"))]
                 for key, serial in zip(keys, serials)]
        wanted = derived(many.initial_keys(keys, list(map(iksn_of, serials))), serials)
        self.assert_tried(["derive-bdk", "derive-ksn"], cases, DERIVED, wanted)
        self.assert_tried(["set-key", "set-ksn"], cases, DERIVED, wanted)
        self.assert_quiet()

    def test_pins(self) -> None:
        """Card numbers as they are printed, and PINs, with blanks and hyphens."""
        self.show("pin")
        chance, count = Chance(self.chance), CASES * self.times
        pins, pans = chance.pins(count), chance.pans(count)
        cases = [[self.dirty_digits(pin), self.dirty_digits(pan)] for pin, pan in zip(pins, pans)]
        cases.append(["12 34", "4012 3456 7890 9"])
        wanted = [[f"{pin_block(pin, pan):016X}"] for pin, pan in zip(pins, pans)]
        wanted.append([f"{pin_block(PIN, PAN):016X}"])
        self.assert_tried(["pin-pin", "pin-pan"], cases, ["pin-block"], wanted)

    def test_frames(self) -> None:
        """Frames with line ends between their bytes, as a log or a program in C has them."""
        self.show("frame")
        chance, count = Chance(self.chance), CASES * self.times
        keys, serials, pans, pins = (chance.keys(count), chance.usables(count), chance.pans(count),
                                     chance.pins(count))
        requests = many.requests(keys, serials, pans, pins, chance.numbers(count))
        texts = [self.dirty_hex(it, LINES) for it in requests]
        texts.append(", ".join(f"0x{byte:02x}" for byte in requests[0]) + ",\n")
        for request, text, (found, words, *_) in zip(
                [*requests, requests[0]], texts, self.browser.run(READ, texts)):
            self.assertEqual(words, "", repr(text))
            self.assertEqual([[row[:3] for row in it["rows"]] for it in found],
                             [parts_of(request, 0)], repr(text))

    def test_message(self) -> None:
        """A message in hexadecimal is cleaned, and one as text stays as it is."""
        self.show("mac")
        chance, count = Chance(self.chance), CASES * self.times
        keys, messages = chance.keys(count), chance.bytes(count, *range(1, 40))
        texts = [self.dirty_hex(it, LINES) for it in messages]
        for switch, read in (("mac-as-hexadecimal", messages),
                             ("mac-as-text", [it.replace("\r", "").encode() for it in texts])):
            self.click(switch)
            macs = [[upper(it)] for it in many.cmacs(keys, read)]
            self.assert_tried(["mac-key", "mac-message"],
                              list(zip(map(upper, keys), [it.replace("\r", "") for it in texts])),
                              ["mac-cmac"], macs)

    def test_key_block(self) -> None:
        """What is not seen in a key block goes with the line ends; a hyphen is a wrong digit."""
        self.show("block")
        protection, block, _, key = next(vectors("key_blocks.txt"))
        self.set(unwrap_kbpk=protection)
        for _ in range(20):
            at = sorted(self.chance.choices(range(len(block) + 1), k=4))
            pieces = [block[one:other] for one, other in zip([0, *at], [*at, len(block)])]
            text = self.chance.choice([*UNSEEN, "\n", "\r\n"]).join(pieces)
            self.set(unwrap_text=text)
            self.assert_shown({"unwrap-key": key, "unwrap-text-fault": ""}, repr(text))
        self.set(unwrap_text=block[:40] + "-" + block[41:])
        self.assertNotEqual(self.text("unwrap-text-fault"), "")

    def test_filled(self) -> None:
        """A number of 16 digits is that with FFFF before it, and the fields say so; typed on, the
        note goes."""
        key = derived([bytes.fromhex(INITIAL)], [IKSN + 1])[0][3]
        self.type("set-ksn", "98765432 10e00001")
        for panel, fields in (("derive", ("set-ksn", "derive-ksn")), ("frame", ("make-ksn",))):
            self.show(panel)
            for field in fields:
                self.assert_shown({f"{field}-note": FILLED, f"{field}-fault": ""})
        self.assert_shown({"derive-transaction-key": key})
        frame = write_request(bytes.fromhex(KEY), IKSN + 1, PAN, PIN, 1)
        self.assert_shown({"make-frame": upper(frame)})
        self.browser.element("#set-ksn").type("0")
        self.assertIn("17", self.text("set-ksn-fault"))
        self.assert_shown({"set-ksn-note": "", "make-frame": ""})
        self.browser.press(BACKSPACE)
        self.assert_shown({"make-frame": upper(frame), "set-ksn-note": FILLED})
        self.type("set-ksn", NUMBER)
        self.assert_shown({"make-frame": upper(frame), "set-ksn-note": "", "make-ksn-note": ""})


class TestWrong(PasteCase):
    """Each wrong character is named by itself, its code and its place from 1."""

    def check(self, field: str, text: str, place: int, name: str) -> None:
        wanted = f"No {name} digit: {named(text[place - 1])} at place {place}."
        self.set(**{field: text})
        self.assert_shown({f"{field}-fault": wanted}, repr(text))

    def spoiled(self, text: str, wrong: str) -> tuple[str, int]:
        """A text with a wrong character at a place at random, and the place from 1."""
        at = self.chance.randrange(len(text) + 1)
        return text[:at] + wrong + text[at:], at + 1

    def test_hexadecimal(self) -> None:
        for field, data in (("set-key", bytes.fromhex(BASE)), ("set-ksn", bytes.fromhex(NUMBER)),
                            ("pin-key", bytes.fromhex(PIN_KEY)), ("open-block", bytes(8)),
                            ("frame-bytes", bytes(13)), ("file-text", bytes(16))):
            for wrong in WRONG:
                text = self.dirty(upper(data), [*SPACES, *UNSEEN, *SIGNS])
                self.check(field, *self.spoiled(text, wrong), "hexadecimal")
        self.check("set-key", BASE + "zz", 33, "hexadecimal")
        self.check("set-key", "zz" + BASE, 1, "hexadecimal")
        self.assert_quiet()

    def test_decimal(self) -> None:
        for field, digits in (("set-pan", PAN), ("pin-pan", PAN), ("make-pan", PAN),
                              ("set-pin", PIN), ("open-pan", PAN), ("make-amount", "42")):
            for wrong in (*WRONG, "A", "f", ":", ","):
                between = SPACES + UNSEEN + (HYPHENS if "amount" not in field else [])
                self.check(field, *self.spoiled(self.dirty(digits, between), wrong), "decimal")
        self.check("make-amount", "-5", 1, "decimal")

    def test_prefix(self) -> None:
        """`0x` goes where a number or a byte begins, and nowhere else."""
        self.set(set_ksn="0xFFFF9876543210E00001")
        self.assert_shown({"set-ksn-fault": "", "derive-transaction-key": KEY})
        for text, place in (("FFFF0x9876543210E00001", 6), ("0x0xFFFF9876543210E00001", 4),
                            ("xFFFF9876543210E00001", 1), ("0x FFFF9876543210E00001x", 24)):
            self.check("set-ksn", text, place, "hexadecimal")

    def test_lengths(self) -> None:
        """Where all characters are digits, a fault says how many there are, without the dirt."""
        self.set(set_key="01:23:45 67", set_pan="4012-3456")
        self.assert_shown({"set-key-fault": "This key has 32 digits, and here are 8.",
                           "set-pan-fault": "A PAN has 12 to 19 digits."})
