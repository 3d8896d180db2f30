"""What the page says of what it cannot know: whose a given transaction key is, and a PIN under a PAN that
may be another; and of frames with numbers that no transaction has."""
from __future__ import annotations

from ..support.commands.finding import keys_of_number
from ..support.formats.frames import (
    write_refusal, write_reply, write_request, write_reversal, write_reversal_reply)
from ..support.library.call_cases import Chance
from ..support.page.page_case import PageCase
from ..support.page.page_values import BASE, DERIVED, IKSN, INITIAL, check_values, upper
from ..support.standards.dukpt import derive, iksn_of, serial_text

PAN = "4012345678909"
# What stands below a frame's fields and above them: names, results and texts.
CHECKS = """
return [...document.querySelectorAll("#frame-found [data-check]")].map(
  (it) => [it.dataset.check, it.dataset.result ?? "", it.textContent]);"""
MANY_ONES = "its counter has {} one bits, more than ten"
ZERO = "its counter is zero, which names the initial key"


class TestFrames(PageCase):
    panel = "frame"

    def checks(self, frame: bytes) -> list[list[str]]:
        self.set(frame_bytes=upper(frame))
        self.assertEqual(self.text("frame-bytes-fault"), "")
        return self.browser.run(CHECKS)

    def frames(self, key: bytes, serial: int) -> list[bytes]:
        other = IKSN + 5
        return [write_request(key, serial, PAN, "1234", 3), write_reply(key, serial, "51"),
                write_reversal(key, serial, other), write_reversal_reply(key, serial, other, 1)]

    def test_given_key(self) -> None:
        """A frame with the number of one transaction under the key of another: the given key is not
        said to be the number's; keys that follow from the number are."""
        base, numbers = self.chance.randbytes(16), [IKSN + 1, IKSN + 3, IKSN + 0x100]
        own = derive(base, numbers[0])
        for serial in numbers:
            for frame in self.frames(own, serial):
                self.set(frame_key_kind="transaction", frame_key=upper(own))
                self.assertEqual(self.checks(frame)[0], [
                    "mac", "good", "MAC: right under the given transaction key; whether that is the"
                    f" key of {serial_text(serial)} is not known."])
                self.set(frame_key_kind="bdk", frame_key=upper(base))
                result, words = self.checks(frame)[0][1:]
                self.assertEqual(result, "good" if serial == numbers[0] else "bad")
                self.assertEqual(words == "MAC: right under the key of this number.",
                                 serial == numbers[0])
        self.assert_quiet()

    def test_no_transaction(self) -> None:
        """That no transaction has a frame's number is told first, as wrong; nothing of it is right."""
        many = IKSN + self.chance.choice((0xFFF, 0x1FFFFF, 0x7FF))
        for serial, why in ((IKSN, ZERO), (many, MANY_ONES.format(bin(many & 0x1FFFFF).count("1")))):
            wanted = ["number", "bad", f"No transaction has this number: {why}."]
            own = derive(bytes.fromhex(BASE), serial)
            for frame in self.frames(own, serial):
                for kind, key, under in (
                        ("bdk", BASE, "under the key of this number"),
                        ("initial", INITIAL, "under the key that the given initial key has for this"
                         f" counter; whether it is the initial key of {serial_text(IKSN)} is not known"),
                        ("transaction", upper(own), "under the given transaction key; whether that is"
                         f" the key of {serial_text(serial)} is not known")):
                    self.set(frame_key_kind=kind, frame_key=key)
                    right = ["mac", "", f"MAC: would be right {under}."]
                    self.assertEqual(self.checks(frame), [wanted, right])
                    wrong = frame[:-1] + bytes([frame[-1] ^ 1])
                    self.assertEqual(self.checks(wrong), [wanted, ["mac", "", "MAC: would be another."]])
                self.assertEqual(self.browser.run(
                    "return document.querySelector('#frame-found .frame').children[1].dataset.check;"),
                    "number")
                self.set(frame_key="")
                self.assertEqual(self.checks(frame), [wanted])
            self.assertEqual(self.checks(write_refusal(serial, 3)), [])
        for serial in Chance(self.chance).usables(5):
            self.set(frame_key_kind="bdk", frame_key=BASE)
            frame = write_reply(derive(bytes.fromhex(BASE), serial), serial, "00")
            self.assertEqual([it[0] for it in self.checks(frame)], ["mac"])
        self.assert_quiet()

    def test_pin(self) -> None:
        """Under a PIN stands that its digits rest on the PAN, and under no PIN."""
        words = "Its digits from the third on rest on the PAN"
        self.set(frame_key_kind="bdk", frame_key=BASE)
        own = derive(bytes.fromhex(BASE), IKSN + 1)
        self.checks(write_request(own, IKSN + 1, PAN, "1234", 1))
        self.assertIn(words, self.text("frame-found"))
        self.checks(write_reply(own, IKSN + 1, "00"))
        self.assertNotIn(words, self.text("frame-found"))
        self.show("pin")
        self.assertIn(words, self.text("open-rests"))
        self.set(open_block="00" * 8)
        self.assert_shown({"open-pin": "", "open-rests": ""})


class TestWords(PageCase):
    """Counts in words, and counts that are typed as they are shown."""

    panel = "tree"

    def test_counts(self) -> None:
        self.set(tree_place="1,048,575")
        self.assert_shown({
            "tree-place-fault": "", "tree-can":
            "The key of the last number, FFFF9876543210FFF800: it is in a register."})
        self.set(tree_place="2")
        self.assertRegex(self.text("tree-cannot"), "^The key of the one used number, and the initial key:")
        self.set(tree_place="3")
        self.assertRegex(self.text("tree-cannot"), "^The keys of the 2 used numbers, those of")
        for text in ("1048,575", "1,0485,75", ",1", "1,,048", "1,04"):
            self.set(tree_place=text)
            self.assertNotEqual(self.text("tree-place-fault"), "", text)
        self.set(tree_place="1,048,576")
        self.assert_shown({"tree-place-fault": "A whole number from 1 to 1,048,575 is wanted."})

    def test_empty_message(self) -> None:
        self.show("mac")
        self.set(mac_message="")
        self.assert_shown({"mac-note": "The message has 0 bytes. No retail MAC with zeros as padding:"
                           " an empty message has no block."})


class TestKeys(PageCase):
    """Keys and headers that are taken, and are doubtful."""

    def test_weak(self) -> None:
        """A key whose halves are the same, but for parity, is told in the working set."""
        words = ("Two parts that follow each other are the same: this key is no better than single"
                 " DES.")
        half = bytes(it ^ 1 for it in bytes.fromhex("0123456789ABCDEF"))
        for key, note in (("0123456789ABCDEF" * 2, words),
                          ("0123456789ABCDEF" + upper(half), words), (BASE, "")):
            self.set(set_key=key)
            self.assert_shown({"set-key-note": note})

    def test_header(self) -> None:
        """A block is made of any header that can be printed, with its doubts beside it."""
        self.show("block")
        usual = {"usage": "P0", "algorithm": "T", "mode": "E", "exportability": "E"}
        for changed, words in (
                ({}, ""), ({"mode": "B"}, ""), ({"usage": "M3", "mode": "G"}, ""),
                ({"usage": "B0", "mode": "X"}, ""), ({"usage": "E0", "mode": "X"}, ""),
                ({"usage": "zz"}, "The usage zz is none of the standard."),
                ({"usage": "M3"}, "A key of usage M3 makes or verifies values, which mode E does not"
                                  " allow."),
                ({"mode": "X"}, "A key of usage P0 enciphers, which mode X does not allow."),
                ({"mode": "V"}, "A key of usage P0 enciphers, which mode V does not allow."),
                ({"usage": "B0"}, "A key of usage B0 derives keys, which mode E does not allow."),
                ({"algorithm": "A"}, "The key is wrapped as one of TDES, and algorithm A is AES."),
                ({"exportability": "Q", "mode": "?"}, "The mode ? is none of the standard."
                 " The exportability Q is none of the standard.")):
            self.set(**{f"wrap-{name}": it for name, it in (usual | changed).items()})
            self.assert_shown({"wrap-doubts": words}, str(changed))
            self.assertNotEqual(self.text("wrap-text"), "")
        self.set(wrap_key="")
        self.assert_shown({"wrap-doubts": "", "wrap-text": ""})


class TestLook(PageCase):
    def test_tabs(self) -> None:
        """On a screen of 1280 px the tabs stand in one row, and the link beside them."""
        self.addCleanup(self.browser.resize, 1280, 900)
        self.browser.resize(1280, 900)
        places = self.browser.run(
            "return [...document.querySelectorAll('[role=tab], #link')].map("
            "(it) => Math.round(it.getBoundingClientRect().bottom / 10));")
        self.assertLessEqual(max(places) - min(places), 1, places)

    def test_scrolls(self) -> None:
        """Where the tree is wider than the screen, a sentence says that it scrolls."""
        self.addCleanup(self.browser.resize, 1280, 900)
        self.show("tree")
        for width, is_told in ((1280, False), (360, True)):
            self.browser.resize(width, 900)
            is_wide, is_shown = self.browser.run(
                "const it = document.querySelector('.scrolls'), box = it.nextElementSibling;"
                "return [box.scrollWidth > box.clientWidth, it.checkVisibility()];")
            self.assertEqual((is_wide, is_shown), (is_told, is_told), width)

    def test_no_empty_names(self) -> None:
        """Where there is no result, its name does not stand there either."""
        shown = ("return [...document.querySelectorAll('#panel-block dt, #panel-derive tbody th')]"
                 ".filter((it) => it.checkVisibility()).map((it) => it.textContent);")
        self.show("block")
        self.assertIn("MAC, verified", self.browser.run(shown))
        self.set(unwrap_text="B", wrap_key="")
        self.assertEqual(self.browser.run(shown), [])
        self.show("derive")
        self.assertEqual(len(self.browser.run(shown)), 7)
        self.set(derive_from_transaction="chosen")
        self.assertNotIn("initial key", self.browser.run(shown))


class TestDerive(PageCase):
    def test_data_keys(self) -> None:
        """The two keys for data, which the search tries too."""
        for serial in Chance(self.chance).usables(5):
            base = self.chance.randbytes(16)
            self.set(derive_bdk=upper(base), derive_ksn=serial_text(serial))
            keys = dict(keys_of_number(derive(base, serial)))
            for name in ("request-data", "response-data"):
                (wanted,) = check_values([keys[name]])
                self.assertEqual(
                    self.texts(*(f"derive-{name}-{it}" for it in ("key", "kcv", "cmac"))), wanted)

    def test_no_transaction(self) -> None:
        """A number of no transaction has an initial key all the same, and which rule it breaks is
        told."""
        front = DERIVED[:3]
        for serial in (IKSN + 0x7FF, IKSN + 0x1FFFFF):
            self.set(derive_ksn=serial_text(iksn_of(serial) + 1))
            wanted = self.texts(*front)
            self.set(derive_ksn=serial_text(serial))
            self.assertEqual(self.texts(*front), wanted)
            self.assertEqual(wanted[0], INITIAL)
            ones = bin(serial & 0x1FFFFF).count("1")
            self.assert_shown({**dict.fromkeys(DERIVED[3:], ""), "derive-steps": "",
                               "derive-ksn-fault": "No transaction has this number: "
                               + MANY_ONES.format(ones) + "."})
        self.show("tree")
        self.assertIn("has 21 one bits, more than ten", self.text("tree-ksn-fault"))
