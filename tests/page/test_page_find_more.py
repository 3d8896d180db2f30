"""The panel "Find the key" beyond the command `find`: other paddings, short MACs, and the way on."""
from __future__ import annotations

from ..commands.test_find import CLEAR, number_at
from ..support.commands.everyday import NUMBERS
from ..support.commands.finding import MOST_NUMBERS, keys_of_number
from ..support.page.page_finding import PAN, FindCase, of_ciphertext, of_mac, of_pin_block
from ..support.page.page_values import BASE, IKSN, upper
from ..support.standards.des import encrypt_block
from ..support.standards.dukpt import derive, serial_text
from ..support.standards.macs import cmac, retail_mac
from ..support.standards.pin_blocks import pin_block

TRIED = " Under each key was tried: {}."
MACS, MORE = "retail MAC, CMAC", "retail MAC, CMAC, retail MAC with 80 00 ... as padding"
SEARCHED = """
document.getElementById(arguments[0]).click();
while (document.getElementById("find-start").disabled) await new Promise((done) => setTimeout(done, 1));
return true;"""


class TestMacs(FindCase):
    def tick(self, is_wanted: bool) -> None:
        box = self.browser.element("#find-bit")
        if box.property("checked") != is_wanted:
            self.click("find-bit")

    def test_paddings(self) -> None:
        """With 80 00 as padding a MAC is found where that is asked for; each answer says what was
        tried."""
        for size in (1, 5, 7, 8, 9, 30):
            serial = number_at(self.chance.randrange(3))
            text = "".join(self.chance.choices("abc ", k=size))
            padded = text.encode() + b"\x80" + bytes(-(size + 1) % 8)
            name, key = self.chance.choice(keys_of_number(derive(bytes.fromhex(BASE), serial)))
            fields = {**of_mac(retail_mac(key, padded), text, False).fields, "find-bdk": BASE,
                      "find-begin": "first", "find-window": "5"}
            self.set(find_kind="mac")
            self.tick(False)
            found, = self.searched(fields)
            self.assertEqual(found[0], "")
            self.assertEqual(found[4], f"Not found: 5 numbers are tried, from {serial_text(IKSN + 1)}"
                             f" on.{TRIED.format(MACS)}")
            self.tick(True)
            self.assert_shown({"find-said": ""})
            found, = self.searched({})
            self.assertEqual((found[0], found[2], found[3]), (
                serial_text(serial), "retail MAC with 80 00 ... as padding", upper(key)), name)
            self.assertIn(TRIED.format(MORE), found[4])
        self.assert_quiet()

    def test_short(self) -> None:
        """The first four bytes of a MAC are enough, with a word about chance."""
        serial = number_at(4)
        key = dict(keys_of_number(derive(bytes.fromhex(BASE), serial)))["response-mac"]
        for make, way in ((retail_mac, "retail MAC"), (cmac, "CMAC")):
            mac = make(key, b"abc")
            for given, is_found in ((mac[:4], True), (mac, True), (mac[:4] + bytes(4), False),
                                    (mac[4:], False)):
                found, = self.searched({
                    **of_mac(given, "abc", False).fields, "find-bdk": BASE, "find-begin": "first",
                    "find-window": "8"})
                self.assertEqual(found[:3], [serial_text(serial), "response key (MAC)", way]
                                 if is_found else [""] * 3)
                self.assertEqual("by chance" in found[4], is_found and len(given) == 4)


class TestPin(FindCase):
    def test_shown(self) -> None:
        """The PIN of a block that is found is shown; of nothing else there is one."""
        serial, pin = number_at(2), "".join(self.chance.choices("0123456789", k=7))
        key = derive(bytes.fromhex(BASE), serial)
        block = encrypt_block(key, pin_block(pin, PAN).to_bytes(8, "big"))
        self.searched({**of_pin_block(block, PAN).fields, "find-bdk": BASE, "find-begin": "first"})
        self.assert_shown({"find-number": serial_text(serial), "find-pin": pin})
        shown = "return document.getElementById('find-pin').checkVisibility();"
        self.assertTrue(self.browser.run(shown))
        clear = bytes.fromhex(CLEAR)
        self.searched({**of_ciphertext(encrypt_block(key, clear), clear).fields})
        self.assert_shown({"find-number": serial_text(serial), "find-pin": ""})
        self.assertFalse(self.browser.run(shown))


class TestOn(FindCase):
    """The button that goes on behind the last number that was tried."""

    def on_is_shown(self) -> bool:
        return self.browser.run("return document.getElementById('find-on').checkVisibility();")

    def test_on(self) -> None:
        """Windows follow each other without a gap; the working set keeps its number."""
        clear, first = bytes.fromhex(CLEAR), self.chance.randrange(NUMBERS - 40)
        key = derive(bytes.fromhex(BASE), number_at(first + 11))
        self.assertFalse(self.on_is_shown())
        found, = self.searched({
            **of_ciphertext(encrypt_block(key, clear), clear).fields, "find-bdk": BASE,
            "find-begin": "number", "find-window": "4"})
        self.assertIn("Not found", found[4])
        self.browser.run("document.getElementById('find-ksn-hook').click();")
        before = self.value("set-ksn")
        self.searched({"find-ksn": serial_text(number_at(first))})
        for at in (4, 8):
            self.assertTrue(self.on_is_shown())
            self.browser.run_async(SEARCHED, "find-on")
            self.assertEqual((self.value("find-begin"), self.value("find-ksn")),
                             ("number", serial_text(number_at(first + at))))
        self.assert_shown({"find-number": serial_text(number_at(first + 11))})
        self.browser.run_async(SEARCHED, "find-on")
        self.assertEqual(self.value("find-ksn"), serial_text(number_at(first + 12)))
        self.assert_shown({"find-number": ""})
        self.assertEqual(self.value("set-ksn"), before)
        self.set(find_window="5")
        self.assertFalse(self.on_is_shown())
        self.assert_quiet()

    def test_hooked(self) -> None:
        """A search from the first number goes on; its field leaves the working set alone."""
        before = self.value("set-ksn")
        self.searched({"find-kind": "cipher", "find-hidden": "00" * 8, "find-begin": "first",
                       "find-window": "3"})
        self.browser.run_async(SEARCHED, "find-on")
        self.assertEqual((self.value("find-ksn"), self.value("set-ksn")),
                         (serial_text(number_at(3)), before))

    def test_end(self) -> None:
        """Behind the last number of a terminal there is no way on."""
        self.searched({
            "find-kind": "cipher", "find-hidden": "00" * 8, "find-begin": "number",
            "find-ksn": serial_text(number_at(NUMBERS - 3)), "find-window": str(MOST_NUMBERS)})
        self.assertFalse(self.on_is_shown())
        self.searched({"find-window": "2"})
        self.assertTrue(self.on_is_shown())
        self.browser.run_async(SEARCHED, "find-on")
        self.assertFalse(self.on_is_shown())
