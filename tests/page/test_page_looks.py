"""What the page shows of what is wrong: MACs that are others, PIN blocks of frames, key blocks of other
versions."""
from __future__ import annotations

from typing import Callable, Optional, Sequence

from ..support.commands.finding import keys_of_number
from ..support.formats.frames import (
    CODES, STATES, request_of_block, write_reply, write_request, write_reversal,
    write_reversal_reply)
from ..support.library.call_cases import Chance
from ..support.page.page_case import PageCase
from ..support.page.page_values import BASE, IKSN, upper
from ..support.standards.des import cbc_encrypt, encrypt_block
from ..support.standards.dukpt import derive, pin_key
from ..support.standards.macs import cmac, doubled, retail_mac
from ..support.standards.pin_blocks import pin_block
from .test_page_pin_fields import field_of, why_of, wrong_nibbles



def padded(message: bytes, method: int) -> bytes:
    """The message padded by a method of ISO 9797-1."""
    front = message + b"\x80" if method == 2 else message
    return front + bytes(-len(front) % 8)


class TestMacs(PageCase):
    """MACs that are compared, and what goes into them."""

    panel = "mac"

    def test_compared(self) -> None:
        """A MAC is told by its padding, whole, by its first four bytes, or that it is none."""
        self.set(mac_as_hexadecimal="chosen")
        chance = Chance(self.chance)
        for message in chance.bytes(60, *range(1, 40)):
            key = self.chance.randbytes(self.chance.choice((16, 16, 24)))
            macs = {"CMAC": cmac(key, message)}
            if len(key) == 16:
                macs["retail MAC with zeros as padding"] = retail_mac(key, message)
                macs["retail MAC with 80 00 ... as padding"] = retail_mac(key, padded(message, 2))
            self.set(mac_key=upper(key), mac_message=message.hex())
            name, mac = self.chance.choice(list(macs.items()))
            other = bytes([mac[7] ^ 1 << self.chance.randrange(8)])
            for given, words in (
                    (mac, f"It is the {name}."), (mac[:4], f"It is the first 4 bytes of the {name}."),
                    (mac[:7] + other, f"It is in its first 4 bytes alone the {name}."),
                    (mac[:4] + bytes(4), f"It is in its first 4 bytes alone the {name}."),
                    (mac[:3] + bytes([mac[3] ^ 1]) + mac[4:], None), (mac[4:], None)):
                self.set(mac_compare=given.hex(" "))
                found = self.text("mac-compared")
                if words:
                    self.assertEqual(found, words, f"{upper(given)} of {macs}")
                else:
                    self.assertIn("It is none of these MACs", found)
            self.assert_shown({"mac-retail-bit": upper(macs.get(
                "retail MAC with 80 00 ... as padding", b""))})
        self.set(mac_compare="")
        self.assert_shown({"mac-compared": "", "mac-compare-fault": ""})
        self.assert_quiet()

    def test_blocks(self) -> None:
        """The blocks that are shown are those that the MACs are made of."""
        self.set(mac_as_hexadecimal="chosen")
        for size in (0, 1, 7, 8, 9, 15, 16, 17, 63, 64, self.chance.randrange(18, 200)):
            for key in (self.chance.randbytes(16), self.chance.randbytes(24)):
                message = self.chance.randbytes(size)
                self.set(mac_key=upper(key), mac_message=upper(message))
                self.check_blocks(key, message)
        self.assert_quiet()

    def check_blocks(self, key: bytes, message: bytes) -> None:
        found = {name: self.blocks(name) for name in ("retail", "retail-bit", "cmac")}
        self.assertEqual(cbc_encrypt(key, bytes(8), found["cmac"])[-8:], cmac(key, message))
        self.assertEqual(found["cmac"][:-8], message[: len(found["cmac"]) - 8])
        is_whole = len(message) > 0 and len(message) % 8 == 0
        subkey = doubled(int.from_bytes(encrypt_block(key, bytes(8)), "big"))
        subkey = subkey if is_whole else doubled(subkey)
        line = self.browser.element("[data-subkey]").text
        self.assertIn(f"subkey K{1 if is_whole else 2}, {subkey:016X},", line)
        is_double = len(key) == 16
        self.assertEqual(found["retail"], padded(message, 1) if is_double else b"")
        self.assertEqual(found["retail-bit"], padded(message, 2) if is_double else b"")

    def blocks(self, name: str) -> bytes:
        return bytes.fromhex("".join(self.browser.run(
            "return [...document.querySelectorAll('#mac-blocks td.' + arguments[0])]"
            ".map((it) => it.textContent);", name)))

    def test_long(self) -> None:
        """Of a long message the blocks between the first and the last ones are counted."""
        self.set(mac_as_hexadecimal="chosen", mac_key=BASE, mac_message="AB" * 8 * 1000)
        rows = self.browser.run("return [...document.querySelectorAll('#mac-blocks tbody tr')].map("
                                "(it) => it.dataset.block || it.textContent);")
        self.assertEqual(rows, [*map(str, range(1, 32)), "968 blocks more", "1000", "1001"])


class TestFrames(PageCase):
    """Why the MAC of a frame is wrong, or its PIN block."""

    panel = "frame"

    def lines(self, frame: bytes) -> dict[str, Optional[str]]:
        """What stands below the fields of a frame, by its names."""
        self.set(frame_bytes=upper(frame))
        self.assertEqual(self.text("frame-bytes-fault"), "")
        return dict(self.browser.run(
            "return [...document.querySelectorAll("
            "'#frame-found :is([data-check], [data-value], [data-why])')].map((it) =>"
            " [it.dataset.check || it.dataset.value || 'why-' + it.dataset.why, it.textContent]);"))

    def test_macs(self) -> None:
        """Expected and found, and which other MAC the one found is."""
        chance = Chance(self.chance)
        kinds: Sequence[Callable[[bytes, int], bytes]] = (
            lambda key, serial: write_request(key, serial, "4012345678909", "1234", 1),
            lambda key, serial: write_reply(key, serial, self.chance.choice(CODES)),
            lambda key, serial: write_reversal(key, serial, serial ^ 1),
            lambda key, serial: write_reversal_reply(
                key, serial, serial ^ 1, self.chance.choice(STATES)))
        for number in chance.usables(40):
            serial = number | 2 if bin(number & 0x1FFFFF).count("1") < 9 else IKSN + 2
            base = self.chance.randbytes(16)
            own = derive(base, serial)
            self.set(frame_key_kind="bdk", frame_key=upper(base))
            place = self.chance.randrange(4)
            frame = kinds[place](own, serial)
            name, key = self.chance.choice(keys_of_number(own))
            wrong, words = self.chance.choice(self.others(frame, name, key))
            lines = self.lines(frame[:-8] + wrong)
            if wrong == frame[-8:]:
                self.assertEqual(lines["mac"], "MAC: right under the key of this number.")
                self.assertNotIn("expected", lines)
                continue
            use = ("request", "response")[place % 2]
            self.assertEqual(
                (lines["expected"], lines["found"], lines["why-mac"]),
                (f"Expected, the retail MAC under the {use} key: {upper(frame[-8:])}",
                 f"Found: {upper(wrong)}", words))
        self.assert_quiet()

    def others(self, frame: bytes, name: str, key: bytes) -> list[tuple[bytes, str]]:
        """MACs that a frame may have, and how each is told."""
        text, whole = frame[2:-8], frame[:-8]
        use = {"key": "transaction key", "pin": "PIN key", "request-mac": "request key (MAC)",
               "response-mac": "response key (MAC)", "request-data": "request key (data)",
               "response-data": "response key (data)"}[name]
        under = f"under the {use}"
        retail, bit = "retail MAC with zeros as padding", "retail MAC with 80 00 ... as padding"
        mac = retail_mac(key, text)
        return [
            (mac, f"The MAC found is the {retail}, {under}."),
            (retail_mac(key, padded(text, 2)), f"The MAC found is the {bit}, {under}."),
            (cmac(key, text), f"The MAC found is the CMAC, {under}."),
            (retail_mac(key, whole), f"The MAC found is the {retail}, {under}, made of the length too."),
            (cmac(key, whole), f"The MAC found is the CMAC, {under}, made of the length too."),
            (mac[:4] + bytes(4), f"The MAC found is in its first 4 bytes alone the {retail}, {under}."),
            (self.chance.randbytes(8), "No key of this number makes the MAC found: a byte of the frame"
             " was changed, or the number or the key for checks is another.")]

    def test_pins(self) -> None:
        """The PIN block of a request in clear, and which nibble of it is wrong."""
        pan = "4012345678909"
        self.set(frame_key_kind="bdk", frame_key=BASE)
        for serial in Chance(self.chance).usables(20):
            own = derive(bytes.fromhex(BASE), serial)
            for block in (pin_block("1234", "5105105105105100"), self.chance.getrandbits(64)):
                lines = self.lines(request_of_block(own, serial, pan, 1, block))
                field = field_of(block, pan)
                self.assertEqual(lines["mac"], "MAC: right under the key of this number.")
                self.assertEqual(
                    (lines.get("clear"), lines.get("why-pin")),
                    (f"PIN block in clear: {block:016X}",
                     why_of(block, field, wrong_nibbles(field))))
            lines = self.lines(write_request(own, serial, pan, "1234", 1))
            self.assertEqual(lines["pin"], "PIN: 1234")
            self.assertNotIn("clear", lines)
        hidden = encrypt_block(pin_key(own), pin_block("1234", pan).to_bytes(8, "big"))
        self.assertIn(upper(hidden), self.value("frame-bytes"))


class TestOtherVersions(PageCase):
    """Key blocks of versions that are not opened: their headers are read."""

    panel = "block"

    def assert_header(self, text: str, version: str, parts: Sequence[tuple[str, str]]) -> None:
        self.set(unwrap_text=text)
        self.assertEqual(self.text("unwrap-text-fault"),
                         f"This is version {version}. Its header is read, and it is not opened here.")
        self.assert_shown({"unwrap-key": "", "unwrap-kcv": "", "unwrap-mac": "",
                           "unwrap-kbpk-fault": ""})
        found = self.rows("#unwrap-parts tr", ["data-part", "class"], ["text"])
        self.assertEqual([it[0] for it in found if it[1] == "wrong"], ["version"])
        self.assertEqual([(it[0], it[2]) for it in found if it[0] not in (
            "version", "length", "reserved")], list(parts))

    def test_each(self) -> None:
        """Of any length, and with a protection key that is none of TDES."""
        for version, words in (("A", "A: variant binding, TDES"), ("C", "C: variant binding, TDES"),
                               ("D", "D: derivation binding, AES"),
                               ("E", "E: derivation binding, AES in counter mode (ISO 20038)")):
            rest = upper(self.chance.randbytes(self.chance.randrange(1, 300)))
            text = f"{version}{16 + len(rest):04}K1AB05S00" + "00" + rest
            header = [("usage", "K1"), ("algorithm", "A"), ("mode", "B"), ("key-version", "05"),
                      ("exportability", "S")]
            self.set(unwrap_kbpk=upper(self.chance.randbytes(32)))
            self.assert_header(text, words, [*header, ("count", "00"), ("rest", rest)])
            optional = ["KS18FFFF9876543210E00001", "CT00020120" + "M" * 278, "PB04"]
            text = text[:12] + "0300" + "".join(optional) + rest
            parts = [(f"optional-{at}", it) for at, it in enumerate(optional, 1)]
            self.assert_header(text, words, [*header, ("count", "03"), *parts, ("rest", rest)])
            # A fourth one, which is shorter than its own front.
            text = text[:12] + "0400" + "".join(optional) + "ZZ03" + rest
            self.assert_header(
                text, words, [*header, ("count", "04"), *parts, ("ciphertext", "ZZ03" + rest)])
        self.assert_quiet()

    def test_other_characters(self) -> None:
        """A block of no version of the standard is refused as before."""
        for version in ("F", "a", "d", "_", "0"):
            self.set(unwrap_text=version + "0080P0TE00E0000" + "0" * 64)
            self.assertIn("Character 0 is ", self.text("unwrap-text-fault"))
