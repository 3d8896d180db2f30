"""Faults on the page: each stands in words beside its field, and leaves no result of it behind."""
from __future__ import annotations

from dataclasses import dataclass
from typing import Sequence

from ..support.page.browser import BACKSPACE
from ..support.page.page_case import PageCase
from ..support.page.page_values import BASE, DERIVED, INITIAL, upper
from ..support.standards.key_blocks import header, sealed
from ..vectors.test_ciphers import vectors

NO_KEYS = ("", "0", BASE[:-1], BASE[:-2], BASE + "00", BASE[:-1] + "G", "é" * 32, BASE * 2)
NO_DOUBLE_KEYS = (*NO_KEYS, BASE + BASE[:16])
NO_NUMBERS = ("", "FFFF9876543210E0000", "FF9876543210E00001", "FFFF9876543210E000010",
              "FFFF9876543210E0000G", "FFFF9876543210E0000100")
NO_TRANSACTIONS = (*NO_NUMBERS, "FFFF9876543210E007FF", "FFFF9876543210FFFFFF")
NO_PINS = ("", "123", "1234567890123", "12a4", "12.4", "１２３４")
NO_PANS = ("", "40123456789", "40123456789012345678", "401234567890x", "４" * 13)
NO_BLOCKS = ("", "041274EDCBA987", "041274EDCBA9876F00", "041274EDCBA9876G")
MACS = ["mac-retail", "mac-retail-bit", "mac-cmac", "mac-blocks", "mac-compared"]
OPENED = ["open-clear", "open-pin", "open-field"]
COMPONENTS = [f"components-{it}" for it in ("key", "odd", "kcv", "cmac", "parity")]


@dataclass(frozen=True)
class Field:
    """A field, with a right value, wrong ones, and the results that depend on it."""

    name: str
    right: str
    wrong: Sequence[str]
    results: Sequence[str]


def fields(right: str, wrong: Sequence[str], results: Sequence[str], *names: str) -> list[Field]:
    return [Field(name, right, wrong, results) for name in names]


PIN_KEY = "042666B49184CF5C68DE9628D0397B36"
KEY = "042666B49184CFA368DE9628D0397BC9"
NUMBER, PIN, PAN = "FFFF9876543210E00001", "1234", "4012345678909"
PROTECTION, BLOCK, _, _ = next(vectors("key_blocks.txt"))
PLACED = ["tree-taken-number", "tree-taken-key", "tree-registers"]
UNWRAPPED = ["unwrap-key", "unwrap-kcv", "unwrap-cmac", "unwrap-mac"]
WRAPPED, MADE = ["wrap-text"], ["make-frame"]
# By panel. The switches are set so that each field is shown.
FIELDS = {
    "derive": [
        *fields(BASE, NO_DOUBLE_KEYS, [*DERIVED, "derive-steps"], "derive-bdk"),
        *fields(NUMBER, NO_NUMBERS, [*DERIVED, "derive-steps"], "derive-ksn"),
        *fields(NUMBER, NO_TRANSACTIONS, [*DERIVED[3:], "derive-steps"], "derive-ksn"),
    ],
    "tree": [
        *fields(BASE, NO_DOUBLE_KEYS, PLACED, "tree-bdk"),
        *fields(NUMBER, (*NO_TRANSACTIONS[1:], "FFFF9876543210E00000"), PLACED, "tree-ksn"),
        *fields("1", ("", "0", "1048576", "-1", "1.5", "x"), PLACED, "tree-place"),
    ],
    "pin": [
        *fields(PIN, NO_PINS, ["pin-pin-field", "pin-block", "pin-enciphered"], "pin-pin"),
        *fields(PAN, NO_PANS, ["pin-pin-field", "pin-account-field", "pin-block", "pin-enciphered"],
                "pin-pan"),
        *fields(PIN_KEY, NO_KEYS, ["pin-enciphered"], "pin-key"),
        *fields("1B9C1845EB993A7A", NO_BLOCKS, OPENED, "open-block"),
        *fields(PIN_KEY, NO_KEYS[1:], OPENED, "open-key"),
        *fields(PAN, NO_PANS, OPENED[1:], "open-pan"),
        *fields("1B9C1845EB993A7A", NO_BLOCKS, ["translate-result"], "translate-block"),
        *fields(PIN_KEY, NO_KEYS, ["translate-result"], "translate-from", "translate-to"),
    ],
    "block": [
        *fields(PROTECTION, NO_KEYS, UNWRAPPED, "unwrap-kbpk"),
        *fields(BLOCK, ("", "B", BLOCK[:-1], BLOCK + "00000000", "A" + BLOCK[1:], BLOCK[:-1] + "G"),
                UNWRAPPED, "unwrap-text"),
        *fields(PROTECTION, NO_KEYS, WRAPPED, "wrap-kbpk", "wrap-key"),
        *fields("P0", ("", "P", "P\x7f", "é"), WRAPPED, "wrap-usage"),
        *fields("00", ("", "0"), WRAPPED, "wrap-version"),
        *fields("T", ("", "é"), WRAPPED, "wrap-algorithm", "wrap-mode", "wrap-exportability"),
        *fields("A5A5A5A5A5A5", ("", "A5", "A5A5A5A5A5A", "A5A5A5A5A5G5", "00" * 300), WRAPPED,
                "wrap-padding"),
    ],
    "mac": [
        *fields(BASE, NO_KEYS, ["mac-kcv", "mac-key-cmac", *MACS], "mac-key"),
        *fields("4E6F", ("4", "4E6", "4G", "é"), MACS, "mac-message"),
        *fields("11" * 8, ("1", "11" * 3, "11" * 5, "11" * 9, "4G" * 4), ["mac-compared"],
                "mac-compare"),
    ],
    "frame": [
        *fields("000D0103FFFF9876543210E0000105", ("0", "00", "000D", "0G", "003F"),
                ["frame-found"], "frame-bytes"),
        *fields(BASE, NO_DOUBLE_KEYS[1:], ["frame-found"], "frame-key"),
        *fields(KEY, NO_DOUBLE_KEYS, MADE, "make-key"),
        *fields(NUMBER, NO_NUMBERS, MADE, "make-ksn"),
        *fields(PAN, NO_PANS, MADE, "make-pan"),
        *fields(PIN, NO_PINS, MADE, "make-pin"),
        *fields("1", ("", "-1", "4294967296", "1,5", "x"), MADE, "make-amount"),
    ],
    "cipher": [
        *fields(BASE, NO_KEYS, ["tdes-result"], "tdes-key"),
        *fields("11" * 8, NO_BLOCKS, ["tdes-result"], "tdes-iv"),
        *fields("11" * 16, (*NO_BLOCKS, "11" * 15), ["tdes-result"], "tdes-data"),
        *fields(BASE, NO_KEYS, [*COMPONENTS, "component-1-kcv"], "component-1"),
        *fields(BASE, NO_KEYS, [*COMPONENTS, "component-2-kcv"], "component-2"),
        *fields(BASE, NO_KEYS[1:], [*COMPONENTS, "component-3-kcv"], "component-3"),
    ],
}
# Of each value of a field: its fault and state, the texts of results, the faults of other fields,
# and the results that are empty and can be copied.
STATES = """
const [name, values, results] = arguments;
const field = document.getElementById(name);
const text = (it) => document.getElementById(it).textContent;
return values.map((value) => {
  field.value = value;
  field.dispatchEvent(new Event("input", { bubbles: true }));
  return { fault: text(name + "-fault"), invalid: field.getAttribute("aria-invalid"),
    described: (field.getAttribute("aria-describedby") || "").split(" ").includes(name + "-fault"),
    others: [...document.querySelectorAll("[id$=-fault]")].filter(
      (it) => it.textContent && it.id !== name + "-fault").map((it) => it.id),
    texts: results.map(text),
    copied: results.filter((it) => !text(it)
      && document.querySelector(`[data-copies="${it}"]:not(:disabled)`)) };
});"""


class TestFields(PageCase):
    def test_each(self) -> None:
        """Behind a right value a wrong one leaves no result; behind that the right one brings the
        results back."""
        self.unhook()
        self.set(mac_as_hexadecimal="chosen", tdes_mode="cbc")
        for field in sum(FIELDS.values(), []):
            self.set(**{field.name: field.right})
        for panel, panel_fields in FIELDS.items():
            self.show(panel)
            for field in panel_fields:
                self.check(field)
        self.assert_quiet()

    def check(self, field: Field) -> None:
        values = [field.right]
        for wrong in field.wrong:
            values += [wrong, field.right]
        right, *others = self.browser.run(STATES, field.name, values, field.results)
        self.assertEqual((right["fault"], right["invalid"], right["others"]), ("", None, []), field)
        shown = [text for name, text in zip(field.results, right["texts"]) if "taken" not in name]
        self.assertTrue(all(shown), f"{field.name}: {dict(zip(field.results, right['texts']))}")
        for wrong, found, again in zip(field.wrong, others[::2], others[1::2]):
            what = f"{field.name} is {wrong!r}"
            self.assertGreaterEqual(len(found["fault"].split()), 2, what)
            self.assertEqual(found["invalid"], "true", what)
            self.assertTrue(found["described"], what)
            self.assertEqual(found["others"], [], what)
            self.assertEqual(found["texts"], [""] * len(field.results), what)
            self.assertEqual(found["copied"], [], what)
            self.assertEqual(again, right, f"{what}, and then right again")

    def test_typed(self) -> None:
        """A digit too many, and one too few, each typed: the results go at once."""
        self.type("derive-ksn", NUMBER)
        for keys in ("0", BACKSPACE * 2):
            self.assertNotEqual(self.text("derive-transaction-key"), "")
            self.browser.press(*keys)
            self.assert_shown(dict.fromkeys(DERIVED, ""), keys)
            self.assertNotEqual(self.text("derive-ksn-fault"), "")
            self.type("derive-ksn", NUMBER)

    def test_other_source(self) -> None:
        """A switch to a wrong key of another kind leaves no result of the base derivation key, and a
        fault of the field that is hidden then does not stay."""
        self.set(derive_bdk=BASE, derive_ksn=NUMBER)
        for kind in ("initial", "transaction"):
            self.set(**{f"derive_from_{kind}": "chosen"})
            self.set(**{f"derive_{kind}": "12"})
            self.assert_shown(dict.fromkeys(DERIVED, ""))
            self.assertNotEqual(self.text(f"derive-{kind}-fault"), "")
            self.set(derive_from_bdk="chosen")
            self.assert_shown({"derive-initial-key": INITIAL, "derive-transaction-key": KEY,
                               f"derive-{kind}-fault": ""})


class TestKeyBlocks(PageCase):
    """Where the fault of a key block stands in its text."""

    panel = "block"

    def assert_damaged(self, text: str, first: int, last: int) -> None:
        self.set(unwrap_text=text)
        fault = self.browser.element("#unwrap-text-fault")
        words = self.text("unwrap-text-fault")
        found = fault.attribute("data-from"), fault.attribute("data-to")
        self.assertEqual(found, (str(first), str(last)), f"{text}: {words}")
        self.assert_shown(dict.fromkeys(UNWRAPPED, ""), text)
        for name, kind, places in self.rows(
                "#unwrap-parts tr", ["data-part", "class"], ["characters"]):
            at = [int(word) for word in places.split(" to ")]
            self.assertEqual(kind == "wrong", at[0] <= last and at[-1] >= first, f"{name}: {words}")

    def test_places(self) -> None:
        self.set(unwrap_kbpk=PROTECTION, unwrap_text=BLOCK)
        self.assertEqual(self.text("unwrap-text-fault"), "")
        last = len(BLOCK) - 1
        for at, character, first, end in (
                (0, "D", 0, 0), (4, "1", 1, 4), (1, "x", 1, 4), (6, "\x7f", 6, 6),
                (11, "\x1f", 11, 11), (12, "x", 12, 13), (13, "/", 12, 13), (16, "G", 16, 16),
                (40, "-", 40, 40),
                (last, "g", last, last), (20, "0", last - 15, last), (last, "0", last - 15, last),
                (5, "Q", last - 15, last)):
            self.assertNotEqual(BLOCK[at], character)
            self.assert_damaged(BLOCK[:at] + character + BLOCK[at + 1 :], first, end)
        for text in (BLOCK[:-8], BLOCK[:-2], BLOCK + "0" * 8, BLOCK[:5]):
            self.assert_damaged(text, 1, 4)
        self.assert_damaged(BLOCK[:4], 0, 3)
        self.assert_damaged(BLOCK[:12] + "01" + BLOCK[14:18] + "03" + BLOCK[20:], 16, last)
        self.set(unwrap_text=BLOCK)
        self.assertEqual(self.text("unwrap-text-fault"), "")

    def test_words(self) -> None:
        """Which rule a text breaks, in words without the names of the code."""
        self.set(unwrap_kbpk=PROTECTION)
        length = len(BLOCK)
        for text, words in (
                ("", "A key block is wanted, and here is nothing."),
                (BLOCK[:-2], f"The text has {length - 2} characters, and characters 1 to 4 say"
                 f" 00{length}: 2 missing. Characters 1 to 4 of {length - 2}."),
                (BLOCK + "0", f"The text has {length + 1} characters, and characters 1 to 4 say"
                 f" 00{length}: 1 too many. Characters 1 to 4 of {length + 1}."),
                ("B0010P0TE0", "The text has 10 characters, which is no multiple of 8."
                 " Characters 1 to 4 of 10."),
                ("B0016" + "0" * 11, "The text has 16 characters, and a key block has 80 to 512."
                 " Characters 1 to 4 of 16."),
                ("B00x0" + BLOCK[5:], "Characters 1 to 4 are 00x0, and no decimal length."
                 f" Characters 1 to 4 of {length}."),
                ("B00", "The text has 3 characters, and a key block has 80 at least."
                 " Characters 0 to 2 of 3."),
                (BLOCK.lower(), "Character 0 is b: a key block has capitals, and B is a version."
                 f" Character 0 of {length}."),
                ("F" + BLOCK[1:], "Character 0 is F, and no version of the standards: these are A to E."
                 f" Character 0 of {length}."),
                (BLOCK[:-1] + ("0" if BLOCK[-1] != "0" else "1"), "The MAC is another: the block was"
                 f" changed, or the protection key is another. Characters {length - 16} to"
                 f" {length - 1} of {length}.")):
            self.set(unwrap_text=text)
            self.assert_shown({"unwrap-text-fault": words}, text)

    def test_payload(self) -> None:
        """Under a right MAC a length that is no key's."""
        protection = self.chance.randbytes(16)
        text = sealed(protection, header(b"B0TX00N", 80), b"\x00\x40" + self.chance.randbytes(22))
        self.set(unwrap_kbpk=upper(protection))
        self.assert_damaged(text.decode(), 16, 63)
