"""The field of a PIN block, nibble by nibble: which of them are wrong, and what is likely."""
from __future__ import annotations

from typing import Any, Sequence

from ..support.library.call_cases import Chance
from ..support.page.page_case import PageCase
from ..support.page.page_values import upper
from ..support.standards import many
from ..support.standards.pin_blocks import account_field, pin_block, pin_in

CASES = 150
NO_PIN = "Under this key and PAN the block holds no PIN of format 0."
# What the panel shows of each block in clear under a PAN.
OPENED = """
const set = (name, value) => {
  const field = document.getElementById(name);
  field.value = value;
  field.dispatchEvent(new Event("input", { bubbles: true }));
};
const text = (name) => document.getElementById(name).textContent;
return arguments[0].map(([block, key, pan]) => {
  set("open-key", key); set("open-pan", pan); set("open-block", block);
  const rows = [...document.querySelectorAll("#open-field .nibbles tbody tr")];
  return {
    clear: text("open-clear"), pin: text("open-pin"), fault: text("open-block-fault"),
    why: text("open-why"),
    rows: rows.map((row) => [...row.cells].slice(1).map((it) => it.textContent).join("")),
    wrong: rows.length ? [...rows[2].cells].flatMap(
      (it, at) => it.className === "wrong" ? [at] : []) : [],
    parts: [...document.querySelectorAll("#open-field li")].map(
      (it) => [it.dataset.part, it.dataset.result === "bad", it.textContent]),
  };
});"""


def field_of(block: int, pan: str) -> str:
    return f"{block ^ account_field(pan):016X}"


def wrong_nibbles(field: str) -> list[int]:
    """The nibbles of a PIN field, counted from 1, that are not as ISO 9564-1 has them."""
    length = int(field[1], 16)
    wrong = [1] if field[0] != "0" else []
    if not 4 <= length <= 12:
        return [*wrong, 2]
    for at, nibble in enumerate(field[2:]):
        if nibble not in ("0123456789" if at < length else "F"):
            wrong.append(at + 3)
    return wrong


class TestPinFields(PageCase):
    """The PIN field of a block in clear."""

    panel = "pin"

    def opened(self, cases: Sequence[tuple[int, bytes, str]]) -> list[dict[str, Any]]:
        """What is shown of blocks in clear, which are given under keys."""
        hidden = many.encrypted([key for _, key, _ in cases],
                                [block.to_bytes(8, "big") for block, _, _ in cases])
        return self.browser.run(OPENED, [[upper(block), upper(key), pan] for block, (_, key, pan)
                                         in zip(hidden, cases)])

    def drawn(self, chance: Chance) -> tuple[int, str]:
        """A block that is right, or wrong in a way, or any; and a PAN."""
        [pin], [pan], [other] = chance.pins(1), chance.pans(1), chance.pans(1)
        block, bits = pin_block(pin, pan), self.chance.getrandbits
        return self.chance.choice((
            (block, pan), (block, other), (block ^ bits(4) << 4 * self.chance.randrange(16), pan),
            (block ^ bits(8) << 56, pan), (bits(56), pan), (bits(64), pan),
            (int(f"0{self.chance.choice('456789ABC')}", 16) << 56 | bits(56), pan)))

    def test_random(self) -> None:
        """A nibble is wrong exactly where the call refuses the block, and by the standard."""
        chance, refused = Chance(self.chance), 0
        drawn = [self.drawn(chance) for _ in range(3 * CASES * self.times)]
        cases = [(block, key, pan) for (block, pan), key in zip(
            drawn, chance.tdes_keys(len(drawn)))]
        for (block, _, pan), found in zip(cases, self.opened(cases)):
            field = field_of(block, pan)
            wrong = wrong_nibbles(field)
            what = f"{block:016X} of {pan}: {found}"
            pin = pin_in(block, pan)
            self.assertEqual(pin is None, bool(wrong), what)
            self.assertEqual((found["clear"], found["pin"], found["fault"]),
                             (f"{block:016X}", pin or "", NO_PIN if wrong else ""), what)
            self.assertEqual(found["rows"][:3],
                             [found["clear"], f"{account_field(pan):016X}", field], what)
            self.assertEqual(found["wrong"], wrong, what)
            self.assertEqual([it[1] for it in found["parts"]], bad_parts(field, wrong), what)
            self.assertEqual(bool(found["why"]), bool(wrong), what)
            if wrong:
                refused += 1
                self.assertEqual(found["why"], why_of(block, field, wrong), what)
        self.assertTrue(0 < refused < len(cases))
        self.assert_quiet()

    def test_by_hand(self) -> None:
        """Each part that may be wrong, in words."""
        pan, key = "4012345678909", bytes(range(16))
        account = account_field(pan)
        for field, words in (
                ("141234FFFFFFFFFF", "Nibble 1 is the control: 1, and that is of format 1,"),
                ("341234FFFFFFFFFF", "Nibble 1 is the control: 3, and that is of format 3,"),
                ("A41234FFFFFFFFFF", "Nibble 1 is the control: A, and no format of ISO 9564-1 has"),
                ("0E1234FFFFFFFFFF", "Nibble 2 is the length: E, and a PIN has 4 to 12 digits."),
                ("03123FFFFFFFFFFF", "Nibble 2 is the length: 3, and a PIN has 4 to 12 digits."),
                ("041A34FFFFFFFFFF", "Nibble 4 is a digit: A, and a digit of a PIN is decimal."),
                ("04123BFFFFFFFFFF", "Nibble 6 is a digit: B, and a digit of a PIN is decimal."),
                ("041234FFF1FFFFFE", "Nibble 10 is a filler: 1, and each filler is F."),
                ("0C123456789012F0", "Nibble 16 is a filler: 0, and each filler is F.")):
            block = int(field, 16) ^ account
            found, = self.opened([(block, key, pan)])
            self.assertEqual(found["why"][: len(words)], words)
            self.assertEqual(found["why"], why_of(block, field, wrong_nibbles(field)))
            self.assertEqual(found["rows"][2], field)
        found, = self.opened([(pin_block("1234", pan), key, pan)])
        self.assertEqual(found["parts"], [
            ["control", False, "C, control, nibble 1: 0: format 0"],
            ["length", False, "N, length, nibble 2: 4: a PIN of 4 digits"],
            ["digits", False, "P, digits, nibbles 3 to 6: 1234"],
            ["fillers", False, "F, fillers, nibbles 7 to 16: FFFFFFFFFF"]])
        self.assertEqual(found["rows"][3], "CNPPPPFFFFFFFFFF")

    def test_other_pan(self) -> None:
        """A block of another PAN is told as that, with the digits of that PAN."""
        chance, told = Chance(self.chance), 0
        count = CASES * self.times
        pins, pans, others = chance.pins(count), chance.pans(count), chance.pans(count)
        keys = chance.keys(count)
        cases = [(pin_block(pin, pan), key, other) for pin, pan, key, other in zip(
            pins, pans, keys, others)]
        for pin, pan, other, found in zip(pins, pans, others, self.opened(cases)):
            if found["pin"]:
                continue
            told += 1
            digits = f"{account_field(pan):012X}"[len(pin) - 2:]
            self.assertIn(f"another PAN is likely, or another key. The fillers fit a PAN with {digits}"
                          " before its check digit.", found["why"], f"{pin} {pan} {other}")
        self.assertGreater(told, count // 2)

    def test_wrong_fields(self) -> None:
        """Without a right PAN the block in clear stands, and nothing of its field; without a block
        nothing does."""
        self.set(open_key="", open_block="041274EDCBA9876F", open_pan="40123")
        self.assert_shown({"open-clear": "041274EDCBA9876F", "open-pin": "", "open-why": "",
                           "open-field": "", "open-block-fault": ""})
        self.assertNotEqual(self.text("open-pan-fault"), "")
        self.set(open_pan="4012345678917")
        self.assertNotEqual(self.text("open-field"), "")
        self.set(open_block="04")
        self.assert_shown(dict.fromkeys(["open-clear", "open-pin", "open-why", "open-field"], ""))


def bad_parts(field: str, wrong: Sequence[int]) -> list[bool]:
    """Which parts of a PIN field are wrong: control, length, digits, fillers."""
    length = int(field[1], 16)
    bad = [1 in wrong, 2 in wrong]
    if bad[1]:
        return [*bad, False]
    return [*bad, any(2 < it <= 2 + length for it in wrong), any(it > 2 + length for it in wrong)]


def why_of(block: int, field: str, wrong: Sequence[int]) -> str:
    """The first wrong nibble, and what is likely."""
    first, length = wrong[0], int(field[1], 16)
    digit = field[first - 1]
    if first == 1:
        format_ = (f"that is of format {digit}" if digit in "1234" else
                   "no format of ISO 9564-1 has that")
        words = f"the control: {digit}, and {format_}, and of format 0 it is 0"
    elif first == 2:
        words = f"the length: {digit}, and a PIN has 4 to 12 digits"
    elif first <= 2 + length:
        words = f"a digit: {digit}, and a digit of a PIN is decimal"
    else:
        words = f"a filler: {digit}, and each filler is F"
    return f"Nibble {first} is {words}. {cause_of(block, length, first)}"


def cause_of(block: int, length: int, first: int) -> str:
    if first < 5:
        return "The PAN has no part in this nibble: another key is likely, or another block."
    # Where the field has F, block and account field have each the other's bits turned over.
    count = 14 - length
    digits = f"{block & (1 << 4 * count) - 1 ^ (1 << 4 * count) - 1:0{count}X}"
    if not digits.isdecimal():
        return "No PAN makes these fillers right: another key is likely, or another block."
    return ("Control, length and the first two digits are right, and the account field covers the rest:"
            " another PAN is likely, or another key. The fillers fit a PAN with"
            f" {digits} before its check digit.")
