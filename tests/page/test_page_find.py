"""The panel "Find the key": it finds what `find` finds, and nothing by wrong fields."""
from __future__ import annotations

from typing import Optional, Sequence

from ..commands.test_find import CLEAR, made_at, number_at
from ..support.commands.everyday import NUMBERS, nth_counter
from ..support.commands.finding import MOST_NUMBERS, keys_of_number
from ..support.formats.frames import write_refusal, write_reply, write_request
from ..support.library.call_cases import Chance
from ..support.page.page_finding import (
    PAN, FindCase, frames_of, line_by_model, made_by, of_ciphertext, of_frame, of_pin_block,
    with_mac_under)
from ..support.page.page_values import BASE, IKSN, INITIAL, upper
from ..support.standards.des import encrypt_block
from ..support.standards.dukpt import derive, initial_key, iksn_of, serial_text
from ..support.standards.pin_blocks import pin_block

CASES = 60
OTHER_PAN = "5105105105105100"


class TestFound(FindCase):
    def test_random(self) -> None:
        """Of each kind, by either key, from any number: the line of `find`, or nothing."""
        cases, lines, keys = [], [], []
        for at in range(CASES * self.times):
            case, line, key = self.drawn(at)
            cases.append(case)
            lines.append(line)
            keys.append(key)
        found = self.searched(*cases)
        self.assertEqual([self.line_of(it) for it in found], lines)
        self.assertEqual([it[3] for it in found],
                         [upper(key) if line else "" for key, line in zip(keys, lines)])
        self.assertTrue(10 < sum(map(bool, lines)) < len(lines))
        self.assert_quiet()

    def drawn(self, at: int) -> tuple[dict[str, str], Optional[str], bytes]:
        """The fields of a search, its line by the model, and the key that made what is sought."""
        chance, is_early = self.chance, self.chance.random() < 0.4
        base = chance.randbytes(16)
        serial = (iksn_of(chance.getrandbits(80)) + nth_counter(chance.randrange(15)) if is_early
                  else Chance(chance).usables(1)[0])
        iksn = iksn_of(serial)
        own = derive(base, serial)
        key = chance.choice(keys_of_number(own))[1]
        sought = made_by(chance, key, own, serial)[at % 5]
        window = str(chance.randrange(1, 16))
        fields = {**sought.fields, "find-window": window}
        if is_early and chance.random() < 0.8:
            first = None if sought.fields["find-kind"] == "frame" else iksn + 1
            fields.update({"find-begin": "first", "find-ksn": serial_text(
                iksn + chance.randrange(1 << 21))})
        else:
            first = max(iksn, serial - chance.randrange(16)) + chance.choice((0, 0, 0, 1))
            fields.update({"find-begin": "number", "find-ksn": serial_text(first)})
        is_initial = chance.random() < 0.5
        given = initial_key(base, iksn) if is_initial else base
        fields["find-from-initial" if is_initial else "find-from-bdk"] = "chosen"
        fields["find-initial" if is_initial else "find-bdk"] = given.hex()
        return fields, line_by_model(upper(given), sought, first, window, is_initial), key

    def test_each_key(self) -> None:
        """Each key of a number, and each way in which it makes something, is found."""
        number = number_at(self.chance.randrange(NUMBERS - 10))
        own = derive(bytes.fromhex(BASE), number)
        cases, wanted = [], []
        for name, key in keys_of_number(own):
            for sought, way in zip(made_by(self.chance, key, own, number),
                                   (" retail", " retail", " cmac", "", "")):
                cases.append({**sought.fields, "find-bdk": BASE, "find-begin": "number",
                              "find-ksn": serial_text(number), "find-window": "1"})
                wanted.append((f"found {serial_text(number)} {name}{way}", upper(key)))
        found = self.searched(*cases)
        self.assertEqual([(self.line_of(it), it[3]) for it in found], wanted)

    def test_each_frame(self) -> None:
        """A frame of each kind is found, from the first number of its own terminal on: here under an
        earlier number than its own."""
        base = bytes.fromhex(BASE)
        maker, number = number_at(self.chance.randrange(9)), number_at(10)
        frames = frames_of(self.chance, derive(base, number), number)
        made = frames_of(self.chance, derive(base, maker), number)
        uses = ["request-mac", "response-mac"] * 2
        for key, these in ((number, frames), (maker, [
                with_mac_under(it, dict(keys_of_number(derive(base, maker)))[use])
                for it, use in zip(made, uses)])):
            found = self.searched(*({**of_frame(it).fields, "find-bdk": BASE, "find-begin": "first",
                                     "find-window": "11"} for it in these))
            self.assertEqual([self.line_of(it) for it in found],
                             [f"found {serial_text(key)} {use} retail" for use in uses])

    def test_each_pin(self) -> None:
        """A PIN block with a PIN of each length is found."""
        number = number_at(self.chance.randrange(NUMBERS - 10))
        name, key = self.chance.choice(keys_of_number(derive(bytes.fromhex(BASE), number)))
        cases = []
        for length in range(4, 13):
            pin = "".join(self.chance.choices("0123456789", k=length))
            block = encrypt_block(key, pin_block(pin, PAN).to_bytes(8, "big"))
            cases.append({**of_pin_block(block, PAN).fields, "find-bdk": BASE, "find-window": "1",
                          "find-begin": "number", "find-ksn": serial_text(number)})
        self.assertEqual([self.line_of(it) for it in self.searched(*cases)],
                         [f"found {serial_text(number)} {name}"] * 9)

    def test_each_window(self) -> None:
        """A number is found where it is among so many, and not where it is the next one."""
        first = self.chance.randrange(NUMBERS - 10)
        for window in range(1, 7):
            (what, _, clear), line = made_at(first + window - 1, "clear")
            fields = {**of_ciphertext(bytes.fromhex(what), bytes.fromhex(clear)).fields,
                      "find-bdk": BASE, "find-begin": "number",
                      "find-ksn": serial_text(number_at(first))}
            found = self.searched({**fields, "find-window": str(window)},
                                  {**fields, "find-window": str(window - 1 or 1),
                                   **({} if window > 1 else {"find-clear": "00" * 8})})
            self.assertEqual([self.line_of(it) for it in found], [line.strip(), None])

    def test_most_numbers(self) -> None:
        """The last of 100,000 numbers is found."""
        first = self.chance.randrange(NUMBERS - MOST_NUMBERS)
        (what, _, clear), line = made_at(first + MOST_NUMBERS - 1, "clear")
        fields = {**of_ciphertext(bytes.fromhex(what), bytes.fromhex(clear)).fields,
                  "find-bdk": BASE, "find-begin": "number", "find-ksn": serial_text(number_at(first))}
        found, = self.searched({**fields, "find-window": "100000"})
        self.assertEqual(self.line_of(found), line.strip())
        self.assertEqual(found[5], "100,000 of 100,000 numbers tried")

    def test_last_of_a_terminal(self) -> None:
        """Behind the last number of a terminal there is none."""
        (what, _, clear), line = made_at(NUMBERS - 1, "clear")
        fields = {**of_ciphertext(bytes.fromhex(what), bytes.fromhex(clear)).fields,
                  "find-bdk": BASE, "find-begin": "number", "find-window": "100000"}
        found = self.searched(
            {**fields, "find-ksn": serial_text(number_at(NUMBERS - 200))},
            {**fields, "find-clear": "00" * 8},
            {**fields, "find-ksn": serial_text(IKSN + 0x1FFFFF)})
        self.assertEqual([self.line_of(it) for it in found], [line.strip(), None, None])
        self.assertEqual([it[5] for it in found], [
            "200 of 100,000 numbers tried", "200 of 100,000 numbers tried", ""])


class TestFields(FindCase):
    """Which fields a search has, and what is wrong with them."""

    def assert_refused(self, field: str, values: Sequence[str], right: str) -> None:
        """That a search is offered with the right value, and not with the others."""
        for value in values:
            for text, is_right in ((value, False), (right, True)):
                self.set(**{field: text})
                found = self.browser.run(
                    "const it = document.getElementById(arguments[0] + '-fault');"
                    "return [it.textContent.split(' ').length > 1,"
                    " document.getElementById('find-start').disabled,"
                    " document.querySelectorAll('#panel-find [aria-invalid]').length];", field)
                self.assertEqual(found, [not is_right, not is_right, int(not is_right)],
                                 f"{field} is {text!r}: {self.text(field + '-fault')}")

    def test_wrong(self) -> None:
        request = write_request(bytes.fromhex(INITIAL), IKSN + 1, PAN, "1234", 1)
        reply = write_reply(bytes.fromhex(INITIAL), IKSN + 1, "00")
        self.set(find_kind="frame", find_begin="first", find_frame=upper(request))
        self.assert_refused("find-frame", [
            "", "00", "0", "0G", upper(request[:-1]), upper(request + b"\0"),
            upper(reply + request), upper(write_refusal(IKSN + 1, 5)),
            upper(reply[:15] + b"1" + reply[16:])], upper(request))
        self.assert_refused("find-bdk", ["", BASE[:-1], BASE + "00", "x"], BASE)
        self.assert_refused("find-window", ["", "0", "100001", "-1", "1.5", "x"], "100000")
        self.set(find_kind="mac", find_mac="00" * 8, find_message="a")
        self.assert_refused("find-mac", ["", "00" * 7, "00" * 9, "x"], "11" * 8)
        self.assert_refused("find-message", ["", "a" * 4097], "b" * 4096)
        self.set(find_as_hexadecimal="chosen", find_message="61")
        self.assert_refused("find-message", ["", "6", "x"], "62")
        self.set(find_kind="pin", find_block="00" * 8, find_pan=PAN)
        self.assert_refused("find-block", ["", "00" * 7, "x"], "11" * 8)
        self.assert_refused("find-pan", ["", "1" * 11, "1" * 20, "401234567890x"], OTHER_PAN)
        self.set(find_kind="cipher", find_hidden="00" * 8, find_clear=CLEAR)
        self.assert_refused("find-hidden", ["", "00" * 7, "x"], "11" * 8)
        self.assert_refused("find-clear", ["", "00" * 9, "x"], "11" * 8)
        self.assert_refused("find-ksn", ["", "00" * 9, "x"], serial_text(IKSN))
        self.set(find_from_initial="chosen")
        self.assert_refused("find-initial", ["", BASE[:-1], "x"], BASE)
        self.assert_quiet()

    def test_shown(self) -> None:
        """Each kind has its own fields; a frame has a number of its own."""
        own = {"frame": {"find-frame"}, "mac": {"find-mac", "find-message"},
               "pin": {"find-block", "find-pan"}, "cipher": {"find-hidden", "find-clear"}}
        for kind, names in own.items():
            for begin in ("first", "number"):
                self.set(find_kind=kind, find_begin=begin)
                shown = set(self.browser.run(
                    "return [...document.querySelectorAll('#panel-find .field :is(input, textarea)')]"
                    ".filter((it) => it.checkVisibility()).map((it) => it.id);"))
                number = set() if (kind, begin) == ("frame", "first") else {"find-ksn"}
                self.assertEqual(shown, {"find-bdk", "find-window", *names, *number})
                self.assertEqual(self.browser.run(
                    "return document.getElementById('find-as').checkVisibility();"), kind == "mac")

    def test_use_number(self) -> None:
        """The button behind a result gives its number to the working set; without one there is none."""
        number = number_at(5)
        frame = write_reply(derive(bytes.fromhex(BASE), number), number, "51")
        shown = "return document.getElementById('find-use').checkVisibility();"
        self.assertFalse(self.browser.run(shown))
        self.browser.run("window.given = []; document.addEventListener("
                         "'set-ksn', (event) => window.given.push(event.detail));")
        self.searched({**of_frame(frame).fields, "find-bdk": BASE, "find-begin": "first"})
        self.click("find-use")
        self.assertEqual(self.browser.run("return window.given;"), [serial_text(number)])
        self.assertEqual(self.value("set-ksn"), serial_text(number))
        self.assertEqual(self.text("find-number"), serial_text(number))
        self.set(find_window="4")
        self.assertFalse(self.browser.run(shown))

    def test_from_a_frame(self) -> None:
        """The panel of frames hands on a frame whose MAC is wrong, and the key for checks."""
        number, other = number_at(4), number_at(9)
        request = write_request(derive(bytes.fromhex(BASE), number), number, PAN, "1234", 1)
        wrong = with_mac_under(request, keys_of_number(derive(bytes.fromhex(BASE), other))[3][1])
        for kind, key in (("bdk", BASE), ("initial", INITIAL)):
            self.show("frame")
            self.set(frame_key_kind=kind, frame_key=key, frame_bytes=upper(request + wrong))
            self.click(f"frame-find-{len(request)}")
            self.assertTrue(self.browser.run(
                "return document.getElementById('panel-find').checkVisibility();"))
            found = self.searched({})[0]
            self.assertEqual(self.line_of(found), f"found {serial_text(other)} response-mac retail")
        self.show("frame")
        self.set(frame_key_kind="transaction")
        self.assertEqual(self.browser.run(
            "return document.querySelectorAll('[id^=frame-find-]').length;"), 0)
