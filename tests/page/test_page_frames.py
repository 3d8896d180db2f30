"""The panel "Frames and files": frames and files read, whole and damaged, and frames made."""
from __future__ import annotations

from typing import Any, Sequence

from ..support.formats.frames import (
    CODES, REASONS, STATES, bytes_of, reverses, write_refusal, write_reply, write_request,
    write_reversal, write_reversal_reply)
from ..support.formats.images import image_of
from ..support.formats.log_file import log_image, record
from ..support.library.call_cases import Chance
from ..support.page.page_case import PageCase
from ..support.page.page_values import BASE, IKSN, INITIAL, upper
from ..support.standards import many
from ..support.standards.dukpt import (
    COUNTER_BITS, Registers, counter_of, held, iksn_of, registers_at, serial_text)
from ..vectors.test_ciphers import vectors

CASES = 100
# Of each frame that is shown its kind, its rows, and its checks.
FRAMES = """
return [...document.querySelectorAll("#frame-found section[data-kind]")].map((it) => ({
  kind: it.dataset.kind,
  rows: [...it.querySelectorAll("tr[data-part]")].map((row) => [row.dataset.part,
    ...["bytes", "text", "meaning"].map((name) => row.querySelector("." + name).textContent)]),
  checks: Object.fromEntries([...it.querySelectorAll("[data-check]")].map(
    (check) => [check.dataset.check, [check.dataset.result, check.textContent]])),
}));"""
# The same behind each text in the field.
READ = """
const field = document.getElementById("frame-bytes");
return arguments[0].map((text) => {
  field.value = text;
  field.dispatchEvent(new Event("input", { bubbles: true }));
  const fault = document.getElementById("frame-bytes-fault");
  return [(() => { %s })(), fault.textContent, fault.dataset.from, fault.dataset.to];
});""" % FRAMES
KEYS = [bytes.fromhex(key) for _, key in vectors("dukpt.txt")]
SERIALS = [int(number, 16) for number, _ in vectors("dukpt.txt")]
STATE_WORDS = {0: "state 00: none stands", 1: "state 01: undone"}


def places(at: int, length: int) -> str:
    return str(at) if length == 1 else f"{at} to {at + length - 1}"


def parts_of(frame: bytes, at: int) -> list[list[str]]:
    """The parts of a right frame that stands at this place: name, bytes, and the bytes' text."""
    lengths = [("length", 2), ("kind", 2), ("ksn", 10)]
    if frame[3] == 1:
        lengths += [("count", 1), ("pan", frame[14]), ("amount", 4), ("block", 8), ("mac", 8)]
    elif frame[3] == 2:
        lengths += [("code", 2), ("mac", 8)]
    elif frame[3] == 3:
        lengths += [("reason", 1)]
    elif frame[3] == 4:
        lengths += [("reversed", 10), ("mac", 8)]
    else:
        lengths += [("reversed", 10), ("state", 1), ("mac", 8)]
    parts, here = [], 0
    for name, length in lengths:
        parts.append([name, places(at + here, length), upper(frame[here : here + length])])
        here += length
    return parts


class FrameCase(PageCase):
    panel = "frame"

    def read(self, texts: Sequence[str]) -> list[list[Any]]:
        return self.browser.run(READ, texts)

    def assert_damaged(self, data: bytes, first: int, last: int, frames: int = 0) -> None:
        """That bytes are refused with this range, behind so many whole frames."""
        found, words, *place = self.read([upper(data)])[0]
        self.assertEqual(place, [str(first), str(last)], f"{upper(data)}: {words}")
        self.assertNotEqual(words, "")
        self.assertEqual(len(found), frames)


class TestFrames(FrameCase):
    def test_documented(self) -> None:
        """The frames of docs/FORMATS.md, typed; their parts, meanings and checks."""
        request = write_request(KEYS[0], SERIALS[0], "4012345678909", "1234", 1)
        reply = write_reply(KEYS[0], SERIALS[0], "00")
        refusal = write_refusal(SERIALS[0], 5)
        self.set(frame_key=BASE, frame_key_kind="bdk")
        self.type("frame-bytes", upper(request) + "\n" + upper(reply + refusal))
        first, second, third = self.browser.run(FRAMES)
        self.assertEqual([it["kind"] for it in (first, second, third)],
                         ["request", "reply", "refusal"])
        self.assertEqual(first["checks"]["mac"][0], "good")
        self.assertEqual(first["checks"]["pin"], ["good", "PIN: 1234"])
        self.assertEqual({name: it[0] for name, it in second["checks"].items()}, {"mac": "good"})
        self.assertEqual(third["checks"], {})
        meanings = [{name: meaning for name, _, _, meaning in it["rows"]}
                    for it in (first, second, third)]
        self.assertIn("4012345678909", meanings[0]["pan"])
        self.assertIn("amount 1,", meanings[0]["amount"])
        self.assertIn("approved", meanings[1]["code"])
        self.assertIn("used", meanings[2]["reason"])
        at = 0
        for frame, shown in zip((request, reply, refusal), (first, second, third)):
            self.assertEqual([it[:3] for it in shown["rows"]], parts_of(frame, at))
            at += len(frame)
        self.assert_quiet()

    def test_random(self) -> None:
        """Frames at random, under each kind of key; with a MAC that is not theirs too."""
        chance, count = Chance(self.chance), CASES * self.times
        keys, serials = chance.keys(count), chance.usables(count)
        pans, pins, amounts = chance.pans(count), chance.pins(count), chance.numbers(count)
        codes = [self.chance.choice(CODES) for _ in range(count)]
        initials = many.initial_keys(keys, list(map(iksn_of, serials)))
        own = many.transaction_keys(initials, serials)
        requests = many.requests(own, serials, pans, pins, amounts)
        replies = many.replies(own, serials, codes)
        given = {"bdk": keys, "initial": initials, "transaction": own}
        for at, (request, reply) in enumerate(zip(requests, replies)):
            kind = self.chance.choice(list(given))
            self.set(frame_key_kind=kind, frame_key=upper(given[kind][at]))
            wrong = self.chance.random() < 0.3
            shown_request = spoil_mac(request) if wrong else request
            shown_reply = spoil_mac(reply) if wrong else reply
            both = shown_request + shown_reply
            found, words, *_ = self.read([both.hex(" ")])[0]
            self.assertEqual(words, "")
            result = "bad" if wrong else "good"
            self.assertEqual([it["checks"]["mac"][0] for it in found], [result] * 2)
            self.assertEqual(found[0]["checks"]["pin"], ["good", f"PIN: {pins[at]}"])
            self.assertEqual([it[:3] for it in found[0]["rows"]], parts_of(shown_request, 0))
            self.assertEqual([it[:3] for it in found[1]["rows"]],
                             parts_of(shown_reply, len(request)))
            meanings = {name: meaning for name, _, _, meaning in found[0]["rows"]}
            self.assertIn(f"amount {amounts[at]},", meanings["amount"])

    def test_reversals_by_hand(self) -> None:
        """A reversal and its reply, byte by byte: parts, meanings and checks."""
        number, other = "FFFF9876543210E00002", "FFFF9876543210E00001"
        front = f"001E0104{number}{other}", f"001F0105{number}{other}01"
        reversal = write_reversal(KEYS[1], SERIALS[1], SERIALS[0])
        reply = write_reversal_reply(KEYS[1], SERIALS[1], SERIALS[0], 1)
        self.assertEqual((upper(reversal[:-8]), upper(reply[:-8])), front)
        self.set(frame_key=BASE, frame_key_kind="bdk")
        found, words, *_ = self.read([upper(reversal + reply)])[0]
        self.assertEqual((words, [it["kind"] for it in found]), ("", ["reversal", "reversal-reply"]))
        meanings = [[meaning for *_, meaning in it["rows"]] for it in found]
        numbers = ["key serial number", "key serial number that is reversed"]
        self.assertEqual(meanings[0], ["30 bytes of contents", "version 1, kind 4: reversal", *numbers,
                                       "retail MAC under the request key"])
        self.assertEqual(meanings[1], [
            "31 bytes of contents", "version 1, kind 5: reversal's reply", *numbers,
            "state 01: undone", "retail MAC under the response key"])
        right = {"mac": ["good", "MAC: right under the key of this number."]}
        self.assertEqual([it["checks"] for it in found], [right, right])
        self.assert_quiet()

    def test_random_reversals(self) -> None:
        """Reversals and their replies at random, under each kind of key; with a MAC that is not
        theirs, and that of the other one, too."""
        chance, count = Chance(self.chance), CASES * self.times
        keys, serials = chance.keys(count), chance.usables(count)
        initials = many.initial_keys(keys, list(map(iksn_of, serials)))
        own = many.transaction_keys(initials, serials)
        given = {"bdk": keys, "initial": initials, "transaction": own}
        for at, serial in enumerate(serials):
            kind, state = self.chance.choice(list(given)), self.chance.choice(STATES)
            self.set(frame_key_kind=kind, frame_key=upper(given[kind][at]))
            other = next(it for it in self.others(chance, serial) if reverses(serial, it))
            reversal = write_reversal(own[at], serial, other)
            reply = write_reversal_reply(own[at], serial, other, state)
            shown = [self.chance.choice((it, it, spoil_mac(it), it[:-8] + mac))
                     for it, mac in ((reversal, reply[-8:]), (reply, reversal[-8:]))]
            found, words, *_ = self.read([b"".join(shown).hex(" ")])[0]
            self.assertEqual(words, "")
            self.assertEqual([it["checks"]["mac"][0] for it in found],
                             ["good" if it == right else "bad"
                              for it, right in zip(shown, (reversal, reply))])
            self.assertEqual([[row[:3] for row in it["rows"]] for it in found],
                             [parts_of(shown[0], 0), parts_of(shown[1], len(reversal))])
            meanings = {name: meaning for name, _, _, meaning in found[1]["rows"]}
            self.assertEqual(meanings["state"], STATE_WORDS[state])

    def test_each_bit_of_a_mac(self) -> None:
        """With any bit of its MAC changed, or with another state, a reversal or its reply is not
        authentic."""
        reversal = write_reversal(KEYS[1], SERIALS[1], SERIALS[0])
        reply = write_reversal_reply(KEYS[1], SERIALS[1], SERIALS[0], 1)
        frames = [it[:-8] + (int.from_bytes(it[-8:], "big") ^ 1 << bit).to_bytes(8, "big")
                  for it in (reversal, reply) for bit in range(64)] + [changed(reply, 24, 0)]
        self.set(frame_key=BASE, frame_key_kind="bdk")
        for frame, (found, words, *_) in zip(frames, self.read(list(map(upper, frames)))):
            results = [it["checks"]["mac"][0] for it in found]
            self.assertEqual((words, results), ("", ["bad"]), upper(frame))

    def test_each_reversed(self) -> None:
        """Of two numbers at random, which differ in one bit mostly, a frame is a reversal or is not,
        and then the second number is wrong. The first may be that of no transaction."""
        chance, count, right = Chance(self.chance), 5 * CASES * self.times, 0
        pairs = [(serial, self.chance.choice(list(self.others(chance, serial))))
                 for serial in chance.serials(count)]
        self.set(frame_key="")
        frames = [self.chance.choice((write_reversal(KEYS[0], *it),
                                      write_reversal_reply(KEYS[0], *it, 1))) for it in pairs]
        for pair, (found, words, *place) in zip(pairs, self.read(list(map(upper, frames)))):
            if reverses(*pair):
                right += 1
                self.assertEqual((words, len(found)), ("", 1))
            else:
                self.assertEqual((place, found), (["14", "23"], []), f"{pair}: {words}")
                self.assertIn("Bytes 14 to 23: the second number is not reversed: ", words)
        self.assertTrue(0 < right < count)

    def others(self, chance: Chance, serial: int) -> Sequence[int]:
        """Numbers that it may reverse, or not."""
        return (iksn_of(serial) + chance.counter(), serial ^ 1 << self.chance.randrange(80), serial,
                serial ^ 1 << self.chance.randrange(COUNTER_BITS), chance.serials(1)[0],
                iksn_of(serial), iksn_of(serial) + 3 ^ counter_of(serial) & 1)

    def test_other_keys(self) -> None:
        """Under another number's key the MACs are bad; without a key nothing is checked."""
        request = write_request(KEYS[0], SERIALS[0], "4012345678909", "1234", 1)
        reply = write_reply(KEYS[0], SERIALS[0], "00")
        reversal = write_reversal(KEYS[0], SERIALS[0], SERIALS[1])
        undone = write_reversal_reply(KEYS[0], SERIALS[0], SERIALS[1], 0)
        frames = request + reply + reversal + undone
        self.set(frame_key_kind="transaction", frame_key=upper(KEYS[1]))
        found = self.read([upper(frames)])[0][0]
        self.assertEqual([it["checks"]["mac"][0] for it in found], ["bad"] * 4)
        self.assertEqual(found[0]["checks"]["pin"][0], "bad")
        self.set(frame_key="")
        found = self.read([upper(frames)])[0][0]
        self.assertEqual([it["checks"] for it in found], [{}] * 4)

    def test_damage(self) -> None:
        """Damage is named by its first byte, and what stands before it is still read."""
        request = write_request(KEYS[0], SERIALS[0], "4012345678909", "1234", 1)
        reply, refusal = write_reply(KEYS[0], SERIALS[0], "00"), write_refusal(SERIALS[0], 5)
        reversal = write_reversal(KEYS[1], SERIALS[1], SERIALS[0])
        undone = write_reversal_reply(KEYS[1], SERIALS[1], SERIALS[0], 1)
        for front, frames in ((b"", 0), (reply + refusal, 2)):
            at = len(front)
            for place, value, first, last in (
                    (2, 2, 2, 2), (3, 6, 3, 3), (3, 0, 3, 3), (3, 4, 0, 1), (3, 5, 0, 1),
                    (0, 1, 0, 1), (1, 0x3F, 0, 1),
                    (14, 11, 14, 14), (14, 20, 14, 14), (20, 0x3A, 20, 20), (27, 0x2F, 27, 27)):
                data = front + changed(request, place, value)
                self.assert_damaged(data, at + first, at + last, frames)
            self.assert_damaged(front + changed(reply, 15, 0x31), at + 14, at + 15, frames)
            self.assert_damaged(front + changed(refusal, 14, 7), at + 14, at + 14, frames)
            for it in (reversal, undone):
                for place, value in ((23, 2), (23, 0), (14, 0), (21, 0x1F)):
                    self.assert_damaged(front + changed(it, place, value), at + 14, at + 23, frames)
                self.assert_damaged(front + changed(changed(it, 24, 2), 23, 0), at + 14, at + 23,
                                    frames)
                self.assert_damaged(front + changed(it, 3, 9 - it[3]), at, at + 1, frames)
                self.assert_damaged(front + it[:-1], at, at + 1, frames)
            for state in (2, 0x30, 0x31, 0x80, 0xFF):
                self.assert_damaged(front + changed(undone, 24, state), at + 24, at + 24, frames)
            self.assert_damaged(front + request[:-1], at, at + 1, frames)
            self.assert_damaged(front + b"\x00", at, at, frames)
        found, words, *_ = self.read([upper(request) + "0"])[0]
        self.assertEqual(found, [])
        self.assertNotEqual(words, "")


def spoil_mac(frame: bytes) -> bytes:
    return frame[:-1] + bytes([frame[-1] ^ 1])


def changed(data: bytes, place: int, value: int) -> bytes:
    return data[:place] + bytes([value]) + data[place + 1 :]


class TestMake(FrameCase):
    def test_random(self) -> None:
        chance, count = Chance(self.chance), 3 * CASES * self.times
        keys, serials = chance.keys(count), chance.serials(count)
        pans, pins, amounts = chance.pans(count), chance.pins(count), chance.numbers(count)
        numbers, texts = list(map(serial_text, serials)), list(map(upper, keys))
        self.assert_tried(
            ["make-key", "make-ksn", "make-pan", "make-pin", "make-amount"],
            list(zip(texts, numbers, pans, pins, map(str, amounts))), ["make-frame"],
            [[upper(it)] for it in many.requests(keys, serials, pans, pins, amounts)])
        self.set(make_kind="reply")
        codes = [self.chance.choice(CODES) for _ in range(count)]
        self.assert_tried(
            ["make-key", "make-ksn", "make-code"], list(zip(texts, numbers, codes)), ["make-frame"],
            [[upper(it)] for it in many.replies(keys, serials, codes)])
        self.set(make_kind="refusal")
        reasons = [self.chance.choice(REASONS) for _ in range(count)]
        self.assert_tried(
            ["make-ksn", "make-reason"], list(zip(numbers, map(str, reasons))), ["make-frame"],
            [[upper(write_refusal(*it))] for it in zip(serials, reasons)])
        self.assert_quiet()


class TestFiles(FrameCase):
    def setUp(self) -> None:
        super().setUp()
        self.home = self.folder()

    def give(self, data: bytes, kind: str = "guess") -> None:
        """Chooses a file with these bytes, and waits until it is read."""
        self.set(frame_file_kind=kind)
        path = self.home / f"{len(list(self.home.iterdir()))}.bin"
        path.write_bytes(data)
        self.browser.element("#frame-file").type(str(path))
        self.browser.wait_until(
            "return (document.getElementById('file-found').textContent"
            " + document.getElementById('frame-file-fault').textContent).includes(arguments[0]);",
            path.name, seconds=20)

    def kind(self) -> Any:
        return self.browser.element("#file-found").attribute("data-kind")

    def assert_damaged(self, data: bytes, kind: str, first: int, last: int) -> None:
        self.give(data, kind)
        fault = self.browser.element("#frame-file-fault")
        words = self.text("frame-file-fault")
        found = fault.attribute("data-from"), fault.attribute("data-to")
        self.assertEqual(found, (str(first), str(last)), words)
        self.assertIsNone(self.kind())

    def test_images(self) -> None:
        """Images of both versions; their keys are compared with those that they should be."""
        chance = Chance(self.chance)
        for serial in (IKSN + 1, *chance.usables(6)):
            iksn, counter = iksn_of(serial), counter_of(serial)
            base = chance.keys(1)
            initial = many.initial_keys(base, [iksn])[0]
            registers = registers_at(initial, iksn, counter, tuple(chance.iksns(3)))
            self.set(frame_key_kind="bdk", frame_key=upper(base[0]))
            for version in (2, 1):
                self.give(image_of(registers, version))
                self.assertEqual(self.kind(), "image")
                self.check_registers(registers)
                text = self.text("file-found")
                for number in (serial, iksn, *(registers.past if version == 2 else ())):
                    self.assertIn(serial_text(number), text)
                self.assertEqual(self.keys_check(), "good")
        place = next(it for it, key in enumerate(registers.keys) if any(key))
        data = image_of(registers)
        self.give(changed(data, 14 + 16 * place, data[14 + 16 * place] ^ 1))
        self.assertEqual(self.keys_check(), "bad")

    def check_registers(self, registers: Registers) -> None:
        rows = self.rows("#file-found tr[data-place]", ["data-place", "data-state"],
                         ["number", "key"])
        for place, state, number, key in rows:
            counter = held(registers.counter, int(place))
            if counter is None:
                self.assertEqual((state, number), ("empty", ""))
            else:
                wanted = ("held", serial_text(registers.iksn + counter),
                          upper(registers.keys[int(place)]))
                self.assertEqual((state, number, key), wanted)
        self.assertEqual(sorted(int(it[0]) for it in rows), list(range(COUNTER_BITS)))

    def keys_check(self) -> str:
        return self.browser.run(
            "return document.querySelector('#file-found [data-check=keys]').dataset.result;")

    def test_logs(self) -> None:
        """The numbers of a log in their order, and none of a new one."""
        numbers = list(map(bytes_of, Chance(self.chance).usables(30)))
        for kept, room in ((numbers, 50), (numbers[:1], 1), ([], 3)):
            self.give(log_image(kept, room))
            self.assertEqual(self.kind(), "log")
            rows = self.rows("#file-found tr[data-record]", ["data-record"], ["number"])
            self.assertEqual(rows, [[str(at), upper(it)] for at, it in enumerate(kept)])
            self.assertIn(f"{len(kept)} used numbers, room for {room - len(kept)} more",
                          self.text("file-found"))

    def test_damaged_images(self) -> None:
        registers = registers_at(bytes.fromhex(INITIAL), IKSN, 0x100, (IKSN + (1 << 21),))
        image = image_of(registers)
        for place, value, first, last in (
                (0, 3, 0, 0), (10, 1, 8, 10), (11, 0x3F, 11, 13),
                # Place 0 has no key before 100 hexadecimal; what is behind the one past number.
                (14 + 3, 1, 14, 14 + 15), (350, 9, 350, 350), (430, 1, 430, 430),
                (350 + 1 + 9, 1, 351, 360)):
            self.assert_damaged(changed(image, place, value), "image", first, last)
        self.assert_damaged(image[:-1], "image", 429, 429)
        # The present number among the past ones; and one of them twice.
        other = IKSN + (1 << 21)
        for past, first in (((IKSN,), 351), ((other, IKSN), 361), ((other, other), 361)):
            twice = image_of(registers_at(bytes.fromhex(INITIAL), IKSN, 0x100, past))
            self.assert_damaged(twice, "image", first, first + 9)

    def test_damaged_logs(self) -> None:
        log = log_image(list(map(bytes_of, SERIALS[:3])), 5)
        self.assert_damaged(changed(log, 16 + 12, 1), "log", 28, 28)
        self.assert_damaged(changed(log, 16, 0), "log", 32, 32)
        self.assert_damaged(log[:-16] + record(bytes_of(SERIALS[4])), "log", 64, 64)
        self.give(b"", "log")
        self.assertIsNone(self.kind())
        self.assertNotEqual(self.text("frame-file-fault"), "")
