"""The functions of the Python package, against the standards and the bench's own ciphers."""
from __future__ import annotations

import doctest
import importlib
import inspect
import pkgutil
from types import SimpleNamespace
from typing import Any, Iterator
from unittest import mock

from ..support.formats.frames import write_reversal, write_reversal_reply
from ..support.library.binding_cases import BindingCase, binding_cases, names, spoiled
from ..support.library.library_calls import FAULTS, STATUS
from ..support.library.python_library import PythonLibraryCase
from ..support.standards.dukpt import PIN_VARIANT, SPENT, masked
from ..support.standards.key_blocks import sealed
from ..vectors.test_ciphers import BASE, IKSN, data, vectors

# How many cases of a call are tried in the gate: as many as the ciphers of many cases make at once
# in some tenths of a second.
MANY = 20_000
COUNTS = {
    **dict.fromkeys(("pin_key", "request_key", "response_key", "check_usable", "request_refusal",
                     "read_refusal", "frame_length"), MANY),
    **dict.fromkeys(("next_number", "check_value", "tdes_encrypt", "tdes_decrypt", "pin_block",
                     "pin_of_block", "request_data_key", "response_data_key"), 4_000),
    **dict.fromkeys(("initial_key", "cmac_check_value", "retail_mac", "request_reply",
                     "read_reply", "check_reply", "registers_number"), 2_500),
    **dict.fromkeys(("cmac", "registers_next", "cbc_encrypt", "cbc_decrypt", "payment_request",
                     "read_request", "check_request", "request_pin"), 1_200),
    **dict.fromkeys(("reversal_request", "read_reversal", "check_reversal", "reversal_reply",
                     "read_reversal_reply", "check_reversal_reply"), 1_200),
    **dict.fromkeys(("derive", "derive_from_initial"), 600),
    **dict.fromkeys(("derive_many", "check_requests"), 150),
    **dict.fromkeys(("registers_load", "registers_at", "registers_reload", "wrap", "wrap_with",
                     "unwrap", "unwrap_for", "unwrap_optional"), 250),
}
# Of so many one argument is changed.
FEW = 40
KEY = bytes.fromhex("042666B49184CFA368DE9628D0397BC9")
KSN = bytes.fromhex("FFFF9876543210E00001")
LAST = bytes.fromhex("FFFF9876543210FFF800")
PAN = b"4012345678909"
# From this fault on they are those of the calls of hosts, which come in test_library_module.
FIRST_OF_HOSTS = STATUS["NotAModule"]


class TestValues(PythonLibraryCase):
    """Values from outside."""

    def test_examples(self) -> None:
        """Each public function has an example, and each example is so."""
        tried, failed, with_example = 0, 0, set()
        for found in pkgutil.iter_modules(self.dukpt.__path__):
            module = importlib.import_module(f"dukpt.{found.name}")
            for test in doctest.DocTestFinder().find(module):
                result = doctest.DocTestRunner(verbose=False).run(test)
                tried, failed = tried + result.attempted, failed + result.failed
                if test.examples:
                    with_example.add(test.name.rpartition(".")[2])
        self.assertEqual(failed, 0)
        public = {name for name in self.dukpt.__all__
                  if inspect.isfunction(getattr(self.dukpt, name))}
        self.assertEqual(public - with_example, set(), "functions without an example")
        self.assertIn("Terminal", with_example)
        self.tells(f"{tried} examples")

    def test_standards(self) -> None:
        initial = self.dukpt.initial_key(BASE, IKSN.to_bytes(10, "big"))
        for number, key in vectors("dukpt.txt"):
            ksn = bytes.fromhex(number)
            self.assertEqual(self.dukpt.derive(BASE, ksn).hex().upper(), key)
            self.assertEqual(self.dukpt.derive_from_initial(initial, ksn).hex().upper(), key)
            taken = self.dukpt.registers_next(self.dukpt.registers_at(initial, ksn))
            self.assertEqual(taken.key.hex().upper(), key)
        for key, clear, ciphertext in map(data, vectors("triple_des.txt")):
            for at in range(0, len(clear), 8):
                pair = clear[at : at + 8], ciphertext[at : at + 8]
                self.assertEqual(self.dukpt.tdes_encrypt(key, pair[0]), pair[1])
                self.assertEqual(self.dukpt.tdes_decrypt(key, pair[1]), pair[0])
        for name, mac_of in (("cmac", self.dukpt.cmac), ("retail", self.dukpt.retail_mac)):
            for key, message, mac in map(data, vectors(f"{name}.txt")):
                self.assertEqual(mac_of(key, message), mac)

    def test_standards_of_texts(self) -> None:
        for pin, pan, block in (map(str.encode, words) for words in vectors("pin_blocks.txt")):
            made = bytes.fromhex(block.decode())
            self.assertEqual(self.dukpt.pin_block(pin, pan), made)
            self.assertEqual(self.dukpt.pin_of_block(made, pan), pin)
        for protection, block, fields, key in vectors("key_blocks.txt"):
            found = self.dukpt.unwrap(bytes.fromhex(protection), block.encode())
            self.assertEqual(found, (fields.encode(), bytes.fromhex(key)))
            self.assertEqual((found.header, found.key), found)
            usage, length = fields[:2].encode(), len(key) // 2
            self.assertEqual(
                self.dukpt.unwrap_for(bytes.fromhex(protection), usage, length, block.encode()),
                bytes.fromhex(key))

    def test_names_of_fields(self) -> None:
        """What has several parts has them under their names."""
        frame = self.dukpt.payment_request(KEY, KSN, PAN, b"1234", 77)
        request = self.dukpt.read_request(frame)
        self.assertEqual((request.ksn, request.pan, request.amount, request.block, request.mac),
                         (KSN, PAN, 77, frame[-16:-8], frame[-8:]))
        reply = self.dukpt.read_reply(self.dukpt.request_reply(KEY, KSN, b"51"))
        self.assertEqual((reply.ksn, reply.code), (KSN, b"51"))
        refusal = self.dukpt.read_refusal(self.dukpt.request_refusal(KSN, 6))
        self.assertEqual((refusal.ksn, refusal.reason), (KSN, 6))
        frame = self.dukpt.reversal_request(KEY, KSN, LAST)
        reversal = self.dukpt.read_reversal(frame)
        self.assertEqual((reversal.ksn, reversal.reversed, reversal.mac), (KSN, LAST, frame[-8:]))
        for state in (self.dukpt.NONE_STANDS, self.dukpt.UNDONE):
            reply = self.dukpt.read_reversal_reply(
                self.dukpt.reversal_reply(KEY, KSN, LAST, state))
            self.assertEqual((reply.ksn, reply.reversed, reply.state), (KSN, LAST, state))
        self.assertEqual((self.dukpt.NONE_STANDS, self.dukpt.UNDONE), (0, 1))
        image = self.dukpt.registers_at(KEY, KSN)
        taken = self.dukpt.registers_next(image)
        self.assertEqual((taken.image[11:14], taken.ksn), (b"\x00\x00\x02", KSN))
        self.assertEqual(taken.key, self.dukpt.derive_from_initial(KEY, KSN))


class TestCases(PythonLibraryCase):
    """Each function on values at random: right ones, and of some of them one argument changed, or
    of another type."""

    weight = 3

    def try_calls(self, *calls: str) -> None:
        for name in calls:
            count, few = COUNTS[name] * self.times, []
            for case in binding_cases(name, self.chance, count):
                self.check(case)
                if len(few) < FEW * self.times:
                    few.append(case)
            refused = self.try_spoiled(few)
            self.try_wrong_types(few[0])
            self.try_other_bytes(few[:3])
            self.tells(f"{name} {count}, {refused} refused")

    def try_spoiled(self, cases: list[BindingCase]) -> int:
        """What is refused is refused with its first fault. Gives how many are."""
        refused = 0
        for case in cases:
            changed = spoiled(case, self.chance)
            self.check(changed)
            refused += changed.status != 0
        self.assertGreater(refused, 0, f"{cases[0].name}: nothing is refused")
        return refused

    def try_wrong_types(self, case: BindingCase) -> None:
        """They are TypeErrors, and the same call is behind them as it was before."""
        call = getattr(self.dukpt, case.name)
        for at, value in enumerate(case.given):
            others = [None, "text", 1.5, [1], object()]
            others += [5] if isinstance(value, bytes) else [b"5", True]
            for other in others:
                given = [*case.given[:at], other, *case.given[at + 1 :]]
                with self.assertRaises(TypeError, msg=f"{case.name}, argument {at}: {other!r}"):
                    call(*given)
        self.check(case)

    def try_other_bytes(self, cases: list[BindingCase]) -> None:
        """What is like bytes is taken as its bytes are at that time, and stays as it is."""
        for case in cases:
            for way in (bytearray, memoryview, lambda it: memoryview(it + it)[: len(it)]):
                given = [way(it) if isinstance(it, bytes) else it for it in case.given]
                self.check(BindingCase(case.name, given, case.status, case.gives))
                self.assertEqual(given, case.given)

    def test_keys(self) -> None:
        self.try_calls("initial_key", "derive", "derive_many", "derive_from_initial", "pin_key",
                       "request_key", "response_key", "request_data_key", "response_data_key")

    def test_numbers_and_macs(self) -> None:
        self.try_calls("check_usable", "next_number", "check_value", "cmac_check_value", "cmac",
                       "retail_mac")

    def test_registers(self) -> None:
        self.try_calls("registers_load", "registers_at", "registers_number", "registers_next",
                       "registers_reload")

    def test_ciphers_and_blocks(self) -> None:
        self.try_calls("tdes_encrypt", "tdes_decrypt", "cbc_encrypt", "cbc_decrypt", "pin_block",
                       "pin_of_block")

    def test_key_blocks(self) -> None:
        self.try_calls("wrap", "wrap_with", "unwrap", "unwrap_for", "unwrap_optional")

    def test_frames(self) -> None:
        self.try_calls("payment_request", "read_request", "check_request", "check_requests",
                       "request_pin",
                       "request_reply", "request_refusal", "read_reply", "read_refusal",
                       "check_reply", "frame_length")

    def test_reversals(self) -> None:
        self.try_calls("reversal_request", "read_reversal", "check_reversal", "reversal_reply",
                       "read_reversal_reply", "check_reversal_reply")

    def test_all_calls_are_tried(self) -> None:
        self.assertEqual(sorted(COUNTS), sorted(names()))
        self.assertEqual(len(COUNTS), 48)


def refused_calls() -> Iterator[tuple[str, str, tuple[Any, ...]]]:
    """For each fault a call that has it, by what docs/FORMATS.md says."""
    spent = b"\x02" + IKSN.to_bytes(10, "big") + SPENT.to_bytes(3, "big") + bytes(417)
    fresh = b"\x02" + bytes(10) + b"\x00\x00\x01" + bytes(417)
    eight = b"".join(bytes([0, 0, 0, 0, life] + [0] * 5) for life in range(1, 9))
    text = sealed(KEY, b"B0080P0TE00E0000", b"\x00\x80" + bytes(22))
    request = bytes.fromhex("002E0101FFFF9876543210E000010D34303132333435363738393039"
                            "000000011B9C1845EB993A7AA05619896B683F13")
    reply = bytes.fromhex("00160102FFFF9876543210E000013030591B50E0CA98FE70")
    reversal = write_reversal(KEY, int.from_bytes(KSN, "big"), int.from_bytes(LAST, "big"))
    undone = write_reversal_reply(KEY, int.from_bytes(KSN, "big"), int.from_bytes(LAST, "big"), 1)
    yield "Length", "derive", (KEY[1:], KSN)
    yield "NotInitial", "initial_key", (KEY, KSN)
    yield "NotUsable", "check_usable", (bytes(10),)
    yield "Spent", "next_number", (LAST,)
    yield "Spent", "registers_next", (spent,)
    yield "NotAnImage", "registers_number", (b"",)
    yield "IksnSpent", "registers_reload", (fresh, KEY, bytes(10))
    yield "LoadsSpent", "registers_reload", (
        fresh[:350] + b"\x08" + eight, KEY, b"\x01" + bytes(9))
    yield "PinLength", "pin_block", (b"123", PAN)
    yield "PinDigit", "pin_block", (b"123x", PAN)
    yield "PanLength", "pin_block", (b"1234", b"40123456789")
    yield "PanDigit", "pin_block", (b"1234", b"40123456789x")
    yield "NotAPinBlock", "pin_of_block", (bytes(8), PAN)
    yield "BlockLength", "unwrap", (KEY, text[1:])
    yield "BlockVersion", "unwrap", (KEY, b"A" + text[1:])
    yield "BlockHeaderField", "unwrap", (KEY, text[:5] + b"\n" + text[6:])
    yield "BlockOptionalBlock", "unwrap", (KEY, text[:13] + b"1" + text[14:])
    yield "BlockHex", "unwrap", (KEY, text[:20] + b"x" + text[21:])
    yield "BlockMac", "unwrap", (KEY, text[:7] + b"D" + text[8:])
    yield "BlockPayload", "unwrap", (KEY, sealed(KEY, b"B0080P0TE00E0000", b"\x00\x40" + bytes(22)))
    yield "BlockPadLength", "wrap", (KEY, b"P0TE00E", KEY, bytes(5))
    yield "NotARequest", "read_request", (reply,)
    yield "NotAReply", "read_reply", (request,)
    yield "NotARefusal", "read_refusal", (reply,)
    yield "NotACode", "request_reply", (KEY, KSN, b"01")
    yield "NotAReason", "request_refusal", (KSN, 7)
    yield "NotMine", "check_reply", (KEY, bytes(10), reply)
    yield "BadMac", "check_reply", (BASE, KSN, reply)
    yield "BadMac", "check_request", (BASE, request)
    yield "PartOfFrame", "frame_length", (b"\x00",)
    yield "TooLong", "frame_length", (b"\x00\x3f",)
    yield "NotReversed", "reversal_request", (KEY, KSN, KSN)
    yield "NotReversed", "reversal_reply", (KEY, KSN, bytes(10), 1)
    yield "NotAReversal", "read_reversal", (undone,)
    yield "NotAReversal", "check_reversal", (KEY, reversal[:-1])
    yield "BadMac", "check_reversal", (BASE, reversal)
    yield "NotAState", "reversal_reply", (KEY, KSN, LAST, 2)
    yield "NotAReversalReply", "read_reversal_reply", (reversal,)
    yield "NotMine", "check_reversal_reply", (KEY, KSN, bytes(10), undone)
    yield "BadMac", "check_reversal_reply", (BASE, KSN, LAST, undone)
    yield "Length", "unwrap_for", (KEY, b"P0", 17, text)
    yield "OtherUsage", "unwrap_for", (KEY, b"B1", 16, text)
    of_aes = sealed(KEY, b"B0080P0AE00E0000", b"\x00\x80" + bytes(22))
    yield "OtherUsage", "unwrap_for", (KEY, b"P0", 16, of_aes)
    yield "OtherUsage", "unwrap_for", (KEY, b"P0", 24, of_aes)
    yield "OtherKeyLength", "unwrap_for", (KEY, b"P0", 24, text)
    yield "BlockOptionalBlock", "wrap_with", (KEY, b"P0TE00E", b"KS04", KEY, bytes(6))
    yield "NoOptionalBlock", "unwrap_optional", (KEY, text, b"KS")


class TestFaults(PythonLibraryCase):
    def test_each_comes(self) -> None:
        calls = list(refused_calls())
        for fault, name, given in calls:
            self.check(BindingCase(name, list(given), STATUS[fault], []))
        self.assertEqual({fault for fault, _, _ in calls}, set(FAULTS[1:FIRST_OF_HOSTS]))

    def test_classes(self) -> None:
        """There is a class for each number, and a text that names both."""
        classes = self.dukpt.faults.FAULTS
        self.assertEqual(list(classes), list(range(1, 46)))
        for number, name in enumerate(FAULTS[1:], 1):
            fault = classes[number]
            self.assertIs(fault, getattr(self.dukpt.faults, name))
            self.assertTrue(issubclass(fault, self.dukpt.DukptError))
            self.assertTrue(str(fault()).startswith(f"{name} ({number}): "), str(fault()))

    def test_a_status_without_a_class(self) -> None:
        """A library that is newer may answer one: it is a fault with its number."""
        module = importlib.import_module(f"{self.dukpt.__name__}._library")
        refusing = SimpleNamespace(dukpt_pin_key=lambda *words: 99)
        with mock.patch.object(module, "LIBRARY", refusing):
            with self.assertRaises(self.dukpt.DukptError) as raised:
                self.dukpt.pin_key(KEY)
        self.assertEqual((raised.exception.number, raised.exception.name), (99, "Unknown"))
        self.assertEqual(str(raised.exception), "Unknown (99): A call is refused.")

    def test_lengths_are_told(self) -> None:
        with self.assertRaisesRegex(self.dukpt.faults.Length, "bdk has 15, ksn has 10"):
            self.dukpt.derive(KEY[1:], KSN)
        with self.assertRaisesRegex(self.dukpt.faults.Length, r"ksns\[1\] has 9"):
            self.dukpt.derive_many(KEY, [KSN, KSN[1:], b""])


class TestLists(PythonLibraryCase):
    """Calls over lists."""

    def test_items(self) -> None:
        """Items of any kind, as bytes and the like; no item at all."""
        key, frame = self.dukpt.derive(BASE, KSN), self.own_request()
        self.assertEqual(self.dukpt.derive_many(BASE, iter([KSN, bytearray(KSN)])), [key, key])
        self.assertEqual(self.dukpt.check_requests(BASE, (it for it in (memoryview(frame),))),
                         [None])
        self.assertEqual(self.dukpt.derive_many(BASE, []), [])
        self.assertEqual(self.dukpt.check_requests(BASE, []), [])
        self.assertEqual(f"{self.dukpt.derive_many(BASE, [KSN])}", "[<16 secret bytes>]")
        with self.assertRaisesRegex(TypeError, r"frames\[1\] is to be bytes, and not str"):
            self.dukpt.check_requests(BASE, [frame, "frame"])

    def test_whole_frames(self) -> None:
        """A frame that is cut, or has bytes behind it, is no request's, as by `check_request`."""
        frame = self.own_request()
        zeros = self.ending_in_zero()
        others = [frame[:-1], zeros[:-1], frame + b"\0", frame + frame, frame[:2], frame[:1], b"",
                  b"\0\x3f" + bytes(63)]
        told = self.dukpt.check_requests(BASE, [*others, frame, zeros])
        self.assertEqual([str(it).split(" ")[0] for it in told],
                         ["NotARequest"] * len(others) + ["None"] * 2)
        for other in others:
            with self.assertRaises(self.dukpt.faults.NotARequest):
                self.dukpt.check_request(self.dukpt.derive(BASE, KSN), other)

    def own_request(self, amount: int = 1) -> bytes:
        key = self.dukpt.derive(BASE, KSN)
        made: bytes = self.dukpt.payment_request(key, KSN, PAN, b"1234", amount)
        return made

    def ending_in_zero(self) -> bytes:
        """A request whose MAC ends in a zero byte."""
        return next(it for it in map(self.own_request, range(10_000)) if it[-1] == 0)


class TestNumbers(PythonLibraryCase):
    def test_numbers_of_more_bits(self) -> None:
        """They are refused, and no bit is cut."""
        for number in (-1, 1 << 32, (1 << 32) + 5, -(1 << 32) + 5):
            with self.assertRaises(ValueError):
                self.dukpt.request_refusal(KSN, number)
            with self.assertRaises(ValueError):
                self.dukpt.payment_request(KEY, KSN, PAN, b"1234", number)
        largest = self.dukpt.payment_request(KEY, KSN, PAN, b"1234", (1 << 32) - 1)
        self.assertEqual(self.dukpt.read_request(largest).amount, (1 << 32) - 1)

    def test_scattered_bytes(self) -> None:
        scattered = memoryview(bytes(range(64)))[::4]
        wanted = bytes(range(0, 64, 4))
        self.assertEqual(self.dukpt.pin_key(scattered), masked(wanted, PIN_VARIANT))
