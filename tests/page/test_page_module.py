"""The module that the page carries: each of its calls inside the page, on cases by thousands.

It is 2,000 cases a call, and 1,000 of those that cost most: `--times 10` tries 10,000 at least.
"""
from __future__ import annotations

from typing import Sequence

from ..support.library.binding_cases import ALL_CALLS
from ..support.library.call_cases import Argument, cases, spoiled
from ..support.library.library_calls import answer
from ..support.page.page_case import PageCase
from ..support.page.page_module import PageModule
from ..vectors.test_ciphers import BASE, vectors

COUNT, COUNT_OF_COSTLY = 2_000, 1_000
KEYS = ("initial_key", "derive", "derive_many", "derive_from_initial", "pin_key", "request_key",
        "response_key", "request_data_key", "response_data_key", "check_usable", "next_number",
        "check_value", "cmac_check_value")
REGISTERS = ("registers_load", "registers_at", "registers_number", "registers_next",
             "registers_reload")
CIPHERS = ("tdes_encrypt", "tdes_decrypt", "cbc_encrypt", "cbc_decrypt", "cmac", "retail_mac",
           "pin_block", "pin_of_block")
KEY_BLOCKS = ("wrap", "wrap_with", "unwrap", "unwrap_for", "unwrap_optional")
FRAMES = ("payment_request", "read_request", "check_request", "check_requests", "request_pin",
          "request_reply", "request_refusal", "read_reply", "read_refusal", "check_reply",
          "frame_length")
REVERSALS = ("reversal_request", "read_reversal", "check_reversal", "reversal_reply",
             "read_reversal_reply", "check_reversal_reply")
COSTLY = {f"dukpt_{it}" for it in (
    *KEY_BLOCKS, *REGISTERS, "derive_many", "check_requests") if it not in (
        "registers_number", "registers_next")}
# Of each piece of so many cases how many are judged one by one.
PIECE, JUDGED = 5_000, 60
VERSION = 0x000100
# The calls of hosts, for which the page has no panel.
OF_HOSTS = {f"dukpt_{it}" for it in (
    "module_new", "module_load_bdk", "module_load_zone", "host_judge", "host_answer")}


class ModuleCase(PageCase):
    """Calls on cases at random: most are right ones; of some an argument is changed."""

    weight = 20

    def setUp(self) -> None:
        super().setUp()
        self.module = PageModule(self.browser)

    def check_calls(self, *names: str) -> None:
        counts = set()
        for name in (f"dukpt_{it}" for it in names):
            count = (COUNT_OF_COSTLY if name in COSTLY else COUNT) * self.times
            counts.add(count)
            for size in pieces(count):
                self.check_cases(name, size)
        self.tells(f"{len(names)} calls, {' or '.join(map(str, sorted(counts)))} cases each")

    def check_cases(self, name: str, count: int) -> None:
        """So many cases, and some that are changed; some of either are judged one by one."""
        kinds = ALL_CALLS[name][0]
        drawn = cases(name, self.chance, count)
        found = self.module.call(name, kinds, [it.given for it in drawn])
        for case, one in zip(drawn, found, strict=True):
            self.check(name, case.given, one, (case.status, case.behind))
        given = spoiled(drawn, self.chance, JUDGED)
        given += [it.given for it in self.chance.choices(drawn, k=JUDGED // 4)]
        for arguments, one in zip(given, self.module.call(name, kinds, given), strict=True):
            wanted = answer(name, arguments)
            self.check(name, arguments, one, (wanted.status, list(wanted.arguments)))

    def check(self, name: str, given: Sequence[Argument], found: tuple[int, list[Argument]],
              wanted: tuple[int, list[Argument]]) -> None:
        if found != wanted:
            self.fail(f"{name} of {shown(given)}: {found[0]}, {shown(found[1])}, "
                      f"and not {wanted[0]}, {shown(wanted[1])}")


def pieces(count: int) -> list[int]:
    """Counts that no message of the driver is very large with."""
    return [min(PIECE, count - at) for at in range(0, count, PIECE)]


def shown(arguments: Sequence[Argument]) -> str:
    return " ".join(
        it.hex().upper() or "-" if isinstance(it, bytes) else str(it) for it in arguments)


class TestKeys(ModuleCase):
    def test_calls(self) -> None:
        self.check_calls(*KEYS)

    def test_exports(self) -> None:
        """The module has the calls of the library, and asks nothing of the page."""
        self.assertEqual(self.module.imports, [])
        calls = {it for it in self.module.exports if it.startswith("dukpt_")}
        self.assertEqual(calls, {*ALL_CALLS, *OF_HOSTS, "dukpt_version"})
        tried = (*KEYS, *REGISTERS, *CIPHERS, *KEY_BLOCKS, *FRAMES, *REVERSALS)
        self.assertEqual(sorted(f"dukpt_{it}" for it in tried), sorted(ALL_CALLS))
        self.assertEqual(self.module.version(), VERSION)
        self.assertEqual(self.text("version"), "0.1.0")
        samples = [[BASE, bytes.fromhex(number), bytes(16)] for number, _ in vectors("dukpt.txt")]
        found = self.module.call("dukpt_derive", "bbo", samples)
        self.assertEqual([(status, behind[2].hex().upper()) for status, behind in found],
                         [(0, key) for _, key in vectors("dukpt.txt")])


class TestRegisters(ModuleCase):
    weight = 30

    def test_calls(self) -> None:
        self.check_calls(*REGISTERS)


class TestCiphers(ModuleCase):
    def test_calls(self) -> None:
        self.check_calls(*CIPHERS)


class TestKeyBlocks(ModuleCase):
    def test_calls(self) -> None:
        self.check_calls(*KEY_BLOCKS)


class TestFrames(ModuleCase):
    def test_calls(self) -> None:
        self.check_calls(*FRAMES)


class TestReversals(ModuleCase):
    def test_calls(self) -> None:
        self.check_calls(*REVERSALS)
