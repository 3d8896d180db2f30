"""The check of vectors/dukpt_check: how it judges adapters, right, wrong and misbehaving ones, and
its reports.

The adapters of vectors/adapters are run over the vectors; then a mistake is planted in each, and
the report names it.
"""
from __future__ import annotations

import os
import pty
import threading
import tty
from dataclasses import dataclass
from typing import Optional, Sequence

from ..support.standards.dukpt import counter_of, key_of, pin_key, request_key, response_key, usable
from ..support.vectors.vectors_check import CheckCase, Edit, Report, adapter, variables

# Cases that only a fast adapter answers within the time of a test, and the time of one answer on a
# busy machine.
SKIPPED = ("--skip-flag", "ManyNumbers")
PATIENT = ("--timeout", "90")
OF_OPENSSL = ("ciphers", "MACs", "check values")


class TestAdapters(CheckCase):
    """The adapters as they are."""

    weight = 20

    def demand_right(self, report: Report, areas: Optional[Sequence[str]] = None) -> None:
        """That an adapter supports all of these areas, or all that there are, and has no
        deviation."""
        self.assertEqual(report.ended.status, 0, report.text)
        for area, grade in report.grades.items():
            is_supported = areas is None or area in areas
            self.assertEqual(grade.letter, "A" if is_supported else "-", area)
            if is_supported:
                self.assertEqual((grade.deviations, grade.unsupported), (0, 0), area)
        if areas is None:
            self.assertEqual(len(report.grades), 9)
        right = sum(grade.right for grade in report.grades.values())
        self.assertGreater(right, 1000)
        self.tells(f"{right:,} cases")

    def test_c(self) -> None:
        self.demand_right(self.report(*PATIENT, *adapter("library_c.c", self.folder())))

    def test_python(self) -> None:
        words = adapter("library_python.py", self.folder())
        self.demand_right(self.report(*PATIENT, *SKIPPED, *words, **variables()))

    def test_rust(self) -> None:
        self.demand_right(self.report(*PATIENT, *adapter("library_rust.rs", self.folder())))

    def test_openssl(self) -> None:
        words = adapter("openssl.py", self.folder())
        self.demand_right(self.report(*SKIPPED, *words), OF_OPENSSL)


@dataclass(frozen=True)
class Planted:
    """A mistake in an adapter, and what the report says of it."""

    adapter: str
    edits: Sequence[Edit]
    area: str
    operations: tuple[str, ...]
    letter: str
    # What stands in what is told of each of the operations: pattern by pattern.
    told: Sequence[str]


RUST_RETAIL = 'bytes("mac", &dukpt::retail_mac(&case.fixed("key")?, &case.bytes("message")?)?)'
C_KEY = '    out_hex("key", key, sizeof key);\n    for (size_t i = 0'
# It gives a PIN block the right filler.
FILLED = """def filled(block, pan):
    if len(block) != 8:
        return block
    account = int(pan[-13:-1], 16)
    clear = int.from_bytes(block, "big") ^ account
    filler = (1 << (56 - 4 * (clear >> 56 & 15))) - 1
    return ((clear | filler) ^ account).to_bytes(8, "big")


"""
PLANTED = (
    # The last block is left out where it is not whole.
    Planted("library_c.c", [("status = call(a.data, a.size, b.data, b.size, mac, sizeof mac);",
                             "b.size -= b.size > 8 ? b.size % 8 : 0;\n    status = call(a.data,"
                             " a.size, b.data, b.size, mac, sizeof mac);")],
            "MACs", ("retail_mac", "cmac"), "D",
            ["X9.19|800-38B", "another value",
             "whose input message has no whole blocks of 8 bytes, and none of the",
             "flag LastBlockInPart: The last block is not full"]),
    # Parity is adjusted.
    Planted("library_c.c", [(C_KEY, "    for (size_t i = 0; i < sizeof key; i++)\n        key[i] = "
                             "(uint8_t)((key[i] & 0xFE)"
                             " | !(__builtin_popcount(key[i] >> 1) & 1));\n" + C_KEY)],
            "derivation", ("derive", "derive_from_initial"), "D",
            ["X9.24-1", "another value", "key", "parity bits are adjusted"]),
    # Nobody looks whether the counter is zero.
    Planted("library_c.c", [("    status = dukpt_initial_key(a.data, a.size, b.data, b.size, key, "
                             "sizeof key);\n    if (status == DUKPT_OK)\n        out_hex",
                             "    b.data[7] &= 0xE0;\n    b.data[8] = b.data[9] = 0;\n    status = "
                             "dukpt_initial_key(a.data, a.size, b.data, b.size, key, sizeof key);"
                             "\n    if (status == DUKPT_OK)\n        out_hex")],
            "derivation", ("initial_key",), "B",
            ["an invalid case is accepted", "flag CounterNotZero: An initial key serial number"]),
    # Nobody looks whether the number is one that a terminal uses.
    Planted("library_c.c", [("    status = dukpt_check_usable(b.data, b.size);\n"
                             "    if (status == DUKPT_OK)\n        status = call(a.data,",
                             "    status = DUKPT_OK;\n"
                             "    if (status == DUKPT_OK)\n        status = call(a.data,")],
            "derivation", ("derive", "derive_from_initial"), "B",
            ["cases with the flag NoTransaction: an invalid case|all 43 invalid cases: an invalid",
             "flag NoTransaction: No terminal uses the number: its counter is zero or has more"]),
    # The image behind a number is the one before it.
    Planted("library_rust.rs", [('Outputs::default().bytes("image", &found.image)',
                                 'Outputs::default().bytes("image", &case.bytes("image")?)')],
            "frames", ("take",), "C", ["another value", "never key, ksn"]),
    # Another mask.
    Planted("library_python.py", [('"response_mac_key": dukpt.response_key(key)',
                                   '"response_mac_key": dukpt.request_key(key)')],
            "derivation", ("derive", "derive_from_initial"), "D",
            ["X9.24-1", r"wrong outputs: response_mac_key \([\d,]+\); never key, pin_key",
             "xored with 00000000FFFFFF0000000000FFFFFF00|FF00"]),
    # The order of the registers.
    Planted("library_python.py", [("for at in REGISTERS]", "for at in reversed(REGISTERS)]")],
            "registers", ("registers",), "D",
            ["X9.24-1", "all [0-9]+ valid cases", "the order of the list is reversed"]),
    # The filler behind the PIN is not looked at.
    Planted("library_python.py", [("def decrypt_pin(", f"{FILLED}def decrypt_pin("),
                                  ('{"pin": dukpt.pin_of_block(block, pan)',
                                   '{"pin": dukpt.pin_of_block(filled(block, pan), pan)')],
            "PIN blocks", ("pin_of_block",), "B",
            ["9564", "cases with the flag WrongFiller: an invalid case is accepted",
             "flag WrongFiller: A nibble behind the PIN is not F"]),
    # A PIN is found in each block.
    Planted("library_python.py", [("except (dukpt.DukptError, ValueError) as why:",
                                   "except dukpt.faults.NotAPinBlock:\n"
                                   '        return {"pin": "0000"}\n'
                                   "    except (dukpt.DukptError, ValueError) as why:")],
            "PIN blocks", ("pin_of_block", "decrypt_pin"), "B",
            ["9564", "an invalid case is accepted", r"flags: .*WrongFormat \(\d+\)",
             "flag Wrong(PinDigit|Format|Filler): (A nibble|The clear block)"]),
    # The halves of a MAC.
    Planted("library_rust.rs", [(RUST_RETAIL, RUST_RETAIL.replace(
        'bytes("mac", &', '{\n let mut mac = ').replace(')?)?)', ')?)?;\n mac.rotate_left(4);\n'
        ' bytes("mac", &mac)\n}'))],
            "MACs", ("retail_mac",), "C", ["X9.19", "the two halves are exchanged"]),
    # A key of 24 bytes is cut.
    Planted("library_rust.rs", [('.bytes("key", &found.key))', '.bytes("key", &found.key[..16]))')],
            "key blocks", ("unwrap",), "C",
            ["X9.143", "cases whose output key has 24 bytes", "the end is missing"]),
    # The padding of the retail MAC begins with 80.
    Planted("openssl.py", [("padded = message + bytes(-len(message) % 8)",
                            'padded = message + b"\\x80" + bytes(-(len(message) + 1) % 8)')],
            "MACs", ("retail_mac",), "C", ["X9.19", "another value"]),
    # The second of two keys is the third too.
    Planted("openssl.py", [("return key + key[:8] if", "return key + key[8:] if")],
            "check values", ("check_value", "cmac_check_value"), "D",
            ["X9.24-1", "another value", "cases whose input key has 16 bytes", "kcv"]),
)


class TestPlanted(CheckCase):
    """Mistakes in adapters: the report names area, operation, section and flag, and no other."""

    weight = 30

    def test_mistakes(self) -> None:
        for mistake in PLANTED:
            with self.subTest(f"{mistake.adapter}, {mistake.operations}"):
                words = adapter(mistake.adapter, self.folder(), mistake.edits)
                report = self.report("--area", mistake.area, *SKIPPED, *words, **variables())
                self.demand_named(mistake, report)
        self.tells(f"{len(PLANTED)} mistakes")

    def demand_named(self, mistake: Planted, report: Report) -> None:
        """That the report names a mistake."""
        self.assertEqual(report.ended.status, 1)
        grade = report.grades[mistake.area]
        self.assertRegex(grade.letter, f"^({mistake.letter})$", report.text)
        found = [it for it in report.causes if it.area == mistake.area]
        self.assertEqual({it.operation for it in found}, set(mistake.operations), report.text)
        for operation in mistake.operations:
            told = " ".join(it.text for it in found if it.operation == operation)
            for pattern in mistake.told:
                self.assertRegex(told, pattern)


class SimulatedTerminal(threading.Thread):
    """A terminal at the other end of a serial line, by the bench's own derivation."""

    def __init__(self) -> None:
        super().__init__(daemon=True)
        self.own, self.other = pty.openpty()
        tty.setraw(self.other)
        self.path = os.ttyname(self.other)

    def run(self) -> None:
        said = b""
        while True:
            try:
                said += os.read(self.own, 256)
            except OSError:
                return
            *lines, said = said.split(b"\r")
            for line in lines:
                os.write(self.own, self.answer(line.decode()).encode() + b"\r")

    def answer(self, line: str) -> str:
        """What the terminal says to a line."""
        command, initial, ksn = line.split(" ")
        if command != "KEY" or len(initial) != 32 or len(ksn) != 20:
            return "?"
        if not usable(counter_of(int(ksn, 16))):
            return "?"
        key = key_of(bytes.fromhex(initial), int(ksn, 16))
        keys = key, pin_key(key), request_key(key), response_key(key)
        return " ".join(it.hex().upper() for it in keys)


class TestSerialTerminal(CheckCase):
    """The example of a terminal on a serial line, over a pseudo terminal."""

    def ask_terminal(self, *edits: Edit) -> Report:
        terminal = SimulatedTerminal()
        terminal.start()
        self.addCleanup(os.close, terminal.other)
        words = adapter("serial_terminal.py", self.folder(), edits)
        return self.report("--area", "derivation", *words, terminal.path)

    def test_right(self) -> None:
        report = self.ask_terminal()
        self.assertEqual(report.ended.status, 0, report.text)
        grade = report.grades["derivation"]
        self.assertEqual(grade.letter, "A")
        self.assertGreater(grade.right, 10)
        self.assertIn("; initial_key, derive unsupported, and not judged",
                      " ".join(report.text.split()))

    def test_planted(self) -> None:
        report = self.ask_terminal(('"request_mac_key", "response_mac_key")',
                                    '"response_mac_key", "request_mac_key")'))
        self.assertEqual([it.operation for it in report.causes], ["derive_from_initial"])
        self.assertRegex(report.causes[0].text, "X9.24-1.* never key, pin_key")
