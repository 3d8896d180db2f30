"""A bank of two terminals and one card, a script of a payment, and the lines that come of it.

Tests of files run the program in a folder that has them.
"""
from __future__ import annotations

from typing import Sequence

from ..case import ProgramCase
from ..program import COMMANDS, Word, spoken

BANK = (COMMANDS / "bank.toml").read_bytes()
# Its parts: the keys and sizes, the base derivation key, and the card.
FRONT = BANK[: BANK.index(b"[[bdk]]")]
BDK = BANK[BANK.index(b"[[bdk]]") : BANK.index(b"[[card]]")]
CARD = BANK[BANK.index(b"[[card]]") :]

SCRIPT = (COMMANDS / "scripts" / "payment.script").read_bytes()
# A line for each of its events, in their order.
LINES = b"""\
t1 fault NotLoaded
t1 loaded FFFF9876543210E00000
t1 fault IksnSpent
t2 IKSN elsewhere
t2 no key set
t1 sent 1 FFFF9876543210E00001
answer 1 accepted FFFF9876543210E00001 00
answer 2 repeated FFFF9876543210E00001 00
t1 done FFFF9876543210E00001 00
t2 fault NotPending
t1 fault NotPending
t1 fault NotPending
no such frame
no such terminal
"""

# The most bytes that a configuration or a script may have.
LONGEST = 1_048_576


class BankCase(ProgramCase):
    """A test of a program in a folder of its own, with `bank.toml` and `all.script`."""

    def setUp(self) -> None:
        super().setUp()
        self.home = self.folder()
        self.write("bank.toml", BANK)
        self.write("all.script", SCRIPT)

    def write(self, name: str, data: bytes) -> None:
        (self.home / name).write_bytes(data)

    def check(
        self,
        words: Sequence[Word],
        output: bytes = b"",
        fault: str = "",
        given: bytes = b"",
        what: str = "",
    ) -> None:
        """That a command ends with this output, and with status 0; or, where a fault is named, with
        status 1 and its line."""
        ended = self.program.run(*words, given=given, folder=self.home)
        faults = f"{fault}\n".encode() if fault else b""
        self.assert_ended(ended, 1 if fault else 0, output, faults, what or spoken(words))
