"""The arguments of the calls: those of the table are those of the crate's functions.

Exports, header and bindings are all made of the table. An exchange of two arguments in it is in all
of them, and no contract sees it: tools/library --check tells it.
"""
from __future__ import annotations

from typing import Sequence

from .test_library_table import BDK, CRATE, DERIVE, DERIVE_HAS, TABLE, Checked

KEYS, REPLIES, REVERSALS = (f"{CRATE}/{it}.rt" for it in ("keys", "replies", "reversals"))
REVERSING = """`check_usable` tells whether it numbers a transaction.\"\"\"
arguments = [
    ["key", "in", "16", "transaction key of the reversal's own key serial number"],
    ["{}", "in", "10", "the reversal's own key serial number"],
    ["{}", "in", "10", "the key serial number of the payment"],
"""
OUT = "frame: &mut [u8], frame_length: &mut u32"
REVERSAL = f"key: &[u8], ksn: &[u8], reversed: &[u8], {OUT}"
EXCHANGED = f"key: &[u8], reversed: &[u8], ksn: &[u8], {OUT}"
FOR = "kbpk: &[u8], usage: &[u8], wanted: {}, text: &[u8], key: &mut [u8]"
REFUSAL = "ksn: &[u8], reason: {}, " + OUT

# In the table or in the crate a text becomes another one: what a call has then in the crate, and
# what in the table.
ARGUMENTS: Sequence[tuple[str, str, str, str, str, str]] = (
    # Two of one type have each other's name.
    (TABLE, REVERSING.format("ksn", "reversed"), REVERSING.format("reversed", "ksn"),
     "reversal_request", REVERSAL, EXCHANGED),
    (REVERSALS, "pub fn reversal_request(\n    key: &[u8],\n    ksn: &[u8],\n    reversed: &[u8],",
     "pub fn reversal_request(\n    key: &[u8],\n    reversed: &[u8],\n    ksn: &[u8],",
     "reversal_request", EXCHANGED, REVERSAL),
    # Another name.
    (TABLE, DERIVE, DERIVE.replace('"bdk"', '"base"'), "derive", DERIVE_HAS,
     DERIVE_HAS.replace("bdk", "base")),
    (KEYS, "pub fn derive(bdk:", "pub fn derive(base:", "derive", DERIVE_HAS.replace("bdk", "base"),
     DERIVE_HAS),
    # Another kind: bytes that are written, numbers that are bytes or are written.
    (TABLE, DERIVE, DERIVE.replace('"out"', '"in"'), "derive", DERIVE_HAS,
     DERIVE_HAS.replace("&mut ", "&")),
    (TABLE, '["wanted", "in", "number"', '["wanted", "in", "4"', "unwrap_for", FOR.format("u32"),
     FOR.format("&[u8]")),
    (KEYS, "pub fn derive(bdk: &[u8]", "pub fn derive(bdk: &mut [u8]", "derive",
     DERIVE_HAS.replace("&", "&mut ", 1), DERIVE_HAS),
    (REPLIES, "reason: u32,", "reason: &mut u32,", "request_refusal", REFUSAL.format("&mut u32"),
     REFUSAL.format("u32")),
    # One too many, and one too few.
    (TABLE, DERIVE, DERIVE.replace(BDK, ""), "derive", DERIVE_HAS, "ksn: &[u8], key: &mut [u8]"),
    (KEYS, "pub fn derive(bdk: &[u8], ", "pub fn derive(", "derive", "ksn: &[u8], key: &mut [u8]",
     DERIVE_HAS),
)


class TestPlanted(Checked):
    def test_arguments(self) -> None:
        """Arguments that are others in the crate than in the table, or have another order."""
        for name, old, new, call, has, wanted in ARGUMENTS:
            before = self.plant(name, old, new)
            said = [line for line in self.check()[1] if f" is not what {TABLE} makes: " not in line]
            line = f"{CRATE}: {call} has the arguments {has}, and in the table {wanted}"
            self.assertEqual(said, [line], (old, new))
            (self.copy / name).write_text(before, encoding="utf-8")
        self.tells(f"{len(ARGUMENTS)} found")

    def test_other_functions(self) -> None:
        """A call that the table has not, and two functions of one name."""
        file = self.copy / KEYS
        text = file.read_text(encoding="utf-8")
        file.write_text(text + "\npub fn more(key: &[u8]) -> Result<(), Fault>\n", encoding="utf-8")
        self.assertEqual(self.check(), (1, [f"{CRATE}: more is not in the table"]))
        file.write_text(text + "\npub fn cmac(key: &[u8]) -> Result<(), Fault>\n", encoding="utf-8")
        self.assertEqual(self.check(), (1, ["macs.rt: cmac is there already"]))
