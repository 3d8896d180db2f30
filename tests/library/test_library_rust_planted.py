"""Faults that are planted in the Rust crate and in its example terminal: the tests find them."""
from __future__ import annotations

from pathlib import Path
from typing import Sequence

from ..support.case import Case
from ..support.library.example_programs import InRust
from ..support.library.rust_library import cargo, copied_crate, write_cases
from . import test_library_terminals_at_once as at_once

CASES = ("--test", "cases", "--", "--include-ignored")
SECRETS = ("--release", "--test", "secrets")
SPAN = "bytes.as_ptr(), bytes.len(),"
IGNORED = "let _ = calls::check_request(key.as_bytes(), frame);\n    Ok(())"
PLAIN_WRITE = ("unsafe { ptr::write_volatile(byte, 0) };", "*byte = 0;")
FENCE = ("        compiler_fence(Ordering::SeqCst);\n", "")
UNUSED = ("use core::sync::atomic::{compiler_fence, Ordering};\n", "")

Edit = tuple[str, str]

# No lock, and the others run meanwhile.
UNLOCKED = """        let _ = lock_whole;
        std::thread::sleep(std::time::Duration::from_millis(3));
"""

# Of what is planted: its file, the texts that become others, the tests that find it, and what they
# say of it.
PLANTED: Sequence[tuple[str, Sequence[Edit], Sequence[str], str]] = (
    # A length.
    ("calls.rs", [(SPAN, "bytes.as_ptr(), bytes.len().min(16),")], CASES, "panicked"),
    ("bytes.rs", [("let length = count as usize;", "let length = (count as usize).min(50);")],
     CASES, "panicked"),
    ("secret.rs", [("length: count as usize }", "length: N }")], CASES, "panicked"),
    ("blocks.rs", [("let wanted = u32::try_from(N).unwrap_or(0);", "let wanted = 16;")], CASES,
     "unwrap_for "),
    # The order of arguments.
    ("keys.rs", [("calls::derive(bdk.as_bytes(), ksn.as_bytes(), key)",
                  "calls::derive(ksn.as_bytes(), bdk.as_bytes(), key)")], CASES, "panicked"),
    ("reversals.rs", [("calls::check_reversal_reply(key, ksn, reversed, frame)",
                       "calls::check_reversal_reply(key, reversed, ksn, frame)")], CASES,
     "check_reversal_reply 0"),
    ("calls.rs", [("dukpt_pin_block: read pin, read pan,", "dukpt_pin_block: read pan, read pin,")],
     CASES, "pin_block "),
    # A status that is ignored.
    ("requests.rs", [("done(calls::check_request(key.as_bytes(), frame))", IGNORED)], CASES,
     "check_request 2"),
    ("fault.rs", [("if status == 0 {", "if status != 27 {")], CASES, "panicked"),
    # A secret that stays, is shown, or is compared in part.
    ("wipe.rs", [PLAIN_WRITE, FENCE, UNUSED], SECRETS,
     "what_is_dropped_is_zeros_on_the_stack ... FAILED"),
    ("wipe.rs", [("for byte in &mut self.0 {", "for byte in &mut self.0[4..] {")], SECRETS,
     "what_is_dropped_is_zeros ... FAILED"),
    ("key.rs", [('f.write_str("Key(..)")', 'write!(f, "{:?}", self.as_bytes())')], SECRETS,
     "nothing_prints_a_key ... FAILED"),
    ("wipe.rs", [("one.len() == other.len() && ", "")], SECRETS,
     "keys_are_compared_whole ... FAILED"),
    ("wipe.rs", [("one.iter().zip(other).fold(0,", "one.iter().zip(other).skip(1).fold(0,")],
     SECRETS, "keys_are_compared_whole ... FAILED"),
    # A terminal that changes before its image is stored, or that can be had twice.
    ("terminal.rs", [("        store(&image).map_err(TerminalFault::Store)?;\n"
                      "        self.image = image;\n",
                      "        self.image = image;\n"
                      "        store(&self.image).map_err(TerminalFault::Store)?;\n")],
     ("--test", "terminal"), "a_store_that_fails_leaves_the_terminal ... FAILED"),
    ("terminal.rs", [("pub struct Terminal {", "#[derive(Clone)]\npub struct Terminal {")],
     ("--doc", "Terminal"), "compile fail ... FAILED"),
    ("terminal.rs", [("        Some(match self {\n", "        if matches!(self, TerminalFault::Call(_)) {\n"
                      "            return None;\n        }\n        Some(match self {\n")],
     ("--test", "terminal"), "a_fault_has_its_cause ... FAILED"),
)


def edit(file: Path, edits: Sequence[Edit]) -> str:
    """Edits a file, in which each text stands once. Gives what it was."""
    before = text = file.read_text(encoding="utf-8")
    for old, new in edits:
        assert before.count(old) == 1, f"{file.name} has {before.count(old)} times: {old}"
        text = text.replace(old, new)
    file.write_text(text, encoding="utf-8")
    return before


class Crate(Case):
    """A copy of the crate, one fault after the other in it."""

    weight = 2

    def test_planted(self) -> None:
        home = self.folder()
        crate, built = copied_crate(home), home / "built"
        path, _ = write_cases(home, self.chance)
        for name, edits, words, said in PLANTED:
            before = edit(crate / "src" / name, edits)
            done = cargo("test", *words, crate=crate, built=built, DUKPT_CASES=path)
            self.assertNotIn("could not compile", done.stderr, edits)
            self.assertEqual((done.returncode, said in done.stdout), (101, True),
                             f"{name}: {edits}\n{done.stdout}\n{done.stderr}")
            (crate / "src" / name).write_text(before, encoding="utf-8")
        done = cargo("test", "--tests", "--", "--include-ignored", crate=crate, built=built,
                     DUKPT_CASES=path)
        self.assertEqual(done.returncode, 0, "what is found without a fault")
        self.tells(f"{len(PLANTED)} found")


class WithoutTheLock(at_once.AtOnce, InRust):
    """The example terminal that takes no lock: eight at once use a number twice."""

    weight = 2
    made: Path

    def command(self, name: str) -> list[str]:
        return [str(self.made / "debug" / "examples" / name)]

    def test_at_once(self) -> None:
        home = self.folder()
        crate, self.made = copied_crate(home), home / "built"
        edit(home / "library" / "examples" / "terminal.rs",
             [("        lock_whole(&lock)?;\n", UNLOCKED)])
        done = cargo("build", "--quiet", "--example", "terminal", crate=crate, built=self.made)
        self.assertEqual(done.returncode, 0, done.stderr)
        with self.assertRaises(AssertionError, msg="nothing is found") as found:
            self.run_at_once(at_once.PURCHASES)
        self.tells(str(found.exception).splitlines()[-1])
