"""Calls on the standard streams that a signal interrupts: they are made again, and nothing else changes.

strace makes one call fail with EINTR before it does anything, each in its turn.
"""
from __future__ import annotations

import re
import shutil
import subprocess
from pathlib import Path
from typing import Sequence

from ..support.case import ProgramCase
from ..support.commands.everyday_rows import BASE, SERIAL
from ..support.formats.bank import BANK
from ..support.program import SECONDS, Ended, spoken
from ..support.service.client import payments

# A line of strace: a call and the handle that it is on.
LINE = re.compile(r"^(read|write)\((\d+),", re.MULTILINE)
CALLS = (("read", 0), ("write", 1), ("write", 2))


class Interrupted(ProgramCase):
    weight = 2

    def setUp(self) -> None:
        super().setUp()
        self.home = self.folder()
        (self.home / "bank.toml").write_bytes(BANK)

    def traced(self, words: Sequence[str], given: bytes, *changes: str) -> tuple[Ended, str]:
        """How a command ends in which strace makes these changes, and its reads and writes."""
        strace = shutil.which("strace")
        self.assertIsNotNone(strace, "strace is not installed: apt-get install strace")
        trace = Path(self.home / "trace")
        options = [it for one in ("trace=read,write", *changes) for it in ("-e", one)]
        done = subprocess.run([strace or "", "-o", trace, *options, self.program.path, *words],
                              cwd=self.home, input=given, capture_output=True, timeout=SECONDS,
                              check=False)
        return Ended(done.returncode, done.stdout, done.stderr), trace.read_text()

    def places(self, trace: str, call: str, handle: int) -> list[int]:
        """Which calls of this name are on this handle, counted from 1."""
        handles = [int(it) for name, it in LINE.findall(trace) if name == call]
        return [place for place, it in enumerate(handles, 1) if it == handle]

    def test_each_call(self) -> None:
        """The first one, the second one, and so on."""
        tried = {call: 0 for call in CALLS}
        for words, given in (
            (["derive", "@-", "-"], f"{BASE}\n{SERIAL}\nx\n{SERIAL}\n".encode()),
            (["pin", "@-", "4012345678909"], b"1234\n"),
            (["kcv", BASE], b""),
            (["kcv", "x"], b""),
            (["kcv", "x", "--explain"], b""),
            (["serve", "bank.toml"], b"".join(it.frame for it in payments(3))),
        ):
            wanted, trace = self.traced(words, given)
            self.assertEqual(wanted, self.program.run(*words, given=given, folder=self.home))
            for call, handle in CALLS:
                for place in self.places(trace, call, handle)[:8]:
                    change = f"inject={call}:error=EINTR:when={place}"
                    ended, changed = self.traced(words, given, change)
                    what = f"{spoken(words)}: {call} {place}"
                    self.assertIn("(INJECTED)", changed, what)
                    self.assertEqual(ended, wanted, what)
                    tried[call, handle] += 1
        self.assertTrue(all(tried.values()), str(tried))
        self.tells(", ".join(f"{count} of {call} {handle}" for (call, handle), count in tried.items()))

    def test_many_times(self) -> None:
        """A read that is interrupted a hundred times is made once more."""
        words, given = ["derive", "@-", SERIAL], f"{BASE}\n".encode()
        wanted, trace = self.traced(words, given)
        first = self.places(trace, "read", 0)[0]
        ended, changed = self.traced(words, given, f"inject=read:error=EINTR:when={first}..{first + 99}")
        self.assertEqual(changed.count("(INJECTED)"), 100)
        self.assertEqual(ended, wanted)
