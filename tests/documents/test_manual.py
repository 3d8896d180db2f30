"""The manual pages: that of the program is what `tools/manual` makes of its help, and groff renders each
without a warning."""
from __future__ import annotations

import subprocess
from pathlib import Path

from ..support.case import Case, ProgramCase
from ..support.program import ROOT, SECONDS, Ended

TOOL = ROOT / "tools" / "manual"
PAGES = ROOT / "share" / "man"
# The program, but for a text of its help.
CHANGED = """#!/bin/sh
"{program}" "$@" | sed 's/{text}/{other}/'
"""
CHANGES = {
    "derive  ": "obtain  ",
    "^  0  Done": "  0  Ended",
    "^  initial 6AC2": "  initial 6AC3",
    "Walks": "Leads",
    "--skip": "--leap",
    "<PAN>": "<CARD>",
    "BDK refused": "BDK denied",
    "0[.]1[.]0": "9.9.9",
}


class Made(ProgramCase):
    def check(self, program: Path) -> Ended:
        done = subprocess.run([TOOL, "--check", program], capture_output=True, timeout=SECONDS,
                              check=False)
        return Ended(done.returncode, done.stdout, done.stderr)

    def test_page(self) -> None:
        """It is made of this help."""
        self.assert_ended(self.check(self.program.path), 0, b"", b"", "tools/manual --check")

    def test_other_helps(self) -> None:
        """A help of which any text is another one makes another page, or none."""
        stand_in = self.folder() / "stand-in"
        for text, other in CHANGES.items():
            stand_in.write_text(CHANGED.format(program=self.program.path, text=text, other=other))
            stand_in.chmod(0o755)
            ended = self.check(stand_in)
            self.assertEqual((ended.status, ended.output), (1, b""), text)
            self.assertRegex(ended.faults, rb"\Amanual: .+\n\Z", text)


class Rendered(Case):
    def test_pages(self) -> None:
        pages = sorted(PAGES.glob("*.1"))
        for page in pages:
            done = subprocess.run(["groff", "-man", "-Tutf8", "-ww", "-P-cbou", page], check=False,
                                  capture_output=True, text=True, timeout=SECONDS)
            self.assertEqual((done.returncode, done.stderr), (0, ""), page)
            for title in ("NAME", "SYNOPSIS", "DESCRIPTION", "SEE ALSO"):
                self.assertRegex(done.stdout, rf"(?m)^{title}$", page)
        self.tells(f"{len(pages)} pages")
