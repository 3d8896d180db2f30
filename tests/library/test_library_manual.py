"""The manual pages of the library in C: a page for each function, which groff and readers can read."""
from __future__ import annotations

import re
import shutil
import subprocess
import sys
from pathlib import Path

from ..support.case import Case
from ..support.library.library import demand
from ..support.library.library_calls import CALLS
from ..support.program import ROOT

TOOL, HEADER = ROOT / "tools" / "library-manual", ROOT / "library" / "c" / "dukpt.h"
OTHERS = ("dukpt", "dukpt_version", "dukpt_status_text", "dukpt_wipe_stack",
          "dukpt_wipe_host_stack")
# What is planted in the header, and what the tool says.
PLANTED = (
    (" *   bdk    in   16  base", " *   bdk    16  base", "a row of a comment cannot be read"),
    ("#define DUKPT_VERSION_TEXT", "#define VERSION_TEXT", "has no version or no functions"),
)


class Manual(Case):
    def run_tool(self, *words: object, tool: Path = TOOL) -> tuple[int, str]:
        done = subprocess.run([sys.executable, str(tool), *map(str, words)], capture_output=True,
                              text=True, check=False)
        return done.returncode, done.stdout + done.stderr

    def made(self) -> Path:
        """The folder of the pages."""
        demand("groff")
        folder = self.folder() / "made"
        self.assertEqual(self.run_tool(folder), (0, ""))
        return folder

    def shown(self, page: Path) -> str:
        """A page as a reader sees it, without breaks of its lines."""
        words = ["groff", "-man", "-Tascii", "-P-c", "-rLL=1000n", "-rHY=0", str(page)]
        done = subprocess.run(words, capture_output=True, text=True, check=True)
        return re.sub(r".\x08", "", done.stdout)

    def test_pages(self) -> None:
        pages = {file.stem: self.shown(file) for file in self.made().iterdir()}
        self.assertEqual(set(pages), {*CALLS, *OTHERS})
        for name, call in CALLS.items():
            page = pages[name]
            prototype = re.search(rf"uint32_t {name}\((.*?)\);", page, re.DOTALL)
            assert prototype is not None, name
            self.assertEqual(prototype[1].count("const uint8_t *"), call.kinds.count("bytes"), name)
            self.assertEqual(prototype[1].count("_size"),
                             call.kinds.count("bytes") + call.kinds.count("buffer"), name)
            self.assertIn("DUKPT_OK", page)
            self.assertIn(f"{name}(3)", pages["dukpt"])
        self.assertIn("042666B49184CFA368DE9628D0397BC9 646E6C", pages["dukpt"])

    def test_answers(self) -> None:
        """The faults of a call stand there in its order."""
        page = self.shown(self.made() / "dukpt_registers_next.3")
        found = re.findall(r"^ +(DUKPT_(?:FAULT_\w+|OK))$", page, re.MULTILINE)
        self.assertEqual(found, ["DUKPT_FAULT_LENGTH", "DUKPT_FAULT_NOT_AN_IMAGE",
                                 "DUKPT_FAULT_SPENT", "DUKPT_OK"])

    def test_no_warnings(self) -> None:
        self.assertEqual(self.run_tool("--check"), (0, ""))

    def test_planted(self) -> None:
        copy = self.folder()
        for source in (TOOL, HEADER):
            made = copy / source.relative_to(ROOT)
            made.parent.mkdir(parents=True)
            shutil.copy(source, made)
        header, text = copy / HEADER.relative_to(ROOT), HEADER.read_text()
        for old, new, said in PLANTED:
            self.assertIn(old, text)
            header.write_text(text.replace(old, new, 1))
            status, why = self.run_tool("--check", tool=copy / TOOL.relative_to(ROOT))
            self.assertEqual(status, 1)
            self.assertIn(said, why)
