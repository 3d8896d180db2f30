"""The command `tools/mistakes`: planted mistakes are found by vectors, or are listed rightly."""
from __future__ import annotations

import json
import subprocess
import sys
from pathlib import Path

from ..support.case import Case
from ..support.program import ROOT, SECONDS

TOOL, VECTORS = ROOT / "tools" / "mistakes", ROOT / "vectors"
# Mistakes of the calls for C. No vector shows which fault a refusal tells, and none of the few that
# are taken here makes a MAC.
FOUND = "dukpt_c/lib: dukpt_derive.takes_an_initial_key"
LISTED_AND_FOUND = "dukpt_c/lib: dukpt_pin_key.gives_the_variant_of_requests"
LISTED = "dukpt_c/lib: dukpt_check_request.answers_one_for_each_fault"
UNLISTED = "dukpt_c/lib: dukpt_cmac.is_a_retail_mac"
ALL = (FOUND, LISTED_AND_FOUND, LISTED, UNLISTED)


def few_vectors(folder: Path) -> int:
    """Writes a file with the first keys of vectors/derive.json, and gives the first's number."""
    file = json.loads((VECTORS / "derive.json").read_text(encoding="utf-8"))
    groups = [it for it in file["testGroups"] if it["operation"] == "derive"][:1]
    groups[0]["tests"] = [it for it in groups[0]["tests"] if it["result"] == "valid"][:3]
    few = json.dumps({**file, "testGroups": groups})
    (folder / "derive.json").write_text(few, encoding="utf-8")
    return int(groups[0]["tests"][0]["tcId"])


class Mistakes(Case):
    weight = 40

    def run_tool(self, *words: object) -> tuple[int, list[str], str]:
        """The status, what is printed, and what is said to standard error."""
        done = subprocess.run([sys.executable, TOOL, *map(str, words)], capture_output=True,
                              text=True, timeout=SECONDS * 10, check=False)
        return done.returncode, done.stdout.splitlines(), done.stderr

    def test_planted(self) -> None:
        """Of four mistakes in a program of their own, each is told as what it is."""
        folder = self.folder()
        number = few_vectors(folder)
        unseen = folder / "unseen.txt"
        unseen.write_text(f"{LISTED_AND_FOUND}\n{LISTED}\n    Of no vector.\n", encoding="utf-8")
        chosen = [word for label in ALL for word in ("-k", label)]
        status, lines, said = self.run_tool(
            *chosen, "--vectors", folder, "--unseen", unseen, "--kept", folder / "kept")
        self.assertEqual((status, said), (1, ""))
        *told, last = lines
        self.assertEqual(last, "4 mistakes: 2 found by 1 vectors, 1 listed as unseen, "
                               "2 not as they should be")
        self.assertEqual([it for it in told if it.startswith("no mistake")], ["no mistake: right"])
        words = {label: line[len(label) + 2 :] for label in ALL for line in told
                 if line.startswith(f"{label}: ")}
        self.assertRegex(words[FOUND], rf"^vector {number} \(derive\b.*: another value$")
        self.assertRegex(words[LISTED_AND_FOUND],
                         rf"^FOUND, and listed as unseen: vector {number} \(derive\b")
        self.assertEqual(words[LISTED], "not seen from outside")
        self.assertEqual(words[UNLISTED], "NOT FOUND by any vector")

    def test_list(self) -> None:
        """Each label in the list is that of a mistake, and the list is not all of them."""
        status, lines, said = self.run_tool("--list")
        self.assertEqual((status, said), (0, ""))
        found = [it for it in lines if it.endswith(": to be found")]
        self.assertGreaterEqual(len(found), 180)
        self.assertGreaterEqual(len(lines), 240)

    def test_list_with_a_stranger(self) -> None:
        """A label that is none is told, and so is one without a reason."""
        unseen = self.folder() / "unseen.txt"
        unseen.write_text("dukpt_c/lib: dukpt_derive.is_no_mistake\n    A reason.\n",
                          encoding="utf-8")
        status, lines, _ = self.run_tool("--list", "-k", "nothing_at_all", "--unseen", unseen)
        self.assertEqual((status, lines[0]), (
            1, "dukpt_c/lib: dukpt_derive.is_no_mistake: LISTED, and there is no such mistake"))
        unseen.write_text(f"{LISTED}\n", encoding="utf-8")
        status, _, said = self.run_tool("--list", "--unseen", unseen)
        self.assertEqual((status, said), (2, f"mistakes: unseen.txt has no reason for {LISTED}\n"))
