"""The page as a file: what its sources and the modules make, byte by byte, and one file alone."""
from __future__ import annotations

import re
import subprocess

from ..support.case import Case
from ..support.page.page_case import PAGE
from ..support.program import ROOT

SECONDS = 3600
# What would load something else: an address in an attribute or a style, an import.
OUTSIDE = re.compile(
    r"\b(?:src|href|action|srcset|data|poster)\s*=\s*[\"']?[^\"'#\s>]|url\(|@import"
    r"|\bimport\s*\(|^\s*import\s|https?://(?!www\.w3\.org/2000/svg)", re.M)
MOST_BYTES = 600_000


class TestMade(Case):
    # It may build the modules: the other tests are begun before.
    weight = 0

    def test_bytes(self) -> None:
        """`tools/page --check` makes it anew, and compares every byte."""
        done = subprocess.run([ROOT / "tools" / "page", "--check"], capture_output=True, text=True,
                              timeout=SECONDS, check=False)
        self.assertEqual((done.returncode, done.stderr), (0, ""), done.stdout)


class TestAlone(Case):
    def test_one_file(self) -> None:
        """It names no other file and no address, is no larger than it may be, and is text."""
        self.assertTrue(PAGE.exists(), f"{PAGE} is missing: tools/page makes it")
        text = PAGE.read_bytes().decode("utf-8")
        self.assertLessEqual(PAGE.stat().st_size, MOST_BYTES)
        self.assertEqual([it.group() for it in OUTSIDE.finditer(text)], [])
        policy = re.search(r'<meta http-equiv="Content-Security-Policy" content="([^"]*)">', text)
        self.assertIsNotNone(policy, "the page has no policy")
        rules = dict(rule.strip().split(" ", 1) for rule in policy[1].split(";") if rule.strip())
        self.assertEqual(rules["default-src"], "'none'")
        self.assertNotIn("unsafe-inline", policy[1])
        self.assertNotIn("'unsafe-eval'", policy[1])
        self.assertNotIn("http", policy[1])
