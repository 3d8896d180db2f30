"""The alarms of share/deploy/prometheus-rules.yml: those of the table in docs/OPERATION.md."""
from __future__ import annotations

import re
from collections import Counter
from typing import Iterable

from ..support.case import Case
from ..support.program import ROOT

RULES, OPERATION = ROOT / "share/deploy/prometheus-rules.yml", ROOT / "docs/OPERATION.md"
RULE = re.compile(r"^  - \{alert: (\w+), expr: '([^']+)'(?:, for: (\d+)(s|m))?\}$", re.M)
HEAD = "\n| alarm | when |"


class Alarms(Case):
    def test_rules(self) -> None:
        """Both have the same metrics, the same words of their labels, and the same times."""
        rules = RULE.findall(RULES.read_text(encoding="utf-8"))
        rows = OPERATION.read_text(encoding="utf-8").split(HEAD)[1].split("\n\n")[0].splitlines()[2:]
        told = [it.split(" | ")[1] for it in rows]
        self.assertEqual(RULES.read_text(encoding="utf-8").count("alert:"), len(rules))
        self.assertEqual(metrics(it for _, it, _, _ in rules), metrics(told))
        spans = [it for row in told for it in re.findall("`([^`]+)`", row)]
        words = {it for row in told for it in re.findall('"([^"]+)"', row)}
        words |= {it for it in spans if it.replace(" ", "").isalpha()}
        found = {word for _, it, _, _ in rules for texts in re.findall('(?:says|why)=~?"([^"]+)"', it)
                 for word in texts.split("|")}
        self.assertEqual(found, words)
        times = Counter(f"{count}{unit}" for _, _, count, unit in rules if count)
        wanted = Counter(f"{count}{unit}" for row in told
                         for count, unit in re.findall(r"for (\d+) (s|m)", row))
        self.assertEqual(times, wanted)
        self.tells(f"{len(rules)} rules, {len(found)} words")


def metrics(texts: Iterable[str]) -> set[str]:
    return {re.sub("_bucket$", "", it) for text in texts for it in re.findall(r"\bdukpt_\w+", text)}
