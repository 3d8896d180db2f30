"""The list of mistakes that no vector finds, with why none can."""
from __future__ import annotations

from pathlib import Path
from typing import Mapping

LIST = Path(__file__).resolve().parent / "unseen.txt"


class Misplaced(Exception):
    """That the list has not its form."""


def read_unseen(path: Path) -> Mapping[str, str]:
    """The reasons by the labels of the mistakes. A reason is indented, and is that of the labels
    which stand above it."""
    reasons: dict[str, str] = {}
    labels: list[str] = []
    is_reason = False
    for line in path.read_text(encoding="utf-8").splitlines():
        if line.startswith("#") or not line.strip():
            continue
        if not line.startswith(" "):
            if is_reason:
                labels = []
            if line in reasons:
                raise Misplaced(f"{path.name} has {line} twice")
            labels.append(line)
            reasons[line] = ""
        for label in labels if line.startswith(" ") else ():
            reasons[label] = f"{reasons[label]} {line.strip()}".strip()
        is_reason = line.startswith(" ")
    missing = next((label for label, reason in reasons.items() if not reason), None)
    if missing is not None:
        raise Misplaced(f"{path.name} has no reason for {missing}")
    return reasons
