"""What is told: a line on standard error for an event, as journald takes it. No line has a PAN, a
PIN or a key: of a frame it has the number alone."""
from __future__ import annotations

import os
import sys
import time

from .frames import NUMBER, REASONS

# The marks by which journald knows how grave a line is.
WARNING, NOTE = "<4>", "<6>"
# So many lines of a sort are told in a second. Of the others their number is.
MOST = 10


class Sort:
    """Lines that clients bring about, of one sort: the first of each second."""

    def __init__(self, log: Log, name: str) -> None:
        self.log, self.name = log, name
        self.second = 0
        self.told = self.untold = 0

    def tell(self, text: str) -> None:
        self.look()
        if self.told == MOST:
            self.untold += 1
            return
        self.told += 1
        self.log.note(text)

    def look(self) -> None:
        """In a new second, how many lines of the last one were not told."""
        second = int(time.monotonic())
        if second == self.second:
            return
        if self.untold:
            self.log.note(f"{self.untold} more {self.name}")
        self.second, self.told, self.untold = second, 0, 0


class Log:
    """Each fault has a line. Of clients' faults and of refusals some have none."""

    def __init__(self) -> None:
        self.marks = "JOURNAL_STREAM" in os.environ
        self.refusals, self.clients = Sort(self, "refusals"), Sort(self, "faults of clients")

    def line(self, text: str, mark: str = WARNING) -> None:
        try:
            print(f"{mark if self.marks else ''}dukpt-host: {text}", file=sys.stderr, flush=True)
        except OSError:
            pass

    def note(self, text: str) -> None:
        self.line(text, NOTE)

    def refused(self, peer: str, answer: bytes) -> None:
        """A refusal, with its reason and its number."""
        number, reason = answer[NUMBER].hex().upper(), answer[14]
        self.refusals.tell(f"{peer}: refused {number} {reason} {REASONS.get(reason, '')}")

    def look(self) -> None:
        self.refusals.look()
        self.clients.look()
