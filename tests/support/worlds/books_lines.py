"""The law of books, judged by lines alone, as `dukpt run --journal` writes them: of the model nothing
is used. What a host answered shows what stands there, and what tills were told is their book.

A number has one outcome. Behind each line a till that is known to be at rest was told as approved
what stands under its numbers; one with a purchase that is open, all but perhaps that.
"""
from __future__ import annotations

import re
from collections import defaultdict
from dataclasses import dataclass, field
from typing import Optional

from ..models.model_books import Disagreement

NEXT = "[0-9A-F]{20}"
NUMBER = f"({NEXT})"


@dataclass
class Shown:
    """A till, as lines show it."""

    # The purchase whose outcome it was not told. It is not known behind a fault of a store, until the
    # till is restarted.
    open: Optional[str] = None
    is_known: bool = True
    standing: set[str] = field(default_factory=set)
    told: set[str] = field(default_factory=set)


def demand(holds: bool, what: str) -> None:
    if not holds:
        raise Disagreement(what)


class LinesLaw:
    """What was read so far."""

    def __init__(self) -> None:
        self.tills: defaultdict[str, Shown] = defaultdict(Shown)
        # The till that sent a number, and what each reversal reverses.
        self.senders: dict[str, str] = {}
        self.reversing: dict[str, str] = {}
        # The codes of the payments that the host accepted, and of the numbers that it has as
        # reversed the states; and the numbers of what it accepted.
        self.codes: dict[str, str] = {}
        self.states: dict[str, str] = {}
        self.entries: set[str] = set()

    def reads(self, line: str) -> None:
        """Reads the next line, behind which the law has to hold."""
        for pattern, read in READERS:
            found = pattern.fullmatch(line)
            if found:
                read(self, *found.groups())
        for at, till in self.tills.items():
            self.demand_agreement(at, till)

    def demand_agreement(self, at: str, till: Shown) -> None:
        more, wrong = till.standing - till.told, till.told - till.standing
        is_right = more <= {till.open} if till.is_known else len(more) <= 1
        demand(not wrong and is_right,
               f"{at}: at the host alone stand {more}, and the till alone was told {wrong}")

    # What tills send

    def sends(self, at: str, number: str) -> None:
        demand(number not in self.senders, f"{number} is sent twice")
        demand(self.tills[at].is_known, f"{at} sends behind a fault of its store")
        self.senders[number] = at

    def sent(self, at: str, number: str) -> None:
        self.sends(at, number)
        demand(self.tills[at].open is None, f"{at} begins while {self.tills[at].open} is open")
        self.tills[at].open = number

    def reversal_sent(self, at: str, number: str, other: str) -> None:
        self.sends(at, number)
        demand(self.tills[at].open == other, f"{at} reverses {other}")
        self.reversing[number] = other

    # What the host answers

    def accepted(self, number: str, code: str) -> None:
        demand(number in self.senders and number not in self.reversing, f"{number} was not sent")
        demand(number not in self.entries and number not in self.states, f"{number} was used")
        self.entries.add(number)
        self.codes[number] = code
        if code == "00":
            self.tills[self.senders[number]].standing.add(number)

    def repeated(self, number: str, code: str) -> None:
        demand(self.codes.get(number) == code and number not in self.states,
               f"{number} is answered again with {code}")

    def reversal_done(self, number: str, other: str, state: str) -> None:
        demand(self.reversing.get(number) == other, f"{number} does not reverse {other}")
        wanted = "01" if self.codes.get(other) == "00" else "00"
        demand(state == wanted, f"{other} is told {state}")
        self.entries.add(number)
        self.states[other] = state
        self.tills[self.senders[number]].standing.discard(other)

    def refused(self, number: str, reason: str) -> None:
        is_used = number in self.entries or number in self.states
        demand(reason == "5" if is_used else reason == "6", f"{number} is refused with {reason}")

    def host_restarted(self, count: str) -> None:
        demand(int(count) == len(self.entries), f"the journal has {count} entries")

    # What tills were told

    def done(self, at: str, number: str, code: str) -> None:
        self.closes(at, number, self.codes.get(number) == code)
        if code == "00":
            self.tills[at].told.add(number)

    def undone(self, at: str, number: str) -> None:
        self.closes(at, number, number in self.states)

    def closes(self, at: str, number: str, is_true: bool) -> None:
        till = self.tills[at]
        demand(till.is_known and till.open == number and is_true, f"{at} is told of {number}")
        till.open = None

    def restarted(self, at: str, state: Optional[str], number: str = "", code: str = "") -> None:
        """A till that is restarted has as open what it had as open before, if that is known."""
        till, now_open = self.tills[at], number if state == "open" else None
        demand(not till.is_known or till.open == now_open, f"{at} had {till.open} as open")
        till.open, till.is_known = now_open, True
        is_true = {"open": self.senders.get(number, at) == at and number not in till.told,
                   "approved": self.codes.get(number) == "00",
                   "declined": self.codes.get(number) == code != "00",
                   "undone": number in self.states, None: not till.told}
        demand(is_true[state], f"{at} has {number} as {state}")
        if state == "approved":
            till.told.add(number)

    def failed(self, at: str) -> None:
        self.tills[at].is_known = False

    def refuses(self, at: str, fault: str) -> None:
        till = self.tills[at]
        demand(not till.is_known or (till.open is None) == (fault == "NothingOpen"),
               f"{at} refuses with {fault}")


READERS = tuple((re.compile(pattern), read) for pattern, read in (
    (f"(t\\d+) sent \\d+ {NUMBER}", LinesLaw.sent),
    (f"(t\\d+) reversing \\d+ {NUMBER} of {NUMBER}", LinesLaw.reversal_sent),
    (f"answer \\d+ accepted {NUMBER} (\\d\\d)", LinesLaw.accepted),
    (f"answer \\d+ repeated {NUMBER} (\\d\\d)", LinesLaw.repeated),
    (f"answer \\d+ undone {NUMBER} of {NUMBER} (\\d\\d)", LinesLaw.reversal_done),
    (f"answer \\d+ refused {NUMBER} (\\d)", LinesLaw.refused),
    ("host used (\\d+)", LinesLaw.host_restarted),
    (f"(t\\d+) done {NUMBER} (\\d\\d)", LinesLaw.done),
    (f"(t\\d+) undone {NUMBER}", LinesLaw.undone),
    (f"(t\\d+) (?:next {NEXT}|spent|empty)(?: (\\w+) {NUMBER}(?: (\\d\\d))?)?", LinesLaw.restarted),
    ("(t\\d+) fault Store \\w+", LinesLaw.failed),
    ("(t\\d+) fault (Open|NothingOpen)", LinesLaw.refuses),
))
