"""Terminals that reverse whatever they do not know, over a service that is killed at any moment and
connections that break.

A terminal has at most one payment open. Where its connection is lost before it has the reply, or a
refusal comes, which proves nothing, it sends a reversal of that payment under its next number, again
under further numbers until one has its reply, and only then goes on. At every rest its own book, the
payments that it has as approved, and the journal's, the approved ones that no reversal undid, are
equal to the cent. What the network had on its way may still come later.
"""
from __future__ import annotations

import time
from dataclasses import dataclass
from functools import lru_cache
from typing import Optional, Sequence

from ..support.case import in_parts
from ..support.formats.frames import write_reply, write_request
from ..support.formats.journal_records import RECORD, UNDONE, Reversal
from ..support.models.model_journal import books_of
from ..support.service.client import BDK, IKSN, PAN, PIN, Exchange, first_counters, split
from ..support.service.journal_case import stream_of
from ..support.service.journal_kills import KilledRuns
from ..support.service.reversals import Reversing, reversal_under
from ..support.service.service import FOREVER, Service
from ..support.standards.dukpt import derive, iksn_of

HISTORIES, TERMINALS = 20, 6
WORDS = ("serve", "wide.toml", "--journal", "journal")
# A terminal takes no more numbers in a history.
NUMBERS = 400
# The limit of the card.
LIMIT = 10_000


@lru_cache(1)
def counters() -> tuple[int, ...]:
    return tuple(first_counters(NUMBERS))


def serial_of(terminal: int, at: int) -> int:
    return IKSN + (terminal << 21) + counters()[at]


@lru_cache(None)
def key_of(terminal: int, at: int) -> bytes:
    return derive(BDK, serial_of(terminal, at))


@lru_cache(None)
def payment(terminal: int, at: int) -> Exchange:
    """The payment under a number: three of four are approved."""
    serial, key = serial_of(terminal, at), key_of(terminal, at)
    amount = 1 + (terminal * 7919 + at * 104_729) % LIMIT
    is_declined = at % 4 == 3
    request = write_request(key, serial, PAN, PIN, amount + LIMIT * is_declined)
    reply = write_reply(key, serial, "51" if is_declined else "00")
    return Exchange(request, reply, serial.to_bytes(10, "big"))


@lru_cache(None)
def reversal(terminal: int, at: int, other: int) -> Reversing:
    """The reversal of a number under another one."""
    return reversal_under(key_of(terminal, at), serial_of(terminal, at), serial_of(terminal, other))


@dataclass
class Terminal:
    """What a terminal knows: its next number, the payment that is open, the frame that waits for its
    reply, and its book."""

    name: int
    next: int
    book: dict[int, int]
    open: Optional[int] = None
    sent: Optional[Exchange] = None

    def send(self) -> Exchange:
        """The next frame: a payment, or the reversal of the one that is open."""
        at, self.next = self.next, self.next + 1
        if self.open is None:
            self.open = at
            self.sent = payment(self.name, at)
        else:
            self.sent = reversal(self.name, at, self.open)
        return self.sent

    def take(self, answer: bytes) -> bool:
        """Takes an answer to its frame. It answers whether that closed the payment: a refusal, which
        has no MAC, does not."""
        sent, self.sent = self.sent, None
        assert sent is not None and self.open is not None
        if isinstance(sent, Reversing):
            if sent.told(answer) is None:
                return False
        elif answer != sent.answer:
            return False
        elif answer[14:16] == b"00":
            self.book[serial_of(self.name, self.open)] = int.from_bytes(sent.frame[-20:-16], "big")
        self.open = None
        return True

    def lose(self) -> None:
        """Its connection is gone, and with it what it waits for."""
        self.sent = None


# A frame, and the terminal that waits for its answer.
Sent = tuple[Exchange, Optional[Terminal]]


class Reversals(KilledRuns):
    """Histories of killed runs and lost connections; each part of the test has some."""

    weight = 8

    def setUp(self) -> None:
        super().setUp()
        self.lost = self.undone = self.none = self.late = self.paid = 0

    @in_parts(2)
    def test_histories(self) -> None:
        for _ in range(HISTORIES * self.times):
            self.begin_history()
            for _ in range(self.chance.randint(2, 6)):
                self.live()
            self.end_history()
        self.assertGreater(min(self.undone, self.none, self.late, self.midst), 0,
                           "nothing was undone, none stood, nothing came late or no kill was in the "
                           "midst of acceptances")
        self.tells(f"{HISTORIES * self.times} histories, {self.kills} lost connections, "
                   f"{self.lost} of them kills, {self.midst} in the midst of acceptances; "
                   f"{self.paid} payments that stand, {self.undone} undone, {self.none} that none "
                   f"had, {self.late} frames that came late")

    def begin_history(self) -> None:
        self.terminals = [Terminal(it, self.chance.randrange(30), {}) for it in range(TERMINALS)]
        # What is lost on a broken connection, and may come over a later one.
        self.network: list[Exchange] = []
        self.replies = {}
        self.make_journal(self.chance.choice((100, 150, 1000)))

    # A run

    def live(self) -> None:
        """A run of rounds, in each of which some terminals send a frame. In the last one the service
        is killed, or its connection breaks."""
        before, order = self.journal.read_bytes(), list[Exchange]()
        self.sent_before = 0
        service = self.start(*WORDS)
        for _ in range(self.chance.randint(0, 8)):
            self.play_round(service, order, self.some())
        self.break_off(service, order)
        ended = service.end()
        service.release()
        self.judge_kill(before, order, ended.output)
        self.judge_books()

    def some(self) -> list[Terminal]:
        count = self.chance.choice((1, TERMINALS, self.chance.randint(1, TERMINALS)))
        return self.chance.sample(self.terminals, count)

    def frames_of_a_round(self, senders: Sequence[Terminal]) -> list[Sent]:
        """The frames of these terminals, with some that come late or twice, which nobody waits for."""
        frames: list[Sent] = [(it.send(), it) for it in senders]
        late = [it for it in self.network if self.chance.random() < 0.2]
        self.late += len(late)
        again = [it for it, _ in frames if self.chance.random() < 0.1]
        for it in (*late, *again):
            frames.insert(self.chance.randint(0, len(frames)), (it, None))
        return frames

    def play_round(
        self, service: Service, order: list[Exchange], senders: Sequence[Terminal]
    ) -> None:
        """Each terminal has its answer."""
        frames = self.frames_of_a_round(senders)
        given = [it for it, _ in frames]
        order += given
        self.sent_before += len(given)
        service.exchange(stream_of(given),
                         lambda: len(split(bytes(service.collected))[0]) >= self.sent_before,
                         FOREVER)
        answers = split(bytes(service.collected))[0][-len(given) :]
        for answer, (_, terminal) in zip(answers, frames):
            if terminal is not None:
                self.take(terminal, answer)

    def take(self, terminal: Terminal, answer: bytes) -> None:
        sent = terminal.sent
        if terminal.take(answer) and isinstance(sent, Reversing):
            is_undone = sent.told(answer) == UNDONE
            self.undone += is_undone
            self.none += not is_undone

    def break_off(self, service: Service, order: list[Exchange]) -> None:
        """A round of which the terminals get no answer, or the first ones."""
        frames = self.frames_of_a_round(self.some())
        given = [it for it, _ in frames]
        order += given
        service.give(stream_of(given), iter(()))
        is_killed = self.chance.random() < 0.7
        if self.chance.random() < 0.5:
            time.sleep(self.chance.uniform(0, 0.01))
        elif self.chance.random() < 0.7:
            wanted = self.sent_before + self.chance.randint(0, len(given))
            service.exchange(b"", lambda: len(split(bytes(service.collected))[0]) >= wanted,
                             time.monotonic() + 5)
        # What a terminal read before its connection was lost: the front of what was written.
        read = split(bytes(service.collected))[0][self.sent_before :]
        read = read[: self.chance.randint(0, len(read))]
        if is_killed:
            service.kill()
            self.lost += 1
        for at, (it, terminal) in enumerate(frames):
            if terminal is not None and at < len(read):
                self.take(terminal, read[at])
            elif terminal is not None:
                terminal.lose()
            if at >= len(read) and self.chance.random() < 0.7:
                self.network.append(it)

    # What is demanded

    def judge_books(self) -> None:
        """Of each terminal with nothing open both books are equal, and of the others they are so but
        for what is open."""
        books = books_of(self.kept())
        for it in self.terminals:
            iksn = IKSN + (it.name << 21)
            kept = {serial: amount for serial, amount in books.items() if iksn_of(serial) == iksn}
            if it.open is not None:
                kept.pop(serial_of(it.name, it.open), None)
            self.assertEqual(kept, it.book, f"the books of terminal {it.name}")

    def end_history(self) -> None:
        """Each terminal closes what is open, in a run that is not killed, over a journal that is given
        more records where it is full. Then all that was on its way comes, and changes no book."""
        with open(self.journal, "ab") as it:
            it.write(bytes(RECORD * 20 * TERMINALS))
        before, order = self.journal.read_bytes(), list[Exchange]()
        self.sent_before = 0
        service = self.start(*WORDS)
        while senders := [it for it in self.terminals if it.open is not None]:
            self.play_round(service, order, senders)
        given = self.chance.sample(self.network, len(self.network))
        order += given
        service.talk([stream_of(given)])
        ended = service.end()
        service.release()
        self.assertEqual((ended.status, ended.faults), (0, b""), "the last run")
        self.judge_kill(before, order, ended.output)
        self.judge_books()
        books, sums = books_of(self.kept()), [sum(it.book.values()) for it in self.terminals]
        self.assertEqual(sum(books.values()), sum(sums), "both books to the cent")
        self.paid += len(books)
        self.assert_closed()

    def assert_closed(self) -> None:
        """No number that was reversed has a payment behind its reversal."""
        reversed_numbers: set[int] = set()
        for it in self.kept():
            if isinstance(it, Reversal):
                reversed_numbers.add(it.reversed)
            else:
                self.assertNotIn(it.serial, reversed_numbers, "a late payment")
