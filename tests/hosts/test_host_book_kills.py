"""Three hosts over one book, while hosts are killed and stopped, and their connections to the database
are cut and cancelled: each client asks again until it has an answer, over any host. Each answer is the
one that a single host gives, and tills and both databases agree to the cent."""
from __future__ import annotations

import random
import signal
import threading
import time
from typing import Callable, Optional, Sequence

from ..support.book.hosts import NO_END, BookCase
from ..support.models.model_journal import Judge, added_by, books_of
from ..support.service.client import Exchange, payments
from ..support.service.host import Client, Running, at_once
from ..support.service.reversals import counter_in, reversals_of

HOSTS, CLIENTS, EACH, FAULTS = 3, 6, 30, 8
SOME = """select {way}(pid) from pg_stat_activity where application_name = 'dukpt-host'
order by random() limit 2"""


class Kills(BookCase):
    weight = 20

    def setUp(self) -> None:
        super().setUp()
        self.replicate()
        self.hosts = [self.start_host() for _ in range(HOSTS)]
        self.until = time.monotonic() + 120 * self.times
        self.asked_again = 0

    def works(self, each: int) -> list[list[Exchange]]:
        """What each client asks in turn: payments, and behind some of them a reversal and the payment
        once more."""
        count = CLIENTS * each
        paid, spare = payments(2 * count)[:count], payments(2 * count)[count:]
        reversing = reversals_of([(counter_in(own), counter_in(it)) for own, it in zip(spare, paid)])
        works = []
        for place in range(CLIENTS):
            given: list[Exchange] = []
            for at in range(place, count, CLIENTS):
                given += [paid[at], reversing[at], paid[at]] if at % 3 == 0 else [paid[at]]
            works.append(given)
        return works

    def test_faults(self) -> None:
        works = self.works(EACH * self.times)
        wanted = [[judge.judge(it) for it in given]
                  for judge, given in ((Judge([], NO_END), it) for it in works)]
        done = threading.Event()

        def ask() -> None:
            try:
                at_once([lambda given=given, found=found, seed=self.chance.getrandbits(32):
                         self.ask_all(given, [it.answer for it in found], seed)
                         for given, found in zip(works, wanted)])
            finally:
                done.set()

        faults: list[str] = []
        at_once([ask, lambda: self.make_faults(faults, done)])
        added = [it for found in wanted for it in added_by(found)]
        self.assertEqual(sorted(map(repr, self.kept(self.primary))), sorted(map(repr, added)))
        self.standby.wait_for("select count(*) from dukpt.number where kind > 0", str(len(added)))
        for it in (self.primary, self.standby):
            self.assertEqual(it.sql("select sum(amount) from dukpt.standing"),
                             str(sum(books_of(added).values())))
        for host in self.hosts:
            # One that was started last does not heed a signal yet.
            host.told("listening on")
            self.assertEqual(host.stop(), 0)
        self.assertGreater(len(faults), 0, "there was no fault")
        self.tells(f"{len(faults)} faults, {self.asked_again} asked again")

    # The clients

    def ask_all(self, given: Sequence[Exchange], answers: Sequence[bytes], seed: int) -> None:
        chance, client = random.Random(seed), None
        for it, answer in zip(given, answers):
            while True:
                self.assertLess(time.monotonic(), self.until, "it is never answered")
                client = client or self.connected(chance.choice(self.hosts))
                found = client.ask(it.frame) if client else None
                if found is not None:
                    break
                self.asked_again += 1
                time.sleep(0.02)
                client = None
            self.assertEqual(found, answer)
            time.sleep(0.01)

    def connected(self, host: Running) -> Optional[Client]:
        """A client, where the host lives."""
        try:
            return self.connect(host)
        except (OSError, AssertionError):
            return None

    # The faults

    def make_faults(self, made: list[str], done: threading.Event) -> None:
        ways: Sequence[Callable[[], None]] = (self.kill, self.pause, self.cut, self.cancel)
        chance = random.Random(self.chance.getrandbits(32))
        while len(made) < FAULTS * self.times and not done.wait(chance.uniform(0.05, 0.3)):
            way = ways[len(made) % len(ways)]
            self.place = chance.randrange(HOSTS)
            way()
            made.append(way.__name__)

    def kill(self) -> None:
        """A host, beside which another one is started."""
        self.hosts[self.place].release()
        self.hosts[self.place] = self.start_host()

    def pause(self) -> None:
        host = self.hosts[self.place].process
        host.send_signal(signal.SIGSTOP)
        time.sleep(0.3)
        host.send_signal(signal.SIGCONT)

    def cut(self) -> None:
        self.primary.sql(SOME.format(way="pg_terminate_backend"))

    def cancel(self) -> None:
        self.primary.sql(SOME.format(way="pg_cancel_backend"))
