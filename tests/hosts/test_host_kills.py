"""`dukpt-host` over kills, of the process below in the midst of groups and of the host itself, and over
ends in order under load. What was acknowledged is in the journal; asked again it has the same answer."""
from __future__ import annotations

import os
import random
import re
import signal
import threading
import time
from typing import Sequence

from ..support.formats.journal_file import entries_in
from ..support.formats.journal_records import Entry
from ..support.models.model_journal import answers_of, judged, payments_of_all
from ..support.program import Limits
from ..support.service.client import Exchange, payments
from ..support.service.host import Client, HostCase, Running, at_once, children_of
from ..support.service.journal_case import stream_of
from ..support.service.journal_kills import told_of
from ..support.service.reversals import reversals_of
from .test_host_connections import counter_of

CLIENTS = 10
# Each client sends so many frames before it reads, at most.
AHEAD = 12
KILLS = 6
# From a kill to the first answer, over the journals of these tests, also where the machine has much else
# to do; `bench/load` measures it.
SOON = 10.0
# A copy takes the place of the journal, and then its folder is opened and synced.
SYNCED = re.compile(r'rename\("(.*)/journal\.recovered", "\1/journal"\) = 0\n'
                    r'(\d+ +)openat\(\w+, "\1", \S*O_DIRECTORY\S*\) = (\d+)\n\2fsync\(\3\) += 0')


class Asking:
    """A client that asks for its payments until each is answered, over new connections where one
    ends."""

    def __init__(self, host: Running, items: Sequence[Exchange], seed: int) -> None:
        self.host, self.items, self.chance = host, items, random.Random(seed)
        self.replies: dict[bytes, bytes] = {}
        self.connections = 0

    def ask_all(self, until: float) -> None:
        while len(self.replies) < len(self.items):
            assert time.monotonic() < until, "some are never answered"
            try:
                client = self.host.connect()
            except OSError:
                time.sleep(0.02)
                continue
            self.connections += 1
            self.talk(client)
            client.close()

    def talk(self, client: Client) -> None:
        """Asks in any order, also for what is answered, to the end of the connection or of the work."""
        while len(self.replies) < len(self.items):
            left = [it for it in self.items if it.number not in self.replies]
            given = self.chance.choices(self.items, k=2) + left[: self.chance.randint(1, AHEAD)]
            self.chance.shuffle(given)
            before = len(client.answers)
            client.send(stream_of(given))
            found = client.take_answers(before + len(given))[before:]
            for it, answer in zip(given, found):
                self.read(it, answer)
            if len(found) < len(given):
                return

    def read(self, it: Exchange, answer: bytes) -> None:
        """Each answer to a payment is its reply, the first time and each time."""
        assert it.number is not None
        assert answer == it.answer, "an answer is not that to its frame"
        self.replies[it.number] = answer


def all_replies(clients: Sequence[Asking]) -> dict[bytes, bytes]:
    return {number: it for client in clients for number, it in [*client.replies.items()]}


class Killed(HostCase):
    weight = 20

    def assert_kept(self, entries: Sequence[Entry], replies: dict[bytes, bytes]) -> None:
        """Each reply that was read is that of an entry."""
        told = {it.serial.to_bytes(10, "big"): told_of(it) for it in entries}
        for number, answer in replies.items():
            self.assertEqual(told.get(number), answer[2:-8], f"{number.hex()} in the journal")

    def test_kills_below(self) -> None:
        """SIGKILL in the midst of groups: each payment is answered in the end, by one reply."""
        each = self.share_of(40)
        self.make_journal(4 * CLIENTS * each)
        host = self.start_host()
        host.told("listening on")
        items = payments(CLIENTS * each)
        clients = [Asking(host, items[at::CLIENTS], self.chance.getrandbits(32))
                   for at in range(CLIENTS)]
        done, seen = threading.Event(), []
        until = time.monotonic() + 100
        # Behind how many replies each kill comes: however fast the program is, there is one at least.
        marks = sorted(self.chance.sample(range(len(items) // 2), KILLS))

        def kill() -> None:
            for mark in marks:
                while len(replies := all_replies(clients)) < mark:
                    if done.wait(0.001):
                        return
                os.kill(host.below(), signal.SIGKILL)
                seen.append(time.monotonic())
                # What stands in the file now, a torn group apart, has all that was read by then.
                self.assert_kept(entries_in((self.home / "journal").read_bytes()), replies)
                host.told("the journal was copied and checked", len(seen))
                host.told("serving after", len(seen) + 1)

        def ask() -> None:
            at_once([lambda client=client: client.ask_all(until) for client in clients])
            done.set()

        at_once([kill, ask])
        kept = self.kept()
        self.assertEqual(sorted(it.serial for it in kept),
                         sorted(it.serial for it in payments_of_all(items)))
        self.assert_kept(kept, all_replies(clients))
        self.assertGreater(len(seen), 0, "nothing was killed")
        found = host.metrics()
        self.assertEqual(found['dukpt_restarts_totalwhy="killed"'], len(seen))
        answers = sum(value for name, value in found.items() if name.startswith("dukpt_answers_total"))
        self.assertEqual(found["dukpt_frames_total"], answers + found["dukpt_frames_unanswered_total"]
                         + found["dukpt_frames_waiting"])
        self.assertEqual(host.stop(), 0)
        self.assertEqual(self.state(), "")
        self.tells(f"{len(seen)} kills, {sum(it.connections for it in clients)} connections")

    def test_first_answer(self) -> None:
        """Behind a kill the first answer comes soon, over a connection that asked before it or after;
        and one that had nothing in flight is kept."""
        self.make_journal(100)
        host = self.start_host()
        idle, given = self.connect(host), payments(8)
        self.assertEqual(idle.ask(given[0].frame), given[0].answer)
        for at in range(3):
            os.kill(host.below(), signal.SIGKILL)
            began = time.monotonic()
            host.told("the service below ended", at + 1)
            self.assertEqual(idle.ask(given[at + 1].frame), given[at + 1].answer)
            self.assertLess(time.monotonic() - began, SOON)
        self.assertEqual(host.health(), (200, "test keys: serving\n"))
        self.assertEqual(sorted(it.name for it in self.home.iterdir()),
                         ["bank.toml", "journal", "journal.state", "wide.toml"])

    def test_copy_is_synced(self) -> None:
        """The name of a copy is on the disk before anything is kept behind it: else a loss of power brings
        the journal back that may have failed."""
        self.make_journal(100)
        trace = self.home / "trace"
        host = self.start_host(behind=("strace", "-f", "-qq", "-e", "trace=rename,openat,fsync", "-o", str(trace)))
        host.told("listening on")
        os.kill(host.below(), signal.SIGKILL)
        host.told("serving after", 2)
        os.kill(next(children_of(host.process.pid)), signal.SIGTERM)
        self.assertEqual(host.end(), 0)
        self.assertRegex(trace.read_text(), SYNCED)

    def test_session(self) -> None:
        """What ends a host by its terminal tells the process below nothing: it answers what it has read."""
        self.make_journal(100)
        below = self.start_host().below()
        self.assertEqual(os.getsid(below), below)

    def test_stopped_below(self) -> None:
        """Of a process that does not answer the health tells that."""
        self.make_journal(100)
        host = self.start_host()
        host.told("listening on")
        below = host.below()
        os.kill(below, signal.SIGSTOP)
        self.assertEqual(
            host.health(), (503, "test keys: the service below gives no answer within 2 s\n"))
        os.kill(below, signal.SIGCONT)
        self.assertEqual(host.health(), (200, "test keys: serving\n"))

    def test_kill_of_the_host(self) -> None:
        """The next one goes on over a checked copy; no process stays behind."""
        self.make_journal(200)
        given = payments(60)
        for at in range(3):
            host = self.start_host()
            if at:
                host.told("the journal was copied and checked")
            client = self.connect(host)
            mine = given[20 * at : 20 * at + 20]
            for it in mine[:5]:
                self.assertEqual(client.ask(it.frame), it.answer)
            client.send(stream_of(mine[5:]))
            host.process.kill()
            host.end()
            self.assertIn("-", self.state())
        host = self.start_host()
        client = self.connect(host)
        for it in given:
            self.assertEqual(client.ask(it.frame), it.answer)
        self.assertEqual(host.stop(), 0)
        self.assertEqual(sorted(it.serial for it in self.kept()),
                         sorted(it.serial for it in payments_of_all(given)))

    def test_told_to_end_under_load(self) -> None:
        """All frames that were read are answered, to clients that read: the journal has no payment
        without its reply. The status is 0."""
        self.make_journal(4000)
        given = payments(600)
        for at in range(2):
            host, mine = self.start_host(), given[300 * at : 300 * at + 300]
            clients = [self.connect(host) for _ in range(CLIENTS)]
            told = threading.Event()

            def talk(place: int) -> None:
                client, own = clients[place], mine[place::CLIENTS]
                sender = threading.Thread(target=client.send, args=(stream_of(own),))
                sender.start()
                client.take_answers(2)
                told.set()
                client.take_all()
                sender.join()

            def stop() -> None:
                told.wait(60)
                self.assertEqual(host.stop(), 0)

            at_once([stop, *(lambda place=place: talk(place) for place in range(CLIENTS))])
            replies = {}
            for place, client in enumerate(clients):
                own = mine[place::CLIENTS]
                self.assertEqual(client.answers, [it.answer for it in own[: len(client.answers)]])
                replies.update({it.number: it.answer for it in own[: len(client.answers)]})
            kept = entries_in((self.home / "journal").read_bytes())
            numbers = {it.number for it in mine}
            new = {it.serial.to_bytes(10, "big") for it in kept} & numbers
            self.assertEqual(new, set(replies), "an entry without a reply, or a reply without one")
            self.assertEqual(self.state(), "")

    def test_told_to_end_while_frames_wait(self) -> None:
        """Each frame that was read is answered, also one that did not stand in a group by then."""
        self.make_journal(1000)
        host, given = self.start_host(), payments(200)
        clients = [self.connect(host) for _ in range(CLIENTS)]
        self.assertEqual(clients[0].ask(given[0].frame), given[0].answer)
        below = host.below()
        os.kill(below, signal.SIGSTOP)
        # The first one's are a group, and the others' wait behind it.
        for place, client in enumerate(clients):
            client.send(stream_of(given[place::CLIENTS]))
            self.wait_for(host, "dukpt_frames_total", 1 + (place + 1) * len(given) // CLIENTS)
        host.process.send_signal(signal.SIGTERM)
        time.sleep(0.3)
        clients[1].send(bytes(2))
        os.kill(below, signal.SIGCONT)
        for place, client in enumerate(clients):
            wanted = [it.answer for it in given[place::CLIENTS]]
            self.assertEqual(client.take_all(), b"".join([given[0].answer] * (place == 0) + wanted))
        self.assertEqual(host.end(), 0)
        self.assertEqual(self.state(), "")

    def wait_for(self, host: Running, name: str, value: float) -> None:
        until = time.monotonic() + 20
        while host.metrics()[name] < value:
            self.assertLess(time.monotonic(), until, name)

    def test_a_journal_that_fails(self) -> None:
        """Nothing is started again: the health tells why, also behind a restart of the host, until
        somebody has seen to the journal."""
        given = payments(30)
        self.make_journal(100)
        limits = Limits(file_size=32 * (1 + 10) + 1)
        host = self.start_host(prepare=limits.prepare())
        client = self.connect(host)
        found = [client.ask(it.frame) for it in given]
        count = len([it for it in found if it])
        self.assertEqual(found[:count], [it.answer for it in given[:count]])
        self.assertLess(count, 11)
        host.told("nothing is served until somebody sees to it: the journal failed")
        self.assert_waits(host)
        self.assertEqual(host.stop(), 1)
        self.assertTrue(self.state().endswith("failed\n"))
        host = self.start_host()
        self.assert_waits(host)
        self.assertEqual(host.stop(), 1)
        copied = self.program.run("copy-journal", "journal", "copy", folder=self.home)
        self.assertEqual(copied.status, 0)
        (self.home / "copy").replace(self.home / "journal")
        (self.home / "journal.state").unlink()
        host = self.start_host()
        client = self.connect(host)
        for it in given:
            self.assertEqual(client.ask(it.frame), it.answer)

    def assert_waits(self, host: Running) -> None:
        status, text = host.health()
        self.assertEqual(status, 503)
        self.assertIn("the journal failed", text)
        self.assertEqual(self.connect(host).take_all(), b"")
        self.assertEqual(host.metrics()["dukpt_serving"], 0)

    def test_a_full_journal(self) -> None:
        """Payments are refused with reason 6, and reversals are not; nothing ends."""
        room = 32
        self.make_journal(room)
        host = self.start_host()
        given = payments(80)
        pairs = [(counter_of(given[60 + at]), counter_of(given[at])) for at in range(6)]
        frames = [*given[:40], *reversals_of(pairs)]
        client = self.connect(host)
        told = host.metrics()["dukpt_journal_room_payments"]
        client.send(stream_of(frames))
        client.end_side()
        self.assertEqual(client.take_all(), answers_of(judged(frames, [], room)))
        self.assertEqual(sum(it.answer[3] == 2 for it in judged(frames[:40], [], room)), told)
        found = host.metrics()
        self.assertEqual(found["dukpt_journal_room_payments"], 0)
        self.assertEqual(found["dukpt_journal_room"], 0)
        self.assertEqual(found['dukpt_answers_totalkind="refusal",says="log full"'],
                         sum(it.answer[3] == 3 for it in judged(frames, [], room)))
        self.assertEqual(host.health()[0], 200)
