"""`dukpt-host`: many connections at once, each with its answers in its order; and what ends one of
them alone."""
from __future__ import annotations

import random
import time
from typing import Sequence

from ..support.formats.frames import write_refusal
from ..support.formats.journal_records import Payment
from ..support.models.model_journal import added_by, answers_of, judged, payment_of
from ..support.service.client import (
    PAN, PIN, Exchange, Purchase, payments, payments_of, refused_requests)
from ..support.service.host import Client, HostCase, Running, at_once
from ..support.service.journal_case import stream_of
from ..support.service.reversals import reversals_of
from ..support.service.service import cuts

CONNECTIONS = 20
# What each connection sends, of numbers that no other has.
EACH = 24
ROOM = 4000


def work_of(chance: random.Random, own: Sequence[Exchange], reversing: Sequence[Exchange],
            ) -> list[Exchange]:
    """Frames of one connection in any order: some come again, some are reversals, some are refused."""
    given = [*own, *reversing, *chance.choices(refused_requests(), k=len(own) // 4)]
    chance.shuffle(given)
    for it in chance.choices(given, k=len(given) // 4):
        given.insert(chance.randint(0, len(given)), it)
    return given


class Connections(HostCase):
    weight = 20

    def works(self) -> list[list[Exchange]]:
        """The frames of each connection. A reversal reverses a number of the same connection."""
        count = CONNECTIONS * EACH
        paid, spare = payments(2 * count)[:count], payments(2 * count)[count:]
        pairs = [(counter_of(spare[at]), counter_of(paid[at])) for at in range(0, count, 5)]
        reversing = reversals_of(pairs)
        return [work_of(self.chance, paid[at::CONNECTIONS],
                        [it for it, place in zip(reversing, range(0, count, 5))
                         if place % CONNECTIONS == at]) for at in range(CONNECTIONS)]

    def test_many_at_once(self) -> None:
        """Each connection's answers are those of a host that only it asks, in their order."""
        self.make_journal(ROOM)
        host = self.start_host()
        works = self.works()
        clients = [self.connect(host) for _ in works]
        wanted = [judged(it, [], ROOM) for it in works]

        def talk(client: Client, given: Sequence[Exchange], seed: int) -> None:
            chance = random.Random(seed)
            pieces = cuts(stream_of(given), chance, chance.choice([7, 100, 4000]))
            at_once([lambda: client.send_in(pieces), client.take_all])

        at_once([lambda client=client, given=given, seed=self.chance.getrandbits(32):
                 talk(client, given, seed) for client, given in zip(clients, works)])
        for client, found in zip(clients, wanted):
            self.assertEqual(client.read, answers_of(found))
        added = [it for found in wanted for it in added_by(found)]
        self.assertEqual(sorted(map(repr, self.kept())), sorted(map(repr, added)))
        self.assert_adds_up(host, sum(map(len, works)), wanted)
        self.assertEqual(host.stop(), 0)
        self.assertEqual(self.state(), "")

    def assert_adds_up(self, host: Running, frames: int, wanted: Sequence) -> None:
        """Each answer is counted once, by what it says; and all else follows."""
        found = host.metrics()
        answers = [it.answer for one in wanted for it in one]
        refused = [it for it in answers if it[3] == 3]
        told = {name: value for name, value in found.items() if name.startswith("dukpt_answers_total")}
        self.assertEqual(sum(told.values()), frames)
        for reason, word in ((1, "malformed"), (4, "bad MAC"), (5, "used")):
            name = f'dukpt_answers_totalkind="refusal",says="{word}"'
            self.assertEqual(told.get(name, 0), sum(it[14] == reason for it in refused), word)
        for code in (b"00", b"51"):
            name = f'dukpt_answers_totalkind="reply",says="{code.decode()}"'
            self.assertEqual(told.get(name, 0), sum(it[3] == 2 and it[14:16] == code for it in answers))
        for name, value in (("frames_total", frames), ("frames_unanswered_total", 0),
                            ("answers_dropped_total", 0), ("frames_waiting", 0),
                            ("answer_seconds_count", frames), ("group_frames_sum", frames),
                            ("connections", 0), ("connections_opened_total", CONNECTIONS),
                            ('connections_closed_totalwhy="client"', CONNECTIONS),
                            ("serving", 1), ("journal_records", ROOM),
                            ("journal_room", ROOM - len(self.kept()))):
            self.assertEqual(found[f"dukpt_{name}"], value, name)
        self.assertEqual(found["dukpt_group_seconds_count"], found["dukpt_group_frames_count"])

    def test_one_request_on_all(self) -> None:
        """The same request over each connection is kept once, and has one reply; of two requests with
        one number one is accepted."""
        self.make_journal(100)
        host = self.start_host()
        first, second = payments(8)[:2]
        other = self.same_number(second)
        clients = [self.connect(host) for _ in range(CONNECTIONS)]
        for client in clients:
            self.assertTrue(client.send(first.frame))
        for client in clients:
            self.assertEqual(client.take_answers(1), [first.answer])
        for at, client in enumerate(clients):
            self.assertTrue(client.send((second if at % 2 else other).frame))
        found = [client.take_answers(2)[1] for client in clients]
        kept = self.kept()
        self.assertEqual([it.serial.to_bytes(10, "big") for it in kept], [first.number, second.number])
        stands = second if kept[1] == payment_of(second) else other
        for at, answer in enumerate(found):
            is_its = (second if at % 2 else other) is stands
            self.assertEqual(answer, stands.answer if is_its else
                             write_refusal(int.from_bytes(second.number, "big"), 5))

    def same_number(self, it: Exchange) -> Exchange:
        """Another request with a right MAC under the number of this one."""
        return payments_of([counter_of(it)], [Purchase(PAN, PIN, 77, "00")])[0]

    def test_bytes_that_are_no_frame(self) -> None:
        """All frames before them are answered. They end that connection, and nothing else."""
        self.make_journal(200)
        host = self.start_host()
        other = self.connect(host)
        below, given = host.below(), payments(60)
        self.assertEqual(other.ask(given[0].frame), given[0].answer)
        ways = ((b"\x00\x3f", "no frame"), (b"\xff\xff\x00\x00", "no frame"),
                (given[0].frame[:-1], "ends in a frame"), (b"\x00", "ends in a frame"))
        for at, (behind, fault) in enumerate(ways):
            mine = given[10 * at + 1 : 10 * at + 11]
            client = self.connect(host)
            client.send(stream_of(mine) + behind)
            if fault == "no frame":
                # What stands behind that is never read.
                client.send(stream_of(given[50:]))
            else:
                client.end_side()
            self.assertEqual(client.take_all(), answers_of(judged(mine, [], 200)))
            host.told(f"{fault}", 1 + at % 2)
            self.assertEqual(other.ask(given[0].frame), given[0].answer)
        self.assertEqual(host.below(), below)
        self.assertEqual(len(self.kept()), 41)

    def test_slow_reader(self) -> None:
        """One that never reads is closed, and its later answers are dropped. Others are answered."""
        self.make_journal(100)
        host = self.start_host("--unread", "2000")
        slow, other = self.connect(host, room=1), self.connect(host)
        given = payments(1)[0]
        slow.socket.setblocking(False)
        until = time.monotonic() + 40
        self.assert_from_zero(host)
        while not host.metrics()['dukpt_connections_closed_totalwhy="slow reader"']:
            self.assertLess(time.monotonic(), until, "it is never closed")
            slow.send(bytes(2) * 100)
            self.assertEqual(other.ask(given.frame), given.answer)
        host.told("closed: it does not read its answers", seconds=5)
        self.assertEqual(other.ask(given.frame), given.answer)
        self.assertEqual(host.stop(), 0)

    def assert_from_zero(self, host: Running) -> None:
        """Each word is told before it is counted: an alarm on an increase needs the value before."""
        found = host.metrics()
        for name in ('restarts_totalwhy="killed"', 'restarts_totalwhy="ended"',
                     'answers_totalkind="refusal",says="log full"', 'answers_totalkind="reply",says="51"',
                     'connections_closed_totalwhy="no frame"', 'connections_refused_totalwhy="no TLS"'):
            self.assertEqual(found[f"dukpt_{name}"], 0, name)

    def test_silent_clients(self) -> None:
        """A silent one, and one that does not finish a frame, are closed; one that is asked, not."""
        self.make_journal(100)
        host = self.start_host("--idle", "4", "--frame", "1")
        given = payments(8)
        began = time.monotonic()
        silent, begun, alive = (self.connect(host) for _ in range(3))
        begun.send(given[0].frame + given[1].frame[:20])
        self.assertEqual(begun.take_all(), given[0].answer)
        self.assertGreater(time.monotonic() - began, 0.9)

        def ask_on() -> None:
            while not silent.is_closed:
                self.assertEqual(alive.ask(given[2].frame), given[2].answer)
                time.sleep(0.3)

        at_once([silent.take_all, ask_on])
        self.assertEqual(silent.read, b"")
        self.assertGreater(time.monotonic() - began, 3.9)
        self.assertEqual(alive.ask(given[3].frame), given[3].answer)
        host.told("closed: a frame is not finished in time")
        host.told("closed: nothing came for too long")
        # A frame that comes in bits is finished in time.
        bits = self.connect(host)
        for at in range(0, len(given[6].frame), 30):
            bits.send(given[6].frame[at : at + 30])
            time.sleep(0.05)
        self.assertEqual(bits.take_answers(1), [given[6].answer])

    def test_a_frame_in_drops(self) -> None:
        """A frame has its time from its first byte on, however the others come."""
        self.make_journal(100)
        host, frame = self.start_host("--frame", "1"), payments(1)[0].frame
        client = self.connect(host)
        drops = (client.send(frame[at : at + 1]) for at in range(len(frame)))
        while next(drops, False):
            time.sleep(0.1)
        self.assertEqual(client.take_all(), b"")
        host.told("closed: a frame is not finished in time")

    def test_too_many(self) -> None:
        self.make_journal(100)
        host = self.start_host("--connections", "3")
        clients = [self.connect(host) for _ in range(3)]
        given = payments(4)
        for client, it in zip(clients, given):
            self.assertEqual(client.ask(it.frame), it.answer)
        self.assertIsNone(self.connect(host).ask(given[3].frame))
        host.told("not let in: too many")
        clients[0].close()
        until = time.monotonic() + 5
        while host.metrics()["dukpt_connections"] > 2 and time.monotonic() < until:
            time.sleep(0.02)
        self.assertEqual(self.connect(host).ask(given[3].frame), given[3].answer)

    def test_a_flood_beside_another(self) -> None:
        """One that floods waits; one that asks one by one has its turn in each group."""
        self.make_journal(2000)
        host = self.start_host()
        flood, other = self.connect(host), self.connect(host)
        given = refused_requests()[0]
        at_once([lambda: flood.send_in([given.frame * 2000]), flood.take_all,
                 lambda: [other.ask(it.frame) for it in payments(5)]])
        self.assertEqual(flood.read, given.answer * 2000)
        self.assertEqual(other.answers, [it.answer for it in payments(5)])
        self.assertEqual([it for it in self.kept() if not isinstance(it, Payment)], [])


def counter_of(it: Exchange) -> int:
    assert it.number is not None
    return int.from_bytes(it.number, "big") & (1 << 21) - 1
