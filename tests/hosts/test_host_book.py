"""`dukpt-host` over PostgreSQL: several hosts over one book, a primary with a synchronous standby. What was
acknowledged is in the book of both, under whatever is stopped, killed or cancelled."""
from __future__ import annotations

import random
import signal
import time
from typing import Sequence

from ..support.book.cluster import IDLE
from ..support.book.hosts import NO_END, BookCase
from ..support.book.plants import LOCKS, with_plant
from ..support.models.model_journal import Judge, Judged, added_by, answers_of
from ..support.service.client import (
    PAN, PIN, Exchange, Purchase, payments, payments_of, refused_requests)
from ..support.service.host import TEST_KEYS, Client, Running, at_once
from ..support.service.journal_case import stream_of
from ..support.service.reversals import counter_in, refused_reversals, reversals_of
from ..support.service.service import cuts

CLIENTS, EACH = 8, 24
WAITS = "select count(*) from pg_stat_activity where wait_event = 'SyncRep' and query like '%settle%'"
CANCELS = WAITS.replace("count(*)", "pg_cancel_backend(pid)")
BLOCKED = """select count(*) from pg_stat_activity where wait_event_type = 'Lock'
and query like '%settle%'"""
LOCKED = """select count(*) from pg_locks where mode = 'AccessExclusiveLock'
and relation = 'dukpt.number'::regclass"""
NO_STANDBY = "no standby is synchronous"


class Book(BookCase):
    weight = 20

    def work(self) -> list[list[Exchange]]:
        """What each client sends: payments, their reversals and repeats in any order, and what is
        refused. No two clients have a number in common."""
        count = CLIENTS * EACH
        paid, spare = payments(2 * count)[:count], payments(2 * count)[count:]
        pairs = [(counter_in(spare[at]), counter_in(paid[at])) for at in range(0, count, 3)]
        reversing = dict(zip(range(0, count, 3), reversals_of(pairs)))
        works = []
        for place in range(CLIENTS):
            mine = range(place, count, CLIENTS)
            given = [*(paid[at] for at in mine), *(reversing[at] for at in mine if at in reversing),
                     *self.chance.choices([*refused_requests(), *refused_reversals()], k=6)]
            self.chance.shuffle(given)
            for it in self.chance.choices(given, k=len(given) // 3):
                given.insert(self.chance.randint(0, len(given)), it)
            works.append(given)
        return works

    def test_many_hosts(self) -> None:
        """Each client has the answers of a host that only it asks. Asked again over the other host
        each frame has an answer by the same book; and the standby has that book."""
        self.replicate()
        hosts = [self.start_host(), self.start_host()]
        works = self.work()
        judges = [Judge([], NO_END) for _ in works]
        wanted = [[judge.judge(it) for it in given] for judge, given in zip(judges, works)]
        clients = [self.connect(hosts[at % 2]) for at in range(CLIENTS)]
        self.talk(clients, works, wanted)
        again = [[judge.judge(it) for it in given] for judge, given in zip(judges, works)]
        others = [self.connect(hosts[1 - at % 2]) for at in range(CLIENTS)]
        self.talk(others, works, again)
        added = sorted(repr(it) for found in wanted for it in added_by(found))
        self.assertEqual(sorted(map(repr, self.kept(self.primary))), added)
        self.standby.wait_for("select count(*) from dukpt.number where kind > 0", str(len(added)))
        self.assertEqual(sorted(map(repr, self.kept(self.standby))), added)
        self.assert_counted(hosts, works)
        self.check_one_request_on_all(hosts)
        for it in hosts:
            self.assertEqual(it.stop(), 0)

    def talk(self, clients: Sequence[Client], works: Sequence[list[Exchange]],
             wanted: Sequence[list[Judged]]) -> None:
        def one(place: int) -> None:
            chance = random.Random(place)
            pieces = cuts(stream_of(works[place]), chance, chance.choice([7, 100, 4000]))
            at_once([lambda: clients[place].send_in(pieces), clients[place].take_all])

        at_once([lambda place=place: one(place) for place in range(CLIENTS)])
        for client, found in zip(clients, wanted):
            self.assertEqual(client.read, answers_of(found))

    def assert_counted(self, hosts: Sequence[Running], works: Sequence[list[Exchange]]) -> None:
        found = [it.metrics() for it in hosts]
        frames = sum(2 * len(it) for it in works)
        for name, value in (("frames_total", frames), ("answer_seconds_count", frames),
                            ("group_frames_sum", frames), ("frames_unanswered_total", 0),
                            ("frames_waiting", 0), ("book_groups_lost_total", 0),
                            ("book_connections", 4), ("book_standbys", 2), ("serving", 2)):
            self.assertEqual(sum(it[f"dukpt_{name}"] for it in found), value, name)
        self.assertGreater(found[0]["dukpt_book_seconds_count"], 0)

    def test_without_uvloop(self) -> None:
        """A host serves in the loop of Python too, where that of uvloop is not installed."""
        self.replicate()
        (self.home / "uvloop.py").write_text("raise ImportError")
        self.environment["PYTHONPATH"] += f":{self.home}"
        client = self.connect(self.start_host())
        given = payments(100)
        at_once([lambda: client.send_in([stream_of(given)]), client.take_all])
        self.assertEqual(client.answers, [it.answer for it in given])

    def check_one_request_on_all(self, hosts: Sequence[Running]) -> None:
        """Of two requests with one number one is accepted, whatever host each comes to first; the
        same one has one reply everywhere."""
        first = payments(1000)[-1]
        second = payments_of([counter_in(first)], [Purchase(PAN, PIN, 77, "00")])[0]
        clients = [self.connect(hosts[at % 2]) for at in range(CLIENTS)]
        for at, it in enumerate(clients):
            it.send((first if at // 2 % 2 else second).frame)
        answers = [it.take_answers(1)[0] for it in clients]
        firsts, seconds = ({answers[at] for at in range(CLIENTS) if at // 2 % 2 == it}
                           for it in (1, 0))
        self.assertEqual((len(firsts), len(seconds)), (1, 1))
        self.assertEqual(sorted(it[3] for it in firsts | seconds), [2, 3])

    def test_kill_of_a_host(self) -> None:
        """The frames that it had are asked again over another one. What was acknowledged stays."""
        self.replicate()
        hosts = [self.start_host(), self.start_host()]
        given = payments(240)
        client = self.connect(hosts[0])
        self.assertEqual(client.ask(given[0].frame), given[0].answer)
        client.send(stream_of(given))
        client.take_answers(3)
        hosts[0].process.kill()
        client.take_all()
        seen = client.answers[1:]
        self.assertEqual(seen, [it.answer for it in given[: len(seen)]])
        answers = self.ask_until(hosts[1], given)
        self.assertEqual(list(answers.values()), [it.answer for it in given])
        self.assertEqual(len(self.kept(self.primary)), len(given))

    def test_told_to_end_under_load(self) -> None:
        """All that was read is answered: the book has no payment without its reply."""
        self.replicate()
        host, given = self.start_host(), payments(600)
        clients = [self.connect(host) for _ in range(CLIENTS)]
        works = [given[place::CLIENTS] for place in range(CLIENTS)]

        def stop() -> None:
            clients[0].take_answers(2)
            self.assertEqual(host.stop(), 0, host.lines)

        at_once([stop, *(lambda client=client, work=work: client.send(stream_of(work))
                         for client, work in zip(clients, works))])
        replies = set()
        for client, work in zip(clients, works):
            client.take_all()
            self.assertEqual(client.answers, [it.answer for it in work[: len(client.answers)]])
            replies |= {it.number for it in work[: len(client.answers)]}
        kept = {it.serial.to_bytes(10, "big") for it in self.kept(self.primary)}
        self.assertEqual(kept, replies)

    def test_demands(self) -> None:
        """Over a database that does not keep what it acknowledges nothing is served."""
        host, given = self.start_host(), payments(40)
        host.told(f"nothing is served: {NO_STANDBY}")
        self.assertEqual(host.health(), (503, f"{NO_STANDBY}\n"))
        self.assertEqual(self.connect(host).take_all(), b"")
        self.assertEqual(host.metrics()['dukpt_connections_refused_totalwhy="not serving"'], 1)
        plain = self.start_host("--not-replicated")
        self.assertEqual(self.connect(plain).ask(given[0].frame), given[0].answer)
        self.assertEqual(plain.health(), (200, "serving, not replicated\n"))
        self.replicate()
        host.told("serving, with 1 synchronous standbys")
        client = self.connect(host)
        self.assertEqual(client.ask(given[0].frame), given[0].answer)
        for name, value, usual, text in (("synchronous_commit", "local", "on", "synchronous_commit is local"),
                                         ("synchronous_commit", "remote_write", "on",
                                          "synchronous_commit is remote_write"),
                                         ("fsync", "off", "on", "fsync is off"),
                                         ("synchronous_standby_names", "", "standby", NO_STANDBY)):
            self.primary.set(name, value)
            if name != "fsync":
                self.check_unwaited(host, given[1])
            self.wait_for_health(host, 503, text)
            self.assertEqual(client.take_all(), given[0].answer)
            self.primary.set(name, usual)
            self.wait_for_health(host, 200, "serving")
        self.check_rights(host)
        tried = self.start_host("--not-replicated", keys=TEST_KEYS)
        self.assertEqual(self.connect(tried).ask(given[0].frame), given[0].answer)
        self.assertEqual(tried.health(), (200, "test keys: serving, not replicated\n"))
        self.primary.set("synchronous_commit", "off")
        self.wait_for_health(tried, 503, "test keys: synchronous_commit is off")
        self.primary.set("synchronous_commit", "on")
        self.assertTrue(tried.lines[0].startswith("dukpt-host: test keys: "))
        alone = self.start_host(places=[self.standby])
        alone.told("nothing is served: no primary: the database is a standby")

    def check_unwaited(self, host: Running, it: Exchange) -> None:
        """A payment whose commit waits for nothing has no answer, though the watch has not looked
        since."""
        time.sleep(0.2)
        self.assertIsNone(self.connect(host).ask(it.frame))

    def check_rights(self, host: Running) -> None:
        """A host changes the book by the statement alone. What it may not use or see is told."""
        for change in ("delete from dukpt.number", "update dukpt.number set code = 0",
                       "insert into dukpt.terminal values ('')"):
            said = self.primary.run("psql", self.primary.dsn, "-c", change, check=False)
            self.assertIn("permission denied for table", said, change)
        for change, back, text in (
                ("revoke pg_read_all_stats from dukpt_host", "grant pg_read_all_stats to dukpt_host",
                 "the role does not see the standbys: grant pg_read_all_stats to it"),
                ("alter schema dukpt rename to other", "alter schema other rename to dukpt",
                 "the database has no book of this form: schema.sql makes it")):
            self.primary.sql(change)
            self.wait_for_health(host, 503, text)
            self.primary.sql(back)
            self.wait_for_health(host, 200, "serving")
        self.primary.sql("grant pg_read_all_stats to host", "revoke dukpt_host from host")
        new = self.start_host()
        new.told("nothing is served: the book cannot be used: permission denied for schema dukpt")
        self.primary.sql("grant dukpt_host to host")
        new.told("serving, with 1")

    def test_standby_gone(self) -> None:
        """Nothing is answered without the standby, not even a repeat; with it all are."""
        self.replicate()
        host, given = self.start_host(), payments(40)
        client = self.connect(host)
        self.assertEqual(client.ask(given[0].frame), given[0].answer)
        self.standby.stop()
        client.send(stream_of(given[:2]))
        self.assertEqual(client.take_all(), given[0].answer)
        self.wait_for_health(host, 503, NO_STANDBY)
        self.standby.start()
        self.wait_for_health(host, 200, "serving")
        answers = self.ask_until(host, given)
        self.assertEqual(list(answers.values()), [it.answer for it in given])
        self.assertEqual(self.lost(self.standby, given, answers), [])

    def cancel_wait(self, host: Running, it: Exchange) -> None:
        """Sends a payment, and has its wait for the standby cancelled: it has no answer, and is kept
        on the primary alone."""
        client = self.connect(host)
        client.send(it.frame)
        self.primary.wait_for(WAITS, "1")
        self.primary.sql(CANCELS)
        self.assertEqual(client.take_all(), b"")

    def test_cancelled_wait(self) -> None:
        """A payment whose wait for the standby was cancelled has no answer; asked again it has none
        either, as long as the standby does not have it. The host hears of it whatever its role is set
        to."""
        self.replicate()
        self.primary.sql("alter role host set client_min_messages = error")
        host, given = self.start_host(), payments(4)
        self.standby.signal("walreceiver", signal.SIGSTOP)
        self.cancel_wait(host, given[0])
        host.told("what came of a group is not known: the wait for the standby was cancelled")
        self.assertEqual(self.primary.sql("select count(*) from dukpt.number"), "1")
        again = self.connect(host)
        again.send(given[0].frame)
        self.primary.wait_for(WAITS, "1")
        time.sleep(0.3)
        self.assertEqual(self.primary.sql(WAITS), "1")
        self.standby.signal("walreceiver", signal.SIGCONT)
        self.assertEqual(again.take_answers(1), [given[0].answer])
        self.assertEqual(host.metrics()["dukpt_book_groups_lost_total"], 1)
        self.check_planted(host, given[1])

    def check_planted(self, host: Running, it: Exchange) -> None:
        """A control: a statement that does not take terminals answers what the standby lacks."""
        self.primary.sql(with_plant(LOCKS))
        self.standby.signal("walreceiver", signal.SIGSTOP)
        self.cancel_wait(host, it)
        self.assertEqual(self.connect(host).ask(it.frame), it.answer)
        self.assertEqual(self.standby.sql("select count(*) from dukpt.number"), "1")
        self.standby.signal("walreceiver", signal.SIGCONT)

    def test_no_standby_is_named(self) -> None:
        """Where no standby is named any more, the server ends its waits without a word. A payment that
        waited has no answer."""
        self.replicate()
        host, given = self.start_host(), payments(4)
        client = self.connect(host)
        self.assertEqual(client.ask(given[0].frame), given[0].answer)
        self.standby.signal("walreceiver", signal.SIGSTOP)
        client.send(given[1].frame)
        self.primary.wait_for(WAITS, "1")
        self.primary.set("synchronous_standby_names", "")
        self.assertEqual(client.take_all(), given[0].answer)
        host.told("what came of a group is not known: its commit waited for no standby")
        self.assertEqual(self.primary.sql("select count(*) from dukpt.number"), "2")
        self.assertEqual(self.standby.sql("select count(*) from dukpt.number"), "1")
        self.standby.signal("walreceiver", signal.SIGCONT)

    def test_health_behind_a_lock(self) -> None:
        """A host whose database settles nothing says so before anybody pays."""
        host, right = self.start_host("--not-replicated"), "serving, not replicated"
        self.wait_for_health(host, 200, right)
        with self.primary.session() as other:
            other.tell("begin; lock table dukpt.number in access exclusive mode;")
            self.primary.wait_for(LOCKED, "1")
            self.assertEqual(host.health(), (503, "the database does not settle a group within 2 s\n"))
            other.tell("rollback;")
        self.wait_for_health(host, 200, right)

    def test_deadlock(self) -> None:
        """A group that the database undoes, so that another transaction goes on, is tried again."""
        self.replicate()
        # Longer than the other transaction takes to come to its second step.
        self.primary.set("deadlock_timeout", "3s")
        host, given = self.start_host(), payments(4)
        client = self.connect(host)
        self.assertEqual(client.ask(given[0].frame), given[0].answer)
        with self.primary.session() as other:
            other.tell("begin; set local deadlock_timeout = '60s'; insert into dukpt.number"
                       " (ksn, kind, reversed_by, reversed_at) values"
                       f" ('\\x{given[1].number.hex()}', 0, '\\x00', now());")
            self.primary.wait_for(IDLE, "1")
            client.send(given[1].frame)
            self.primary.wait_for(BLOCKED, "1")
            other.tell("select from dukpt.terminal for update; rollback;")
            self.assertEqual(client.take_answers(2)[1], given[1].answer)
        log = (self.primary.folder / "primary.log").read_text()
        self.assertIn("deadlock detected", log)
        self.assertEqual(host.metrics()["dukpt_book_groups_lost_total"], 0)

    # Promotion

    def promote_behind(self, host: Running, given: Sequence[Exchange]) -> dict[bytes, bytes]:
        """Asks some payments, then more of which the standby has nothing yet, kills the primary and
        promotes the standby. Gives the answers that came."""
        answers = self.ask_until(host, given[:20])
        self.primary.signal("walsender", signal.SIGSTOP)
        client = self.connect(host)
        client.socket.settimeout(2)
        client.send(stream_of(given[20:]))
        try:
            client.take_answers(len(given) - 20)
        except TimeoutError:
            pass
        answers.update({it.frame: answer for it, answer in zip(given[20:], client.answers)})
        self.primary.kill()
        self.standby.promote()
        return answers

    def test_promotion(self) -> None:
        """The standby has all that was acknowledged. A host that knows both goes on over it, and says
        the same to each frame."""
        self.replicate()
        host, given = self.start_host(), payments(60)
        answers = self.promote_behind(host, given)
        self.assertEqual(len(answers), 20)
        self.assertEqual(self.lost(self.standby, given, answers), [])
        self.wait_for_health(host, 503, NO_STANDBY)
        plain = self.start_host("--not-replicated")
        self.assertEqual(list(self.ask_until(plain, given).values()), [it.answer for it in given])

    def test_promotion_without_waiting(self) -> None:
        """A control: where commits do not wait, a promotion loses what was acknowledged. It is
        found."""
        self.replicate(is_synchronous=False)
        host, given = self.start_host("--not-replicated"), payments(60)
        answers = self.promote_behind(host, given)
        self.assertEqual(len(answers), len(given))
        self.assertGreater(len(self.lost(self.standby, given, answers)), 0)
