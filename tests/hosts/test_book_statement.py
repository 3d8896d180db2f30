"""The statement that settles a group in PostgreSQL: over random groups it says and keeps what the model of
the book and the proved book do, one by one and over several connections at once; and differences that are
planted in it or in the model are found. `tools/test -k book_statement --times 50` compares 100,000 groups
one by one."""
from __future__ import annotations

import os
import subprocess
from typing import Optional

from ..support.book.cluster import IDLE, Cluster, folder_for
from ..support.book.groups import MACS, call_of, number_of, worlds
from ..support.book.hosts import library
from ..support.book.plants import LANES, MODELS, PLANTS, SCANS, with_plant
from ..support.book.proved import difference
from ..support.case import Case
from ..support.models.model_book import Asked
from ..support.program import ROOT

# Debian's, which has asyncpg: the host is run by it too.
PYTHON = "/usr/bin/python3"
ONE_BY_ONE, AT_ONCE = 2000, 800
# In so many groups a planted difference is found.
ENOUGH = 600


class Statement(Case):
    weight = 30

    def setUp(self) -> None:
        super().setUp()
        self.cluster = Cluster(folder_for(self), "primary", 5432)
        self.addCleanup(self.cluster.release)
        self.cluster.make()

    def difference(self, groups: int, lanes: int) -> Optional[str]:
        """The first difference in so many groups over so many connections."""
        done = subprocess.run(
            [PYTHON, "-B", "-m", "tests.support.book.compare", self.cluster.dsn,
             str(self.chance.getrandbits(32)), str(groups), str(lanes)],
            cwd=ROOT, capture_output=True, text=True, check=False,
            env={**os.environ, **library()})
        self.assertEqual(done.stderr, "")
        self.assertEqual(done.returncode, 1 if done.stdout else 0)
        return done.stdout or None

    def test_against_the_model(self) -> None:
        self.assertIsNone(self.difference(ONE_BY_ONE * self.times, 1))
        self.assertIsNone(self.difference(AT_ONCE * self.times, LANES))

    def test_plans(self) -> None:
        """Plans that are made over an empty book look each number up in the index."""
        self.assertEqual(self.scans(), "0")
        self.cluster.sql(with_plant(SCANS))
        self.assertNotEqual(self.scans(), "0")

    def scans(self) -> str:
        """How often a payment and a reversal have the whole table read."""
        paid, own, other = (number_of(1, it) for it in (1, 2, 3))
        return self.cluster.sql(
            "begin", call_of([Asked(paid, MACS[0], 5), Asked(own, MACS[0], reversed=other)]),
            "select seq_scan from pg_stat_xact_user_tables where relid = 'dukpt.number'::regclass",
            "rollback").splitlines()[-1]

    def test_waits(self) -> None:
        """A group waits for one of the same terminal, and for none of another, however close they are."""
        first, same = (call_of([Asked(number_of(6, it), MACS[0])]) for it in (1, 2))
        with self.cluster.session() as other:
            other.tell(f"begin; {first};")
            self.cluster.wait_for(IDLE, "1")
            for close in (7, 4, 2):
                call = call_of([Asked(number_of(close, 1), MACS[0])])
                self.assertEqual(self.cluster.sql("set lock_timeout = '20s'", call), "{0}")
            with self.assertRaisesRegex(AssertionError, "lock timeout"):
                self.cluster.sql("set lock_timeout = '50ms'", same)
        self.assertEqual(self.cluster.sql(same), "{0}")

    def test_times(self) -> None:
        """A row says when it was kept, and when its number was reversed: as the reversal was kept."""
        paid, own = (number_of(8, it) for it in (1, 2))
        for it in (Asked(paid, MACS[0], 5), Asked(own, MACS[0], reversed=paid)):
            self.cluster.sql(call_of([it]))
        self.assertEqual(self.cluster.sql(
            "select paid.kept_at < own.kept_at, paid.reversed_at = own.kept_at from dukpt.number as paid"
            " join dukpt.number as own on own.ksn = paid.reversed_by"), "t|t")

    def test_planted(self) -> None:
        """Each of these differences is found."""
        for plant in PLANTS:
            self.cluster.sql(with_plant(plant))
            self.assertIsNotNone(self.difference(ENOUGH * plant.lanes, plant.lanes), plant.name)
        self.cluster.sql(with_plant())
        self.assertIsNone(self.difference(ENOUGH, 1))


class Model(Case):
    def test_planted_in_the_model(self) -> None:
        """The proved book finds each of these differences."""
        groups = [world.groups for world in worlds(self.chance, ENOUGH)]
        self.assertIsNone(difference(groups))
        for model in MODELS:
            self.assertIsNotNone(difference(groups, model), model.__doc__)
