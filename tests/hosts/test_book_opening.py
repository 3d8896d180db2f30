"""A connection to the database as a host opens it: to a server that says that it is of another version, and
one whose host is killed while a group of it waits for a terminal."""
from __future__ import annotations

import subprocess

from ..support.book.cluster import HOST_USER, IDLE, Cluster, folder_for
from ..support.book.groups import MACS, call_of, number_of
from ..support.case import Case
from ..support.models.model_book import Asked
from ..support.program import ROOT
from ..support.service.host import SECONDS
from .test_book_statement import PYTHON
from .test_host_book import BLOCKED

# A server that says of its version what it is told to say, where a role looks there first. All else that
# is asked of its settings it answers itself.
OTHER = """
create schema other;
grant usage on schema other to public;
create function other.current_setting(name text) returns text language sql as
$$ select case name when 'server_version_num' then '{}' else pg_catalog.current_setting(name) end $$;
"""
LOOKS_THERE = f"alter role {HOST_USER} set search_path = other, pg_catalog"
# What the server has of a connection of a host.
OPEN = "select count(*) from pg_stat_activity where application_name = 'dukpt-host'"
OLD = "PostgreSQL is older than 14"


class Opening(Case):
    weight = 5

    def setUp(self) -> None:
        super().setUp()
        self.cluster = Cluster(folder_for(self), "primary", 5432)
        self.addCleanup(self.cluster.release)
        self.cluster.make()

    def opened(self, statement: str) -> subprocess.Popen[str]:
        """A process with such a connection, over which it has a statement answered."""
        made = subprocess.Popen(
            [PYTHON, "-B", "-m", "tests.support.book.opened", self.cluster.dsn, statement], cwd=ROOT,
            stdin=subprocess.DEVNULL, stdout=subprocess.PIPE, text=True)
        self.addCleanup(made.communicate)
        self.addCleanup(made.kill)
        return made

    def answer(self, statement: str) -> str:
        return self.opened(statement).communicate(timeout=SECONDS)[0].rstrip("\n")

    def test_version(self) -> None:
        """Nothing is served over a server that is older than 14, whatever else it has."""
        self.cluster.sql(LOOKS_THERE)
        for version, wanted in (("130023", OLD), ("139999", OLD), ("140000", "right"), ("170004", "right")):
            self.cluster.sql("drop schema if exists other cascade", OTHER.format(version))
            self.assertEqual(self.answer("select 'right'"), wanted, version)

    def test_killed_while_it_waits(self) -> None:
        """A group that waits for a terminal goes soon behind its host, though the terminal is still held:
        nobody is left whom the server could tell what came of it."""
        first, same = (Asked(number_of(1, it), MACS[0]) for it in (1, 2))
        with self.cluster.session() as other:
            other.tell(f"begin; {call_of([first])};")
            self.cluster.wait_for(IDLE, "1")
            host = self.opened(call_of([same]))
            self.cluster.wait_for(BLOCKED, "1")
            host.kill()
            self.cluster.wait_for(OPEN, "0")
            self.assertEqual(self.cluster.sql(IDLE), "1")
        self.assertEqual(self.cluster.sql("select count(*) from dukpt.number"), "0")
