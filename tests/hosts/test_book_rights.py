"""Who may read and change the book in PostgreSQL: the catalog is asked, and another role tries. What a
caller puts in the place of PostgreSQL's own functions and types is not called in the name of the owner. The
role of the hosts keeps nothing that is no payment or reversal; and who may not make all of the book makes
nothing of it."""
from __future__ import annotations

from typing import Optional

from ..support.book.cluster import HOST_USER, SCHEMA, USER, Cluster, folder_for
from ..support.book.groups import MACS, call_of, number_of
from ..support.book.plants import PATH, TEMPORARY, Plant, with_plant
from ..support.case import Case
from ..support.models.model_book import Asked

# What a role may do: with the schema, with each table and view, with each function that its owner's rights
# go with.
MAY = """
select 'schema ' || may from unnest(array['usage', 'create']) as may
where has_schema_privilege('{0}', 'dukpt', may)
union all
select relname || ' ' || may from pg_class,
    unnest(array['select', 'insert', 'update', 'delete', 'truncate', 'references', 'trigger']) as may
where relnamespace = 'dukpt'::regnamespace and relkind <> 'i'
    and has_table_privilege('{0}', pg_class.oid, may)
union all
select proname || ' execute' from pg_proc
where pronamespace = 'dukpt'::regnamespace and prosecdef and has_function_privilege('{0}', oid, 'execute')
"""
OF_HOST = {"schema usage", "terminal select", "number select", "standing select", "settle execute"}
OTHER_PATH = """select proname from pg_proc where pronamespace = 'dukpt'::regnamespace and prosecdef
and 'search_path=pg_catalog, pg_temp' <> all(proconfig)"""
# Each tells in whose name it is called.
INTRUDER = """
create schema intruder;
create table intruder.seen (who text);
grant usage on schema intruder to public;
grant insert on intruder.seen to public;
create function intruder.note() returns boolean language plpgsql as
$$ begin insert into intruder.seen values (current_user); return true; end $$;
create function intruder.unnest(given bytea[]) returns setof bytea language plpgsql as
$$ begin perform intruder.note(); return query select * from pg_catalog.unnest(given); end $$;
"""
# Of these sessions the first has a function in the place of one of PostgreSQL's, and the second a type.
BY_PATH = "set search_path = intruder, pg_catalog"
BY_TYPE = "create domain pg_temp.bytea as pg_catalog.bytea check (intruder.note())"


class Rights(Case):
    weight = 5

    def setUp(self) -> None:
        super().setUp()
        self.cluster = Cluster(folder_for(self), "primary", 5432)
        self.addCleanup(self.cluster.release)
        self.cluster.make()

    def tried(self, role: str, *commands: str) -> str:
        """What a role is told of commands in a session, the last of which may be refused."""
        where = self.cluster.dsn.replace(f"user={HOST_USER}", f"user={role}")
        words = [word for it in commands for word in ("-c", it)]
        return self.cluster.run("psql", "-X", "-q", "-A", "-t", where, *words, check=False).strip()

    def test_catalog(self) -> None:
        """The role of the hosts may read, and call the statement. Another one may do nothing."""
        self.cluster.sql("create role stranger login")
        self.assertEqual(self.cluster.sql(MAY.format("stranger")), "")
        self.assertEqual(set(self.cluster.sql(MAY.format(HOST_USER)).splitlines()), OF_HOST)
        self.assertEqual(self.cluster.sql(OTHER_PATH), "")

    def test_auditor(self) -> None:
        """One who may read what stands can do nothing else."""
        self.cluster.sql("create role auditor login", "grant usage on schema dukpt to auditor",
                         "grant select on dukpt.standing to auditor")
        paid = Asked(number_of(1, 1), MACS[0], 5)
        self.assertEqual(self.tried(HOST_USER, call_of([paid])), "{0}")
        self.assertEqual(self.tried("auditor", "select sum(amount) from dukpt.standing"), "5")
        for command, name in (("select from dukpt.number", "table number"),
                              ("select from dukpt.terminal", "table terminal"),
                              ("delete from dukpt.standing", "view standing"),
                              (call_of([paid]), "function settle"),
                              ("create table dukpt.other ()", "schema dukpt")):
            self.assertIn(f"permission denied for {name}", self.tried("auditor", command))

    def test_names_of_a_caller(self) -> None:
        """The statement heeds none. Planted ones that do are found."""
        self.cluster.sql(INTRUDER)
        self.assertEqual([self.seen(it, None) for it in (BY_PATH, BY_TYPE)], ["", ""])
        self.assertEqual([self.seen(BY_PATH, PATH), self.seen(BY_TYPE, TEMPORARY)], [USER, USER])

    def seen(self, before: str, plant: Optional[Plant]) -> str:
        """In whose name an intruder is called by a payment and a reversal in a session of a host."""
        self.cluster.sql("delete from intruder.seen", with_plant(plant))
        paid, own = (number_of(self.chance.getrandbits(30), it) for it in (1, 2))
        group = [Asked(paid, MACS[0], 5), Asked(own, MACS[0], reversed=own[:-1] + b"\3")]
        self.assertEqual(self.tried(HOST_USER, before, call_of(group)), "{0,0}")
        return self.cluster.sql("select distinct who from intruder.seen")

    def test_fields(self) -> None:
        """Nothing is kept that no host could answer, whoever has the role of the hosts."""
        paid, own = (number_of(1, it) for it in (1, 2))
        for it in (Asked(paid, MACS[0], 5, 99), Asked(paid, MACS[0], 1 << 32), Asked(paid, MACS[0], -1),
                   Asked(paid, MACS[0][1:], 5), Asked(paid[1:], MACS[0], 5), Asked(own, MACS[0], reversed=own),
                   Asked(own, MACS[0], reversed=number_of(2, 1)), Asked(own, MACS[0], reversed=paid[1:])):
            self.assertIn("violates check constraint", self.tried(HOST_USER, call_of([it])), it)
        self.assertEqual(self.cluster.sql("select count(*) from dukpt.number"), "0")

    def test_all_or_nothing(self) -> None:
        """One who may not grant what the hosts need leaves nothing, and no further command is run."""
        self.cluster.sql("create role owner login", "create database other owner owner")
        where = self.cluster.dsn.replace("/dukpt?", "/other?").replace(f"user={HOST_USER}", "user=owner")
        said = self.cluster.run("psql", "-X", "-A", "-t", where, "-f", str(SCHEMA), "-c", "select 'behind'",
                                check=False)
        self.assertIn("pg_read_all_stats", said)
        self.assertNotIn("behind", said)
        self.assertEqual(self.cluster.sql("select nspname from pg_namespace where nspname = 'dukpt'",
                                          database="other"), "")
