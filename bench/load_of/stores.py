"""Hosts over a new journal, and over a primary of PostgreSQL with synchronous standbys, on one disk."""
from __future__ import annotations

import os
import subprocess
import threading
import time
from pathlib import Path
from typing import Sequence


from tests.support.book import cluster
from tests.support.book.cluster import Cluster
from tests.support.formats.journal_file import records_for
from tests.support.formats.journal_records import RECORD
from tests.support.formats.large_stores import IN_A_JOURNAL
from tests.support.service.host import Running, children_of

from .frames import CONFIG

KEYS = (CONFIG, "--test-keys")
# As a small server of PostgreSQL is set, and else by its defaults.
SETTINGS = """
listen_addresses = ''
unix_socket_directories = '{folder}'
port = {port}
max_connections = 60
shared_buffers = 512MB
max_wal_size = 4GB
"""
TICKS = os.sysconf("SC_CLK_TCK")


def processor_of(processes: Sequence[int]) -> float:
    """The processor time of processes, in seconds. It has what ended below them, where they waited for it."""
    found = 0
    for it in processes:
        try:
            fields = Path(f"/proc/{it}/stat").read_text().rpartition(")")[2].split()
        except OSError:
            continue
        found += sum(map(int, fields[11:15]))
    return found / TICKS


class Store:
    """Where payments are kept, and the hosts over it. `clear` begins anew, with room for so many."""

    name = ""

    def __init__(self, folder: Path) -> None:
        self.folder = folder
        self.hosts: list[Running] = []

    def clear(self, payments: int) -> None:
        raise NotImplementedError

    def kept(self) -> int:
        raise NotImplementedError

    @property
    def below(self) -> list[int]:
        """The processes below the hosts."""
        raise NotImplementedError

    def words(self) -> list[str]:
        """How a host is told of it."""
        raise NotImplementedError

    environment: dict[str, str]

    def start_host(self, *words: str) -> Running:
        host = Running(self.folder, KEYS, self.words(), *words, environment=self.environment)
        self.hosts.append(host)
        host.told("listening on")
        return host

    def ports(self) -> list[int]:
        return [it.address("listening on")[1] for it in self.hosts]

    def stop_hosts(self) -> None:
        for it in self.hosts:
            if it.stop():
                raise SystemExit(f"bench/load: a host failed: {it.lines[-1]}")
            it.release()
        self.hosts = []


class JournalStore(Store):
    name = "journal"

    def __init__(self, folder: Path, program: str) -> None:
        super().__init__(folder)
        self.program, self.journal = program, folder / "journal"
        self.environment = {"DUKPT": program}

    def clear(self, payments: int) -> None:
        for it in (self.journal, Path(f"{self.journal}.state")):
            it.unlink(missing_ok=True)
        subprocess.run([self.program, "new-journal", self.journal, str(records_for(payments))],
                       check=True)

    def kept(self) -> int:
        # In each record of a payment of these terminals the number begins with this byte.
        return self.journal.read_bytes()[IN_A_JOURNAL::RECORD].count(0xFF)

    @property
    def below(self) -> list[int]:
        return [child for it in self.hosts for child in children_of(it.process.pid)]

    def words(self) -> list[str]:
        return ["--journal", str(self.journal)]


class BookStore(Store):
    """A primary with two standbys, of which a commit waits for one."""

    name = "PostgreSQL"

    def __init__(self, folder: Path, environment: dict[str, str]) -> None:
        super().__init__(folder)
        cluster.SETTINGS = SETTINGS
        self.environment = environment
        self.primary, *self.standbys = (
            Cluster(folder, name, 5432 + at) for at, name in enumerate(("one", "two", "three")))
        self.all = [self.primary, *self.standbys]

    def make(self) -> None:
        self.primary.make()
        for it in self.standbys:
            it.make_standby_of(self.primary)
        self.primary.set("synchronous_standby_names", "ANY 1 (standby)")
        self.wait_for_standbys(2)

    def wait_for_standbys(self, count: int) -> None:
        self.primary.wait_for("select count(*) from pg_stat_replication where state = 'streaming'"
                              " and sync_state = 'quorum'", str(count))

    def clear(self, payments: int) -> None:
        self.primary.sql("truncate dukpt.number, dukpt.terminal", "checkpoint")

    def kept(self) -> int:
        return int(self.primary.sql("select count(*) from dukpt.number"))

    @property
    def below(self) -> list[int]:
        servers = [it.server for it in self.all if (it.data / "postmaster.pid").exists()]
        return servers + [child for it in servers for child in children_of(it)]

    def words(self) -> list[str]:
        return [word for it in self.all for word in ("--postgres", it.dsn)]

    def fail_over(self) -> None:
        """What a watcher does that has noticed the loss of the primary: of the standbys that which has
        received most is promoted, and the other one follows it."""
        received = "select pg_last_wal_receive_lsn() - '0/0'"
        first, *others = sorted(self.standbys, key=lambda it: -int(it.sql(received)))
        for it in others:
            it.set("primary_conninfo", f"host={self.folder} port={first.port} user={cluster.USER}"
                   " application_name=standby")
        first.set("synchronous_standby_names", "ANY 1 (standby)")
        first.promote()
        self.primary, self.standbys = first, others
        self.all = [first, *others]

    def release(self) -> None:
        for it in self.all:
            it.release()


class Watcher(threading.Thread):
    """Asks a primary again and again whether it is there, and fails over where it is not, twice."""

    EVERY, PATIENCE, TIMES = 0.5, 2, 2

    def __init__(self, book: BookStore) -> None:
        super().__init__(daemon=True)
        self.book, self.failed_over = book, 0.0

    def run(self) -> None:
        missing = 0
        while missing < self.TIMES:
            time.sleep(self.EVERY)
            missing = 0 if self.is_there() else missing + 1
        self.book.fail_over()
        self.failed_over = time.monotonic()

    def is_there(self) -> bool:
        it = self.book.primary
        ready = cluster.binaries() / "pg_isready"
        words = [ready, "-q", "-h", str(self.book.folder), "-p", str(it.port), "-t", str(self.PATIENCE)]
        return subprocess.run(words, check=False).returncode == 0
