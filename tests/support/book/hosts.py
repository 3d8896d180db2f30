"""Hosts over a database of the test's own: a primary, and a standby that follows it."""
from __future__ import annotations

import ssl
import time
from pathlib import Path
from typing import Iterable, Optional, Sequence

from ..case import Case
from ..formats.bank import BANK
from ..formats.journal_records import Entry, Payment, Reversal
from ..library.library import built_library
from ..program import ROOT
from ..service.client import Exchange
from ..service.host import SECONDS, Client, Running
from ..service.host_keys import HostKeys
from .cluster import Cluster, folder_for

PACKAGE = ROOT / "library" / "python"
SHARED, VARIABLE = "libdukpt.so.0", "DUKPT_LIBRARY"
NO_END = 1 << 40
ROWS = """select kind, encode(ksn, 'hex'), amount, code, encode(mac, 'hex'), encode(reverses, 'hex'), state
from dukpt.number where kind > 0"""


def library() -> dict[str, str]:
    """By which variables a host finds the package `dukpt` and its library."""
    return {"PYTHONPATH": str(PACKAGE), VARIABLE: str(built_library() / SHARED)}


class BookCase(Case):
    """A test of hosts over PostgreSQL."""

    def setUp(self) -> None:
        super().setUp()
        self.environment = library()
        self.home = self.folder()
        (self.home / "bank.toml").write_bytes(BANK)
        self.keys = HostKeys(self.chance).write(self.home)
        where = folder_for(self)
        self.primary = self.cluster(where, "primary", 5432)
        self.standby = self.cluster(where, "standby", 5433)
        self.primary.make()

    def cluster(self, where: Path, name: str, port: int) -> Cluster:
        made = Cluster(where, name, port)
        self.addCleanup(made.release)
        return made

    def replicate(self, is_synchronous: bool = True) -> None:
        """Has the standby follow the primary, whose commits wait for it where that is synchronous."""
        self.standby.make_standby_of(self.primary)
        if is_synchronous:
            self.primary.set("synchronous_standby_names", "standby")
        self.primary.wait_for("select sync_state from pg_stat_replication where state = 'streaming'",
                              "sync" if is_synchronous else "async")

    # Hosts

    def start_host(self, *words: str, places: Optional[Sequence[Cluster]] = None,
                   keys: Optional[Sequence[str]] = None) -> Running:
        store = [word for it in places or [self.primary, self.standby]
                 for word in ("--postgres", it.dsn)]
        host = Running(self.home, keys or self.keys, store, *words, environment=self.environment)
        self.addCleanup(host.release)
        return host

    def connect(self, host: Running, context: Optional[ssl.SSLContext] = None) -> Client:
        client = host.connect(context)
        self.addCleanup(client.close)
        return client

    def wait_for_health(self, host: Running, status: int, text: str) -> None:
        until = time.monotonic() + SECONDS
        while (found := host.health()) != (status, f"{text}\n"):
            self.assertLess(time.monotonic(), until, found)
            time.sleep(0.1)

    def ask_until(self, host: Running, given: Iterable[Exchange]) -> dict[bytes, bytes]:
        """The answer to each frame, asked again over new connections where one ends."""
        answers: dict[bytes, bytes] = {}
        until = time.monotonic() + SECONDS
        client = self.connect(host)
        for it in given:
            while (answer := client.ask(it.frame)) is None:
                self.assertLess(time.monotonic(), until, "it is never answered")
                time.sleep(0.05)
                client.close()
                client = self.connect(host)
            answers[it.frame] = answer
        return answers

    # The book

    def kept(self, cluster: Cluster) -> list[Entry]:
        """The payments and reversals that a database keeps."""
        return [entry_of(line.split("|")) for line in cluster.sql(ROWS).splitlines()]

    def lost(self, cluster: Cluster, given: Iterable[Exchange], answers: dict[bytes, bytes],
             ) -> list[Exchange]:
        """The frames whose acknowledged answer a database does not have."""
        numbers = {it.serial.to_bytes(10, "big") for it in self.kept(cluster)}
        return [it for it in given if it.frame in answers and it.number not in numbers]


def entry_of(fields: Sequence[str]) -> Entry:
    kind, number, amount, code, mac, reverses, state = fields
    if kind == "1":
        return Payment(int(number, 16), int(amount), int(code), bytes.fromhex(mac))
    return Reversal(int(number, 16), int(reverses, 16), int(state), bytes.fromhex(mac))
