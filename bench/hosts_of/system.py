"""Three hosts, a primary with a synchronous standby, and haproxy in front."""
from __future__ import annotations

import os
import random
import shutil
import signal
import subprocess
from pathlib import Path

from tests.support.book.cluster import HOST_USER, SECONDS, SETTINGS, USER, Cluster, binaries
from tests.support.book.hosts import library
from tests.support.program import ROOT
from tests.support.service.host import Running, children_of
from tests.support.service.host_keys import HostKeys

from .network import PREFIX, Node, begin, call, node

HAPROXY = ROOT / "share/deploy/haproxy.cfg"
PORT = 5432
# Bytes of the disk of each database.
DISK = 256 << 20
# A line that is gone is noticed within seconds; else they are as in tests.
MORE = """
wal_keep_size = 32MB
wal_sender_timeout = 4s
wal_receiver_timeout = 4s
wal_retrieve_retry_interval = 500ms
"""
MAY_COME = f"host all all {PREFIX}.0/24 trust\nhost replication all {PREFIX}.0/24 trust\n"


class Database(Cluster):
    """A server on a machine of its own, with a disk of its own."""

    def __init__(self, home: Path, at: Node) -> None:
        self.node = at
        folder = home / at.name
        folder.mkdir()
        call("mount", "-t", "tmpfs", "-o", f"size={DISK}", at.name, str(folder))
        super().__init__(folder, "data", PORT)

    @property
    def dsn(self) -> str:
        return f"postgresql://{HOST_USER}@{self.node.address}:{PORT}/dukpt"

    def run(self, command: str, *words: str, check: bool = True) -> str:
        assert self.account
        account = ("-S", str(self.account.pw_uid), "-G", str(self.account.pw_gid))
        done = subprocess.run(
            [*self.node.behind(*account), binaries() / command, *words], cwd=self.folder,
            stdin=subprocess.DEVNULL, stdout=subprocess.PIPE, stderr=subprocess.STDOUT, text=True,
            timeout=SECONDS, check=False, env={**os.environ, "LC_ALL": "C.UTF-8"})
        if check and done.returncode != 0:
            raise RuntimeError(f"{command} {' '.join(words)}: {done.stdout}")
        return done.stdout

    @property
    def own(self) -> str:
        """The settings in which two databases differ."""
        return (f"unix_socket_directories = '{self.folder}'\n"
                f"listen_addresses = '{self.node.address}'\n")

    def make_server(self) -> None:
        self.run("initdb", "-D", str(self.data), "-A", "trust", "-U", USER, "--no-sync",
                 "--wal-segsize=1")
        text = SETTINGS.format(folder=self.folder, port=PORT) + MORE + self.own
        for name, added in (("postgresql.conf", text), ("pg_hba.conf", MAY_COME)):
            with open(self.data / name, "a", encoding="utf-8") as it:
                it.write(added)
        self.start()

    def make_standby_of(self, primary: Cluster) -> None:
        assert isinstance(primary, Database)
        address = primary.node.address
        self.run("pg_basebackup", "-D", str(self.data), "-h", address, "-p", str(PORT), "-U", USER,
                 "--checkpoint=fast", "--no-sync")
        (self.data / "standby.signal").touch()
        with open(self.data / "postgresql.auto.conf", "a", encoding="utf-8") as it:
            it.write(f"{self.own}primary_conninfo = 'host={address} port={PORT} user={USER}"
                     f" application_name=standby connect_timeout=2'\nsynchronous_standby_names = ''\n")
        self.start()

    def kill(self) -> None:
        for it in [self.server, *children_of(self.server)]:
            try:
                os.kill(it, signal.SIGKILL)
            except ProcessLookupError:
                pass
        (self.data / "postmaster.pid").unlink(missing_ok=True)

    def fill(self) -> None:
        """Leaves no byte of its disk."""
        with open(self.folder / "full", "wb", buffering=0) as it:
            for size in (1 << 20, 1 << 12):
                try:
                    while it.write(bytes(size)) == size:
                        pass
                except OSError:
                    pass

    def make_room(self) -> None:
        """Ends that, and starts the server where it ended."""
        (self.folder / "full").unlink()
        if "no server running" in self.run("pg_ctl", "-D", str(self.data), "status", check=False):
            self.start()


class System:
    def __init__(self, home: Path, chance: random.Random) -> None:
        begin()
        self.home, self.environment = home, library()
        self.keys = HostKeys(chance).write(home)
        self.nodes = [node(f"host-{it}", 10 + it) for it in (1, 2, 3)]
        self.front = node("proxy", 10)
        self.primary, self.standby = (Database(home, node(f"base-{it}", 20 + it)) for it in (1, 2))
        self.places = [self.primary.dsn, self.standby.dsn]
        self.primary.make()
        self.standby.make_standby_of(self.primary)
        self.primary.set("synchronous_standby_names", "standby")
        self.hosts = [self.started(it) for it in self.nodes]
        for it in self.hosts:
            it.told("serving, with 1")
        self.proxy = subprocess.Popen([*self.front.behind(), "haproxy", "-db", "-q", "-f", HAPROXY],
                                      stdout=subprocess.DEVNULL, stderr=subprocess.DEVNULL)

    def started(self, at: Node, *words: str) -> Running:
        store = [word for dsn in self.places for word in ("--postgres", dsn)]
        return Running(self.home, self.keys, store, "--plain", "--listen", f"{at.address}:7000",
                       "--metrics", f"{at.address}:7001", *words, environment=self.environment,
                       behind=at.behind())

    def start_again(self, place: int, *words: str) -> None:
        """Kills a host, unless it is dead, and starts another one in its place."""
        self.hosts[place].release()
        self.hosts[place] = self.started(self.nodes[place], *words)

    def promote(self) -> None:
        """The standby takes the place of a primary that was killed."""
        self.primary, self.standby = self.standby, self.primary
        self.primary.promote()

    def replace_standby(self) -> None:
        """A new standby, on the disk of the former primary."""
        self.primary.set("synchronous_standby_names", "standby")
        shutil.rmtree(self.standby.data)
        self.standby.make_standby_of(self.primary)

    def stop_waiting(self) -> None:
        """Has commits wait for no standby, and the hosts serve nevertheless."""
        self.primary.set("synchronous_standby_names", "")
        for place in range(len(self.hosts)):
            self.start_again(place, "--not-replicated")
        for it in self.hosts:
            it.told("serving, not replicated")
