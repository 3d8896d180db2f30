"""Clusters of PostgreSQL that a test makes, in a folder of its own, and that go with it."""
from __future__ import annotations

import os
import pwd
import shutil
import signal
import subprocess
import time
from contextlib import contextmanager
from pathlib import Path
from typing import Iterator, Optional, Sequence

from ..case import MEMORY, Case
from ..program import ROOT
from ..service.host import children_of, command_of

USER, HOST_USER = "dukpt", "host"
SCHEMA = ROOT / "share/host/dukpt_host/book/schema.sql"
# They are light beside other tests.
SETTINGS = """
listen_addresses = ''
unix_socket_directories = '{folder}'
port = {port}
shared_buffers = 16MB
max_connections = 60
max_wal_senders = 4
wal_level = replica
max_wal_size = 64MB
wal_receiver_status_interval = 1s
autovacuum = off
"""
SECONDS = 60
# Whether a session has begun a transaction, and has done what it was told.
IDLE = "select count(*) from pg_stat_activity where state = 'idle in transaction'"
# What the clusters of several tests at once have, in bytes.
ROOM = 2 << 30


class NoServer(AssertionError):
    """That PostgreSQL is not installed: a test that wants it fails."""


def binaries() -> Path:
    """The folder with the newest server's programs."""
    found = sorted(Path("/usr/lib/postgresql").glob("*/bin"), key=lambda it: int(it.parent.name))
    if not found:
        raise NoServer("PostgreSQL is not installed: apt-get install postgresql")
    return found[-1]


def folder_for(case: Case) -> Path:
    """A new folder of a test for its clusters: in memory where there is room for all that run at
    once."""
    has_room = MEMORY.is_dir() and shutil.disk_usage(MEMORY).free > ROOM
    return case.folder(in_memory=has_room)


class Cluster:
    """A server with its data in a folder. It runs as `postgres` where root makes it."""

    def __init__(self, folder: Path, name: str, port: int) -> None:
        self.folder, self.data, self.port = folder, folder / name, port
        self.account: Optional[pwd.struct_passwd] = (
            pwd.getpwnam("postgres") if os.geteuid() == 0 else None)
        if self.account:
            os.chown(folder, self.account.pw_uid, self.account.pw_gid)

    @property
    def dsn(self) -> str:
        """Where a host finds it. Its role may do what a host has to do."""
        return f"postgresql:///dukpt?host={self.folder}&port={self.port}&user={HOST_USER}"

    def run(self, command: str, *words: str, check: bool = True) -> str:
        """Runs one of PostgreSQL's programs."""
        how = {"user": self.account.pw_uid, "group": self.account.pw_gid,
               "extra_groups": []} if self.account else {}
        done = subprocess.run(
            [binaries() / command, *words], cwd=self.folder, stdin=subprocess.DEVNULL,
            stdout=subprocess.PIPE, stderr=subprocess.STDOUT, text=True, timeout=SECONDS, check=False,
            env={**os.environ, "LC_ALL": "C.UTF-8"}, **how)
        if check and done.returncode != 0:
            raise AssertionError(f"{command} {' '.join(words)}: {done.stdout}")
        return done.stdout

    # Its life

    def make(self) -> None:
        """Makes a server with the book, and starts it."""
        self.make_server()
        self.sql("create database dukpt", database="postgres")
        self.run("psql", *self.words("dukpt"), "-f", str(SCHEMA))
        self.sql(f"create role {HOST_USER} login in role dukpt_host")

    def make_server(self) -> None:
        self.run("initdb", "-D", str(self.data), "-A", "trust", "-U", USER, "--no-sync")
        text = SETTINGS.format(folder=self.folder, port=self.port)
        with open(self.data / "postgresql.conf", "a", encoding="utf-8") as it:
            it.write(text)
        self.start()

    def make_standby_of(self, primary: Cluster) -> None:
        """Copies a server that runs, and follows it."""
        self.run("pg_basebackup", "-D", str(self.data), "-h", str(self.folder), "-p",
                 str(primary.port), "-U", USER, "--checkpoint=fast", "--no-sync")
        (self.data / "standby.signal").touch()
        settings = self.data / "postgresql.auto.conf"
        with open(settings, "a", encoding="utf-8") as it:
            it.write(f"port = {self.port}\nprimary_conninfo = 'host={self.folder} port={primary.port}"
                     f" user={USER} application_name=standby'\nsynchronous_standby_names = ''\n")
        self.start()

    def start(self) -> None:
        self.run("pg_ctl", "-D", str(self.data), "-l", str(self.folder / f"{self.data.name}.log"),
                 "-w", "-t", str(SECONDS), "start")

    def stop(self, how: str = "fast") -> None:
        self.run("pg_ctl", "-D", str(self.data), "-m", how, "-w", "stop", check=False)

    @property
    def server(self) -> int:
        return int((self.data / "postmaster.pid").read_text().split()[0])

    def signal(self, process: str, way: int) -> None:
        """Sends a signal to the server's process of a name, as `walreceiver`."""
        found = [it for it in children_of(self.server)
                 if command_of(it).startswith(f"postgres: {process}".encode())]
        assert found, f"no {process}"
        for it in found:
            os.kill(it, way)

    def kill(self) -> None:
        """Kills all its processes, as the end of a machine does."""
        for it in [self.server, *children_of(self.server)]:
            os.kill(it, signal.SIGKILL)
        (self.data / "postmaster.pid").unlink()

    def promote(self) -> None:
        self.run("pg_ctl", "-D", str(self.data), "-w", "promote")

    def release(self) -> None:
        if (self.data / "postmaster.pid").exists():
            self.stop("immediate")
        shutil.rmtree(self.data, ignore_errors=True)

    # What it is asked

    def words(self, database: str) -> Sequence[str]:
        return ("-X", "-q", "-A", "-t", "-v", "ON_ERROR_STOP=1", "-h", str(self.folder), "-p",
                str(self.port), "-U", USER, "-d", database)

    def sql(self, *commands: str, database: str = "dukpt") -> str:
        words = [word for it in commands for word in ("-c", it)]
        return self.run("psql", *self.words(database), *words).strip()

    def set(self, name: str, value: str) -> None:
        """Sets something, and has the server heed it."""
        self.sql(f"alter system set {name} = '{value}'", "select pg_reload_conf()")

    def wait_for(self, question: str, answer: str) -> None:
        """Waits until a question has an answer."""
        until = time.monotonic() + SECONDS
        while (found := self.sql(question)) != answer:
            assert time.monotonic() < until, f"{question}: {found}"
            time.sleep(0.05)

    @contextmanager
    def session(self) -> Iterator[Session]:
        """A session beside others, which goes with the block."""
        process = subprocess.Popen([binaries() / "psql", *self.words("dukpt")], text=True,
                                   stdin=subprocess.PIPE, stdout=subprocess.DEVNULL)
        try:
            yield Session(process)
        finally:
            process.communicate(timeout=SECONDS)


class Session:
    """Commands to a session, one after the other."""

    def __init__(self, process: subprocess.Popen[str]) -> None:
        self.process = process

    def tell(self, commands: str) -> None:
        assert self.process.stdin
        self.process.stdin.write(f"{commands}\n")
        self.process.stdin.flush()
