"""What docs/DEPLOYMENT.md has an operator type, as it stands there; and that what docs/OPERATION.md tells of
alarms and health is what a host says."""
from __future__ import annotations

import os
import re
import select
import shlex
import signal
import socket
import ssl
import subprocess
import time
from pathlib import Path
from typing import NamedTuple, Optional, Sequence

from ..support.book.cluster import HOST_USER, SCHEMA, USER, Cluster, binaries, folder_for
from ..support.book.hosts import BookCase, library
from ..support.case import Case, ProgramCase
from ..support.commands.everyday import check_value
from ..support.formats.bank import CARD
from ..support.program import ROOT
from ..support.service.client import Exchange, payments
from ..support.service.host import HOST, ON_JOURNAL, SECONDS, Client, Running
from ..support.service.host_keys import PREFIX

DEPLOYMENT, OPERATION = (ROOT / "docs" / it for it in ("DEPLOYMENT.md", "OPERATION.md"))
HAPROXY = ROOT / "share/deploy/haproxy.cfg"
INSTALLED = "/usr/lib/python3/dist-packages/dukpt_host/book/schema.sql"
ROLE = "dukpt_host"
RULES = f"local all {ROLE} scram-sha-256\nlocal all all trust\nlocal replication all trust\n"
PROMPTS = re.compile(r"Enter (new password for user .+?|it again): \n?")
KEYS = {"bdk": "0123456789ABCDEFFEDCBA9876543210", "zone": "3F419E1CB7079442AA37474C2EFBF8B8"}
# The fields of a base derivation key, as they stand in the document, and those of a zone key.
FIELDS = ("B0TX00N", "P0TB00N")
COMPONENT = re.compile(r"([0-9a-fA-F]{48}) ([0-9A-F]{6})\n")
# Behind a word of /health stands what differs from case to case.
OPEN_END = re.compile(r" \.\..*| within .*")


def blocks_of(document: Path, heading: str) -> list[str]:
    """The commands that stand below a heading: the lines behind four spaces, block by block."""
    text = document.read_text(encoding="utf-8")
    part = text.split(f"\n## {heading}\n")[1].split("\n## ")[0]
    return [re.sub("^    ", "", it, flags=re.M) for it in re.findall(r"(?:^    .*\n)+", part, re.M)]


def table_below(document: Path, head: str) -> list[list[str]]:
    """The rows of the table whose first cell is this."""
    lines = document.read_text(encoding="utf-8").split(f"\n| {head} |", 1)[1].splitlines()[2:]
    rows = []
    for line in lines:
        if not line.startswith("|"):
            break
        rows.append([it.strip() for it in line.strip("|").split(" | ")])
    return rows


def spans(text: str) -> list[str]:
    return re.findall(r"`([^`]+)`", text)


class Keys(ProgramCase):
    def bash(self, home: Path, commands: str, typed: str = "") -> str:
        done = subprocess.run(["bash", "-euc", commands], cwd=home, capture_output=True, text=True,
                              input=typed, timeout=SECONDS, check=False,
                              env={**os.environ, "PATH": f"{home / 'bin'}:{os.environ['PATH']}"})
        self.assertEqual((done.returncode, done.stderr), (0, ""), commands)
        return done.stdout

    def test_components_and_blocks(self) -> None:
        """Component files, and key blocks under the exclusive or of the components of keys that are typed.
        No other file is made."""
        home = self.folder()
        (home / "bin").mkdir()
        (home / "bin/dukpt").symlink_to(self.program.path)
        component, together = blocks_of(DEPLOYMENT, "Keys")[:2]
        for name in ("lmk.1", "lmk.2"):
            self.assertEqual(self.bash(home, component.replace("lmk.1", name)), "")
        parts = [COMPONENT.fullmatch((home / it).read_text()) for it in ("lmk.1", "lmk.2")]
        self.assertTrue(all(parts), parts)
        for digits, value in (it.groups() for it in parts):
            self.assertIn(f"kcv {value}\n".encode(), self.program.run("kcv", digits).output)
            self.assertTrue(all(it.bit_count() % 2 for it in bytes.fromhex(digits)), digits)
        self.assertEqual((home / "lmk.1").stat().st_mode & 0o777, 0o600)
        lmk = f"{int(parts[0][1], 16) ^ int(parts[1][1], 16):048X}"
        checked = "".join(f"component {at} {it[2]}\n" for at, it in enumerate(parts, 1))
        checked += f"lmk {check_value(bytes.fromhex(lmk))}\n"
        self.assertIn(FIELDS[0], together)
        made = [self.block_of(home, lmk, checked, together.replace(FIELDS[0], fields), fields, key)
                for fields, key in zip(FIELDS, KEYS.values())]
        self.assertEqual(sorted(it.name for it in home.iterdir()), ["bin", "lmk.1", "lmk.2"])
        self.check_host(home, *made)

    def block_of(self, home: Path, lmk: str, checked: str, command: str, fields: str, key: str) -> str:
        """The key block that commands make of a key that is typed, behind check values, its own first."""
        told, block = self.bash(home, command, f"{key}\n").split("block ")
        self.assertEqual(told, self.program.run("kcv", key).output.decode() + checked)
        self.assertEqual(block[5:12], fields)
        self.assertIn(key.encode(), self.program.run("unwrap", lmk, block.strip()).output)
        return block.strip()

    def check_host(self, home: Path, bdk: str, zone: str) -> None:
        """A host serves with these key blocks and components."""
        (home / "bank.toml").write_text(
            f'zone = "{zone}"\n[[bdk]]\nprefix = "{PREFIX}"\nblock = "{bdk}"\n{CARD.decode()}')
        self.assertEqual(self.program.run("new-journal", "journal", "100", folder=home).status, 0)
        host = Running(home, ["bank.toml", "--component", "lmk.1", "--component", "lmk.2"], ON_JOURNAL,
                       environment={**library(), "DUKPT": str(self.program.path)})
        self.addCleanup(host.release)
        client, given = host.connect(), payments(1)[0]
        self.addCleanup(client.close)
        self.assertEqual(client.ask(given.frame), given.answer)


class Words(Case):
    def test_units(self) -> None:
        """A host takes the words of each unit. It is not started here for want of its files."""
        found = re.findall(r"^    ExecStart=/usr/bin/dukpt-host (.*)$", DEPLOYMENT.read_text(), re.M)
        self.assertGreater(len(found), 0)
        for words in found:
            done = subprocess.run([HOST, *shlex.split(words)], cwd=self.folder(), capture_output=True,
                                  text=True, timeout=SECONDS, check=False,
                                  env={**os.environ, **library()})
            self.assertEqual((done.returncode, "not started: " in done.stderr), (1, True), done.stderr)

    def test_alarms(self) -> None:
        """Each metric, each of its words and each text of /health is in the host's own sources."""
        package = (HOST.parent / "dukpt_host").rglob("*.py")
        said = "\n".join(it.read_text(encoding="utf-8") for it in package)
        alarms = table_below(OPERATION, "alarm")
        metrics = {re.sub("_total$|_bucket$", "", it)
                   for _, when, do in alarms for it in re.findall(r"\bdukpt_\w+", when + do)}
        self.assertGreater(len(metrics), 10)
        for it in metrics:
            self.assertIn(f'"{it}"', said)
        for _, when, _ in alarms:
            words = re.findall(r'"([^"]+)"', when) + [it for it in spans(when) if it.replace(" ", "").isalpha()]
            for it in words:
                self.assertIn(f'"{it}"', said)
        texts = [it for text, _ in table_below(OPERATION, "text of `/health`") for it in spans(text)]
        self.assertGreater(len(texts), 12)
        for it in texts:
            self.assertIn(f'{OPEN_END.sub("", it)}', said)
        self.tells(f"{len(metrics)} metrics, {len(texts)} texts")


class Place(NamedTuple):
    """Where a host looks for a database."""

    dsn: str


class Front(NamedTuple):
    """What stands in front of hosts."""

    port: int

    def listens(self) -> bool:
        with socket.socket() as it:
            return it.connect_ex(("127.0.0.1", self.port)) == 0

    def connect(self, context: Optional[ssl.SSLContext] = None) -> Client:
        return Client(socket.create_connection(("127.0.0.1", self.port), SECONDS))


class Documented(BookCase):
    weight = 5

    def test_database(self) -> None:
        """Over a database that the command made, with a synchronous standby, a host serves whose role
        has no more than that grants, by the password that was typed."""
        where = folder_for(self)
        self.primary = self.cluster(where, "documented", 5434)
        self.standby = self.cluster(where, "follower", 5435)
        self.primary.make_server()
        command = blocks_of(DEPLOYMENT, "Many hosts, over PostgreSQL")[0]
        self.assertIn(INSTALLED, command)
        password = self.chance.randbytes(9).hex()
        self.bash(self.primary, command.replace(INSTALLED, str(SCHEMA)), f"{password}\n" * 2)
        (self.primary.data / "pg_hba.conf").write_text(RULES)
        self.primary.sql("select pg_reload_conf()")
        (self.home / "password").write_text(f"{password}\n")
        self.replicate()
        places = [Place(it.dsn.replace(f"user={HOST_USER}", f"user={ROLE}"))
                  for it in (self.standby, self.primary)]
        host, given = self.start_host("--password", "password", places=places), payments(20)
        answers = self.ask_until(host, given)
        self.assertEqual(list(answers.values()), [it.answer for it in given])
        self.wait_for_health(host, 200, "serving")
        question = re.search(r"`(select [^`]*dukpt\.standing)`", DEPLOYMENT.read_text())[1]
        stands = [it for it in self.kept(self.primary) if it.code == 0]
        self.assertEqual(self.primary.sql(question), f"{len(stands)}|{sum(it.amount for it in stands)}")

    def bash(self, cluster: Cluster, commands: str, typed: str) -> None:
        """Runs commands without a terminal, so that what is typed is their input."""
        reached = {"PGHOST": str(cluster.folder), "PGPORT": str(cluster.port), "PGUSER": USER,
                   "PGDATABASE": "postgres", "PATH": f"{binaries()}:{os.environ['PATH']}"}
        done = subprocess.run(["bash", "-euc", commands], cwd="/", capture_output=True, text=True,
                              timeout=SECONDS, check=False, env={**os.environ, **reached}, input=typed,
                              start_new_session=True)
        self.assertEqual((done.returncode, PROMPTS.sub("", done.stderr)), (0, ""), commands)

    # In front

    def start_front(self, hosts: Sequence[Running]) -> Front:
        """haproxy by its example, with the addresses of these hosts."""
        with socket.create_server(("127.0.0.1", 0)) as it:
            port = it.getsockname()[1]
        text = HAPROXY.read_text().replace("bind :7000", f"bind 127.0.0.1:{port}")
        for number, host in enumerate(hosts, 11):
            address = f"10.0.0.{number}:7000"
            self.assertIn(address, text)
            at, health = (host.address(it)[1] for it in ("listening on", "metrics and health on"))
            text = text.replace(address, f"127.0.0.1:{at} port {health}")
        (self.home / "haproxy.cfg").write_text(text)
        front = subprocess.Popen(["haproxy", "-db", "-f", self.home / "haproxy.cfg"],
                                 stdout=subprocess.DEVNULL, stderr=subprocess.DEVNULL)
        self.addCleanup(front.wait)
        self.addCleanup(front.kill)
        made, until = Front(port), time.monotonic() + SECONDS
        while not made.listens():
            self.assertLess(time.monotonic(), until, "haproxy does not listen")
            time.sleep(0.05)
        return made

    def test_haproxy(self) -> None:
        """Its connections go to the hosts that serve. Those of a host that sleeps are closed; their
        clients have the same replies over another one, and so has whoever asks again after a kill."""
        hosts = [self.start_host("--not-replicated", places=[self.primary]) for _ in range(2)]
        idle, given = self.start_host(places=[self.primary]), payments(40)
        idle.told("nothing is served: no standby is synchronous")
        front = self.start_front([*hosts, idle])
        self.ask_all(front, given[:20])
        clients = self.clients_of_both(front, given[0])
        hosts[0].process.send_signal(signal.SIGSTOP)
        ended = select.select([it.socket for it in clients], [], [], SECONDS)[0]
        self.assertEqual({it.recv(1) for it in ended}, {b""})
        self.ask_all(front, given[:30])
        hosts[0].process.send_signal(signal.SIGCONT)
        hosts[1].process.kill()
        self.ask_all(front, given)
        self.assertEqual(len(self.kept(self.primary)), len(given))

    def clients_of_both(self, front: Front, asked: Exchange) -> list[Client]:
        """Clients that have an answer each. Haproxy sends some of them to each of the two hosts that serve,
        once it has seen that the third one does not."""
        until = time.monotonic() + SECONDS
        while time.monotonic() < until:
            clients = [self.connect(front) for _ in range(6)]
            if all([it.ask(asked.frame) == asked.answer for it in clients]):
                return clients
            for it in clients:
                it.close()
        raise AssertionError("no two hosts serve")

    def ask_all(self, front: Front, given: Sequence[Exchange]) -> None:
        answers = self.ask_until(front, given)
        self.assertEqual(list(answers.values()), [it.answer for it in given])
