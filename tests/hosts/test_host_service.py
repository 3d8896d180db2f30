"""`dukpt-host` beside the system: what systemd is told and hands over, its unit, its types; processes
below that do what the proved one never does; and that no line of it has a secret."""
from __future__ import annotations

import ast
import asyncio
import os
import re
import shutil
import signal
import socket
import subprocess
import sys
import time
from typing import Iterator, Sequence
from unittest import mock

from ..service.test_unit import CALL, NAMESPACE, WRITTEN_AND_RUN, filtered
from ..support.book.hosts import library
from ..support.case import Case
from ..support.program import ROOT, Program
from ..support.service.client import PAN, PIN, payments, refused_requests
from ..support.service.host import HERE, HOST, SECONDS, TEST_KEYS, HostCase, children_of
from ..support.service.host_keys import HostKeys
from ..support.service.journal_case import stream_of

sys.path.insert(0, str(HOST.parent))
from dukpt_host.below import Below, End  # noqa: E402
from dukpt_host.journal import Held, State  # noqa: E402
from dukpt_host.waiting import GROUP, Source, Waiting  # noqa: E402

PACKAGE = HOST.parent / "dukpt_host"
UNIT = ROOT / "share/deploy/dukpt-host.service"
# In tenths.
WORST = 30
FAMILY = re.compile(r"\bsocket(?:pair)?\((AF_\w+)")
# A program in the place of the proved one: what it does once it has answered the first probe.
STAND_IN = """#!{python}
import os, sys
refusal = b"\\0\\x0d\\1\\3" + bytes(10) + b"\\1"
os.read(0, 1 << 16)
{before}
os.write(1, refusal)
def frames():
    data = os.read(0, 1 << 16)
    while data:
        end = 2 + data[1]
        yield data[:end]
        data = data[end:]
{behind}
"""
SWAPS = """
found = list(frames())
replies = [b"\\0\\x0d\\1\\3" + it[4:14] + b"\\4" for it in found]
os.write(1, b"".join(reversed(replies)))
os.read(0, 1)
"""
ENDS = """
if next(frames(), None):
    sys.stderr.write("serve: read failed\\n")
    sys.exit(1)
"""


class NotToBeKilled(asyncio.SubprocessTransport):
    """A process that may not be killed."""

    def kill(self) -> None:
        raise AssertionError("it is killed")


class Beside(HostCase):
    weight = 10

    def test_types(self) -> None:
        """mypy finds nothing; no function has more than 40 lines, and no line 100 columns."""
        self.assertIsNotNone(shutil.which("mypy"), "mypy is not installed: apt-get install mypy")
        done = subprocess.run(["mypy", "--strict", "--python-version", "3.11", "--cache-dir",
                               self.folder(), PACKAGE], capture_output=True, text=True, check=False,
                              env={**os.environ, "MYPYPATH": str(ROOT / "library/python")})
        self.assertEqual(done.returncode, 0, done.stdout + done.stderr)
        for path in [HOST, *PACKAGE.rglob("*.py")]:
            text = path.read_text()
            self.assertLessEqual(max(map(len, text.splitlines())), 100, path)
            for it in ast.walk(ast.parse(text)):
                if isinstance(it, (ast.FunctionDef, ast.AsyncFunctionDef)):
                    self.assertLess(it.end_lineno - it.lineno, 40, f"{path}: {it.name}")

    def test_rating(self) -> None:
        done = subprocess.run(
            ["systemd-analyze", "security", "--offline=yes", "--no-pager", f"--threshold={WORST}",
             UNIT], capture_output=True, text=True, check=False)
        self.assertEqual(done.returncode, 0, f"{done.stdout[-300:]}{done.stderr}")

    def test_unit(self) -> None:
        """What no rating sees: it alone is told to end, and is started again behind a fault; keys go to no
        disk; and of its metrics other machines see nothing."""
        told = dict(re.findall(r"^(\w+)=(.*)$", UNIT.read_text(), re.M))
        wanted = {"Type": "notify", "User": "dukpt", "UMask": "0077", "KillMode": "mixed", "Restart": "on-failure",
                  "LimitCORE": "0", "MemorySwapMax": "0"}
        self.assertEqual({name: told.get(name) for name in wanted}, wanted)
        self.assertGreater(int(told["WatchdogSec"]), 0)
        self.assertRegex(told["ExecStart"], r"^/usr/bin/dukpt-host %d/\S+ --journal \S+ --metrics 127\.0\.0\.1:\d+$")

    def test_calls(self) -> None:
        """The unit forbids no call that host and program make, with key blocks, over a kill and to an
        end in order."""
        self.make_journal(100)
        given = payments(2)
        trace = self.home / "trace"
        host = self.start_host(keys=HostKeys(self.chance).write(self.home), environment=library(),
                               behind=("strace", "-f", "-qq", "-o", str(trace)))
        client = self.connect(host)
        self.assertEqual(client.ask(given[0].frame), given[0].answer)
        os.kill(host.below(), signal.SIGKILL)
        host.told("serving after", 2)
        self.assertEqual(self.connect(host).ask(given[1].frame), given[1].answer)
        os.kill(next(children_of(host.process.pid)), signal.SIGTERM)
        self.assertEqual(host.end(), 0)
        traced, unit = trace.read_text(), UNIT.read_text()
        used = set(CALL.findall(traced))
        self.assertGreater(len(used), 40)
        allowed = filtered(re.findall(r"^SystemCallFilter=(.*)$", unit, re.M))
        self.assertEqual(used - allowed, set(), "calls that the unit forbids")
        families = re.search(r"^RestrictAddressFamilies=(.*)$", unit, re.M)[1].split()
        self.assertLessEqual(set(FAMILY.findall(traced)), set(families))
        for pattern in (WRITTEN_AND_RUN, NAMESPACE):
            self.assertEqual(pattern.findall(traced), [])

    # systemd

    def test_what_systemd_is_told(self) -> None:
        self.make_journal(100)
        place = self.home / "notify"
        with socket.socket(socket.AF_UNIX, socket.SOCK_DGRAM) as told:
            told.bind(str(place))
            told.settimeout(SECONDS)
            host = self.start_host(environment={"NOTIFY_SOCKET": str(place), "WATCHDOG_USEC": "400000"})
            found = [told.recv(4096).decode() for _ in range(6)]
            self.assertEqual(found[0], "READY=1")
            self.assertIn("STATUS=test keys: serving", found)
            self.assertGreaterEqual(found.count("WATCHDOG=1"), 3)
            # It is ready only once it answers.
            host.told("serving after")
            # A process that is stopped tells its watchdog nothing.
            host.process.send_signal(signal.SIGSTOP)
            told.settimeout(0.6)
            with self.assertRaises(socket.timeout):
                for _ in range(10):
                    told.recv(4096)
            host.process.send_signal(signal.SIGCONT)
            told.settimeout(SECONDS)
            self.assertEqual(host.stop(), 0)
            self.assertIn("STOPPING=1", list(all_of(told)))

    def test_watchdog(self) -> None:
        """systemd hears of a host before its time is over: it ends one of which it does not."""
        self.make_journal(100)
        place, heard = self.home / "notify", list[float]()
        with socket.socket(socket.AF_UNIX, socket.SOCK_DGRAM) as told:
            told.bind(str(place))
            told.settimeout(SECONDS)
            self.start_host(environment={"NOTIFY_SOCKET": str(place), "WATCHDOG_USEC": "1000000"})
            while len(heard) < 5:
                if told.recv(4096) == b"WATCHDOG=1":
                    heard.append(time.monotonic())
        self.assertLess(min(later - one for one, later in zip(heard, heard[1:])), 1)

    def test_sockets_of_systemd(self) -> None:
        """It serves on the socket that it is handed, and opens none."""
        self.make_journal(100)
        given = payments(1)[0]
        with socket.create_server(("127.0.0.1", 0)) as listens:
            script = ('import os, sys; os.dup2(int(sys.argv[1]), 3); os.environ["LISTEN_FDS"] = "1"; '
                      'os.environ["LISTEN_PID"] = str(os.getpid()); os.set_inheritable(3, True); '
                      'os.execv(sys.argv[2], sys.argv[2:])')
            process = subprocess.Popen(
                [sys.executable, "-c", script, str(listens.fileno()), HOST, *TEST_KEYS,
                 "--journal", "journal"], cwd=self.home, pass_fds=[listens.fileno()],
                stderr=subprocess.PIPE, env={**os.environ, "DUKPT": str(self.program.path)})
            self.addCleanup(process.kill)
            with socket.create_connection(listens.getsockname(), SECONDS) as client:
                client.sendall(given.frame)
                self.assertEqual(client.recv(64), given.answer)
            process.terminate()
            said = process.communicate(timeout=SECONDS)[1].decode()
            self.assertEqual(process.returncode, 0, said)
            self.assertIn(f"listening on 127.0.0.1:{listens.getsockname()[1]}\n", said)

    def test_silent_reader_of_metrics(self) -> None:
        """One that does not finish its question is closed after a while: it would keep a handle for ever."""
        self.make_journal(100)
        host = self.start_host()
        with socket.create_connection(host.address("metrics and health on"), SECONDS) as reader:
            reader.sendall(b"GET /metrics HTTP/1.1\r\n")
            self.assertEqual(reader.recv(1), b"")
        self.assertEqual(host.health()[0], 200)

    # Starts

    def test_what_is_not_started(self) -> None:
        self.make_journal(100)
        with socket.create_server(("127.0.0.1", 0)) as listens:
            self.check_not_started(f"127.0.0.1:{listens.getsockname()[1]}")
        self.assertFalse((self.home / "none").exists())
        host = self.start_host()
        host.told("serving after")
        done = self.run_host("bank.toml", "--journal", "journal")
        self.assertEqual(done.returncode, 1)
        self.assertIn("is in use", done.stderr)

    def check_not_started(self, taken: str) -> None:
        (self.home / "bad.toml").write_text("lmk = 1\n")
        for words, line in ((("bad.toml", "--journal", "journal"), "status 1: config: bad lmk"),
                            (("bank.toml", "--journal", "none"), "status 1: journal: cannot open"),
                            (("bank.toml", "--journal", "no/folder"), "No such file"),
                            (("bank.toml", "--journal", "journal", "--metrics", taken), "in use")):
            done = self.run_host(*words)
            self.assertEqual(done.returncode, 1, words)
            self.assertIn(line, done.stderr)
            self.assertIn("dukpt-host: not started: ", done.stderr)

    def test_words(self) -> None:
        for words in ((), ("bank.toml",), ("bank.toml", "--journal"),
                      *(("bank.toml", "--journal", "journal", *it)
                        for it in (("--listen", "7000"), ("--listen", "a:b"), ("--idle", "0"),
                                   ("--connections", "-1"), ("--tls", "one"), ("more",), ("--not-replicated",),
                                   ("--password", "it"), ("--postgres", "postgresql:///dukpt")))):
            done = self.run_host(*words)
            self.assertEqual(done.returncode, 2, words)
            self.assertIn("usage: dukpt-host", done.stderr)

    def run_host(self, *words: str) -> subprocess.CompletedProcess[str]:
        here = ("--listen", HERE) if "--journal" in words[1:-1] else ()
        return subprocess.run([HOST, *words, "--test-keys", *here], cwd=self.home, text=True,
                              capture_output=True, timeout=SECONDS, check=False,
                              env={**os.environ, "DUKPT": str(self.program.path)})

    def test_killed_and_then_not_started(self) -> None:
        """A host of which the process below has never answered ends with that process's fault."""
        self.make_journal(100)
        mark = self.home / "mark"
        self.program = self.stand_in("", before=(
            f"import pathlib\nmark = pathlib.Path({str(mark)!r})\n"
            "if mark.exists():\n    sys.stderr.write('config: bad lmk\\n'); sys.exit(1)\n"
            "mark.touch(); os.kill(os.getpid(), 9)"))
        done = self.run_host("bank.toml", "--journal", "journal")
        self.assertEqual(done.returncode, 1)
        self.assertIn("the journal was copied and checked", done.stderr)
        self.assertIn("dukpt-host: not started: status 1: config: bad lmk", done.stderr)

    def test_end_before_it_is_asked(self) -> None:
        """A process that has ended is not killed: its status stays what it was."""
        asyncio.run(self.ask_what_has_ended())

    async def ask_what_has_ended(self) -> None:
        mine, theirs = socket.socketpair(socket.AF_UNIX, socket.SOCK_SEQPACKET)
        with mine:
            theirs.close()
            below = Below(mine, lambda: None)
            below.connection_made(NotToBeKilled())
            below.give([bytes(15)])

    # Stand-ins for the process below

    def stand_in(self, behind: str, before: str = "") -> Program:
        """A program that copies as the proved one does, and serves so."""
        path = self.home / "stand-in"
        path.write_text(f"#!/bin/sh\ncase $1 in serve) exec {self.home}/serves ;; esac\n"
                        f"exec {self.program.path} \"$@\"\n")
        serves = self.home / "serves"
        serves.write_text(STAND_IN.format(python=sys.executable, behind=behind, before=before))
        for it in (path, serves):
            it.chmod(0o755)
        return Program(path)

    def test_answers_in_another_order(self) -> None:
        """An answer that has another number is given to nobody: the process is killed."""
        self.make_journal(100)
        self.program = self.stand_in(SWAPS)
        host, given = self.start_host(), payments(2)
        client = self.connect(host)
        client.send(stream_of(given))
        self.assertEqual(client.take_all(), b"")
        host.told("an answer is not that to its frame")
        host.told("the journal was copied and checked")
        host.told("serving after", 2)

    def test_ends_that_lose_nothing(self) -> None:
        """It is started again without a copy; the connection whose frames were lost ends."""
        self.make_journal(100)
        self.program = self.stand_in(ENDS)
        host, given = self.start_host(), payments(1)[0]
        for count in (2, 3):
            self.assertIsNone(self.connect(host).ask(given.frame))
            host.told("serving after", count)
        host.told("the service below ended: status 1: serve: read failed")
        self.assertFalse([it for it in host.lines if "copied" in it])
        self.assertEqual(host.metrics()['dukpt_restarts_totalwhy="ended"'], 2)

    def test_starts_in_vain(self) -> None:
        """They come later each time, and the host can be ended between them; frames that wait are
        answered by none."""
        self.make_journal(100)
        mark = self.home / "mark"
        self.program = self.stand_in("next(frames(), None)", before=(
            f"import pathlib\nmark = pathlib.Path({str(mark)!r})\n"
            "if mark.exists():\n    sys.stderr.write('out of memory\\n'); sys.exit(1)\nmark.touch()"))
        host = self.start_host()
        client = self.connect(host)
        began = time.monotonic()
        client.send(payments(1)[0].frame)
        host.told("the service below ended: status 1: out of memory", 4)
        self.assertGreater(time.monotonic() - began, 0.6)
        self.assertEqual(
            host.health(), (503, "test keys: the service below ended: status 1: out of memory\n"))
        self.assertEqual(host.stop(), 0)

    # Lines

    def test_lines(self) -> None:
        """Of many refusals some are told, and how many more there are; no line has a secret."""
        self.make_journal(100)
        host, given = self.start_host(), payments(8)
        client = self.connect(host)
        self.assertEqual(client.ask(given[0].frame), given[0].answer)
        for it in reversed(refused_requests()):
            self.assertEqual(client.ask(it.frame), it.answer)
        client.send(bytes(2) * 300)
        count = 300 + len(refused_requests())
        self.assertEqual(len(client.take_answers(1 + count)), 1 + count)
        host.told(" more refusals")
        time.sleep(1.5)
        self.assertEqual(refusals_told(host.lines), count)
        self.assertLess(len(host.lines), 150)
        host.told(f"refused {given[0].number.hex().upper()} 4 bad MAC")
        client.send(given[2].frame + b"\xff\xff" + PAN.encode())
        client.take_all()
        host.told("bytes that are no frame")
        self.assertEqual(host.stop(), 0)
        said = "\n".join(host.lines)
        for secret in (PAN, PAN.encode().hex(), PIN + "\n", given[0].frame.hex().upper()[30:]):
            self.assertNotIn(secret, said)


class OverKills(Case):
    def test_states(self) -> None:
        """The state that was kept last stands, also behind a write that fails: never that nothing was lost."""
        state = State(self.folder() / "journal")
        self.addCleanup(os.close, state.handle)
        for held in (Held.FAILED, Held.RUNNING, Held.NOTHING, Held.RUNNING):
            state.keep(held)
            self.assertEqual(state.held(), held)
        with mock.patch.object(os, "pwrite", side_effect=OSError), self.assertRaises(OSError):
            state.keep(Held.FAILED)
        self.assertEqual(state.held(), Held.RUNNING)

    def test_another_boot(self) -> None:
        """What ran in another boot is read from the disk now. A journal that failed waits for a human still."""
        state = State(self.folder() / "journal")
        self.addCleanup(os.close, state.handle)
        for text, held in (("another\n", Held.NOTHING), ("another\nfailed\n", Held.FAILED)):
            state.path.write_text(text)
            self.assertEqual(state.held(), held)

    def test_ends(self) -> None:
        """By itself the process below ends with a status up to 2. Behind any other end a sync may have failed."""
        for status in (*range(-31, 0), *range(3, 256)):
            self.assertTrue(End(status, []).is_killed, status)
        self.assertFalse(any(End(status, []).is_killed for status in range(3)))


class Flood(Source):
    """A source that may be kept from reading."""

    is_read = True

    def pause(self) -> None:
        self.is_read = False

    def resume(self) -> None:
        self.is_read = True


class Waits(Case):
    def test_limits(self) -> None:
        """Of a source no more is read beyond the bytes of one, nor beyond those of all, until they are
        decided."""
        for sizes, read in (((70, 70), [True, True]), ((30, 101), [True, False]),
                            ((70, 70, 20), [True, True, False])):
            waiting, sources = Waiting(most_of_one=100, most=150), [Flood() for _ in sizes]
            for source, size in zip(sources, sizes):
                waiting.add(source, [bytes(size)], 0)
            self.assertEqual([it.is_read for it in sources], read)
            waiting.group()
            self.assertTrue(all(it.is_read for it in sources))

    def test_turns(self) -> None:
        """While frames of a source are decided no others of it are: those behind them would overtake them."""
        for more in range(2):
            waiting, source = Waiting(), Flood()
            waiting.add(source, [bytes(2)] * (GROUP + more), 0)
            first = waiting.group()
            self.assertEqual(sum(len(it.frames) for it in first), GROUP)
            self.assertEqual(waiting.group(), [])
            waiting.add(source, [bytes(3)], 0)
            self.assertEqual(waiting.group(), [])
            waiting.done(first)
            self.assertEqual([it.frames for it in waiting.group()], [[bytes(2)]] * more + [[bytes(3)]])


def refusals_told(lines: Sequence[str]) -> int:
    """How many refusals lines tell, one each or by their number."""
    more = [int(it.split()[1]) for it in lines if it.endswith(" more refusals")]
    return sum(more) + sum(": refused " in it for it in lines)


def all_of(told: socket.socket) -> Iterator[str]:
    """What has come on a socket."""
    told.setblocking(False)
    while True:
        try:
            yield told.recv(4096).decode()
        except BlockingIOError:
            return
