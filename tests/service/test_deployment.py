"""The scripts of share/deploy/: a service that is not started again after a log that failed, and
the copy of a log to a new file."""
from __future__ import annotations

import fcntl
import itertools
import os
import signal
import socket
import subprocess
import time
from pathlib import Path
from typing import Callable, Iterator, Optional, Sequence, Union

from ..support.case import Case
from ..support.formats.log_file import RECORD, log_image, record
from ..support.program import NO_LIMITS, ROOT, SECONDS, Ended, Limits
from ..support.service.client import number_of, payments
from ..support.service.service_case import (
    CANNOT_OPEN, LOG_FAILED, ServiceCase, answers_to, numbers_of, stream_of)
from .test_service_logs import ACCEPTED, LOGS, REFUSED

SERVE = ROOT / "share" / "deploy" / "dukpt-serve"
COPY = ROOT / "share" / "deploy" / "dukpt-copy-log"
DEPLOYMENT = ROOT / "docs" / "DEPLOYMENT.md"
BOOT = Path("/proc/sys/kernel/random/boot_id").read_text()
OTHER_BOOT = "8c1d0e7a-5b7c-4f3e-9a51-0d2f6c3b1e94\n"
FAILED = f"{LOG_FAILED}\n".encode()
# What starts a script so that rights bind root too.
DROPPED = "-dac_override,-dac_read_search"
NO_RIGHTS = ("setpriv", "--inh-caps=-all", f"--bounding-set={DROPPED}") if os.getuid() == 0 else ()
# It notes its words, hands on its input, and ends as it is told to: by a signal too.
STAND_IN = """#!/bin/sh
echo "$@" >>words
cat
printf '%s' "$SAYS" >&2
[ "$STATUS" -lt 128 ] || kill -$((STATUS - 128)) $$
exit "$STATUS"
"""
# It notes its words, and what the state is, and does nothing.
SYNC = """#!/bin/sh
echo "sync $*: $(tr '\\n' ' ' <log.state)" >>words
"""


class Serving(Case):
    """The script that starts a service, here over a program that stands in for one."""

    def setUp(self) -> None:
        super().setUp()
        self.home = self.folder()
        self.make_program(self.home / "stand-in", STAND_IN)

    @staticmethod
    def make_program(path: Path, text: str) -> None:
        path.write_text(text)
        path.chmod(0o755)

    def start(self, says: bytes, status: int, limits: Limits = NO_LIMITS,
              way: Sequence[str] = (), log: str = "log",
              given: Union[int, socket.socket] = subprocess.PIPE) -> subprocess.Popen:
        told = {"DUKPT": self.home / "stand-in", "SAYS": says, "STATUS": str(status)}
        script = subprocess.Popen(
            [*way, SERVE, "bank.toml", log], cwd=self.home, stdin=given,
            stdout=subprocess.PIPE, stderr=subprocess.PIPE, bufsize=0, env={**os.environ, **told},
            start_new_session=True, preexec_fn=interruptible(limits.prepare()))
        self.addCleanup(end_of, script)
        return script

    def serve(self, says: bytes = b"", status: int = 0, given: bytes = b"",
              limits: Limits = NO_LIMITS, way: Sequence[str] = (), log: str = "log") -> Ended:
        return end_of(self.start(says, status, limits, way, log), given)

    @property
    def state(self) -> Path:
        return self.home / "log.state"

    @property
    def log(self) -> Path:
        return self.home.resolve() / "log"

    def runs(self) -> int:
        """How often the program was started, each time with the words of a service."""
        noted = self.home / "words"
        lines = noted.read_text().splitlines() if noted.exists() else []
        self.assertEqual(lines, [f"serve bank.toml --log {self.log}"] * len(lines))
        return len(lines)

    def assert_refused(self, what: str, limits: Limits = NO_LIMITS,
                       way: Sequence[str] = (), log: str = "log") -> None:
        """That the program is not started, and nothing is written but a line that says why."""
        before = self.runs()
        ended = self.serve(given=b"a request", limits=limits, way=way, log=log)
        self.assertEqual((ended.status, ended.output, self.runs()), (1, b"", before), what)
        self.assertIn(b"dukpt-serve: ", ended.faults, what)

    def test_each_end(self) -> None:
        """Streams and status are those of the service. But for one line it may be started again."""
        given = bytes(range(256)) * 3000
        ends = [(b"", 0), (b"log: cannot open\n", 1), (b"serve: read failed\n", 1),
                (b"out of memory\n", 1), (b"log: failed or not\n", 1), (b"no log: failed\n", 1),
                (b"journal: failed\n", 1)]
        for at, (says, status) in enumerate(ends, 1):
            self.assertEqual(self.serve(says, status, given), Ended(status, given, says))
            self.assertEqual((self.runs(), self.state.read_bytes()), (at, b""), says)

    def test_a_log_that_failed(self) -> None:
        """Behind it no program is started, until an operator removes the state."""
        for at, says in enumerate((FAILED, b"another line\n" + FAILED), 1):
            self.assertEqual(self.serve(says, 1, b"x"), Ended(1, b"x", says))
            for _ in range(3):
                self.assert_refused("behind a log that failed")
            # Nor behind the next boot.
            self.state.write_text(f"{OTHER_BOOT}failed\n")
            self.assert_refused("behind the next boot")
            self.assertEqual(self.runs(), at)
            self.state.unlink()
        self.assertEqual(self.serve(), Ended(0, b"", b""))

    def test_a_failure_that_nobody_reads(self) -> None:
        """It is kept all the same, before its line is passed on."""
        script = self.start(FAILED, 1)
        self.demand_running(script)
        script.stderr.close()
        script.stderr = None
        self.assertEqual(end_of(script).status, 1)
        self.assertEqual(self.state.read_text(), f"{BOOT}failed\n")
        self.assert_refused("behind a failure that nobody read")

    def test_other_names(self) -> None:
        """A log has one state, by whatever name and link it is served."""
        (self.home / "more").mkdir()
        (self.home / "more" / "other").symlink_to("../link")
        (self.home / "link").symlink_to("log")
        self.assertEqual(self.serve(FAILED, 1, log="more/other"), Ended(1, b"", FAILED))
        for name in ("log", "./log", "link", "more/other", "more/../log", str(self.log)):
            self.assert_refused(f"as {name}", log=name)
        self.assertEqual(self.state.read_text(), f"{BOOT}failed\n")
        self.assert_refused("in no folder", log="missing/log")

    def test_killed(self) -> None:
        """A script that is killed has not seen how its service ended. The next boot reads the log
        from the disk."""
        script = self.start(b"", 0)
        self.demand_running(script)
        script.kill()
        script.communicate(timeout=SECONDS)
        self.assert_refused("behind a script that was killed")
        self.state.write_text(OTHER_BOOT)
        self.assertEqual(self.serve(), Ended(0, b"", b""))

    def test_a_service_that_a_signal_ends(self) -> None:
        """It may have been told of a failed sync, and had no time to say so."""
        for way in (signal.SIGKILL, signal.SIGSEGV, signal.SIGTERM):
            for says, left in ((b"", BOOT), (b"a line\n", BOOT), (FAILED, f"{BOOT}failed\n")):
                self.assertEqual(self.serve(says, 128 + way, b"x"), Ended(128 + way, b"x", says))
                self.assertEqual(self.state.read_text(), left)
                self.assert_refused("behind a service that a signal ended")
                self.state.unlink()

    def test_told_to_end(self) -> None:
        """It waits for its service, which goes on, and sees how that ends."""
        for way, tell in self.ways_to_tell():
            for says, status, left in ((b"", 0, ""), (FAILED, 1, f"{BOOT}failed\n")):
                script = self.start(says, status)
                self.demand_running(script)
                tell(script.pid, way)
                self.demand_running(script)
                self.assertEqual(end_of(script, b"more"), Ended(status, b"more", says), way)
                self.assertEqual(self.state.read_text(), left, way)
                self.state.unlink()

    def test_the_end_of_a_socket(self) -> None:
        """It ends the input of its service where that is a socket, so that it ends by itself."""
        for way, tell in self.ways_to_tell():
            for says, status, left in ((b"", 0, ""), (FAILED, 1, f"{BOOT}failed\n")):
                client, connection = socket.socketpair()
                with client, connection:
                    script = self.start(says, status, given=connection)
                    client.sendall(b"some")
                    self.assertEqual(script.stdout.read(4), b"some")
                    tell(script.pid, way)
                    self.assertEqual(end_of(script, None), Ended(status, b"", says), way)
                self.assertEqual(self.state.read_text(), left, way)
                self.state.unlink()

    def test_told_at_any_moment(self) -> None:
        """Each signal is seen, whatever the script does at that time. Nothing is in the way of the
        next start."""
        for _ in range(20 * self.times):
            way, tell = self.chance.choice([*self.ways_to_tell()])
            client, connection = socket.socketpair()
            with client, connection:
                script = self.start(b"", 0, given=connection)
                self.wait_for(script, self.chance.choice((self.state, self.home / "words")))
                time.sleep(self.chance.uniform(0, 0.01))
                tell(script.pid, way)
                ended = end_of(script, None)
            # With 1 it was told before there was a service.
            self.assertIn((ended.status, ended.output), ((0, b""), (1, b"")), way)
            self.assertEqual(self.state.read_bytes(), b"", f"{way}: {ended}")
            self.state.unlink()
            (self.home / "words").unlink(missing_ok=True)

    @staticmethod
    def wait_for(script: subprocess.Popen, path: Path) -> None:
        while not path.exists() and script.poll() is None:
            time.sleep(0.001)

    @staticmethod
    def ways_to_tell() -> Iterator[tuple[int, Callable[[int, int], None]]]:
        """Each signal, to the script alone, and to it and its service, as systemd sends it."""
        return itertools.product((signal.SIGTERM, signal.SIGHUP, signal.SIGINT),
                                 (os.kill, os.killpg))

    def test_two_at_once(self) -> None:
        """The second one is refused, and changes nothing for the first one."""
        script = self.start(b"", 0)
        self.demand_running(script)
        self.assert_refused("beside another one")
        self.assertEqual(self.state.read_text(), BOOT)
        # Whatever the state says, it is locked.
        self.state.write_bytes(b"")
        self.assert_refused("beside another one whose state is lost")
        self.assertEqual(end_of(script), Ended(0, b"", b""))
        self.assertEqual(self.state.read_bytes(), b"")

    def demand_running(self, script: subprocess.Popen) -> None:
        """Waits until the program has begun, and handed on its first input."""
        script.stdin.write(b"some")
        self.assertEqual(script.stdout.read(4), b"some")

    def test_syncs(self) -> None:
        """The state is synced before a service starts, with its folder, and behind its end."""
        tools = self.folder()
        self.make_program(tools / "sync", SYNC)
        way = ("env", f"PATH={tools}:{os.environ['PATH']}")
        boot, folder = BOOT.strip(), self.home.resolve()
        for says, status, left in ((b"", 0, ""), (FAILED, 1, f"{boot} failed ")):
            self.assertEqual(self.serve(says, status, way=way), Ended(status, b"", says))
            noted = (self.home / "words").read_text()
            self.assertEqual(noted, f"sync -- {folder}/log.state {folder}/: {boot} \n"
                                    f"serve bank.toml --log {self.log}\n"
                                    f"sync -- {folder}/log.state: {left}\n")
            (self.home / "words").unlink()
            self.state.unlink()
        self.make_program(tools / "sync", "#!/bin/sh\nexit 1\n")
        self.assert_refused("with a sync that fails", way=way)

    def test_a_state_that_cannot_be_kept(self) -> None:
        """Then nothing is started."""
        self.assert_refused("with no room for a state", Limits(file_size=0))
        self.state.unlink()
        self.state.symlink_to("missing/state")
        self.assert_refused("with no folder for a state")
        self.state.unlink()
        self.state.mkdir()
        self.assert_refused("with a folder for a state")

    def test_words(self) -> None:
        """It takes a configuration and a log. A journal is none of its own."""
        takes = b"dukpt-serve: it takes CONFIG LOG\n"
        for words in ((), ("bank.toml",), ("bank.toml", "log", "more"), ("bank.toml", "--journal", "log")):
            done = subprocess.run([SERVE, *words], cwd=self.home, input=b"", capture_output=True,
                                  env={**os.environ, "DUKPT": str(self.home / "stand-in")},
                                  timeout=SECONDS, check=False)
            self.assertEqual((done.returncode, done.stdout, done.stderr), (1, b"", takes), words)
        self.assertEqual(sorted(it.name for it in self.home.iterdir()), ["stand-in"])

    def test_a_state_that_cannot_be_read(self) -> None:
        """Then nothing is started, since it may say that the log failed."""
        self.state.write_text("failed\n")
        self.state.chmod(0o200)
        self.assert_refused("with a state that cannot be read", way=NO_RIGHTS)


class Copying(Case):
    """The script that copies a log."""

    def setUp(self) -> None:
        super().setUp()
        self.home = self.folder()
        self.old, self.new = self.home / "old", self.home / "new"

    def copy(self, image: Optional[bytes] = None, limits: Limits = NO_LIMITS) -> Ended:
        """The end of a copy of a log with these bytes, which are left as they are."""
        if image is not None:
            self.old.write_bytes(image)
        ended = copied(self.old, self.new, limits)
        if image is not None:
            self.assertEqual(self.old.read_bytes(), image)
        return ended

    def check(self, image: bytes, wanted: bytes, kept: int, what: str) -> None:
        told = f"{self.new}: {kept} numbers, and room for {len(wanted) // RECORD - kept} more\n"
        self.assertEqual(self.copy(image), Ended(0, told.encode(), b""), what)
        self.assertEqual(self.new.read_bytes(), wanted, what)
        self.assertEqual(self.new.stat().st_mode & 0o777, 0o600, what)
        self.assertEqual(sorted(it.name for it in self.home.iterdir()), ["new", "old"], what)
        self.new.unlink()

    def refuse(self, what: str, image: Optional[bytes] = None, limits: Limits = NO_LIMITS) -> None:
        """That a copy is refused with a line, and leaves nothing."""
        before = sorted(self.home.iterdir())
        ended = self.copy(image, limits)
        self.assertEqual((ended.status, ended.output), (1, b""), what)
        self.assertRegex(ended.faults, rb"\Adukpt-copy-log: .+\n\Z", what)
        self.assertEqual(sorted({*self.home.iterdir()} - {self.old}),
                         [it for it in before if it != self.old], what)

    def test_logs(self) -> None:
        """New, in use and full ones; and one of more bytes than are written at once."""
        numbers = numbers_of(payments(100))
        for kept, room in ((0, 1), (0, 7), (1, 1), (40, 100), (100, 100), (100, 140_000)):
            image = log_image(numbers[:kept], room)
            self.check(image, image, kept, f"{kept} of {room}")
        foreign = [bytes(9) + b"\x01", number_of(0x1FF800), b"\xff" * 7 + b"\xff\xf8\x00"]
        self.check(log_image(foreign, 4), log_image(foreign, 4), 3, "numbers of any key set")

    def test_closed_records(self) -> None:
        """What they say besides is not copied."""
        first, second = numbers_of(payments(2))
        for gate in (0, 2, 0xFF):
            image = record(first) + record(second, gate, b"\xff" * 5) + bytes(RECORD)
            self.check(image, log_image([first], 3), 1, f"a closed record with bytes, {gate}")
        for name, used in ACCEPTED.items():
            image = (LOGS / f"{name}.log").read_bytes()
            wanted = log_image([bytes.fromhex(it) for it in used], len(image) // RECORD)
            self.check(image, wanted, len(used), name)

    def test_what_is_no_log(self) -> None:
        images = {f"{name}.log": (LOGS / f"{name}.log").read_bytes() for name in REFUSED}
        good = log_image(numbers_of(payments(4)), 6)
        images.update({"one byte": bytes(1), "a byte less": good[:-1], "a byte more": good + b"\0"})
        for place in (11, 15, 27, 63):
            images[f"a byte at {place}"] = good[:place] + b"\1" + good[place + 1 :]
        images["a closed record"] = good[:16] + b"\0" + good[17:]
        images["two closed records with bytes"] = good[:32] + b"\0" + good[33:48] + b"\0" + good[49:]
        images["a closed record with bytes alone"] = b"\0" + good[1:16]
        images["a number twice"] = good[:64] + good[:16] + good[80:]
        for what, image in images.items():
            self.refuse(what, image)

    def test_what_is_there_stays(self) -> None:
        self.new.write_bytes(b"another log")
        self.refuse("over a file", log_image(numbers_of(payments(1)), 2))
        self.assertEqual(self.new.read_bytes(), b"another log")

    def test_no_file(self) -> None:
        self.refuse("no log")
        self.old.mkdir()
        self.refuse("a folder")
        self.old.rmdir()
        self.new = self.home / "missing" / "new"
        self.refuse("into no folder", log_image([], 2))

    def test_a_log_in_use(self) -> None:
        self.old.write_bytes(log_image([], 2))
        with open(self.old, "rb") as used:
            fcntl.flock(used, fcntl.LOCK_EX)
            self.refuse("a log in use")

    def test_no_room(self) -> None:
        for room in (0, 1, 100 * RECORD - 1):
            self.refuse(f"room for {room} bytes", log_image([], 100), Limits(file_size=room))

    def test_words(self) -> None:
        for words in ([], [self.old], [self.old, self.new, "more"]):
            done = subprocess.run([COPY, *words], capture_output=True, timeout=SECONDS, check=False)
            self.assertEqual((done.returncode, done.stdout), (2, b""))


class Prefixes(Case):
    """The command of docs/DEPLOYMENT.md that prints each prefix that two configurations share."""

    def shared(self, command: str, *texts: str) -> str:
        folder = self.folder()
        for at, text in enumerate(texts):
            (folder / f"part{at}.toml").write_text(f'log = 100\n[[bdk]]\n{text}\nkey = "{"0" * 32}"\n')
        done = subprocess.run(["bash", "-c", command], cwd=folder, capture_output=True, text=True,
                              timeout=SECONDS, check=True)
        self.assertEqual(done.stderr, "")
        return done.stdout

    @property
    def command(self) -> str:
        found = [it for it in DEPLOYMENT.read_text().splitlines() if it.startswith("    sed ")]
        self.assertEqual(len(found), 1)
        return found[0].strip()

    def test_prefixes_that_are_shared(self) -> None:
        """In capital letters or small ones, in either quotes, with what spaces and words around them."""
        ways = ('prefix = "FFFF98765A"', 'prefix = "ffff98765a"', "prefix='ffFF98765a' # FFFF98765A",
                '\tprefix\t=\t"ffff98765A"')
        for one, other in itertools.permutations(ways, 2):
            self.assertEqual(self.shared(self.command, one, other), "FFFF98765A\n", (one, other))
        three = self.shared(self.command, ways[0], ways[1], ways[2])
        self.assertEqual(three, "FFFF98765A\n")

    def test_prefixes_that_are_not(self) -> None:
        """Nothing is printed: the key word is none of them, nor is another one, nor a remark."""
        for one, other in (('prefix = "ffff98765a"', 'prefix = "FFFF98765B"'),
                           ('prefix = "ffff98765a"', '# prefix = "ffff98765a"'),
                           ('prefix = "ffff98765a"', 'no-prefix = "ffff98765a"')):
            self.assertEqual(self.shared(self.command, one, other), "", (one, other))

    def test_commands_that_miss_one(self) -> None:
        """Without the capital letters, or with the whole line in them, a shared prefix is not printed."""
        small, capital = 'prefix = "ffff98765a"', 'prefix = "FFFF98765A"'
        translation = " | tr a-f A-F"
        without = self.command.replace(translation, "")
        before = f"cat part*.toml{translation} | {self.command.replace('part*.toml', '')}"
        for wrong in (without, before):
            self.assertNotEqual(wrong, self.command)
            self.assertEqual(self.shared(wrong, small, capital), "", wrong)


class Deployed(ServiceCase):
    """Both scripts with the program itself."""

    def serve(self, log: str, given: bytes, limits: Limits = NO_LIMITS) -> Ended:
        done = subprocess.run(
            [SERVE, "bank.toml", log], cwd=self.home, input=given, capture_output=True,
            env={**os.environ, "DUKPT": self.program.path}, preexec_fn=limits.prepare(),
            timeout=SECONDS, check=False)
        return Ended(done.returncode, done.stdout, done.stderr)

    def test_two_connections(self) -> None:
        requests = payments(6)
        self.make_log(5)
        for given, used in ((requests[:3], ()), (requests, requests[:3])):
            wanted = answers_to(given, numbers_of(used), self.room)
            self.assert_output(self.serve("log", stream_of(given)), wanted, "", "a connection")
        self.assert_image(numbers_of(requests[:5]), "two connections")

    def test_told_to_end(self) -> None:
        """What was asked before is answered, and the next service goes on."""
        requests = payments(6)
        self.make_log(6)
        with socket.create_server(("127.0.0.1", 0)) as listens:
            for given, used in ((requests[:3], ()), (requests, requests[:3])):
                with socket.create_connection(listens.getsockname()) as client:
                    connection = listens.accept()[0]
                    script = subprocess.Popen(
                        [SERVE, "bank.toml", "log"], cwd=self.home, stdin=connection,
                        stdout=connection, stderr=subprocess.PIPE, start_new_session=True,
                        env={**os.environ, "DUKPT": self.program.path})
                    connection.close()
                    self.addCleanup(script.kill)
                    client.sendall(stream_of(given))
                    wanted = answers_to(given, numbers_of(used), self.room)
                    answers = client.makefile("rb")
                    self.assertEqual(answers.read(len(wanted)), wanted)
                    os.killpg(script.pid, signal.SIGTERM)
                    self.assertEqual(answers.read(), b"")
                    self.assertEqual(end_of(script, None).faults, b"")
                    self.assertEqual(script.returncode, 0)
        self.assert_image(numbers_of(requests), "told to end")

    def test_no_log(self) -> None:
        for _ in range(2):
            self.assert_output(self.serve("missing", b""), b"", CANNOT_OPEN, "no log")
        self.assertFalse((self.home / "missing").exists(), "no log is ever made")

    def test_a_damaged_log(self) -> None:
        """It is refused once by the service, and then by the script."""
        self.write("log", bytes(17))
        self.assert_output(self.serve("log", b""), b"", LOG_FAILED, "a damaged log")
        self.assert_not_started("log")
        self.assertEqual(copied(self.log, self.home / "copy").status, 1)

    def test_a_write_that_fails(self) -> None:
        """All that was acknowledged is in the copy, over which a service goes on."""
        kept, requests = 5, payments(20)
        used = numbers_of(requests[:kept])
        self.make_log(20)
        limits = Limits(file_size=kept * RECORD + 1)
        ended = self.serve("log", stream_of(requests), limits)
        self.assert_output(ended, answers_to(requests[:kept]), LOG_FAILED, "a write that fails")
        self.assert_not_started("log")
        ended = copied(self.log, self.home / "copy")
        self.assertEqual((ended.status, ended.faults), (0, b""))
        self.assertEqual((self.home / "copy").read_bytes(), log_image(used, self.room))
        self.assert_output(self.serve("copy", stream_of(requests)),
                           answers_to(requests, used, self.room), "", "over the copy")
        self.assert_not_started("log")

    def test_a_copy_of_a_log_in_use(self) -> None:
        self.make_log(3)
        service = self.start("serve", "bank.toml", "--log", "log")
        service.ask([payments(1)[0].frame])
        self.assertEqual(copied(self.log, self.home / "copy").status, 1)
        self.assertFalse((self.home / "copy").exists())

    def assert_not_started(self, log: str) -> None:
        ended = self.serve(log, stream_of(payments(1)))
        self.assertEqual((ended.status, ended.output), (1, b""))
        self.assertTrue(ended.faults.startswith(b"dukpt-serve: "), ended)


def copied(old: Path, new: Path, limits: Limits = NO_LIMITS) -> Ended:
    """The end of a copy of a log."""
    done = subprocess.run([COPY, old, new], capture_output=True, timeout=SECONDS, check=False,
                          preexec_fn=limits.prepare())
    return Ended(done.returncode, done.stdout, done.stderr)


def interruptible(prepare: Optional[Callable[[], None]]) -> Callable[[], None]:
    """Lets interrupts and hangups reach a process, also where the bench runs in the background or
    under nohup, which ignores them and would pass that on."""

    def prepare_for_interrupts() -> None:
        for way in (signal.SIGINT, signal.SIGHUP):
            signal.signal(way, signal.SIG_DFL)
        if prepare:
            prepare()

    return prepare_for_interrupts


def end_of(script: subprocess.Popen, given: Optional[bytes] = b"") -> Ended:
    """Gives a script the end of its input, and waits for its own."""
    output, faults = script.communicate(given, timeout=SECONDS)
    return Ended(script.returncode, output, faults)
