"""The example terminal in each language beside `dukpt serve --journal`, killed at each step: it is
started again, and once it is at rest the lines that it told and the journal have the same approved
payments. No number is used twice.

strace kills it as it enters a call that changes something: what is between two such calls is no
other case.
"""
from __future__ import annotations

import signal
import subprocess
from typing import Optional, Sequence

from ..support.case import ProgramCase
from ..support.library.example_programs import SECONDS, InC, InPython, InRust, known
from ..support.library.library import demand
from ..support.library.terminal_books import Frames, Merchant, frames_in, standing
from ..support.program import ROOT

# What changes files, sends a frame or tells a line; and the lock.
CALLS = ("write", "fsync", "rename", "flock")
ROOM = 1000
# What becomes of a frame: it comes and is answered; it is lost; its reply is lost; it comes later.
THROUGH, LOST, UNANSWERED, LATE = "through", "lost", "unanswered", "late"
# How many starts a life has whose links and kills are drawn.
STARTS = 12

Kill = tuple[str, int]


class Kills:
    """The tests, of the example in any language."""

    weight = 6

    def setUp(self) -> None:
        super().setUp()
        demand("strace")
        self.merchant, self.frames = Merchant(), Frames()
        self.amount = self.kills = 0
        self.late = b""
        (self.home / "bank.toml").write_bytes((ROOT / "examples" / "bank.toml").read_bytes())
        made = self.program.run("new-journal", self.home / "journal", str(ROOM))
        self.assertEqual(made.status, 0, str(made))

    # Starts

    def start(
        self, *words: str, link: str = THROUGH, kill: Optional[Kill] = None
    ) -> subprocess.CompletedProcess[bytes]:
        """A start of the terminal beside the service, perhaps killed at a call: the so-manieth of
        its name."""
        before: Sequence[str] = ()
        if kill is not None:
            name, place = kill
            before = ("strace", "-qq", "-o", "/dev/null", "-e",
                      f"trace={name}", "-e", f"inject={name}:signal=KILL:when={place}")
        command = [*before, *self.command("terminal"), "image", *words]
        if link == THROUGH:
            done = self.beside_service(command)
        else:
            done = self.without_answers(command, link)
        self.merchant.hear(done.stderr.decode().splitlines())
        for frame in frames_in(done.stdout):
            self.frames.add(frame)
        is_killed = done.returncode == -signal.SIGKILL
        self.assertIn(done.returncode, (0, 1, -signal.SIGKILL), done.stderr)
        self.assertTrue(kill is not None or not is_killed)
        self.kills += is_killed
        return done

    def beside_service(self, command: Sequence[str]) -> subprocess.CompletedProcess[bytes]:
        """Through a pipe each way; the frames that go out pass through `tee`."""
        serve = [str(self.program.path), "serve", "bank.toml", "--journal", "journal"]
        with subprocess.Popen(serve, cwd=self.home, stdin=subprocess.PIPE, stdout=subprocess.PIPE,
                              stderr=subprocess.PIPE) as service:
            assert service.stdin is not None and service.stderr is not None
            with subprocess.Popen(["tee", "sent"], cwd=self.home, stdin=subprocess.PIPE,
                                  stdout=service.stdin) as tee:
                service.stdin.close()
                assert tee.stdin is not None
                done = subprocess.run(
                    command, cwd=self.home, stdin=service.stdout, stdout=tee.stdin,
                    stderr=subprocess.PIPE, env=known(), timeout=SECONDS, check=False)
                tee.stdin.close()
            faults = service.stderr.read()
        self.assertEqual((service.returncode, faults), (0, b""), "the service")
        sent = (self.home / "sent").read_bytes()
        return subprocess.CompletedProcess(command, done.returncode, sent, done.stderr)

    def without_answers(
        self, command: Sequence[str], link: str
    ) -> subprocess.CompletedProcess[bytes]:
        """The terminal has no reply; what it sent is lost, comes to the service, or comes later."""
        done = subprocess.run(command, cwd=self.home, stdin=subprocess.DEVNULL, capture_output=True,
                              env=known(), timeout=SECONDS, check=False)
        if link == UNANSWERED:
            self.deliver(done.stdout)
        elif link == LATE:
            self.late += done.stdout
        return done

    def deliver(self, frames: bytes) -> None:
        """Gives frames to the service, whose answers nobody reads."""
        ended = self.program.run("serve", "bank.toml", "--journal", "journal", given=frames,
                                 folder=self.home)
        self.assertEqual((ended.status, ended.faults), (0, b""), "the service")

    def deliver_late(self) -> None:
        frames, self.late = self.late, b""
        self.deliver(frames)

    def new_amount(self) -> str:
        """An amount that no other purchase has; one in eight is above the card's limit."""
        self.amount += 1
        return str(self.amount if self.chance.random() < 0.875 else 10_000 + self.amount)

    # Rest

    def come_to_rest(self) -> None:
        """Starts the terminal without a purchase. Then both books agree."""
        self.assertEqual(self.start().returncode, 0, "a start without a purchase")
        shown = self.program.run("show", "journal", "journal", folder=self.home)
        self.assertEqual((shown.status, shown.faults), (0, b""))
        self.assertEqual(standing(shown.output.decode()), self.merchant.approved)

    # Tests

    def test_purchases(self) -> None:
        """A purchase is killed at each call of its start, the terminal's first one and another."""
        for name in CALLS:
            place = 1
            while self.start(self.new_amount(), kill=(name, place)).returncode < 0:
                self.come_to_rest()
                place += 1
            self.assertGreater(place, 1, f"no {name} is killed")
            self.come_to_rest()
        self.tell()

    def test_reversals(self) -> None:
        """The start that reverses a purchase, and makes another one, is killed at each call. The
        request that it reverses was approved; and, at some of the calls, was lost or comes late."""
        for name in CALLS:
            for link, step in ((UNANSWERED, 1), (LOST, 5), (LATE, 4)):
                place = 1
                while self.kill_a_reversal(name, place, link):
                    self.come_to_rest()
                    place += step
                self.deliver_late()
                self.come_to_rest()
        self.assertGreater(self.merchant.undone, 0)
        self.tell()

    def kill_a_reversal(self, name: str, place: int, link: str) -> bool:
        """Leaves a purchase open, and kills the start that reverses it. Whether it was killed."""
        self.assertEqual(self.start(self.new_amount(), link=link).returncode, 1, link)
        return self.start(self.new_amount(), kill=(name, place)).returncode < 0

    def test_lives(self) -> None:
        """Starts with any link, of which some are killed at any call."""
        for _ in range(self.share_of(3)):
            for _ in range(STARTS):
                link = self.chance.choice((THROUGH, THROUGH, LOST, UNANSWERED, LATE))
                kill = (self.chance.choice(CALLS), self.chance.randrange(1, 9))
                words = [self.new_amount() for _ in range(self.chance.randrange(3))]
                self.start(*words, link=link, kill=kill if self.chance.random() < 0.6 else None)
                if self.chance.random() < 0.3:
                    self.deliver_late()
            self.deliver_late()
            self.come_to_rest()
        self.tell()

    def tell(self) -> None:
        self.tells(f"{self.kills} kills, {len(self.merchant.approved)} approved, "
                   f"{self.merchant.undone} undone, {len(self.merchant.used)} numbers")


class TestC(Kills, InC, ProgramCase):
    pass


class TestPython(Kills, InPython, ProgramCase):
    pass


class TestRust(Kills, InRust, ProgramCase):
    pass
