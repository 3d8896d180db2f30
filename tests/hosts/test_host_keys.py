"""The keys of `dukpt-host`: key blocks under a local master key of components, over both stores. No key is
in the clear in what it reads, writes or is told by; each fault has its line, which shows no key either."""
from __future__ import annotations

import json
import os
import signal
import subprocess
import sys
from pathlib import Path
from typing import Callable, Iterator, NamedTuple, Sequence

from ..support.book.hosts import BookCase, library
from ..support.case import Case
from ..support.formats.bank import BANK
from ..support.service.client import payments
from ..support.service.host import HERE, HOST, SECONDS, HostCase, Running, children_of
from ..support.service.host_keys import (
    HostKeys, combined, component, holding, of_folder, of_process, opened_by)
from ..support.service.journal_case import stream_of

sys.path.insert(0, str(HOST.parent))
from dukpt_host.below import readable  # noqa: E402

# Starts one host after the other in a process, each in a folder, and writes the status of each.
PYTHON = "/usr/bin/python3"
STARTS = """
import json, os, sys
sys.path.insert(0, sys.argv[1])
from dukpt_host.main import main
for line in sys.stdin:
    home, words = json.loads(line)
    os.chdir(home)
    print(main(words), file=sys.stderr, flush=True)
"""
NO_DATABASE = ("--postgres", "postgresql:///none?host=/none")
SYSTEMD = "CREDENTIALS_DIRECTORY"


class OverJournal(HostCase):
    weight = 10

    def setUp(self) -> None:
        super().setUp()
        self.environment = {**library(), "TMPDIR": str(self.home)}
        self.make_journal(100)

    def assert_hidden(self, host: Running, keys: HostKeys) -> None:
        """No key is in arguments, variables and open files of host and process below, in the folder,
        or in what the host says. Of components and local master key the process below has nothing."""
        processes = [host.process.pid, *children_of(host.process.pid)]
        self.assertGreater(len(processes), 1)
        said = "\n".join([*host.lines, *(host.get(it)[1] for it in ("/health", "/metrics"))])
        files = [f"lmk.{at}" for at in range(1, len(keys.components) + 1)]
        for it in (*map(of_process, processes), said.encode(), of_folder(self.home, files)):
            self.assertFalse(holding(it, keys.secrets))
        opened = [it for process in processes for it in opened_by(process)]
        self.assertFalse([it for it in opened if "memfd" in it or it.endswith((".toml", *files))])

    def check(self, keys: HostKeys, words: Sequence[str], environment: dict[str, str]) -> None:
        """It serves, also again behind a kill of the process below. Nothing else in the folder has keys."""
        self.make_journal(100)
        for it in self.home.glob("*.toml"):
            if it.name != words[0]:
                self.assertTrue(holding(it.read_bytes(), keys.secrets))
                it.unlink()
        host = self.start_host(keys=words, environment={**self.environment, **environment})
        given = payments(30)
        self.assertEqual(self.connect(host).ask(given[0].frame), given[0].answer)
        self.assert_hidden(host, keys)
        os.kill(host.below(), signal.SIGKILL)
        host.told("serving after", 2)
        client = self.connect(host)
        client.send(stream_of(given))
        self.assertEqual(client.take_answers(len(given)), [it.answer for it in given])
        self.assertEqual(host.health(), (200, "serving\n"))
        self.assert_hidden(host, keys)
        self.assertEqual(host.stop(), 0)

    def test_components(self) -> None:
        """Two and more components, of either length."""
        for count, length in ((2, 24), (3, 16)):
            keys = HostKeys(self.chance, count, length)
            self.check(keys, keys.write(self.home), {})

    def test_credentials(self) -> None:
        keys = HostKeys(self.chance, 3)
        keys.write(self.home)
        self.check(keys, ["host.toml"], {SYSTEMD: str(self.home)})

    def test_long_text(self) -> None:
        """A configuration of the most cards comes whole by its pipe, and once."""
        text = self.chance.randbytes(300_000)
        with readable(bytearray(text)) as (path, handles):
            self.assertEqual(Path(path).read_bytes(), text)
            self.assertEqual(Path(path).read_bytes(), b"")
        with self.assertRaises(OSError):
            os.fstat(handles[0])

    def test_test_keys(self) -> None:
        """The first line and the health say that they are, whatever else they say."""
        host = self.start_host()
        host.told("serving after")
        self.assertEqual(
            host.lines[0], "dukpt-host: test keys: the configuration has every key in the clear")
        self.assertEqual(host.health(), (200, "test keys: serving\n"))
        self.assertEqual(host.stop(), 0)


class OverBook(BookCase):
    weight = 5

    def test_hidden(self) -> None:
        """No key is in arguments and variables of a host, in its folder, or in what it says."""
        keys = HostKeys(self.chance, 3)
        (self.home / "bank.toml").unlink()
        host = self.start_host("--not-replicated", keys=keys.write(self.home))
        given = payments(30)
        client = self.connect(host)
        client.send(stream_of(given))
        self.assertEqual(client.take_answers(len(given)), [it.answer for it in given])
        said = "\n".join([*host.lines, host.get("/metrics")[1]])
        for it in (of_process(host.process.pid), said.encode(),
                   of_folder(self.home, ["lmk.1", "lmk.2", "lmk.3"])):
            self.assertFalse(holding(it, keys.secrets))
        self.assertEqual(host.stop(), 0)


class Fault(NamedTuple):
    """What is wrong, how it is brought about in a folder of files that are right, and the line."""

    makes: Callable[[Path, HostKeys], object]
    line: str
    # The words in the place of the right ones.
    words: Sequence[str] = ("host.toml", "--component", "lmk.1", "--component", "lmk.2")


NO_FILE = "no component file: digits, a space, their check value"
TOO_FEW = "fewer than two components: --component FILE for each, or the credentials lmk.1 and lmk.2 of systemd"
CHANGED = "it was changed, or the local master key is another one"
WEAK = "the local master key is weak: two of its DES keys are equal"
TWICE = "its check value stands before: is it the same one?"
OTHER_USE = "it holds a key for another use"
CLEAR = ("config: keys in the clear: put key blocks in their place, or give --test-keys where they are test"
         " keys")


def second(change: Callable[[str, HostKeys], str]) -> Callable[[Path, HostKeys], object]:
    """Puts another text into the file of the second component."""
    def make(home: Path, keys: HostKeys) -> None:
        (home / "lmk.2").write_text(change(component(keys.components[1]), keys))
    return make


def text(change: Callable[[str, HostKeys], str]) -> Callable[[Path, HostKeys], object]:
    """Puts another text into the configuration."""
    def make(home: Path, keys: HostKeys) -> None:
        (home / "host.toml").write_text(change(keys.text, keys))
    return make


def zone(made: Callable[[HostKeys], str]) -> Callable[[Path, HostKeys], object]:
    return text(lambda it, keys: it.replace(it.splitlines()[0], f'zone = "{made(keys)}"'))


def bdk(made: Callable[[HostKeys], str]) -> Callable[[Path, HostKeys], object]:
    return text(lambda it, keys: it.replace(it.splitlines()[3], f'block = "{made(keys)}"'))


def more_sets(prefixes: Sequence[str]) -> Callable[[Path, HostKeys], object]:
    """Puts further key sets behind the card, one for each prefix."""
    return text(lambda it, keys: it + "".join(
        f'[[bdk]]\nprefix = "{prefix}"\nblock = "{keys.block("B0TX00N", keys.bdk)}"\n'
        for prefix in prefixes))


def weak(keys: HostKeys, at: int) -> bytes:
    """A local master key in which two DES keys are equal but for parity: the one at a place is another."""
    once, twice = keys.chance.randbytes(8), keys.chance.randbytes(8)
    parts = [twice, bytes(it ^ 1 for it in twice)]
    parts.insert(at, once)
    return b"".join(parts)


def turned(block: str) -> str:
    """With another last digit."""
    return block[:-1] + ("0" if block[-1] != "0" else "1")


FAULTS = (
    # Components.
    Fault(lambda home, _: (home / "lmk.2").unlink(), "component 2: cannot read"),
    Fault(lambda home, _: None, "component 1: cannot read", ("host.toml", *2 * ("--component", "."))),
    *(Fault(second(change), f"component 2: {NO_FILE}") for change in (
        lambda it, _: "", lambda it, _: it[:-1], lambda it, _: f"{it}\n", lambda it, _: it.replace(" ", "  "),
        lambda it, _: it.partition(" ")[0] + "\n", lambda it, _: it[2:], lambda it, _: f"G{it[1:]}",
        lambda it, _: it.replace("\n", "\r\n"), lambda it, keys: keys.text)),
    Fault(second(lambda it, keys: it[:-7] + component(keys.components[0])[-7:]),
          "component 2: another check value than its digits have"),
    Fault(second(lambda it, keys: component(keys.components[1][:16])),
          "component 2: another length than component 1"),
    Fault(lambda home, _: None, TOO_FEW, ("host.toml",)),
    Fault(lambda home, _: None, TOO_FEW, ("host.toml", "--component", "lmk.1")),
    # The local master key.
    Fault(second(lambda it, keys: component(keys.chance.randbytes(24))), f"config: zone: {CHANGED}"),
    Fault(lambda home, _: None, f"component 2: {TWICE}", ("host.toml", *2 * ("--component", "lmk.1"))),
    Fault(lambda home, _: None, f"component 3: {TWICE}",
          ("host.toml", *(word for it in ("lmk.1", "lmk.2", "lmk.1") for word in ("--component", it)))),
    *(Fault(second(lambda it, keys, at=at: component(combined([keys.components[0], weak(keys, at)]))), WEAK)
      for at in range(3)),
    # Key blocks.
    Fault(zone(lambda keys: turned(keys.block("P0TB00N", keys.zone))), f"config: zone: {CHANGED}"),
    Fault(bdk(lambda keys: turned(keys.block("B0TX00N", keys.bdk))), f"config: bdk 1: {CHANGED}"),
    Fault(zone(lambda keys: keys.zone.hex()), "config: zone: no key block"),
    Fault(bdk(lambda keys: keys.bdk.hex()), "config: bdk 1: no key block"),
    Fault(zone(lambda keys: keys.block("B0TX00N", keys.zone)), f"config: zone: {OTHER_USE}"),
    Fault(bdk(lambda keys: keys.block("P0TB00N", keys.bdk)), f"config: bdk 1: {OTHER_USE}"),
    Fault(bdk(lambda keys: keys.block("B0TX00N", keys.bdk + bytes(8))), f"config: bdk 1: {OTHER_USE}"),
    Fault(zone(lambda keys: keys.block("P0AB00N", keys.zone)), f"config: zone: {OTHER_USE}"),
    # The configuration.
    Fault(lambda home, _: (home / "host.toml").unlink(), "config: cannot read"),
    Fault(text(lambda it, _: it + "#" * (1 << 20)), "config: too long"),
    Fault(text(lambda it, _: it + "["), "config: not TOML"),
    Fault(text(lambda it, _: f"{it}more = {'[' * 9000}"), "config: not TOML"),
    Fault(text(lambda it, keys: f"0{keys.lmk.hex()} = 1\n{it}"), "config: unknown key 1"),
    Fault(text(lambda it, _: f"stores = 1\n{it}"), "config: unknown stores"),
    Fault(text(lambda it, _: it.partition("\n")[2]), "config: bad zone: there is none"),
    Fault(text(lambda it, _: "zone = 1\n" + it.partition("\n")[2]), "config: bad zone"),
    Fault(text(lambda it, _: it.replace("[[bdk]]", "[[card]]")), "config: bad bdk"),
    Fault(text(lambda it, _: it.replace("prefix", "iksn")), "config: bad bdk 1"),
    Fault(text(lambda it, _: it.replace("limit", "most")), "config: bad card 1"),
    Fault(text(lambda it, _: it + it[it.index("[[card]]") :]), "config: bad card 2: its pan stands before"),
    Fault(more_sets(["ffff987654"]), "config: bad bdk 2: its prefix stands before"),
    Fault(more_sets([f"000000000{at}" for at in range(8)]),
          "config: bad bdk: more than 8"),
    # Keys in the clear.
    Fault(lambda home, _: (home / "host.toml").write_bytes(BANK), CLEAR),
    Fault(text(lambda it, _: it.replace("block =", "key =")), CLEAR),
)


class Refused(Case):
    """Starts that are refused."""

    weight = 5

    def setUp(self) -> None:
        super().setUp()
        self.environment = library()

    def started(self, home: Path, *words: str) -> subprocess.CompletedProcess[str]:
        return subprocess.run([HOST, *words, "--listen", HERE], cwd=home, capture_output=True, text=True,
                              timeout=SECONDS, check=False, env={**os.environ, **self.environment})

    def test_faults(self) -> None:
        """Each has its line over both stores, and no file is made."""
        tries = list(self.tries())
        files = [sorted(os.listdir(home)) for home, _, _ in tries]
        given = "".join(f"{json.dumps([str(home), words])}\n" for home, words, _ in tries)
        done = subprocess.run([PYTHON, "-B", "-c", STARTS, HOST.parent], input=given, text=True,
                              capture_output=True, timeout=SECONDS, check=False,
                              env={**os.environ, **self.environment})
        lines = [f"dukpt-host: not started: {line}\n1\n" for _, _, line in tries]
        self.assertEqual((done.stderr, done.stdout), ("".join(lines), ""))
        self.assertEqual([sorted(os.listdir(home)) for home, _, _ in tries], files)

    def tries(self) -> Iterator[tuple[Path, list[str], str]]:
        """The folder of each fault, the words of a start in it, and the line."""
        for fault in FAULTS:
            home, keys = self.folder(), HostKeys(self.chance)
            keys.write(home)
            fault.makes(home, keys)
            self.assertFalse(holding(fault.line.encode(), keys.secrets))
            for store in (("--journal", "journal"), NO_DATABASE):
                yield home, [*fault.words, *store], fault.line

    def test_words(self) -> None:
        """Components are not for test keys."""
        done = self.started(self.folder(), "bank.toml", "--test-keys", "--component", "lmk.1", *NO_DATABASE)
        self.assertEqual(done.returncode, 2)
        self.assertIn("not allowed with argument", done.stderr)
