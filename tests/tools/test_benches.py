"""The commands of `bench/`: a short round of each ends well, and prints its rows. Its times are not judged."""
from __future__ import annotations

import subprocess
import sys

from ..support.book.hosts import library
from ..support.case import Case
from ..support.library.library import built_library, locked
from ..support.program import ROOT, built, demand_built

SECONDS = 600
# What stands first in each row that times something, table by table.
MEASURED = [
    "walk of a whole life", "derivation from a base derivation key", "derivation, in groups",
    "derivation of 10,000 numbers, in groups",
    "CMAC over 64 bytes", "CMAC over 4 KiB", "retail MAC over 64 bytes", "retail MAC over 4 KiB",
    "TDES-CBC over 1 MiB, enciphered", "TDES-CBC over 1 MiB, deciphered",
    "10", "100", "1,000",
    "100", "1,000",
    "log in memory", "log in a file", "journal", "C over a journal", "journal, before",
]
CALLS = [
    "derivation, `libdukpt.a`", "derivation, `libdukpt.so`", "derivation, 10,000 in a call",
    "request checked, 1,000 in a call", "PIN block, enciphered", "retail MAC of a request",
    "key block, unwrapped", "registers, `dukpt_registers_next`", "derivation, Python",
]
# Of the loops, of the rates and the syncs before and behind them, and of the kills.
LOAD = [
    *["1", "20"] * 3, "a write of 4 KiB and its sync", *["journal"] * 2, *["PostgreSQL"] * 3,
    "a write of 4 KiB and its sync", "the host over a journal of 1,000 is killed", "a host of two is killed",
    "the primary is killed",
]
STARTS = ["in order", "every second missing"]
FAULTS = [
    "a host is killed", "a host sleeps", "the primary is killed, its standby promoted",
    "a host and the primary are cut", "haproxy and a host are cut", "primary and standby are cut",
    "packets of a machine are lost", "the disk of the primary is full",
]
# What clients, databases and the control say in the end.
SUMS = (r"^10 faults, .* payments acknowledged, .*\neach acknowledged answer is in both databases: .*\n"
        r"control: where commits wait for no standby, .* acknowledged answers are lost$")


def path_of(crate: str) -> str:
    """The program that the gate leaves of a crate."""
    program = built(crate)[0]
    demand_built(program)
    return str(program.path)


def rows(lines: list[str]) -> list[str]:
    """The first cell of each row of the tables, without what heads them."""
    cells = [line.split(" | ")[0].removeprefix("| ") for line in lines if line.startswith("|")]
    heads = {at - 1 for at, cell in enumerate(cells) if cell.startswith("|--")}
    return [it for at, it in enumerate(cells) if at not in heads and not it.startswith("|--")]


class Benches(Case):
    weight = 20

    def lines_of(self, name: str, *words: str) -> list[str]:
        """What a command prints, where it ends well. One runs at a time: they build the same files."""
        with locked(ROOT / "out" / "benches.lock"):
            done = subprocess.run([sys.executable, ROOT / "bench" / name, *words], capture_output=True,
                                  text=True, timeout=SECONDS, check=False)
        self.assertEqual((done.returncode, done.stderr), (0, ""), done.stdout)
        return done.stdout.splitlines()

    def test_measure(self) -> None:
        dukpt = path_of("dukpt")
        found = self.lines_of("measure", "--short", "--rounds", "1", "--program", dukpt,
                              "--before-program", dukpt, "--bench", path_of("duk_bench"))
        self.assertEqual(rows(found), MEASURED)

    def test_library(self) -> None:
        built_library()
        self.assertEqual(rows(self.lines_of("library", "--rounds", "1")), CALLS)

    def test_load(self) -> None:
        """Payments that are answered are kept, over each store and behind each kill: it judges that by itself."""
        library()
        out = self.folder() / "rows.tsv"
        found = self.lines_of("load", "--seconds", "1", "--rates", "100", "--connections", "1,100", "--kept", "1000",
                              "--demanded", "200", "--loop", "2000", "--out", str(out), path_of("dukpt"))
        self.assertEqual(rows(found), LOAD)
        self.assertEqual(len(out.read_text().splitlines()), 1 + len(LOAD))

    def test_starts(self) -> None:
        found = self.lines_of("starts", "--rounds", "1", "--numbers", "10", path_of("dukpt"))
        self.assertEqual(rows(found), STARTS)

    def test_hosts(self) -> None:
        """It makes each fault, and judges by itself what came of it."""
        library()
        found = self.lines_of("hosts", "--faults", "10", "--seed", str(self.chance.getrandbits(32)))
        self.assertEqual(rows(found), FAULTS)
        self.assertRegex("\n".join(found[-3:]), SUMS)
