"""From a release alone, by the lines of docs/LIBRARY.md: in a copy of this system without the kit and
without the repository, terminals in C, Python and Rust pay, lose a reply and reverse, beside the host
of the release."""
from __future__ import annotations

import re
import shutil
from pathlib import Path

from ..support.packages.packages import demand
from ..support.packages.releases import NAMES, ReleaseCase
from ..support.program import ROOT
from ..support.system.system_root import SystemRoot

PLACE = "/tmp/release"
BANK = "/usr/share/doc/dukpt/examples/bank.toml"
NUMBER = "FFFF9876543210E{:05X}"
LANGUAGES = ("C", "Python", "Rust")
# The line of the document that tells how the terminals are started.
STARTED = re.compile(r"^The terminal of the examples is then (.*)\.$", re.M)
VARIABLE = re.compile(r"^(?:export )?\w+=.*$", re.M)
# A payment beside the host; one whose reply is lost, though the host has the request; and the start
# after that.
PAYS = "{terminal} {image} 500 <host | dukpt serve {bank} --journal {journal} >host"
LOSES = "{terminal} {image} 700 </dev/null >request && exit 9\n" \
        "dukpt serve {bank} --journal {journal} <request >reply"
RESTS = "{terminal} {image} <host | dukpt serve {bank} --journal {journal} >host"


class Alone(ReleaseCase):
    weight = 60

    def setUp(self) -> None:
        super().setUp()
        demand(unshare="util-linux", gcc="gcc", cargo="cargo", rustc="rustc")
        release = self.made(self.repository())
        self.kit = Path(str(shutil.which("rt"))).resolve().parent.parent
        self.system = SystemRoot(self.folder())
        self.addCleanup(self.system.close)
        shutil.copytree(release, self.system.path(PLACE))

    def run_well(self, *words: str) -> str:
        """What a command writes, which must end well."""
        ended = self.system.run("unshare", "--net", *words)
        self.assertEqual(ended.status, 0, f"{words}: {ended}")
        return ended.output.decode()

    def in_release(self, script: str) -> str:
        """What a script writes, in the folder of the release. Cargo wants a home."""
        return self.run_well("env", "HOME=/tmp/home", "bash", "-euc", f"cd {PLACE}\n{script}")

    def test_terminals(self) -> None:
        self.hide()
        self.in_release("sha256sum --check --strict SHA256SUMS")
        packages = [it for it in NAMES
                    if it.endswith(".deb") and not it.startswith(("python3", "dukpt-host"))]
        self.in_release(f"dpkg --install --path-include=* --no-triggers {' '.join(packages)}")
        lines, terminals = documented()
        self.in_release(f"{lines}\nmkfifo host")
        known = "\n".join(VARIABLE.findall(lines))
        for language, terminal in zip(LANGUAGES, terminals):
            with self.subTest(language):
                self.check_terminal(language, terminal, known)

    def hide(self) -> None:
        """Takes kit and repository out of the system's sight."""
        for path in (self.kit, ROOT):
            if self.system.path(str(path)).exists():
                self.run_well("mkdir", "-p", "/tmp/nothing")
                ended = self.system.run("mount", "--bind", "/tmp/nothing", str(path))
                self.assertEqual(ended.status, 0, ended)
            self.assertEqual(self.system.run("ls", "-A", str(path)).output, b"", path)
        self.assertNotEqual(self.system.run("sh", "-c", "command -v rt").status, 0)
        found = self.system.run("find", "/usr", "/opt", "/tmp", "-xdev", "-name", "libdukpt*", "-not",
                                "-path", f"{PLACE}/*")
        self.assertEqual(found.output, b"")

    def check_terminal(self, language: str, terminal: str, variables: str) -> None:
        image, journal = f"{language}.image", f"{language}.journal"
        self.in_release(f"dukpt new-journal {journal} 64")
        known = {"terminal": terminal, "image": image, "journal": journal, "bank": BANK}
        one, two, three = (NUMBER.format(it) for it in (1, 2, 3))
        for script, wanted in (
            (PAYS, [f"loaded {NUMBER.format(0)}", f"number {one}", f"approved {one} 500"]),
            (LOSES, [f"last approved {one} 500", f"number {two}", "no reply"]),
            (RESTS, [f"last open {two} 700", f"reversing {three} of {two}", f"undone {two}"]),
        ):
            self.assertEqual(self.said(f"{variables}\n{script.format(**known)}"), wanted)
        shown = self.in_release(f"dukpt show journal {journal}")
        self.assertEqual(shown.splitlines()[-1], f"terminal {NUMBER.format(0)} 2 {one} {three}"
                         " approved 500 undone 1")

    def said(self, script: str) -> list[str]:
        """The lines that the terminal writes on its standard error, where the host writes none."""
        ended = self.system.run("unshare", "--net", "env", "HOME=/tmp/home", "bash", "-uc",
                                f"cd {PLACE}\n{script}")
        self.assertEqual(ended.output, b"", ended)
        return ended.faults.decode().splitlines()


def documented() -> tuple[str, list[str]]:
    """The lines of docs/LIBRARY.md for a release, and how each terminal is started then."""
    text = (ROOT / "docs/LIBRARY.md").read_text(encoding="utf-8")
    section = re.search(r"^## From a release\n(.*?)^## ", text, re.M | re.S)
    told = section[1] if section else ""
    started = re.findall(r"`([^`]+)`", "".join(STARTED.findall(told)))
    if len(started) != len(LANGUAGES):
        raise AssertionError(f"docs/LIBRARY.md has {len(started)} terminals of a release")
    return "\n".join(re.findall(r"^    (.+)$", told, re.M)), started
