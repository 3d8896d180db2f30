"""The Debian packages, installed in a copy of this system: the account and its folders, the service
as its unit starts it, what C and Python are compiled and run with, and what a removal leaves."""
from __future__ import annotations

import re
import shlex
import socket
import stat
from pathlib import Path
from typing import Iterator, Sequence

from ..support.formats.log_file import numbers_in
from ..support.packages.packages import VERSION, PackageCase, demand
from ..support.program import ROOT, Ended
from ..support.service.client import Exchange, answered, key_lines, payments
from ..support.service.service_case import numbers_of
from ..support.system.system_root import SystemRoot

NAMES = ("libdukpt0", "libdukpt-dev", "python3-dukpt", "dukpt-host", "dukpt")
BDK, KSN = "0123456789ABCDEFFEDCBA9876543210", "FFFF9876543210E00001"
EXAMPLES_IN_C = "/usr/share/doc/libdukpt-dev/examples"
EXAMPLES_IN_PYTHON = "/usr/share/doc/python3-dukpt/examples"
UNITS = "usr/lib/systemd/system"
LOGS, CONFIGURATION = "/var/lib/dukpt", "/etc/dukpt/bank.toml"
# The log that is documented has more: each start reads all of it.
DOCUMENTED, ROOM = 1_000_000, 1000
IN_C = """\
#include <dukpt.h>
#include <stdio.h>
int main(void) {
    uint8_t bdk[DUKPT_KEY_BYTES] = {@BDK@}, ksn[DUKPT_KSN_BYTES] = {@KSN@}, key[DUKPT_KEY_BYTES];
    if (dukpt_derive(bdk, sizeof bdk, ksn, sizeof ksn, key, sizeof key) != DUKPT_OK)
        return 1;
    for (size_t at = 0; at < sizeof key; at++)
        printf("%02X", key[at]);
    return puts("") < 0;
}
"""
IN_PYTHON = f"""\
import importlib.metadata
import dukpt
assert dukpt.version() == importlib.metadata.version("dukpt") == "{VERSION}"
assert dukpt.__file__.startswith("/usr/lib/python3/dist-packages/")
bdk, ksn = bytes.fromhex("{BDK}"), bytes.fromhex("{KSN}")
try:
    dukpt.derive(bdk, ksn[:9])
except dukpt.DukptError:
    print(dukpt.derive(bdk, ksn).hex().upper())
"""
# What dpkg, ldconfig, systemd and the tools for accounts keep of themselves: `etc/passwd-` is the
# file before the last change.
OF_THE_SYSTEM = re.compile(
    r"var/lib/dpkg/.*|var/log/dpkg\.log|var/cache/(man|ldconfig)(/.*)?|etc/ld\.so\.cache"
    r"|etc/(passwd|group|shadow|gshadow|subuid|subgid)-|etc/\.pwd\.lock"
    r"|var/lib/systemd/deb-systemd-helper-enabled")
# Where systemd runs, a script asks one command whether it may stop units, and tells the other one.
STAND_INS = {"usr/sbin/policy-rc.d": "#!/bin/sh\n",
             "usr/local/bin/systemctl": "#!/bin/sh\necho \"$*\" >>/tmp/told\n"}
STOP = "stop dukpt.socket dukpt@*.service"
# Whatever the order of their lines is.
ACCOUNTS = ("passwd", "group", "shadow", "gshadow")


class Installed(PackageCase):
    weight = 30

    def setUp(self) -> None:
        super().setUp()
        demand(unshare="util-linux", setpriv="util-linux", gcc="gcc", pkg_config="pkg-config",
               systemd_sysusers="systemd", py3compile="python3-minimal", userdel="passwd")
        packages = self.made()
        self.system = SystemRoot(self.folder())
        self.addCleanup(self.system.close)
        for it in packages.values():
            self.system.path(f"tmp/{it.path.name}").write_bytes(it.path.read_bytes())
        self.given = [f"/tmp/{packages[name].path.name}" for name in NAMES]

    def run_well(self, *words: str, given: bytes = b"") -> str:
        """What a command writes, which must end well."""
        ended = self.system.run(*words, given=given)
        self.assertEqual(ended.status, 0, f"{words}: {ended}")
        return ended.output.decode()

    def dpkg(self, *words: str) -> None:
        # A small system may leave documents out. Triggers, as the index of manual pages, are those
        # of other packages.
        self.run_well("dpkg", "--path-include=*", "--no-triggers", *words)

    def test_a_life(self) -> None:
        """From the installation to the purge."""
        self.dpkg("--install", *self.given)
        self.check_account()
        self.check_program()
        self.check_c()
        self.check_python()
        self.assertEqual(self.run_well("dpkg", "--verify", *NAMES), "")
        self.start_as_documented()
        self.check_service()
        self.check_removal()

    # What an installation makes

    def check_account(self) -> None:
        words = self.run_well("getent", "passwd", "dukpt").strip().split(":")
        self.assertEqual((words[0], words[5], words[6]), ("dukpt", LOGS, "/usr/sbin/nologin"))
        self.user, self.group = int(words[2]), int(words[3])
        self.assertEqual(self.run_well("getent", "group", str(self.group)).split(":")[0], "dukpt")
        self.assertNotIn(0, (self.user, self.group))
        self.assertLess(self.user, 1000, "an account of the system")
        self.assert_mode("/etc/dukpt", 0o750, 0, self.group)
        self.assert_mode(LOGS, 0o700, self.user, self.group)
        for path in ("/etc/dukpt", LOGS):
            self.assertEqual(list(self.system.path(path).iterdir()), [], path)

    def assert_mode(self, path: str, mode: int, user: int, group: int) -> None:
        found = self.system.path(path).lstat()
        self.assertEqual((stat.S_IMODE(found.st_mode), found.st_uid, found.st_gid),
                         (mode, user, group), path)

    def check_program(self) -> None:
        said = self.run_well("dukpt", "derive", BDK, KSN)
        self.assertEqual(said.splitlines(), key_lines([1]))
        completion = "/usr/share/bash-completion/completions/dukpt"
        self.run_well("bash", "-c", f". {completion}; complete -p dukpt")
        self.run_well("/usr/bin/python3", "-Ic", "import dukpt_host.host, dukpt_host.book.service")
        units = [f"/{UNITS}/{name}" for name in ("dukpt.socket", "dukpt@.service", "dukpt-host.socket",
                                                 "dukpt-host.service")]
        ended = self.system.run("systemd-analyze", "verify", *units)
        self.assertEqual(ended, Ended(0, b"", b""))

    # What is compiled and run with the library

    def check_c(self) -> None:
        """With the shared library, with the static one, and each example."""
        text = IN_C.replace("@BDK@", in_c(BDK)).replace("@KSN@", in_c(KSN))
        self.system.path("tmp/it.c").write_text(text)
        for library in ("$(pkg-config --libs dukpt)", "-l:libdukpt.a"):
            self.compile("/tmp/it.c", library)
            self.assertEqual(self.run_well("/tmp/it"), f"{first_key()}\n", library)
        self.assertEqual(self.run_well("pkg-config", "--modversion", "dukpt").strip(), VERSION)
        # A compiler looks into Debian's folders by itself.
        self.assertEqual(self.run_well("pkg-config", "--cflags", "--libs", "dukpt").split(),
                         ["-ldukpt"])
        for path in sorted((ROOT / "library/examples").glob("*.c")):
            self.compile(f"{EXAMPLES_IN_C}/{path.name}", "$(pkg-config --libs dukpt)")
        self.compile(f"{EXAMPLES_IN_C}/first_key.c", "$(pkg-config --libs dukpt)")
        self.assertEqual(self.run_well("/tmp/it"), f"{first_key()}\n")

    def compile(self, path: str, library: str) -> None:
        self.run_well("sh", "-c", "gcc -Wall -Wextra -Werror -o /tmp/it "
                                  f"$(pkg-config --cflags dukpt) {path} {library}")

    def check_python(self) -> None:
        words = ("setpriv", "--reuid=65534", "--clear-groups", "/usr/bin/python3", "-I", "-")
        self.assertEqual(self.run_well(*words, given=IN_PYTHON.encode()), f"{first_key()}\n")
        said = self.run_well("/usr/bin/python3", f"{EXAMPLES_IN_PYTHON}/first_key.py")
        self.assertEqual(said, f"{first_key()}\n")

    # The service

    def start_as_documented(self) -> None:
        """Configuration, components, journal or log, and what listens, by the commands of the documents.
        No systemd runs here, so that a unit is enabled and not started."""
        self.run_well("bash", "-euc", "cp /usr/share/doc/dukpt/examples/bank.toml /tmp; cd /tmp; touch lmk.1 lmk.2")
        for page, front, store, unit in (
                ("DEPLOYMENT", r"^## One host(?s:.*?)", "payments.journal", "dukpt-host"),
                ("OPERATION", r"^\*\*The first start\*\*.*", "used.log", "dukpt.socket")):
            text = (ROOT / f"docs/{page}.md").read_text(encoding="utf-8")
            block = re.search(front + r"\n\n((?:    .*\n)+)", text, re.M)
            self.assertIsNotNone(block, f"docs/{page}.md has no {unit}")
            commands = block[1].replace("enable --now", "enable")
            self.assertIn(f"systemctl enable {unit}\n", commands)
            self.assertIn(f"{store} {DOCUMENTED}\n", commands)
            commands = commands.replace(f"{store} {DOCUMENTED}\n", f"{store} {ROOM}\n")
            self.run_well("bash", "-euc", f"cd /tmp\n{commands}")
            self.assert_mode(f"{LOGS}/{store}", 0o600, self.user, self.group)
            if store == "used.log":
                self.assert_mode(CONFIGURATION, 0o640, 0, self.group)
            else:
                self.check_handed_over()

    def check_handed_over(self) -> None:
        """Root alone can read what the unit hands to the host, and each such file is there."""
        named = self.system.path(f"{UNITS}/dukpt-host.service").read_text()
        files = re.findall(r"^LoadCredential=(.+):/etc/dukpt/(.+)$", named, re.M)
        self.assertEqual({name for name, _ in files}, {"bank.toml", "lmk.1", "lmk.2"})
        for name, file in files:
            self.assertEqual(name, file)
            self.assert_mode(f"/etc/dukpt/{file}", 0o600, 0, 0)

    def unit(self, name: str) -> dict[str, str]:
        """The settings of an installed unit."""
        text = self.system.path(f"{UNITS}/{name}").read_text()
        return dict(re.findall(r"^(\w+)=(.*)$", text, re.M))

    def connect(self, requests: Sequence[Exchange], count: int) -> tuple[bytes, int, bytes]:
        """What the service answers on a connection, as the unit starts it: so many bytes, its
        status, and what it says."""
        unit = self.unit("dukpt@.service")
        mine, theirs = socket.socketpair()
        with mine, theirs:
            process = self.system.start(*started_by(unit), stream=theirs.fileno())
            self.addCleanup(process.kill)
            theirs.close()
            mine.sendall(b"".join(it.frame for it in requests))
            answers = mine.makefile("rb").read(count)
            mine.shutdown(socket.SHUT_WR)
            faults = process.communicate(timeout=120)[1]
        return answers, process.returncode, faults

    def check_service(self) -> None:
        """Payments over two connections, and a copy of the log by the account."""
        unit = self.unit("dukpt@.service")
        self.assertEqual((unit["User"], unit["Group"], unit["StandardInput"]),
                         ("dukpt", "dukpt", "socket"))
        requests = payments(5)
        for given, used in ((requests[:3], ()), (requests, requests[:3])):
            wanted = b"".join(answered(given, numbers_of(used), ROOM)[0])
            self.assertEqual(self.connect(given, len(wanted)), (wanted, 0, b""))
        log = self.system.path(f"{LOGS}/used.log")
        self.assertEqual(numbers_in(log.read_bytes(), ROOM), numbers_of(requests))
        self.assert_mode(f"{LOGS}/used.log.state", 0o600, self.user, self.group)
        said = self.run_well("setpriv", "--reuid=dukpt", "--regid=dukpt", "--clear-groups",
                             "dukpt-copy-log", f"{LOGS}/used.log", f"{LOGS}/copy.log")
        self.assertIn("5 numbers", said)
        self.assertEqual(self.system.path(f"{LOGS}/copy.log").read_bytes(), log.read_bytes())
        self.system.path(f"{LOGS}/copy.log.state").write_text("failed\n")

    # Removal

    def check_removal(self) -> None:
        """An upgrade and a removal leave what an operator made, and a removal alone stops the units.
        A purge leaves the logs, with the state of one that failed, for root alone; and nothing else,
        an account neither."""
        link = "/etc/systemd/system/sockets.target.wants/dukpt.socket"
        logs = {path.name: path.read_bytes() for path in self.system.path(LOGS).iterdir()}
        bank = self.system.path(CONFIGURATION).read_bytes()
        self.stand_in_for_systemd()
        for words in (("--install", self.given[-1]), ("--remove", *NAMES)):
            self.dpkg(*words)
            told = self.system.path("tmp/told").read_text().splitlines()
            self.assertEqual(STOP in told, words[0] == "--remove", told)
            self.assertEqual(told[-1], "--system daemon-reload", words)
            self.assertEqual(self.system.path(CONFIGURATION).read_bytes(), bank, words)
            self.assert_logs(logs, words[0])
            self.assert_mode(f"{LOGS}/used.log", 0o600, self.user, self.group)
            self.assertTrue(self.system.path(link).is_symlink(), words)
        self.dpkg("--purge", *NAMES)
        self.assertEqual(logs.pop("used.log.state"), b"")
        self.assert_logs(logs, "a purge")
        self.assert_mode(LOGS, 0o700, 0, 0)
        for name in logs:
            self.assertEqual(self.system.path(f"{LOGS}/{name}").stat().st_uid, 0, name)
        kept = {LOGS[1:], *(f"{LOGS[1:]}/{name}" for name in logs)}
        self.assertEqual(self.left() - set(STAND_INS), kept)

    def stand_in_for_systemd(self) -> None:
        """From here on systemd seems to run, and the file `told` has what it is told."""
        self.system.path("run/systemd/system").mkdir(parents=True)
        for name, text in STAND_INS.items():
            path = self.system.path(name)
            path.parent.mkdir(parents=True, exist_ok=True)
            path.write_text(text)
            path.chmod(0o755)

    def assert_logs(self, logs: dict[str, bytes], what: str) -> None:
        found = {path.name: path.read_bytes() for path in self.system.path(LOGS).iterdir()}
        self.assertEqual(sorted(found), sorted(logs), what)
        self.assertTrue(found == logs, f"{what} changes the logs")

    def left(self) -> set[str]:
        """What this system lacks, but for the bookkeeping of its own commands."""
        return {path for path in self.system.changes()
                if not OF_THE_SYSTEM.fullmatch(path) and not self.is_same_list(path)}

    def is_same_list(self, path: str) -> bool:
        """Whether it is a list of accounts or groups, with those of this system alone."""
        if path not in {f"etc/{name}" for name in ACCOUNTS}:
            return False
        lists = [(folder / path).read_text().splitlines()
                 for folder in (Path("/"), self.system.path("", "upper"))]
        return sorted(lists[0]) == sorted(lists[1])


def started_by(unit: dict[str, str]) -> Iterator[str]:
    """The words that start a service under the account, folder, mask and limits of its unit."""
    yield from ("setpriv", f"--reuid={unit['User']}", f"--regid={unit['Group']}", "--init-groups",
                "--no-new-privs", "--inh-caps=-all", "sh", "-c",
                f"cd {unit['WorkingDirectory']} && umask {unit['UMask']} && "
                f"ulimit -c {unit['LimitCORE']} && exec \"$@\"", "sh")
    yield from shlex.split(unit["ExecStart"])


def first_key() -> str:
    """The standard's first transaction key."""
    return next(line.split()[1] for line in key_lines([1]) if line.startswith("key "))


def in_c(text: str) -> str:
    return ", ".join(f"0x{it:02X}" for it in bytes.fromhex(text))
