"""Large files: one that is too long is refused by its size, and a log or a journal, which may have any
size, takes the memory of its bytes."""
from __future__ import annotations

from ..support.case import ProgramCase
from ..support.commands.shown import journal_ended, log_ended
from ..support.formats.bank import BANK
from ..support.program import Limits
from ..support.system.traced_files import READS, traced

MEGABYTE = 1 << 20
# Of whole records of a log and of a journal.
LARGE = 96 * MEGABYTE
HUGE = 4 << 30


class LargeFiles(ProgramCase):
    weight = 4

    def setUp(self) -> None:
        super().setUp()
        self.home = self.folder()
        (self.home / "bank.toml").write_bytes(BANK)
        (self.home / "empty.script").write_bytes(b"")

    def sparse(self, name: str, size: int) -> None:
        """A file of zeros, none of which is on the disk."""
        with open(self.home / name, "wb") as it:
            it.truncate(size)

    def test_memory(self) -> None:
        """It is shown within the memory of its bytes and little more, and not within less."""
        self.sparse("large", LARGE)
        for kind, wanted in (("log", log_ended(bytes(LARGE))), ("journal", journal_ended(bytes(LARGE)))):
            for memory, ended in ((LARGE + 8 * MEGABYTE, wanted), (LARGE - MEGABYTE, None)):
                found = self.program.run("show", kind, "large", folder=self.home,
                                         limits=Limits(memory=memory))
                if ended:
                    self.assertEqual(found, ended, kind)
                else:
                    self.assert_ended(found, 1, b"", b"out of memory\n", kind)

    def test_too_long(self) -> None:
        """No byte of it is read."""
        self.sparse("huge", HUGE)
        for words, fault in ((["run", "huge", "empty.script"], "config: too long"),
                             (["serve", "huge"], "config: too long"),
                             (["run", "bank.toml", "huge"], "script: too long")):
            ended, calls = traced([self.program.path, *words], self.home, self.home / "trace", "huge")
            self.assert_ended(ended, 1, b"", f"{fault}\n".encode(), " ".join(words))
            self.assertTrue(calls)
            self.assertEqual([str(it) for it in calls if it.file == "huge" and it.name in READS], [])

    def test_at_the_limit(self) -> None:
        """As many bytes as a configuration may have, and one more."""
        text = BANK + b"#" * ((1 << 20) - len(BANK))
        for data, status, faults in ((text, 0, b""), (text + b"#", 1, b"config: too long\n")):
            (self.home / "long").write_bytes(data)
            found = self.program.run("run", "long", "empty.script", folder=self.home)
            self.assert_ended(found, status, b"", faults, str(len(data)))
