"""The journal below a host of the model: on a disk, and what is appended is a group of one entry."""
from __future__ import annotations

from ..formats.images import OPEN
from ..formats.journal_records import RECORD, Entry, Place, read_entries
from .model_stores import MemoryDisk, OnDisk, StoreFault

# A restart reads pieces of so many bytes.
PIECE = 2048 * RECORD


class DiskJournal(OnDisk):
    """A journal on a disk: a record for each entry."""

    def __init__(self, disk: MemoryDisk) -> None:
        super().__init__(disk)
        self.count = 0

    @property
    def size(self) -> int:
        """How many records it has."""
        return len(self.disk.reads) // RECORD

    def restart(self) -> list[Entry]:
        self.running = False
        self.disk.restart()
        self.disk.sync()
        pieces = [self.disk.read(at, PIECE) for at in range(0, len(self.disk.reads), PIECE)]
        rows = read_entries(b"".join(pieces))
        if isinstance(rows, Place):
            raise StoreFault("Damaged")
        self.running, self.count = True, len(rows)
        return [entry for _, _, entry in rows]

    def append(self, entry: Entry) -> None:
        self.demand_running()
        self.running = False
        at, record = RECORD * self.count, entry.record(OPEN)
        self.write_and_sync(at + 1, record[1:])
        self.write_and_sync(at, record[:1])
        self.running, self.count = True, self.count + 1


def new_journal(records: int) -> DiskJournal:
    return DiskJournal(MemoryDisk(bytes(RECORD * records)))
