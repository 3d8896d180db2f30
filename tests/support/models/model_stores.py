"""The stores of terminals and host: a cell and a log in memory, and both on a disk.

A call is refused by a `StoreFault`. In memory a write has two device steps, which keep the new
value and acknowledge it. On a disk its device steps are those of docs/FORMATS.md.
"""
from __future__ import annotations

from enum import Enum
from typing import Optional, Protocol, Union

from ..formats.images import (
    CELL_DISK, LAST_SEQUENCE, OPEN, RECORD, SLOT, Slot, read_record, read_slot, record_of)


class StoreFault(Exception):
    """A store's refusal, by its name."""


class Cell(Protocol):
    """Keeps one body."""

    def restart(self) -> Optional[bytes]: ...

    def put(self, body: bytes) -> None: ...

    def arm(self, passes: int) -> None: ...


class UsedLog(Protocol):
    """Keeps a list of numbers."""

    def restart(self) -> list[int]: ...

    @property
    def room(self) -> int: ...

    def append(self, serial: int) -> None: ...

    def arm(self, passes: int) -> None: ...


class Steps:
    """Device steps, of which some fail: each one behind so many that pass, where the store is
    armed, and one alone behind so many, where it is to fail once. Both count each step."""

    def __init__(self) -> None:
        self.passes: Optional[int] = None
        self.once: Optional[int] = None

    def arm(self, passes: int) -> None:
        self.passes = passes

    def disarm(self) -> None:
        self.passes = None

    def fail_once(self, passes: int) -> None:
        self.once = passes

    def fails(self) -> bool:
        """Takes a step, and tells whether it fails."""
        armed, once = self.passes == 0, self.once == 0
        if self.passes:
            self.passes -= 1
        if self.once is not None:
            self.once = None if once else self.once - 1
        return armed or once


class Stopping:
    """What is stopped until its restart, and by each device step that fails."""

    def __init__(self, steps: Steps) -> None:
        self.steps = steps
        self.running = False

    def demand_running(self) -> None:
        if not self.running:
            raise StoreFault("Stopped")

    def take_step(self) -> None:
        if self.steps.fails():
            self.running = False
            raise StoreFault("Device")

    def arm(self, passes: int) -> None:
        self.steps.arm(passes)


class MemoryCell(Stopping):
    """A cell in memory, over what it kept before."""

    def __init__(self, body: Optional[bytes] = None) -> None:
        super().__init__(Steps())
        self.body = body

    def restart(self) -> Optional[bytes]:
        self.steps.disarm()
        self.running = True
        return self.body

    def put(self, body: bytes) -> None:
        self.demand_running()
        self.take_step()
        self.body = body
        self.take_step()


class MemoryLog(Stopping):
    """A log in memory with room for so many numbers."""

    def __init__(self, capacity: int) -> None:
        super().__init__(Steps())
        self.capacity = capacity
        self.serials: list[int] = []

    def restart(self) -> list[int]:
        self.steps.disarm()
        self.running = True
        return list(self.serials)

    @property
    def room(self) -> int:
        return self.capacity - len(self.serials) if self.running else 0

    def append(self, serial: int) -> None:
        self.demand_running()
        self.take_step()
        self.serials.append(serial)
        self.take_step()


class Filling(Enum):
    """What a restart of a disk leaves in each byte that was written since the last sync: the old
    byte or the new one. In place of these a number is a byte that it leaves."""

    OLD = "old"
    NEW = "new"


class MemoryDisk:
    """A disk in memory, whose restart leaves what its filling says. A write that fails leaves what
    a read gives, and the new bytes are those that were to be written."""

    def __init__(self, data: bytes, filling: Union[Filling, int] = Filling.OLD) -> None:
        self.steps = Steps()
        self.filling = filling
        self.reads = bytearray(data)
        self.synced = bytearray(data)
        self.wanted = bytearray(data)
        # The places written since the last sync, as ranges.
        self.written: list[tuple[int, int]] = []

    def take_step(self) -> None:
        if self.steps.fails():
            raise StoreFault("Device")

    def restart(self) -> None:
        self.steps.disarm()
        for at, end in self.written:
            self.reads[at:end] = self.left_in(at, end)

    def left_in(self, at: int, end: int) -> bytes:
        """What a stop leaves in a range that was written since the last sync."""
        if self.filling is Filling.OLD:
            return self.synced[at:end]
        if self.filling is Filling.NEW:
            return self.wanted[at:end]
        return bytes([self.filling]) * (end - at)

    def read(self, at: int, count: int) -> bytes:
        self.take_step()
        return bytes(self.reads[at : at + count])

    def write(self, at: int, data: bytes) -> None:
        end = at + len(data)
        self.wanted[at:end] = data
        self.written.append((at, end))
        self.take_step()
        self.reads[at:end] = data

    def sync(self) -> None:
        self.take_step()
        for at, end in self.written:
            self.synced[at:end] = self.wanted[at:end] = self.reads[at:end]
        self.written.clear()


class OnDisk(Stopping):
    """A store on a disk: each call of the disk that fails stops it."""

    def __init__(self, disk: MemoryDisk) -> None:
        super().__init__(disk.steps)
        self.disk = disk

    def write_and_sync(self, at: int, data: bytes) -> None:
        self.disk.write(at, data)
        self.disk.sync()


class SlotCell(OnDisk):
    """A cell on a disk: two slots, of which one counts."""

    def __init__(self, disk: MemoryDisk) -> None:
        super().__init__(disk)
        self.current: Optional[int] = None
        self.sequence = 0

    def restart(self) -> Optional[bytes]:
        self.running = False
        self.disk.restart()
        if len(self.disk.reads) != CELL_DISK:
            raise StoreFault("Damaged")
        self.disk.sync()
        slots = [read_slot(self.disk.read(SLOT * at, SLOT)) for at in range(2)]
        self.current = counting(slots)
        for at, slot in enumerate(slots):
            if at != self.current:
                if slot.is_open:
                    self.close(at)
                self.wipe(at)
        self.running = True
        if self.current is None:
            self.sequence = 0
            return None
        self.sequence = slots[self.current].sequence
        return slots[self.current].body

    def put(self, body: bytes) -> None:
        self.demand_running()
        if self.current is not None and self.sequence == LAST_SEQUENCE:
            raise StoreFault("Worn")
        self.running = False
        new = 1 if self.current == 0 else 0
        slot = Slot(OPEN, self.sequence + 1, body).bytes()
        self.write_and_sync(SLOT * new + 1, slot[1:])
        self.write_and_sync(SLOT * new, slot[:1])
        self.close(1 - new)
        self.wipe(1 - new)
        self.running, self.current, self.sequence = True, new, self.sequence + 1

    def close(self, at: int) -> None:
        self.write_and_sync(SLOT * at, b"\x00")

    def wipe(self, at: int) -> None:
        self.write_and_sync(SLOT * at + 1, bytes(SLOT - 1))


def counting(slots: list[Slot]) -> Optional[int]:
    """Which of two slots counts, if one does."""
    first, second = slots
    if not (first.is_open or second.is_open):
        return None
    if first.is_open and second.is_open:
        if first.sequence == second.sequence:
            raise StoreFault("Damaged")
        return 0 if first.sequence > second.sequence else 1
    return 0 if first.is_open else 1


class DiskLog(OnDisk):
    """A log on a disk: a record for each number."""

    def __init__(self, disk: MemoryDisk) -> None:
        super().__init__(disk)
        self.count = 0

    def restart(self) -> list[int]:
        self.running = False
        self.disk.restart()
        size = len(self.disk.reads)
        if size == 0 or size % RECORD:
            raise StoreFault("Damaged")
        self.disk.sync()
        records = [self.disk.read(at, RECORD) for at in range(0, size, RECORD)]
        serials = kept(records)
        # Then the host reads the numbers that are kept, one after the other.
        serials = [read_record(self.disk.read(RECORD * at, RECORD)) for at in range(len(serials))]
        self.running, self.count = True, len(serials)
        return serials

    @property
    def room(self) -> int:
        return len(self.disk.reads) // RECORD - self.count if self.running else 0

    def append(self, serial: int) -> None:
        self.demand_running()
        self.running = False
        at, record = RECORD * self.count, record_of(serial)
        self.write_and_sync(at + 1, record[1:])
        self.write_and_sync(at, record[:1])
        self.running, self.count = True, self.count + 1


def kept(records: list[bytes]) -> list[int]:
    """The numbers of the open records up to the first closed one."""
    gates = [record[0] == OPEN for record in records]
    count = gates.index(False) if False in gates else len(gates)
    if any(gates[count:]) or any(any(record[11:]) for record in records[:count]):
        raise StoreFault("Damaged")
    return [read_record(record) for record in records[:count]]


def new_cell(on_disk: bool) -> Cell:
    return SlotCell(MemoryDisk(bytes(CELL_DISK))) if on_disk else MemoryCell()


def new_log(on_disk: bool, capacity: int) -> UsedLog:
    return DiskLog(MemoryDisk(bytes(RECORD * capacity))) if on_disk else MemoryLog(capacity)
