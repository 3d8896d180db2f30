"""The host over a journal: payments and reversals, each answered alone."""
from __future__ import annotations

from dataclasses import dataclass
from typing import Callable, Union

from ..formats.configuration import Configuration
from ..formats.frames import NO_NUMBER, bytes_of, read_request, serial_in, write_reply
from ..formats.journal_records import Entry
from ..formats.reversal_frames import read_reversal, read_reversal_reply
from ..service.client import Exchange
from ..service.reversals import reversal_under
from ..standards.dukpt import serial_text
from .model_host import Answer, AnyHost, HostFault, Kind, refused
from .model_journal import Judge, Judged
from .model_journal_store import DiskJournal
from .model_stores import StoreFault


@dataclass(frozen=True)
class Undoing:
    """The answer to a reversal that is not refused: the first one, or the same again."""

    serial: int
    reversed: int
    state: int
    frame: bytes

    @property
    def words(self) -> str:
        """What the line of an outcome has of it."""
        return f"undone {serial_text(self.serial)} of {serial_text(self.reversed)} {self.state:02}"


class LineHost(AnyHost):
    """A host over a journal, which its restart brings up."""

    def __init__(self, configuration: Configuration, journal: DiskJournal) -> None:
        super().__init__(configuration)
        self.journal = journal
        # What judges frames by the entries that are kept, and the room for all.
        self.new_judge: Callable[[list[Entry], int], Judge] = Judge
        self.judge = self.new_judge([], journal.size)

    def restart(self) -> int:
        """Brings it up, and tells how many entries the journal has."""
        self.running = False
        try:
            entries = self.journal.restart()
        except StoreFault as why:
            raise HostFault(f"Store {why}") from why
        self.judge = self.new_judge(entries, self.journal.size)
        self.running = True
        return len(entries)

    def arm(self, passes: int) -> None:
        self.journal.arm(passes)

    def answer(self, frame: bytes) -> Union[Answer, Undoing]:
        if not self.running:
            raise HostFault("Stopped")
        asked = self.exchange(frame)
        if isinstance(asked, Answer):
            return asked
        found = self.judge.judge(asked)
        if found.entry is not None:
            self.append(found)
        return spoken(found)

    def exchange(self, frame: bytes) -> Union[Exchange, Answer]:
        """A frame that is right, with the answers that it is owed; or why it is refused."""
        request, reversal = read_request(frame), read_reversal(frame)
        asked = request or reversal
        if asked is None:
            return refused(NO_NUMBER, 1)
        key = self.key_for(asked)
        if not isinstance(key, bytes):
            return key
        if reversal:
            return reversal_under(key, reversal.serial, reversal.reversed)
        assert request is not None
        reply = write_reply(key, request.serial, self.code(request, key))
        return Exchange(frame, reply, bytes_of(request.serial))

    def append(self, found: Judged) -> None:
        """Keeps the entry of what is accepted, or is stopped."""
        assert found.entry is not None
        try:
            self.journal.append(found.entry)
        except StoreFault as why:
            self.running = False
            raise HostFault(f"Store {why}") from why


def spoken(found: Judged) -> Union[Answer, Undoing]:
    """An answer by what it says."""
    reply = read_reversal_reply(found.answer)
    if reply is not None:
        return Undoing(reply.serial, reply.reversed, reply.state, found.answer)
    serial = serial_in(found.answer)
    if found.answer[3] == 3:
        return refused(serial, found.answer[14])
    kind = Kind.REPEATED if found.entry is None else Kind.ACCEPTED
    return Answer(kind, serial, found.answer[14:16].decode(), found.answer)
