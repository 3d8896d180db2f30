"""The host with its security module, its issuer and its log, and the service over a stream."""
from __future__ import annotations

from collections import OrderedDict
from dataclasses import dataclass
from enum import Enum
from typing import Optional, Protocol, Union

from ..formats.configuration import Configuration
from ..formats.frames import (
    LONGEST_BODY, NO_NUMBER, Request, read_request, write_refusal, write_reply)
from ..standards.des import triple_decrypted
from ..standards.dukpt import (
    counter_of, derive, pin_key, prefix_of, request_key, serial_text, usable)
from ..standards.macs import retail_mac
from ..standards.pin_blocks import pin_in
from .model_stores import StoreFault, UsedLog

# How many of the requests that it accepted a host answers again.
KEPT = 64


class HostFault(Exception):
    """A host's refusal, by its name."""


class Kind(Enum):
    ACCEPTED = "accepted"
    REPEATED = "repeated"
    REFUSED = "refused"


@dataclass(frozen=True)
class Answer:
    """An answer, with its number and with what it says: a code, or the number of a reason."""

    kind: Kind
    serial: int
    says: str
    frame: bytes

    @property
    def words(self) -> str:
        """What the line of an outcome has of it."""
        return f"{self.kind.value} {serial_text(self.serial)} {self.says}"


def refused(serial: int, reason: int) -> Answer:
    return Answer(Kind.REFUSED, serial, str(reason), write_refusal(serial, reason))


class AnyAnswer(Protocol):
    """An answer of any host."""

    @property
    def frame(self) -> bytes: ...

    @property
    def words(self) -> str: ...


class Authentic(Protocol):
    """A frame with a number and a MAC over a text."""

    @property
    def serial(self) -> int: ...

    @property
    def mac(self) -> bytes: ...

    @property
    def text(self) -> bytes: ...


class AnyHost:
    """What any host has: its keys and its issuer. It is made stopped."""

    def __init__(self, configuration: Configuration) -> None:
        self.configuration = configuration
        self.key_sets = {it.prefix: it.key for it in configuration.bdks}
        self.running = False

    def restart(self) -> int:
        """Brings it up, and tells how much its store keeps."""
        raise NotImplementedError

    def answer(self, frame: bytes) -> AnyAnswer:
        """The answer to the bytes of a frame."""
        raise NotImplementedError

    def arm(self, passes: int) -> None:
        """Has its store fail behind so many device steps."""
        raise NotImplementedError

    def key_for(self, request: Authentic) -> Union[bytes, Answer]:
        """The transaction key of a request with a right MAC, or the refusal of it."""
        base = self.key_sets.get(prefix_of(request.serial))
        if base is None:
            return refused(request.serial, 2)
        if not usable(counter_of(request.serial)):
            return refused(request.serial, 3)
        key = derive(base, request.serial)
        if retail_mac(request_key(key), request.text) != request.mac:
            return refused(request.serial, 4)
        return key

    def code(self, request: Request, key: bytes) -> str:
        """The code of a request: the issuer's, where its PIN block is one."""
        pin = pin_in(triple_decrypted(pin_key(key), request.block), request.pan)
        if pin is None:
            return "30"
        return self.configuration.code(request.pan, pin, request.amount)


class Host(AnyHost):
    """A host over a log, which its restart brings up."""

    def __init__(self, configuration: Configuration, log: UsedLog) -> None:
        super().__init__(configuration)
        self.log = log
        self.used: set[int] = set()
        # The last requests that were accepted since the restart, with what was answered.
        self.recent: OrderedDict[bytes, Answer] = OrderedDict()

    def restart(self) -> int:
        """Brings it up, and tells how many numbers are used."""
        self.running = False
        self.recent.clear()
        try:
            serials = self.log.restart()
        except StoreFault as why:
            raise HostFault(f"Store {why}") from why
        self.used = set(serials)
        if len(self.used) < len(serials) or not all(usable(counter_of(it)) for it in serials):
            raise HostFault("Store Damaged")
        self.running = True
        return len(serials)

    def answer(self, frame: bytes) -> Answer:
        """The answer to the bytes of a frame."""
        if not self.running:
            raise HostFault("Stopped")
        request = read_request(frame)
        if request is None:
            return refused(NO_NUMBER, 1)
        key = self.key_for(request)
        if not isinstance(key, bytes):
            return key
        again = self.recent.get(frame)
        if again is not None:
            return Answer(Kind.REPEATED, again.serial, again.says, again.frame)
        if request.serial in self.used:
            return refused(request.serial, 5)
        if not self.log.room:
            return refused(request.serial, 6)
        return self.accept(frame, request, key)

    def accept(self, frame: bytes, request: Request, key: bytes) -> Answer:
        """Takes the number into the log, and then decides."""
        try:
            self.log.append(request.serial)
        except StoreFault as why:
            self.running = False
            raise HostFault(f"Store {why}") from why
        self.used.add(request.serial)
        code = self.code(request, key)
        reply = write_reply(key, request.serial, code)
        answer = Answer(Kind.ACCEPTED, request.serial, code, reply)
        self.recent[frame] = answer
        if len(self.recent) > KEPT:
            self.recent.popitem(last=False)
        return answer

    def arm(self, passes: int) -> None:
        self.log.arm(passes)


@dataclass(frozen=True)
class Served:
    """What came of a stream: the answers, and what ended it, if that was a fault."""

    answers: list[Answer]
    fault: Optional[str]

    @property
    def output(self) -> bytes:
        return b"".join(answer.frame for answer in self.answers)


def split(stream: bytes) -> tuple[list[bytes], Optional[str]]:
    """The frames at the front of a stream, and what is told of what stands behind them."""
    frames, at = [], 0
    while at < len(stream):
        if at + 2 > len(stream):
            return frames, "serve: input ends in a frame"
        length = int.from_bytes(stream[at : at + 2], "big")
        if length > LONGEST_BODY:
            return frames, "serve: frame too long"
        if at + 2 + length > len(stream):
            return frames, "serve: input ends in a frame"
        frames.append(stream[at : at + 2 + length])
        at += 2 + length
    return frames, None


def serve(host: Host, stream: bytes) -> Served:
    """What a host that is brought up now answers to a stream."""
    answers: list[Answer] = []
    frames, end = split(stream)
    try:
        host.restart()
        for frame in frames:
            answers.append(host.answer(frame))
    except HostFault:
        return Served(answers, "log: failed")
    return Served(answers, end)
