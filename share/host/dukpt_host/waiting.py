"""The frames that wait, and the groups in which they are decided."""
from __future__ import annotations

import asyncio
from collections import deque
from dataclasses import dataclass, field
from typing import Sequence

# So many frames are decided at once, and kept by the same syncs. The longest ones fill a read of
# the process below, which has 65,536 bytes.
GROUP = 1024
# So many frames of one source go into a group before another source has its turn.
TURN = 64
# Of one source and of all, no more is read where so many bytes wait.
MOST_OF_ONE = 1 << 16
MOST = 1 << 22


@dataclass(slots=True)
class Part:
    """Frames of one source, which came at one moment, and how many bytes they have."""

    source: Source
    frames: list[bytes]
    came: float
    size: int


class Source:
    """Where frames come from, and their answers go to, in the order of the frames. `size` is how
    many bytes of it wait. While some of its frames are being decided no others of it are: they are
    decided behind those, and answered behind those."""

    def __init__(self) -> None:
        self.parts: deque[Part] = deque()
        self.size = 0
        self.is_under_way = False

    def answered(self, answers: Sequence[bytes]) -> None:
        """Takes the answers to the next frames."""
        raise NotImplementedError

    def lost(self, why: str) -> None:
        """Frames of it get no answer. It is asked no more."""
        raise NotImplementedError

    def pause(self) -> None:
        """Gives no more frames, as far as it can."""

    def resume(self) -> None:
        """Gives frames again."""


@dataclass
class Waiting:
    """The frames that wait, with the number of them and of their bytes. Sources take turns, so that
    none waits behind the flood of another."""

    most_of_one: int = MOST_OF_ONE
    most: int = MOST
    size: int = 0
    frames: int = 0
    turns: deque[Source] = field(default_factory=deque)
    paused: set[Source] = field(default_factory=set)
    # Set when there may be something to do.
    stirred: asyncio.Event = field(default_factory=asyncio.Event)

    def add(self, source: Source, frames: list[bytes], came: float) -> None:
        """Has frames wait, behind those of the same source."""
        if not source.parts and not source.is_under_way:
            self.turns.append(source)
        size = sum(map(len, frames))
        source.parts.append(Part(source, frames, came, size))
        source.size += size
        self.size += size
        self.frames += len(frames)
        if source.size > self.most_of_one or self.size > self.most:
            self.paused.add(source)
            source.pause()
        self.stirred.set()

    def group(self) -> list[Part]:
        """Takes the frames of the next group: none where none wait. Its sources have no further
        turn until it is done."""
        group, room = [], GROUP
        while self.turns and room:
            source = self.turns.popleft()
            part = self.take(source, min(room, TURN))
            room -= len(part.frames)
            group.append(part)
            if source.parts:
                self.turns.append(source)
        for part in group:
            part.source.is_under_way = True
        self.turns = deque(it for it in self.turns if not it.is_under_way)
        if self.paused:
            self.let_read()
        return group

    def done(self, group: Sequence[Part]) -> None:
        """Gives the sources of a group a turn again."""
        for source in {part.source: None for part in group}:
            source.is_under_way = False
            if source.parts:
                self.turns.append(source)
        if self.turns:
            self.stirred.set()

    def take(self, source: Source, most: int) -> Part:
        """Takes so many frames at most of those of a source that came first."""
        first = source.parts[0]
        if len(first.frames) <= most:
            part = source.parts.popleft()
        else:
            frames = first.frames[:most]
            part = Part(source, frames, first.came, sum(map(len, frames)))
            first.frames = first.frames[most:]
            first.size -= part.size
        self.count_out(part)
        return part

    def count_out(self, part: Part) -> None:
        part.source.size -= part.size
        self.size -= part.size
        self.frames -= len(part.frames)

    def let_read(self) -> None:
        """Lets those sources go on for which there is room again."""
        if self.size > self.most // 2:
            return
        for it in [it for it in self.paused if it.size <= self.most_of_one // 2]:
            self.paused.discard(it)
            it.resume()

    def forget(self, source: Source) -> int:
        """Drops the frames of a source, and answers how many."""
        if source.parts and not source.is_under_way:
            self.turns.remove(source)
        self.paused.discard(source)
        count = sum(len(it.frames) for it in source.parts)
        while source.parts:
            self.count_out(source.parts.popleft())
        return count
