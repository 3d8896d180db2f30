"""What decides groups of frames: the process over a journal, or a connection to the database."""
from __future__ import annotations

from typing import Protocol, Sequence


class Ended(Exception):
    """That it has ended, before all answers came: what came of the group is not known."""


class Decider(Protocol):
    """It has one group at a time, and answers the frames in their order."""

    @property
    def has_ended(self) -> bool:
        """Whether it takes no further group."""

    def give(self, frames: Sequence[bytes]) -> None:
        """Gives it a group. The group before has its answers."""

    async def take(self) -> list[bytes]:
        """The answers to the group that it was given. It raises Ended where there are none."""

    def kill(self) -> None:
        """Ends it at once, since it answers what it should not."""
