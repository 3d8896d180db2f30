"""What is drawn of a seed."""
from __future__ import annotations

from hashlib import sha256
from typing import Sequence, TypeVar

Item = TypeVar("Item")


class Draw:
    """Values that look random, and are the same for a seed with every version of Python."""

    def __init__(self, seed: str) -> None:
        self.seed = f"dukpt vectors, {seed}: ".encode()
        self.blocks = 0

    def bytes(self, count: int) -> bytes:
        """So many bytes."""
        made = b""
        while len(made) < count:
            self.blocks += 1
            made += sha256(self.seed + str(self.blocks).encode()).digest()
        return made[:count]

    def below(self, limit: int) -> int:
        """A number below a limit."""
        return int.from_bytes(self.bytes(16), "big") % limit

    def between(self, least: int, most: int) -> int:
        """A number between two, both of which may come."""
        return least + self.below(most - least + 1)

    def pick(self, these: Sequence[Item]) -> Item:
        """One of these."""
        return these[self.below(len(these))]

    def digits(self, count: int) -> str:
        """So many decimal digits."""
        return "".join(str(self.below(10)) for _ in range(count))

    def places(self, count: int, room: int) -> list[int]:
        """So many different places below a number."""
        left = list(range(room))
        return [left.pop(self.below(len(left))) for _ in range(count)]
