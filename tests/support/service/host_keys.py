"""The configuration of a host with key blocks, and the component files of the local master key over
them: made by the model of key blocks, and by no part of the program."""
from __future__ import annotations

import os
import random
from functools import reduce
from pathlib import Path
from typing import Iterator, Sequence

from ..formats.bank import BANK, CARD
from ..formats.configuration import read
from ..standards.des import encrypt_block
from ..standards.key_blocks import wrap

PREFIX = "FFFF987654"


def component(key: bytes) -> str:
    """The line of a component file."""
    return f"{key.hex().upper()} {encrypt_block(key, bytes(8))[:3].hex().upper()}\n"


def combined(keys: Sequence[bytes]) -> bytes:
    """The exclusive or of keys."""
    return bytes(reduce(lambda one, other: one ^ other, column) for column in zip(*keys))


class HostKeys:
    """The keys of `bank.toml` in key blocks, under a local master key of random components."""

    def __init__(self, chance: random.Random, count: int = 2, length: int = 24) -> None:
        self.chance = chance
        self.components = [chance.randbytes(length) for _ in range(count)]
        self.lmk = combined(self.components)
        bank = read(BANK)
        self.bdk, self.zone = bank.bdks[0].key, bank.zone

    @property
    def secrets(self) -> list[bytes]:
        return [*self.components, self.lmk, self.bdk, self.zone]

    def block(self, fields: str, key: bytes) -> str:
        return wrap(self.lmk, fields.encode(), key, self.chance.randbytes(6)).decode()

    @property
    def text(self) -> str:
        """The configuration."""
        return (f'zone = "{self.block("P0TB00N", self.zone)}"\n[[bdk]]\nprefix = "{PREFIX}"\n'
                f'block = "{self.block("B0TX00N", self.bdk)}"\n{CARD.decode()}')

    def write(self, home: Path) -> list[str]:
        """Writes all files, and answers the words that name them."""
        (home / "host.toml").write_text(self.text)
        words = ["host.toml"]
        for at, it in enumerate(self.components, 1):
            path = home / f"lmk.{at}"
            path.touch(0o600)
            path.write_text(component(it))
            words += ["--component", path.name]
        return words


def holding(data: bytes, secrets: Sequence[bytes]) -> bool:
    """Whether some bytes have a secret: as it is, or in hexadecimal of either case."""
    lower = data.lower()
    return any(it in data or it.hex().encode() in lower for it in secrets)


def of_process(process: int) -> bytes:
    """What everybody on the machine, or its own account, sees of a process: arguments and variables."""
    folder = Path(f"/proc/{process}")
    return (folder / "cmdline").read_bytes() + (folder / "environ").read_bytes()


def opened_by(process: int) -> Iterator[str]:
    """What a process has open, but for what it closes meanwhile."""
    for it in Path(f"/proc/{process}/fd").iterdir():
        try:
            yield os.readlink(it)
        except FileNotFoundError:
            pass


def of_folder(folder: Path, without: Sequence[str] = ()) -> bytes:
    """All bytes of the files below a folder, but for those of some names."""
    names = (Path(where) / name for where, _, files in os.walk(folder) for name in files)
    return b"\n".join(it.read_bytes() for it in names if it.name not in without)
