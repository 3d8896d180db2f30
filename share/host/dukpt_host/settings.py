"""What this host is told."""
from __future__ import annotations

from dataclasses import dataclass
from pathlib import Path
from typing import Optional, Sequence, Union

from .connections import Limits

# A host and a port, as sockets take them.
Address = tuple[str, int]


@dataclass(frozen=True)
class Tls:
    """The files of a certificate, its key, and the authorities of the clients' certificates."""

    certificate: str
    key: str
    authorities: str


@dataclass(frozen=True)
class Journal:
    """A journal, and the program that serves over it."""

    program: str
    path: Path


@dataclass(frozen=True)
class Database:
    """Where the database may be, whether it has to be replicated, how many groups are settled in it
    at once, and the file with its password, if it is to be read."""

    places: Sequence[str]
    is_replicated: bool
    groups: int
    password: Optional[str] = None


@dataclass(frozen=True)
class Settings:
    config: str
    # The files of the components of the local master key; without any, systemd has them.
    components: Sequence[str]
    # Whether the configuration has its keys in the clear.
    has_test_keys: bool
    store: Union[Journal, Database]
    listen: Sequence[Address]
    tls: Optional[Tls]
    # Whether an address that other machines reach may be without TLS.
    is_plain: bool
    metrics: Optional[Address]
    limits: Limits
