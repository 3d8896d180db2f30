"""What a host needs of its service, over a journal or over a database."""
from __future__ import annotations

import asyncio
from typing import Iterator, Protocol

from prometheus_client.metrics_core import Metric

from .exchange import Exchange


class NotStarted(Exception):
    """Why there is no service, before it answered once."""


class Serving(Protocol):
    """`wrong` says why there are no answers, and is empty while there are."""

    wrong: str
    # What the health says of a service that is right: "serving".
    right: str
    # What the health says where a frame that changes nothing has no answer in time.
    silent: str
    exchange: Exchange
    # Set once it is known how the first start went; and when this is to stop.
    settled: asyncio.Event
    stopping: asyncio.Event

    @property
    def is_open(self) -> bool:
        """Whether clients are let in."""

    @property
    def status(self) -> int:
        """The status with which the host ends."""

    async def run(self) -> None:
        """Serves until it is told to stop."""

    def stop(self) -> None:
        """Has it answer what was read, and then end."""

    def collect(self) -> Iterator[Metric]:
        """What is counted of it alone."""
