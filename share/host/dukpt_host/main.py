"""The command dukpt-host. Its status is 0 where it was told to end and all is in order."""
from __future__ import annotations

import asyncio
import gc
import logging
from typing import Any, Callable, Coroutine, Optional, Sequence

from . import configuration
from .arguments import read
from .host import Host
from .journal import Refused
from .listening import NotOpened
from .log import Log
from .serving import NotStarted
from .settings import Journal, Settings

NewLoop = Callable[[], asyncio.AbstractEventLoop]


async def host(settings: Settings, log: Log) -> int:
    return await Host(settings, log).run()


def run(work: Coroutine[Any, Any, int], loop: Optional[NewLoop]) -> int:
    # A payment leaves no cycle behind: to look for cycles seldom spares it the longest waits.
    gc.freeze()
    gc.set_threshold(50_000, 20, 100)
    # Of each write to a client that is gone, asyncio tells a line, which nothing bounds.
    logging.getLogger("asyncio").setLevel(logging.ERROR)
    with asyncio.Runner(loop_factory=loop) as runner:
        return runner.run(work)


def loop_for(settings: Settings) -> Optional[NewLoop]:
    """The loop of uvloop, where that is installed, which takes less time for each frame.

    Over a journal it is Python's. uvloop resets the signals of a process that it starts, so a write
    beyond the limit of a file's size would kill the service below, which else tells of a failure.
    """
    if isinstance(settings.store, Journal):
        return None
    try:
        import uvloop
    except ImportError:
        return None
    return uvloop.new_event_loop


def main(words: Optional[Sequence[str]] = None) -> int:
    settings, log = read(words), Log()
    if settings.has_test_keys:
        log.line("test keys: the configuration has every key in the clear")
    try:
        return run(host(settings, log), loop_for(settings))
    except (NotOpened, NotStarted, Refused, configuration.Refused, ImportError, OSError) as why:
        log.line(f"not started: {why}")
        return 1
