"""A connection to the database that is the primary, if it can be served over."""
from __future__ import annotations

import asyncio
from pathlib import Path
from typing import Any, Final, Optional, Sequence

import asyncpg  # type: ignore[import]

from ..settings import Database
from .demands import QUESTION, STANDBY, fault_of
from .settling import SETTLE, columns_of

# What a connection of a host is set to, whatever its role or database is. Each statement of a group
# is to see what was committed before it; the function of the book is not worth compiling; and that
# a wait for the standby was cancelled is a warning.
SESSION: Final = {"application_name": "dukpt-host", "jit": "off",
                  "client_min_messages": "warning",
                  "default_transaction_isolation": "read committed"}
# A group that still waits for a terminal ends with its host. A server before 14 does not know this.
ENDS_WITH_HOST: Final = "set client_connection_check_interval = '2s'"
# Seconds for a connection to be made, and for a question to be answered.
MAKING: Final = 5.0
# What a call over a connection may raise: faults of the database, of the line, and of time.
FAULTS: Final = (asyncpg.PostgresError, asyncpg.InterfaceError, asyncpg.InternalClientError,
                 OSError, asyncio.TimeoutError)


class NotServed(Exception):
    """Why there is no connection, or none to serve over."""


class NotThere(NotServed):
    """That no primary is there."""


async def open_ready(database: Database) -> Any:
    """A connection to the place of a database that is first found to be one to serve over. All
    places are asked at once, so that a machine that is gone holds up no other one."""
    tries = [asyncio.create_task(open_place(dsn, database)) for dsn in database.places]
    left, taken = set(tries), None
    try:
        while left:
            done, left = await asyncio.wait(left, return_when=asyncio.FIRST_COMPLETED)
            taken = next((it for it in done if it.exception() is None), None)
            if taken:
                return taken.result()
        raise fault_among([why for it in tries if (why := it.exception())])
    finally:
        for it in tries:
            if it is not taken:
                it.cancel()
                it.add_done_callback(forget)


def forget(it: asyncio.Task[Any]) -> None:
    """Ends a connection that nobody has taken."""
    if not it.cancelled() and it.exception() is None:
        it.result().terminate()


def fault_among(whys: Sequence[BaseException]) -> BaseException:
    """Of the faults of all places one that nobody foresaw, else that of a primary, and else that
    there is none."""
    for it in whys:
        if not isinstance(it, NotServed):
            return it
    absent = dict.fromkeys(str(it) for it in whys if isinstance(it, NotThere))
    wrong = dict.fromkeys(str(it) for it in whys if not isinstance(it, NotThere))
    return NotServed("; ".join(wrong)) if wrong else NotThere(f"no primary: {'; '.join(absent)}")


async def open_place(dsn: str, database: Database) -> Any:
    password = password_in(database.password)
    try:
        connection = await asyncpg.connect(dsn, password=password, timeout=MAKING,
                                           server_settings=SESSION)
    except FAULTS as why:
        raise NotThere(told(why)) from None
    except ValueError:
        # It quotes what cannot be read, which may be a part of a password.
        raise NotServed("an address of --postgres cannot be read") from None
    try:
        await standbys(connection, database.is_replicated)
        await connection.execute(ENDS_WITH_HOST, timeout=MAKING)
        # A group of none: the function is there, is granted, and is planned by then.
        await connection.fetchval(SETTLE, *columns_of([]), timeout=MAKING)
    except FAULTS as why:
        connection.terminate()
        raise NotServed(f"the book cannot be used: {told(why)}") from None
    except NotServed:
        connection.terminate()
        raise
    return connection


def password_in(path: Optional[str]) -> Optional[str]:
    """The one line of a file. Without a file, the libraries look where those of PostgreSQL do."""
    if path is None:
        return None
    try:
        lines = Path(path).read_text(encoding="utf-8").splitlines()
    except (OSError, ValueError):
        raise NotServed("the file of the password cannot be read") from None
    if len(lines) != 1 or not lines[0]:
        raise NotServed("the file of the password does not have one line")
    return lines[0]


async def standbys(connection: Any, is_replicated: bool) -> int:
    """How many standbys a commit waits for, or may wait for. It raises where the database cannot be
    served over."""
    try:
        found = await connection.fetchrow(QUESTION, timeout=MAKING)
    except FAULTS as why:
        raise NotThere(f"the database does not answer: {told(why)}") from None
    fault = fault_of(found, is_replicated)
    if fault:
        raise NotThere(fault) if fault == STANDBY else NotServed(fault)
    return int(found["held"])


def told(why: BaseException) -> str:
    """A fault in one line."""
    return " ".join(str(why).split()) or type(why).__name__
