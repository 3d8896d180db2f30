"""A group of payments and reversals is settled by one statement, in one transaction."""
from __future__ import annotations

from typing import Any, Sequence

import asyncpg  # type: ignore[import]

from .places import row_of, settled

# Beside what it says of a group, whether the commit waits for a standby: it is asked each time,
# since the watch looks at times alone.
SETTLE = """select said, current_setting('synchronous_standby_names') <> ''
    and current_setting('synchronous_commit') in ('on', 'remote_apply') as waits
from dukpt.settle($1, $2, $3, $4, $5, $6) as said"""
COLUMNS = 6
# Asked behind the commit: where no standby is named any more, the server ends waits without a word.
STILL_WAITS = "select current_setting('synchronous_standby_names') <> ''"
# How often a group is tried that the database wants to be tried again.
TRIES = 10
AGAIN = (asyncpg.SerializationError, asyncpg.DeadlockDetectedError)


class Unsettled(Exception):
    """Why nothing may be told of a group."""


async def settle(connection: Any, group: Sequence[bytes], is_replicated: bool) -> list[bytes]:
    """The places of payments and reversals with what came of each, settled in turn. It raises where
    that is not known, or is not kept by a standby: the group may be kept then, or may not. What the
    database has undone, and wants to be tried again, is tried again."""
    columns = columns_of(group)
    for _ in range(TRIES):
        try:
            found = await connection.fetchrow(SETTLE, *columns)
        except AGAIN:
            continue
        if is_replicated and not (found["waits"] and await connection.fetchval(STILL_WAITS)):
            raise Unsettled("its commit waited for no standby")
        return list(map(settled, group, found["said"] or ()))
    raise Unsettled(f"the database undid it {TRIES} times")


def columns_of(group: Sequence[bytes]) -> list[Sequence[Any]]:
    """The arguments of the function: a list of each, with a place for each of the group."""
    return list(zip(*map(row_of, group))) or [()] * COLUMNS
