"""A statement over a connection to the database that is opened as a host opens it. It is a program of its
own, which Debian's Python runs, as it runs the host:

    python3 -m tests.support.book.opened DSN STATEMENT

It writes what the statement answers, or why there is no connection that a host would serve over.
"""
from __future__ import annotations

import asyncio
import sys
from typing import Sequence

from ..program import ROOT

sys.path.insert(0, str(ROOT / "share/host"))
from dukpt_host.book.opening import NotServed, open_ready  # noqa: E402
from dukpt_host.settings import Database  # noqa: E402


async def answer(dsn: str, statement: str) -> str:
    try:
        connection = await open_ready(Database((dsn,), False, 1))
    except NotServed as why:
        return str(why)
    try:
        return str(await connection.fetchval(statement))
    finally:
        connection.terminate()


def main(words: Sequence[str]) -> int:
    dsn, statement = words
    print(asyncio.run(answer(dsn, statement)))
    return 0


if __name__ == "__main__":
    sys.exit(main(sys.argv[1:]))
