"""The arguments of the command."""
from __future__ import annotations

import argparse
import os
from pathlib import Path
from typing import Optional, Sequence, Union
from urllib.parse import parse_qs, urlsplit

from .connections import Limits
from .settings import Address, Database, Journal, Settings, Tls

HERE = "127.0.0.1:7000"
GROUPS = 2
# Of a count: the system takes no more bytes than that for a socket.
MOST = (1 << 31) - 1
ABOUT = """Answers payments and reversals over any number of connections. Over a journal one
process of `dukpt serve CONFIG --journal FILE` decides them, which it starts, also again where it
ended and nothing was lost. Over PostgreSQL any number of hosts share one book, and none has a
state of its own."""


def read(words: Optional[Sequence[str]] = None) -> Settings:
    made = parser()
    told = made.parse_args(words)
    if told.journal and told.not_replicated:
        made.error("--not-replicated goes with --postgres")
    if told.journal and told.password:
        made.error("--password goes with --postgres")
    limits = Limits(told.connections, told.unread, told.idle, told.frame, told.closing)
    return Settings(
        told.config, told.component, told.test_keys, store_of(told), told.listen or [address(HERE)],
        Tls(*told.tls) if told.tls else None, told.plain, told.metrics, limits)


def store_of(told: argparse.Namespace) -> Union[Journal, Database]:
    if told.journal:
        program = os.environ.get("DUKPT", "dukpt")
        return Journal(program, Path(os.path.realpath(told.journal)))
    return Database(told.postgres, not told.not_replicated, told.groups, told.password)


def parser() -> argparse.ArgumentParser:
    made = argparse.ArgumentParser(prog="dukpt-host", description=ABOUT)
    add, usual = made.add_argument, Limits()
    add("config", metavar="CONFIG", help="the configuration, with key blocks")
    keys = made.add_mutually_exclusive_group()
    keys.add_argument("--component", metavar="FILE", action="append", default=[],
                      help="a component of the local master key, for each of its holders: its"
                      " digits, a space, its check value; else the credentials lmk.1, lmk.2 .. of"
                      " systemd")
    keys.add_argument("--test-keys", action="store_true",
                      help="the configuration has keys in the clear, as that of `dukpt serve`")
    add_stores(made)
    add("--listen", metavar="ADDRESS", type=address, action="append", default=[],
        help=f"where clients come: HOST:PORT, also more than once; else {HERE}. The sockets that"
        " systemd hands over stand in their place")
    add("--tls", nargs=3, metavar=("CERT", "KEY", "CA"),
        help="TLS, where each client has a certificate that one of CA signed")
    add("--plain", action="store_true",
        help="lets other machines come without TLS: what stands in front sees to who they are")
    add("--metrics", metavar="ADDRESS", type=address, help="where /metrics and /health are")
    for limit, kind, text in (
            ("connections", count, "how many connections at once"),
            ("unread", count, "bytes of answers that a client may leave unread"),
            ("idle", seconds, "seconds that a client may be silent"),
            ("frame", seconds, "seconds in which a frame that was begun has to end"),
            ("closing", seconds, "seconds that a client has for its last answers")):
        value = getattr(usual, limit)
        add(f"--{limit}", metavar="N", type=kind, default=value, help=f"{text}; else {value}")
    return made


def add_stores(made: argparse.ArgumentParser) -> None:
    store, add = made.add_mutually_exclusive_group(required=True), made.add_argument
    store.add_argument("--journal", metavar="FILE", type=name,
                       help="the journal, which new-journal makes")
    store.add_argument("--postgres", metavar="DSN", type=place, action="append",
                       help="the database with the book, as postgresql://USER@HOST/NAME, also more"
                       " than once: it is where the primary is found")
    add("--password", metavar="FILE", type=name,
        help="the password of the database's role, in one line; else it stands in the file that"
        " PGPASSFILE names")
    add("--not-replicated", action="store_true",
        help="serves over a database whose commits wait for no standby")
    add("--groups", metavar="N", type=count, default=GROUPS,
        help=f"how many groups are settled in the database at once; else {GROUPS}")


def address(text: str) -> Address:
    host, colon, port = text.rpartition(":")
    host = host[1:-1] if host.startswith("[") and host.endswith("]") else host
    if not (colon and host and port.isascii() and port.isdigit() and int(port) < 1 << 16):
        raise argparse.ArgumentTypeError("it is to be as in: 127.0.0.1:7000")
    return host, int(port)


def name(text: str) -> str:
    if not text:
        raise argparse.ArgumentTypeError("it is to be the name of a file")
    return text


def place(text: str) -> str:
    """What is said of it never shows it."""
    try:
        found = urlsplit(text)
        has_password = found.password is not None or "password" in parse_qs(found.query)
    except ValueError:
        raise argparse.ArgumentTypeError("it is to be as in: postgresql://USER@HOST/NAME") from None
    if has_password:
        raise argparse.ArgumentTypeError("it has a password, which everybody sees: --password FILE")
    return text


def count(text: str) -> int:
    if not (text.isascii() and text.isdigit() and 0 < int(text[:11]) <= MOST):
        raise argparse.ArgumentTypeError(f"it is to be a whole number from 1 to {MOST}")
    return int(text)


def seconds(text: str) -> float:
    try:
        value = float(text)
    except ValueError:
        value = 0
    if not 0 < value < 1e9:
        raise argparse.ArgumentTypeError("it is to be a number of seconds above 0")
    return value
