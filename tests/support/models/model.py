"""Terminals, one host and the network between them: what comes of each event of a script.

All that comes is determined by the events, so the lines of `dukpt run` are known to the letter.
"""
from __future__ import annotations

from ..formats.configuration import Configuration
from .model_host import Host
from .model_network import Network, lines_of, taken
from .model_stores import new_cell, new_log
from .model_terminal import Terminal


class World(Network[Host, Terminal]):
    """Terminals over cells, and a host over a log."""

    def __init__(self, configuration: Configuration) -> None:
        on_disk = configuration.stores == "disk"
        super().__init__(configuration, Host(configuration, new_log(on_disk, configuration.log)),
                         [Terminal(new_cell(on_disk)) for _ in range(configuration.terminals)])

    def take(self, at: str, terminal: Terminal, frame: bytes) -> str:
        return taken(terminal.reply(frame))


def played(configuration: Configuration, script: bytes) -> bytes:
    """The lines of a script whose lines are all events."""
    return lines_of(World(configuration), script)
