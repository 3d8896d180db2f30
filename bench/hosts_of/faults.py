"""The faults: each begins, lasts for a while, and is taken away."""
from __future__ import annotations

import random
import signal
import time
from typing import Callable, Iterator, Sequence

from . import network
from .network import Node
from .system import System

# What a host says of a group that the database did not settle in order, and the seconds in which a full
# disk leads to one.
UNKNOWN = "what came of a group is not known"
NOTICED = 20


class Faults:
    def __init__(self, system: System, chance: random.Random, begun: Callable[[], None]) -> None:
        """`begun` is called as soon as a fault is there."""
        self.system, self.chance, self.begun = system, chance, begun
        self.ways: Sequence[tuple[str, Callable[[], None]]] = (
            ("a host is killed", self.kill_host),
            ("a host sleeps", self.stop_host),
            ("the primary is killed, its standby promoted", self.kill_primary),
            ("a host and the primary are cut", self.cut_host_and_primary),
            ("haproxy and a host are cut", self.cut_proxy_and_host),
            ("primary and standby are cut", self.cut_databases),
            ("packets of a machine are lost", self.lose_packets),
            ("the disk of the primary is full", self.fill_disk),
        )

    def drawn(self) -> Iterator[tuple[str, Callable[[], None]]]:
        """All of them in any order, again and again."""
        while True:
            yield from self.chance.sample(self.ways, len(self.ways))

    def last(self, most: float = 3.0) -> None:
        time.sleep(self.chance.uniform(0.2, most))

    @property
    def place(self) -> int:
        return self.chance.randrange(len(self.system.hosts))

    # Machines

    def kill_host(self) -> None:
        place = self.place
        self.system.hosts[place].process.kill()
        self.begun()
        self.last()
        self.system.start_again(place)

    def stop_host(self) -> None:
        """Now and then for so long that haproxy sends its clients to another one."""
        host = self.system.hosts[self.place].process
        host.send_signal(signal.SIGSTOP)
        self.begun()
        self.last(12.0 if self.chance.random() < 0.15 else 3.0)
        host.send_signal(signal.SIGCONT)

    def kill_primary(self) -> None:
        self.system.primary.kill()
        self.begun()
        self.system.promote()
        self.system.replace_standby()

    def fill_disk(self) -> None:
        """It lasts until a host has noticed it."""
        before = self.unknown_groups()
        self.system.primary.fill()
        self.begun()
        until = time.monotonic() + NOTICED
        while self.unknown_groups() == before and time.monotonic() < until:
            time.sleep(0.05)
        self.last()
        self.system.primary.make_room()

    def unknown_groups(self) -> int:
        return sum(UNKNOWN in line for host in self.system.hosts for line in host.lines)

    # Lines

    def cut(self, one: Node, other: Node) -> None:
        """Cuts both ways, or one alone."""
        sides = self.chance.choice([[(one, other)], [(other, one)], [(one, other), (other, one)]])
        network.cut(sides)
        self.begun()
        self.last()
        network.join(sides)

    def cut_host_and_primary(self) -> None:
        self.cut(self.system.nodes[self.place], self.system.primary.node)

    def cut_proxy_and_host(self) -> None:
        self.cut(self.system.front, self.system.nodes[self.place])

    def cut_databases(self) -> None:
        self.cut(self.system.primary.node, self.system.standby.node)

    def lose_packets(self) -> None:
        system = self.system
        self.begun()
        nodes = [*system.nodes, system.front, system.primary.node, system.standby.node]
        network.lose(self.chance.choice(nodes), self.chance.uniform(0.3, 2.0))
