"""Machines that are network namespaces, on one bridge. They are made in namespaces of the command's own, and
go with it."""
from __future__ import annotations

import subprocess
import time
from dataclasses import dataclass
from typing import Sequence

BRIDGE, PREFIX = "bridge", "10.0.0"
HERE = f"{PREFIX}.1"


def call(*words: str) -> None:
    """Runs a command, which has to succeed."""
    done = subprocess.run(words, capture_output=True, text=True, check=False)
    if done.returncode:
        raise RuntimeError(f"{' '.join(words)}: {done.stdout}{done.stderr}")


@dataclass(frozen=True)
class Node:
    """A machine."""

    name: str
    address: str

    def behind(self, *words: str) -> list[str]:
        """What stands before a command that runs on it."""
        return ["nsenter", f"--net=/run/netns/{self.name}", *words, "--"]


def begin() -> None:
    call("mkdir", "-p", "/run/netns")
    call("ip", "link", "set", "lo", "up")
    call("ip", "link", "add", BRIDGE, "type", "bridge")
    call("ip", "addr", "add", f"{HERE}/24", "dev", BRIDGE)
    call("ip", "link", "set", BRIDGE, "up")


def node(name: str, last: int) -> Node:
    """A new machine, whose address ends with this number."""
    made = Node(name, f"{PREFIX}.{last}")
    call("ip", "netns", "add", name)
    call("ip", "link", "add", name, "type", "veth", "peer", "name", "eth0", "netns", name)
    call("ip", "link", "set", name, "master", BRIDGE, "up")
    call("ip", "-n", name, "addr", "add", f"{made.address}/24", "dev", "eth0")
    for device in ("lo", "eth0"):
        call("ip", "-n", name, "link", "set", device, "up")
    return made


def cut(sides: Sequence[tuple[Node, Node]], word: str = "add") -> None:
    """Has the first machine of each pair send the other one nothing more."""
    for one, other in sides:
        call("ip", "-n", one.name, "route", word, "blackhole", f"{other.address}/32")


def join(sides: Sequence[tuple[Node, Node]]) -> None:
    """Ends a cut."""
    cut(sides, "del")


def lose(it: Node, seconds: float, away: float = 0.03, there: float = 0.07) -> None:
    """Takes the link of a machine away for a moment, again and again: what is sent then is lost."""
    until = time.monotonic() + seconds
    while time.monotonic() < until:
        call("ip", "link", "set", it.name, "down")
        time.sleep(away)
        call("ip", "link", "set", it.name, "up")
        time.sleep(there)
