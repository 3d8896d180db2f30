"""What is common to worlds of ends over a network, of terminals or tills: whose frames there are, and
the events that are the same in all of them."""
from __future__ import annotations

from typing import Any, Callable, Generic, TypeVar, Union

from ..formats.configuration import Configuration
from ..formats.frames import Refusal, Reply, serial_in
from ..formats.script import events
from ..standards.dukpt import initial_key, prefix_of, serial_text
from .model_host import AnyHost, HostFault
from .model_terminal import Terminal, TerminalFault

HostType = TypeVar("HostType", bound=AnyHost)
TerminalType = TypeVar("TerminalType", bound=Terminal)


class Network(Generic[HostType, TerminalType]):
    """Every end is brought up as it is made, over new stores. Nothing is taken out of the lists of
    requests and answers, or of the owners."""

    def __init__(
        self, configuration: Configuration, host: HostType, terminals: list[TerminalType]
    ) -> None:
        self.configuration = configuration
        self.host = host
        self.terminals = terminals
        self.requests: list[bytes] = []
        self.answers: list[bytes] = []
        # The terminal that was loaded under an initial key serial number.
        self.owners: dict[int, int] = {}
        self.host.restart()
        for terminal in self.terminals:
            terminal.restart()

    def happens(self, event: str) -> str:
        """Lets an event happen, and gives the line of its outcome."""
        command, *words = event.split(" ")
        if words[0] == "host":
            return self.of_host(command, *map(int, words[1:]))
        if command == "up":
            return self.up(int(words[0]))
        if command == "down":
            return self.of_terminal(words[1], lambda it: self.down(int(words[0]), words[1], it))
        return self.of_terminal(
            words[0], lambda it: self.at_terminal(command, words[0], it, *words[1:]))

    def of_terminal(self, at: str, does: Callable[[TerminalType], str]) -> str:
        """What comes of an event at a terminal, if there is one of that name."""
        number = int(at[1:])
        if number > len(self.terminals):
            return "no such terminal"
        try:
            return does(self.terminals[number - 1])
        except TerminalFault as why:
            return f"{at} fault {why}"

    def at_terminal(self, command: str, at: str, terminal: TerminalType, *words: str) -> str:
        does: dict[str, Callable[..., str]] = {
            "load": self.load, "begin": self.begin, "restart": self.restart, "arm": self.arm}
        return does[command](at, terminal, *words)

    def of_host(self, command: str, passes: int = 0) -> str:
        if command == "arm":
            self.host.arm(passes)
            return f"host armed {passes}"
        try:
            return f"host used {self.host.restart()}"
        except HostFault as why:
            return f"host fault {why}"

    def arm(self, at: str, terminal: TerminalType, passes: str) -> str:
        terminal.arm(int(passes))
        return f"{at} armed {passes}"

    def restart(self, at: str, terminal: TerminalType) -> str:
        terminal.restart()
        return f"{at} {terminal.next()}"

    def load(self, at: str, terminal: TerminalType, word: str) -> str:
        iksn = int(word, 16)
        if self.owners.get(iksn, int(at[1:])) != int(at[1:]):
            return f"{at} IKSN elsewhere"
        base = self.host.key_sets.get(prefix_of(iksn))
        if base is None:
            return f"{at} no key set"
        try:
            terminal.load_key(initial_key(base, iksn), iksn)
        except TerminalFault as why:
            if str(why).startswith("Store"):
                self.owners[iksn] = int(at[1:])
            raise
        self.owners[iksn] = int(at[1:])
        return f"{at} loaded {serial_text(iksn)}"

    def begin(self, at: str, terminal: TerminalType, pan: str, pin: str, amount: str) -> str:
        request = terminal.begin(pan, pin, int(amount))
        self.requests.append(request)
        return f"{at} sent {len(self.requests)} {serial_text(serial_in(request))}"

    def up(self, number: int) -> str:
        if not 1 <= number <= len(self.requests):
            return "no such frame"
        try:
            answer = self.host.answer(self.requests[number - 1])
        except HostFault as why:
            return f"host fault {why}"
        self.answers.append(answer.frame)
        return f"answer {len(self.answers)} {answer.words}"

    def down(self, number: int, at: str, terminal: TerminalType) -> str:
        if not 1 <= number <= len(self.answers):
            return "no such frame"
        return f"{at} {self.take(at, terminal, self.answers[number - 1])}"

    def take(self, at: str, terminal: TerminalType, frame: bytes) -> str:
        """What an answer comes to at a terminal."""
        raise NotImplementedError


def taken(answer: Union[Reply, Refusal]) -> str:
    """What the line of an outcome has of the answer to a payment."""
    serial = serial_text(answer.serial)
    if isinstance(answer, Refusal):
        return f"refused {serial} {answer.reason}"
    return f"done {serial} {answer.code}"


def lines_of(world: Network[Any, Any], script: bytes) -> bytes:
    """The lines of a script whose lines are all events."""
    lines = [world.happens(event.decode()) for event in events(script)]
    return "".join(f"{line}\n" for line in lines).encode()
