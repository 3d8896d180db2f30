"""Random scripts, made of scenes: each leads a world through some outcomes that events drawn one by
one would seldom meet. A scene is played while it is written, so it knows where the world stands."""
from __future__ import annotations

import random
from collections import Counter
from typing import Any, Callable, Optional

from ..formats.configuration import Configuration
from ..models.model import World
from ..models.model_host import KEPT
from ..models.model_network import Network
from ..models.model_terminal import Terminal
from ..standards.dukpt import MOST_PAST, serial_text
from .outcomes import kind_of, kind_of_event
from .worlds import Purchase, digits, foreign_iksn, random_iksn, random_purchase

# More device steps than any write has, and behind how many of them one of a terminal's may fail, by
# the stores: at the last of these none does.
MANY_STEPS = 10
STEPS = {"memory": range(3), "disk": range(9)}


class Play:
    """A world, and the events that happened to it so far with the lines of their outcomes."""

    def __init__(self, chance: random.Random, bank: Configuration) -> None:
        self.chance = chance
        self.bank = bank
        self.world = self.new_world()
        self.events: list[str] = []
        self.lines: list[str] = []
        self.tally: Counter[str] = Counter()

    def new_world(self) -> Network[Any, Any]:
        return World(self.bank)

    def happens(self, event: str) -> str:
        line = self.world.happens(event)
        self.events.append(event)
        self.lines.append(line)
        self.tally[kind_of_event(event)] += 1
        self.tally[kind_of(line)] += 1
        return line

    @property
    def sent(self) -> int:
        return len(self.world.requests)

    @property
    def answered(self) -> int:
        return len(self.world.answers)

    def any_terminal(self) -> str:
        return f"t{self.chance.randint(1, len(self.world.terminals))}"

    def other_terminal(self, at: str) -> str:
        """Another terminal, where there is more than one."""
        count = len(self.world.terminals)
        return f"t{(int(at[1:]) - 1 + self.chance.randint(1, max(1, count - 1))) % count + 1}"

    def terminal(self, at: str) -> Terminal:
        return self.world.terminals[int(at[1:]) - 1]

    def had(self, at: str) -> list[int]:
        """The initial key serial numbers of a terminal, the present one last."""
        registers = self.terminal(at).registers
        return [*registers.past, registers.iksn] if registers else []

    def load(self, at: str, iksn: Optional[int] = None) -> str:
        if iksn is None:
            iksn = random_iksn(self.chance, self.bank)
        text = serial_text(iksn)
        return self.happens(f"load {at} {text.lower() if self.chance.random() < 0.2 else text}")

    def bring_up(self, at: str) -> None:
        """Restarts a terminal that is stopped, and loads one that is empty."""
        while self.terminal(at).registers is None:
            if self.terminal(at).running:
                self.load(at)
            else:
                self.happens(f"restart {at}")

    def bring_host_up(self) -> None:
        if not self.world.host.running:
            self.happens("restart host")

    def begin(self, at: str, purchase: Optional[Purchase] = None) -> int:
        """Begins a payment, and gives the number of the last request."""
        it = purchase or random_purchase(self.chance, self.bank)
        self.happens(f"begin {at} {it.pan} {it.pin} {it.amount}")
        return self.sent

    def send(self, at: str, purchase: Optional[Purchase] = None) -> int:
        """A request of a terminal that is brought up for it."""
        self.bring_up(at)
        return self.begin(at, purchase)

    def up(self, number: int) -> int:
        """Delivers a request, and gives the number of the last answer."""
        self.happens(f"up {number}")
        return self.answered

    def down(self, number: int, at: str) -> str:
        return self.happens(f"down {number} {at}")


# Payments


def payment(play: Play) -> None:
    at = play.any_terminal()
    play.bring_host_up()
    play.down(play.up(play.send(at)), at)


def each_code(play: Play) -> None:
    """Payments of a card at its limit, above it, with a wrong PIN, and of no card."""
    play.bring_host_up()
    card = play.chance.choice(play.bank.cards or (None,))
    pan = digits(play.chance, 12, 19)
    purchases = [Purchase(pan, "1234", 1)]
    if card:
        wrong = card.pin[:-1] + str((int(card.pin[-1]) + 1) % 10)
        purchases += [Purchase(card.pan, card.pin, card.limit), Purchase(card.pan, wrong, 0),
                      Purchase(card.pan, card.pin, min(card.limit + 1, 0xFFFFFFFF))]
    for purchase in purchases:
        at = play.any_terminal()
        play.down(play.up(play.send(at, purchase)), at)


def lost_reply(play: Play) -> None:
    """A request that comes again, and its replies in the wrong order."""
    at = play.any_terminal()
    play.bring_host_up()
    number = play.send(at)
    answers = [play.up(number) for _ in range(play.chance.randint(2, 4))]
    for answer in reversed(answers):
        play.down(answer, at)


def late_request(play: Play) -> None:
    """A request that comes again behind a restart of the host."""
    at = play.any_terminal()
    play.bring_host_up()
    number = play.send(at)
    first = play.up(number)
    play.happens("restart host")
    play.down(play.up(number), at)
    play.down(first, at)


def any_order(play: Play) -> None:
    """Requests of several terminals, and their answers, in any order and to any of them."""
    play.bring_host_up()
    places = [play.any_terminal() for _ in range(play.chance.randint(2, 5))]
    sent = [(play.send(at), at) for at in places]
    play.chance.shuffle(sent)
    answers = [(play.up(number), at) for number, at in sent]
    play.chance.shuffle(answers)
    for number, at in answers:
        play.down(number, play.other_terminal(at))
        play.down(number, at)


def given_up(play: Play) -> None:
    """A transaction that a restart, a load or another begin gives up."""
    at = play.any_terminal()
    play.bring_host_up()
    answer = play.up(play.send(at))
    play.chance.choice((play.begin, play.load, lambda it: play.happens(f"restart {it}")))(at)
    play.down(answer, at)


# The host's memory and its log


def full_log(play: Play) -> None:
    """A log that is filled: others are refused then, and what comes again is not."""
    at = play.any_terminal()
    play.bring_host_up()
    if play.world.host.log.room > 12:
        return
    first = last = play.send(at)
    play.up(last)
    while play.world.host.running and play.world.host.log.room:
        last = play.send(at)
        play.up(last)
    play.down(play.up(play.send(at)), at)
    play.up(last)
    play.up(first)


def forgotten(play: Play) -> None:
    """More requests than a host keeps the replies of, and then the first ones again."""
    play.bring_host_up()
    if play.world.host.log.room < KEPT + 2:
        return
    first, again = play.send(play.any_terminal()), play.chance.randint(0, KEPT + 1)
    play.up(first)
    for count in range(1, KEPT + 2):
        number = play.send(play.any_terminal())
        play.up(number)
        if count == again or count >= KEPT - 1:
            # A request that is given its reply again is not the latest for that.
            play.up(first)
            play.up(first + 1)
    play.up(number)
    play.up(first + 2)


# Loads


def many_loads(play: Play) -> None:
    """A terminal that is loaded until it keeps as many numbers as it can."""
    at = play.any_terminal()
    play.bring_up(at)
    while len(play.had(at)) <= MOST_PAST:
        if play.chance.random() < 0.2:
            play.begin(at)
        play.load(at)
        play.bring_up(at)
    play.load(at)
    for iksn in play.chance.sample(play.had(at), 2):
        play.load(at, iksn)
    play.happens(f"restart {at}")
    play.begin(at)


def loaded_before(play: Play) -> None:
    """Numbers that a terminal has or had, also one that another one asks for."""
    at = play.any_terminal()
    play.bring_up(at)
    if len(play.had(at)) <= MOST_PAST:
        play.load(at)
    play.bring_up(at)
    for iksn in (play.had(at)[-1], play.chance.choice(play.had(at))):
        play.load(at, iksn)
        play.load(play.other_terminal(at), iksn)
    play.load(at, foreign_iksn(play.chance, play.bank))


def not_loaded(play: Play) -> None:
    """Terminals that are empty, where some are left."""
    empty = [f"t{number}" for number, it in enumerate(play.world.terminals, 1)
             if it.running and it.registers is None]
    for at in empty[:2]:
        play.begin(at)
        play.happens(f"restart {at}")
        if play.answered:
            play.down(play.answered, at)


# Stops


def fails_at(play: Play, end: str, passes: int, does: Callable[[], object], name: str) -> None:
    """Arms an end, and lets it do something: notes the step that failed, if one did."""
    play.happens(f"arm {end} {passes}")
    does()
    if play.lines[-1].endswith("Store Device"):
        play.tally[f"{play.bank.stores}: {name} fails behind {passes} steps"] += 1


def terminal_stops(play: Play) -> None:
    """A terminal whose store fails at some step of a load or a begin."""
    at = play.any_terminal()
    steps = STEPS[play.bank.stores]
    for passes in play.chance.sample(steps, min(5, len(steps))):
        play.bring_up(at)
        if len(play.had(at)) <= MOST_PAST:
            iksn = random_iksn(play.chance, play.bank)
            fails_at(play, at, passes, lambda: play.load(at, iksn), "load")
            if play.chance.random() < 0.3:
                play.load(play.other_terminal(at), iksn)
        play.bring_up(at)
        fails_at(play, at, passes, lambda: play.begin(at), "begin")
        if play.chance.random() < 0.5:
            play.chance.choice((play.begin, play.load, lambda it: play.down(play.answered, it)))(at)
        play.happens(f"restart {at}")
        play.begin(at)


def host_stops(play: Play) -> None:
    """A host whose store fails at some step of an accepted request."""
    at = play.any_terminal()
    for passes in play.chance.sample(range(5), 3):
        play.bring_host_up()
        number = play.send(at)
        fails_at(play, "host", passes, lambda: play.up(number), "accepted request")
        if play.chance.random() < 0.5:
            play.up(play.chance.randint(1, play.sent) if play.sent else 1)
        play.happens("restart host")
        play.down(play.up(number), at)


def armed_for_later(play: Play) -> None:
    """Stores that fail some writes later, and are armed anew or restarted before."""
    at = play.any_terminal()
    play.bring_up(at)
    play.happens(f"arm {at} {play.chance.choice((9, 15, 16, 17, 40, 4294967295))}")
    play.happens(f"arm host {play.chance.choice((3, 5, 7, 8, 9, 0))}")
    for _ in range(play.chance.randint(2, 5)):
        number = play.begin(at)
        play.up(number)
        if play.chance.random() < 0.1:
            play.happens(f"arm host {play.chance.randrange(6)}")


# Strays


def any_number(play: Play, count: int) -> int:
    """The number of a frame, mostly of one that was sent."""
    return play.chance.choice((0, count + 1, 4294967295, count, max(0, count - 1),
                               play.chance.randint(0, count), play.chance.randint(0, count)))


def stray(play: Play) -> None:
    """One event, of any end and any frame, whether there is such or not."""
    chance = play.chance
    at = play.any_terminal() if chance.random() < 0.7 else f"t{chance.randint(1, 16)}"
    chance.choice((
        lambda: play.load(at),
        lambda: play.begin(at),
        lambda: play.up(any_number(play, play.sent)),
        lambda: play.down(any_number(play, play.answered), at),
        lambda: play.happens(f"restart {chance.choice((at, 'host'))}"),
        lambda: play.happens(f"arm {chance.choice((at, 'host'))} {chance.randrange(MANY_STEPS)}"),
    ))()


def strays(play: Play) -> None:
    for _ in range(play.chance.randint(5, 15)):
        stray(play)


def closing(play: Play) -> None:
    """A restart of all ends, and some requests once more: what was forgotten shows."""
    play.happens("restart host")
    for number in range(1, len(play.world.terminals) + 1):
        play.happens(f"restart t{number}")
    for number in play.chance.sample(range(1, play.sent + 1), min(5, play.sent)):
        play.up(number)
    for _ in range(2):
        payment(play)


SCENES = (payment, each_code, lost_reply, late_request, any_order, given_up, full_log, many_loads,
          loaded_before, armed_for_later, strays)


def random_play(chance: random.Random, bank: Configuration) -> Play:
    """A script for a bank, played. What needs a new world, or a log with much room, comes first."""
    play = Play(chance, bank)
    if chance.random() < 0.5:
        not_loaded(play)
    if bank.log > KEPT + 1:
        forgotten(play)
    scenes = chance.sample(SCENES, chance.randint(3, 5))
    scenes += [scene for scene in (terminal_stops, host_stops) if chance.random() < 0.6]
    chance.shuffle(scenes)
    for scene in scenes:
        scene(play)
    not_loaded(play)
    closing(play)
    return play


def script_of(chance: random.Random, events: list[str]) -> bytes:
    """The text of a script, here and there with lines between that say nothing."""
    between = ("",) * 12 + ("\n", "\r\n", "# a comment\n", "#\r\n")
    text = "".join(chance.choice(between) + event + chance.choice(("\n", "\n", "\r\n"))
                   for event in events)
    return (text.rstrip("\r\n") if chance.random() < 0.2 else text).encode()
