"""Random scripts of tills over a journal, made of scenes: as `scenes`, of which it takes those that
lead such a world too."""
from __future__ import annotations

import random
from functools import partial
from typing import Callable

from ..formats.configuration import Configuration
from ..models.model_host import KEPT
from ..standards.dukpt import MOST_PAST
from .books_play import BooksPlay
from .scenes import (
    MANY_STEPS, STEPS, Play, any_number, any_order, armed_for_later, closing, each_code, fails_at,
    given_up, late_request, loaded_before, lost_reply, not_loaded, payment)
from .worlds import Purchase, digits, random_iksn, random_purchase


# Purchases


def good_purchase(play: BooksPlay) -> Purchase:
    """One that is approved, where there is a card."""
    card = play.chance.choice(play.bank.cards) if play.bank.cards else None
    if card is None:
        return random_purchase(play.chance, play.bank)
    return Purchase(card.pan, card.pin, play.chance.choice((0, card.limit, card.limit // 2)))


def any_purchase(play: BooksPlay) -> Purchase:
    is_good = play.chance.random() < 0.6
    return good_purchase(play) if is_good else random_purchase(play.chance, play.bank)


def undone(play: BooksPlay) -> None:
    """A reply that is lost: the payment is undone. What comes late of it changes nothing."""
    at = play.any_terminal()
    play.bring_host_up()
    number = play.send(at, any_purchase(play))
    answers = [play.up(number) for _ in range(play.chance.randint(1, 2))]
    if play.chance.random() < 0.5:
        play.down(play.up(play.reverse(at)), at)
    else:
        play.settle(at)
    answers.append(play.up(number))
    play.chance.shuffle(answers)
    for answer in answers:
        play.down(answer, at)


def never_came(play: BooksPlay) -> None:
    """A request that comes behind its reversal."""
    at = play.any_terminal()
    play.bring_host_up()
    number = play.send(at, any_purchase(play))
    reversal = play.reverse(at)
    answer = play.up(reversal)
    late = play.up(number)
    for it in play.chance.sample((late, answer, play.up(reversal)), 3):
        play.down(it, at)


def again(play: BooksPlay) -> None:
    """Reversals of one payment under further numbers, which come in any order, as their replies."""
    at = play.any_terminal()
    play.bring_host_up()
    number = play.send(at, any_purchase(play))
    order = [number, *(play.reverse(at) for _ in range(play.chance.randint(2, 4)))]
    if play.chance.random() < 0.6:
        play.up(number)
    if play.chance.random() < 0.3:
        play.happens(f"restart {at}")
        order.append(play.reverse(at))
    play.chance.shuffle(order)
    answers = [play.up(it) for it in order]
    if play.chance.random() < 0.3:
        play.happens("restart host")
    answers += [play.up(it) for it in play.chance.sample(order, 2)]
    play.chance.shuffle(answers)
    for answer in answers:
        play.down(answer, at)
    play.settle(at)


def restarted(play: BooksPlay) -> None:
    """A till that is restarted behind each step of a purchase and its reversal."""
    at = play.any_terminal()
    play.bring_host_up()
    number = play.send(at, any_purchase(play))
    play.happens(f"restart {at}")
    play.down(play.up(number), at)
    answer = play.up(play.reverse(at))
    if play.chance.random() < 0.5:
        play.happens(f"restart {at}")
    play.down(answer, at)
    play.happens(f"restart {at}")
    play.settle(at)
    play.happens(f"restart {at}")


def earlier_life(play: BooksPlay) -> None:
    """A till is loaded anew, and then what it sent before comes: a payment and its reversals."""
    at = play.any_terminal()
    if len(play.had(at)) > MOST_PAST:
        return
    play.bring_host_up()
    frames = [play.send(at, any_purchase(play))]
    if play.chance.random() < 0.6:
        play.up(frames[0])
    frames += [play.reverse(at), play.reverse(at)]
    play.down(play.up(frames[-1]), at)
    if not play.settle(at):
        return
    play.load(at)
    play.bring_up(at)
    if play.chance.random() < 0.7:
        play.begin(at, any_purchase(play))
    if play.chance.random() < 0.5:
        play.reverse(at)
    for it in play.chance.sample(frames, len(frames)):
        play.down(play.up(it), at)


def told_again(play: BooksPlay) -> None:
    """A till that is restarted when it was told what came of its purchase."""
    at = play.any_terminal()
    play.bring_host_up()
    play.down(play.up(play.send(at, any_purchase(play))), at)
    for _ in range(play.chance.randint(1, 2)):
        play.happens(f"restart {at}")
    play.reverse(at)


def refused_while_open(play: BooksPlay) -> None:
    """A purchase is open: no other one begins, and no load."""
    at = play.any_terminal()
    play.send(at, any_purchase(play))
    play.begin(at)
    Play.load(play, at)
    if play.chance.random() < 0.5:
        play.reverse(at)
        play.begin(at)
        Play.load(play, at)


def waiting(play: BooksPlay) -> None:
    """The reply to a payment, or a refusal, comes to a till that waits for that to the reversal."""
    at = play.any_terminal()
    play.bring_host_up()
    number = play.send(at, any_purchase(play))
    answer = play.up(number)
    reversal = play.reverse(at)
    play.down(answer, at)
    done = play.up(reversal)
    play.down(play.up(number), at)
    if play.chance.random() < 0.5:
        play.reverse(at)
    play.down(done, play.other_terminal(at))
    play.down(done, at)


def crossed(play: BooksPlay) -> None:
    """Two tills, and the answers to each of them come to the other one first."""
    at = play.any_terminal()
    other = play.other_terminal(at)
    play.bring_host_up()
    answers = [(play.up(play.send(it, good_purchase(play))), it) for it in (at, other)]
    if play.chance.random() < 0.5:
        answers += [(play.up(play.reverse(it)), it) for it in (at, other)]
    for answer, _ in answers:
        play.down(answer, at)
        play.down(answer, other)


# The journal


def fills(play: BooksPlay) -> None:
    """A journal that is filled: payments are refused first, and reversals when no room is left."""
    host, at = play.world.host, play.any_terminal()
    play.bring_host_up()
    if host.judge.left > 30:
        return
    for _ in range(3 * host.judge.left + 3):
        number = play.send(at)
        play.down(play.up(number), at)
        if not host.judge.left:
            break
    play.bring_up(at)
    if play.till(at).open is None:
        play.down(play.up(play.begin(at)), at)
    reversal = play.reverse(at)
    play.down(play.up(reversal), at)
    play.up(number)
    play.happens(f"restart {at}")


def remembered(play: BooksPlay) -> None:
    """More requests than a host over a log keeps the replies of: a journal has them all."""
    play.bring_host_up()
    if play.world.host.judge.left < KEPT + 20:
        return
    first = play.send(play.any_terminal())
    play.up(first)
    for _ in range(KEPT + 1):
        at = play.any_terminal()
        play.down(play.up(play.send(at)), at)
    play.up(first)
    play.happens("restart host")
    for number in (first, *play.chance.sample(range(1, play.sent + 1), 3)):
        play.up(number)


def many_loads(play: BooksPlay) -> None:
    """A till that is loaded until it keeps as many numbers as it can."""
    at = play.any_terminal()
    if not play.settle(at):
        return
    while len(play.had(at)) <= MOST_PAST:
        if play.chance.random() < 0.2:
            play.begin(at)
            if not play.settle(at):
                return
        play.load(at)
        play.bring_up(at)
    play.load(at)
    for iksn in play.chance.sample(play.had(at), 2):
        play.load(at, iksn)
    play.happens(f"restart {at}")
    play.begin(at)


# Stops


def load_stops(play: BooksPlay, at: str, passes: int) -> None:
    if len(play.had(at)) > MOST_PAST:
        return
    iksn = random_iksn(play.chance, play.bank)
    fails_at(play, at, passes, lambda: play.load(at, iksn), "load")
    if play.chance.random() < 0.2:
        play.load(play.other_terminal(at), iksn)
    after_a_stop(play, at)


def begin_stops(play: BooksPlay, at: str, passes: int) -> None:
    fails_at(play, at, passes, lambda: play.begin(at), "begin")
    after_a_stop(play, at)


def book_stops(play: BooksPlay, at: str, passes: int) -> None:
    """The book fails when a purchase is to be open."""
    fails_at(play, f"{at} book", passes, lambda: play.begin(at), "begin in the book")
    after_a_stop(play, at)


def reversal_stops(play: BooksPlay, at: str, passes: int) -> None:
    number = play.begin(at, any_purchase(play))
    if play.chance.random() < 0.5:
        play.up(number)
    fails_at(play, at, passes, lambda: play.reverse(at), "reverse")
    after_a_stop(play, at)


def decision_stops(play: BooksPlay, at: str, passes: int, purchase: Purchase) -> None:
    """The book fails when the till is told what came of its purchase."""
    answer = play.up(play.begin(at, purchase))
    name = "approved" if play.lines[-1].endswith(" 00") else "declined"
    fails_at(play, f"{at} book", passes, lambda: play.down(answer, at), name)
    after_a_stop(play, at)
    play.down(answer, at)


def approval_stops(play: BooksPlay, at: str, passes: int) -> None:
    decision_stops(play, at, passes, good_purchase(play))


def refusal_stops(play: BooksPlay, at: str, passes: int) -> None:
    decision_stops(play, at, passes, Purchase(digits(play.chance, 12, 19), "1234", 1))


def undoing_stops(play: BooksPlay, at: str, passes: int) -> None:
    number = play.begin(at, any_purchase(play))
    if play.chance.random() < 0.7:
        play.up(number)
    answer = play.up(play.reverse(at))
    fails_at(play, f"{at} book", passes, lambda: play.down(answer, at), "undone")
    after_a_stop(play, at)
    play.down(answer, at)


def after_a_stop(play: BooksPlay, at: str) -> None:
    """What a till that is stopped is asked, and its restart."""
    does: tuple[Callable[[], object], ...] = (
        lambda: play.begin(at), lambda: Play.load(play, at), lambda: play.reverse(at),
        *(partial(lambda kind: play.down(any_of_kind(play, kind), at), kind) for kind in (2, 3, 5)),
        lambda: play.down(any_number(play, play.answered), at))
    for act in play.chance.sample(does, play.chance.choice((0, 0, 1, 2))):
        act()
    play.happens(f"restart {at}")


def any_of_kind(play: BooksPlay, kind: int) -> int:
    """The number of an answer of a kind, if there is one."""
    found = [number for number, it in enumerate(play.world.answers, 1) if it[3] == kind]
    return play.chance.choice(found or [1])


TILL_STOPS: tuple[Callable[[BooksPlay, str, int], None], ...] = (
    load_stops, begin_stops, book_stops, reversal_stops, approval_stops, refusal_stops, undoing_stops)


def till_stops(play: BooksPlay) -> None:
    """Tills whose cell or book fails at each step of some things that they do."""
    steps = list(STEPS[play.bank.stores])
    count = 5 if play.bank.stores == "disk" else len(TILL_STOPS)
    for stops in play.chance.sample(TILL_STOPS, count):
        for passes in play.chance.sample(steps, len(steps)):
            at = play.any_terminal()
            play.bring_host_up()
            if play.settle(at):
                stops(play, at, passes)


def host_stops_at(play: BooksPlay) -> None:
    """A host whose journal fails at some step of a payment or a reversal."""
    for passes in play.chance.sample(range(5), 5):
        at = play.any_terminal()
        if not play.settle(at):
            return
        play.bring_host_up()
        number = play.begin(at, any_purchase(play))
        if play.chance.random() < 0.8:
            fails_at(play, "host", passes, lambda: play.up(number), "accepted request")
            play.happens("restart host")
        elif play.chance.random() < 0.7:
            play.up(number)
        reversal = play.reverse(at)
        fails_at(play, "host", passes, lambda: play.up(reversal), "accepted reversal")
        if play.chance.random() < 0.5:
            play.up(play.chance.randint(1, play.sent))
        play.happens("restart host")
        for it in play.chance.sample((number, reversal), 2):
            play.down(play.up(it), at)


# Strays


def stray(play: BooksPlay) -> None:
    """One event, of any end and any frame, whether there is such or not."""
    chance = play.chance
    at = play.any_terminal() if chance.random() < 0.8 else f"t{chance.randint(1, 16)}"
    store = chance.choice((at, f"{at} book", "host"))
    chance.choice((
        lambda: Play.load(play, at),
        lambda: play.begin(at),
        lambda: play.reverse(at),
        lambda: play.up(any_number(play, play.sent)),
        lambda: play.down(any_number(play, play.answered), at),
        lambda: play.happens(f"restart {chance.choice((at, 'host'))}"),
        lambda: play.happens(f"arm {store} {chance.randrange(MANY_STEPS)}"),
    ))()


def strays(play: BooksPlay) -> None:
    for _ in range(play.chance.randint(10, 30)):
        stray(play)


def at_rest(play: BooksPlay) -> None:
    """Every till closes what it has open, where there is room."""
    play.happens("restart host")
    for number in range(1, len(play.world.terminals) + 1):
        at = f"t{number}"
        play.happens(f"restart {at}")
        if play.till(at).open:
            play.settle(at)
            play.happens(f"restart {at}")


SCENES: tuple[Callable[[BooksPlay], None], ...] = (
    payment, each_code, lost_reply, late_request, any_order, given_up, loaded_before, armed_for_later,
    undone, never_came, again, restarted, earlier_life, told_again, refused_while_open, waiting, crossed,
    strays)
# These come first, while the journal has room for them, or at any time.
EARLY: tuple[Callable[[BooksPlay], None], ...] = (host_stops_at, till_stops, many_loads)


def random_journal_room(chance: random.Random) -> int:
    """For how many entries a journal has room: few, many, or enough for whatever comes."""
    few = (chance.randint(1, 9), chance.randint(10, 60), 16 * chance.randint(1, 4))
    return chance.choice((*few, *(chance.randint(least, 500) for least in (70, 250, 250))))


def random_books_play(chance: random.Random, bank: Configuration) -> BooksPlay:
    """A script for a bank, played. What needs a new world, or a journal with much room, comes first."""
    play = BooksPlay(chance, bank)
    if chance.random() < 0.5:
        not_loaded(play)
    if chance.random() < 0.3:
        remembered(play)
    early = [scene for scene in EARLY if chance.random() < 0.6]
    scenes = chance.sample(SCENES, chance.randint(3, 5))
    scenes += [scene for scene in EARLY if chance.random() < 0.1]
    chance.shuffle(scenes)
    for scene in (*early, *scenes, fills):
        scene(play)
    not_loaded(play)
    closing(play)
    at_rest(play)
    return play
