"""One host for many connections: its parts, and what it does where they end, as docs/DEPLOYMENT.md has it."""
from __future__ import annotations

from typing import Iterator

from .drawing import LEADING, WIDTH, Line, Rect, arrow, card, label, picture, rect, words, wrapped

TITLE = "One host: dukpt-host over dukpt serve --journal."
TOLD = """\
Clients, as switches and concentrators, send frames over 1,000 connections at most, to port 7000. From other \
machines they come by TLS, with client certificates.
dukpt-host, which is tested and not proved, moves frames and answers. Each answer goes to the connection of its \
frame, in the order there. Metrics and health are on port 7001. At its start it reads the configuration, with cards \
and key blocks, and the components of the key over them.
Below it runs one process of dukpt serve --journal, which is proved over each disk that keeps to the model. It gets \
keys and cards by a pipe. It judges every frame by these keys and by the journal, and asks the issuer, a table of \
cards. It keeps entries in the journal, which it has locked, by two syncs, and then their replies go out.
If that process is killed, the host copies the journal by copy-journal, which checks the copy, puts this in its \
place, and starts again. After another fault it starts again at once. After journal: failed, or where no copy can be \
made, it starts nothing, lets nobody in, and waits for the operator.
Connections with frames that have no answer are closed, and these clients send the frames again."""
MACHINE = Rect(262, 8, 606, 268)
OTHERS = tuple(Rect(8, 54 + 77 * at, 150, 54) for at in range(3))
OTHER_TEXTS = (("Switch", "frames of many terminals"), ("Concentrator", "frames of many terminals"),
               ("Monitoring", "Prometheus, or an operator"))
HOST = Rect(290, 54, 190, 208)
SERVE = Rect(568, 54, 284, 114)
CONFIGURATION, JOURNAL = Rect(568, 208, 132, 54), Rect(720, 208, 132, 54)
ENDS = (("Killed by a signal", "The host copies the journal by copy-journal, which checks the copy. It puts this in "
         "its place, and starts again.", "green"),
        ("Another fault", "The host starts again at once; after a start in vain later, up to 10 seconds.", "blue"),
        ("journal: failed, or no copy", "The host starts nothing, lets nobody in, and waits for you.", "red"))
AGAIN = ("Connections with frames that have no answer are closed, and these clients send the frames again: what was "
         "kept has its reply again.")


def others() -> Iterator[str]:
    for place, (name, text) in zip(OTHERS, OTHER_TEXTS):
        yield card(place, [Line(name, "head"), Line(text)])
    *clients, monitoring = OTHERS
    for it in clients:
        yield arrow([(it.right, it.centre), (HOST.left, it.centre)], "blue", both=True)
    yield arrow([(monitoring.right, monitoring.centre), (HOST.left, monitoring.centre)])
    between = (monitoring.right + MACHINE.left) / 2
    yield label(between, clients[0].centre - 8, ("TLS, with client", "certificates"))
    yield label(between, clients[1].centre - 8, ("port 7000",))
    yield label(between, monitoring.centre - 8, ("port 7001",))


def parts() -> Iterator[str]:
    yield card(HOST, [
        Line("dukpt-host", "name"), Line("It is tested, and not proved."),
        Line("It moves frames and answers. Each answer goes to the connection of its frame, in the order there."),
        Line("It takes 1,000 connections at most. It opens the key blocks at its start."),
        Line("It tells metrics and health.")], "brown")
    yield card(SERVE, [
        Line("dukpt serve --journal", "name"),
        Line("It is proved, over each disk that keeps to the model."),
        Line("It judges every frame by the keys in its memory and by the journal, and asks the issuer, a table of "
             "cards. A reply goes out once its entry is kept.")], "green")
    yield card(CONFIGURATION, [Line("Configuration", "head"), Line("cards and key blocks")], "red")
    yield card(JOURNAL, [Line("Journal", "head"), Line("on a local disk; locked; no key")], "blue")


def ways() -> Iterator[str]:
    between = (HOST.right + SERVE.left) / 2
    yield arrow([(HOST.right, SERVE.centre - 10), (SERVE.left, SERVE.centre - 10)], "blue")
    yield label(between, SERVE.centre - 16, ("frames",), kind="soft")
    yield arrow([(SERVE.left, SERVE.centre + 12), (HOST.right, SERVE.centre + 12)], "green")
    yield label(between, SERVE.centre + 27, ("answers",), kind="soft")
    middle = (SERVE.bottom + JOURNAL.top) / 2 + 4
    yield arrow([(CONFIGURATION.left, CONFIGURATION.centre), (HOST.right, CONFIGURATION.centre)])
    yield label(between, CONFIGURATION.centre - 6, ("at its start",), kind="soft")
    yield arrow([(JOURNAL.middle, SERVE.bottom), (JOURNAL.middle, JOURNAL.top)], both=True)
    yield label(JOURNAL.middle + 8, middle, ("two syncs",), "start", "soft")


def ends() -> Iterator[str]:
    """What the host does where the process below it ends."""
    top, gap = MACHINE.bottom + 14, 14.0
    yield words(8, top + 12, "Where the process of dukpt serve ends", "head")
    wide = (WIDTH - 16 - 2 * gap) / 3
    for at, (head, text, kind) in enumerate(ENDS):
        yield card(Rect(8 + at * (wide + gap), top + 22, wide, 70), [Line(head, "head"), Line(text)], kind)
    for at, line in enumerate(wrapped(AGAIN, "soft", WIDTH - 16)):
        yield words(8, top + 112 + LEADING * at, line, "soft")


def drawn() -> str:
    head = words(MACHINE.left + 28, MACHINE.top + 26, "One machine, under the account dukpt", "head")
    return picture(MACHINE.bottom + 136, TITLE, TOLD,
                   [rect(MACHINE, "band"), head, *others(), *ways(), *parts(), *ends()])
