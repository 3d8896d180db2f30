"""The kinds of events and outcomes of scripts, to count which of them came."""
from __future__ import annotations

import re

# What stands in a line of an outcome by chance, and a word in its place.
NAMES = tuple((re.compile(pattern), word) for pattern, word in (
    (r"\b[0-9A-F]{20}\b", "KSN"), (r"^t\d+", "T"), (r"^answer \d+", "answer K"),
    (r"\b(sent|reversing|used|armed) \d+", r"\1 N")))
# All that comes in scripts. A terminal is spent only behind a million begins, and a request that a
# terminal made is refused for two reasons alone.
CODES = ("00", "14", "51", "55")
ALL_KINDS = (
    "load", "begin", "up", "down", "restart", "restart host", "arm", "arm host",
    "T loaded KSN", "T sent N KSN", "T next KSN", "T empty", "T armed N", "host armed N",
    "host used N", "T IKSN elsewhere", "T no key set", "no such terminal", "no such frame",
    *(f"answer K {kind} KSN {code}" for kind in ("accepted", "repeated") for code in CODES),
    *(f"T done KSN {code}" for code in CODES),
    *(f"{end} refused KSN {reason}" for end in ("answer K", "T") for reason in (5, 6)),
    *(f"T fault {fault}" for fault in ("NotLoaded", "Stopped", "Store Device", "NotPending",
                                       "NotMine", "IksnSpent", "LoadsSpent")),
    "host fault Stopped", "host fault Store Device",
    *(f"{stores}: {name} fails behind {passes} steps"
      for stores, at_terminal, at_host in (("memory", 2, 2), ("disk", 8, 4))
      for name, steps in (("load", at_terminal), ("begin", at_terminal),
                          ("accepted request", at_host))
      for passes in range(steps)),
)


# All that comes in scripts over a journal. A reversal is refused for want of room alone; and where a
# payment's number is used, its till waits for no answer to it any more.
TOLD = ("approved KSN", *(f"declined KSN {code}" for code in CODES[1:]), "undone KSN")
UNDONE = tuple(f"answer K undone KSN of KSN {state}" for state in ("01", "00"))
# What tills refuse, by events. A till whose book failed is stopped; where the cell of its terminal did,
# it refuses first by what it knows of its purchase.
OF_ANSWERS = ("Stopped", "NothingOpen", "NotPending", "NotMine")
TILL_FAULTS = {
    "load": ("Stopped", "Open", "IksnSpent", "LoadsSpent", "Store Device"),
    "begin": ("Stopped", "Open", "NotLoaded", "Store Device"),
    "reverse": ("Stopped", "NothingOpen", "Store Device"),
    "down of a reply": (*OF_ANSWERS, "Store Device"),
    "down of a refusal": OF_ANSWERS,
    "down of a reversal's reply": (*OF_ANSWERS, "Store Device"),
}
BEHIND_STOPS = tuple(
    f"{event} {where}: T fault {fault}" for event in TILL_FAULTS
    for where, fault in (("at a stopped till", "Stopped"), ("where the terminal is stopped", "Stopped"),
                         ("where the terminal is stopped",
                          "Open" if event in ("load", "begin") else "NothingOpen")))
BOOKS_KINDS = (
    "load", "begin", "reverse", "up", "down", "restart", "restart host", "arm", "arm book", "arm host",
    "T loaded KSN", "T sent N KSN", "T reversing N KSN of KSN", "T undone KSN", "T empty", "T next KSN",
    *(f"T next KSN {state}" for state in ("open KSN", *TOLD)),
    "T armed N", "T book armed N", "host armed N", "host used N", "T IKSN elsewhere", "T no key set",
    "no such terminal", "no such frame",
    *(f"answer K {kind} KSN {code}" for kind in ("accepted", "repeated") for code in CODES),
    *(f"{front}{line}" for line in UNDONE
      for front in ("", "again: ", "under a further number: ", "behind its payment: ",
                    "reversal of an earlier life: ")),
    f"before its payment: {UNDONE[1]}",
    *(f"T done KSN {code}" for code in CODES),
    *(f"{front}: answer K refused KSN 5"
      for front in ("payment", "payment of an earlier life", "undone", "behind its reversal")),
    *(f"{kind}: {end} refused KSN 6" for kind in ("payment", "reversal") for end in ("answer K", "T")),
    *(f"{event}: T fault {fault}" for event, faults in TILL_FAULTS.items() for fault in faults),
    *BEHIND_STOPS,
    "down of a reply where the reversal is waited for: T fault NotPending",
    *(f"down of a reversal's reply of an earlier life: T fault {fault}"
      for fault in ("NothingOpen", "NotMine")),
    "host fault Stopped", "host fault Store Device",
    *(f"{stores}: {name} fails behind {passes} steps"
      for stores, steps in (("memory", 2), ("disk", 8))
      for name in ("load", "begin", "begin in the book", "reverse", "approved", "declined", "undone")
      for passes in range(steps)),
    *(f"{stores}: accepted {name} fails behind {passes} steps" for stores in ("memory", "disk")
      for name in ("request", "reversal") for passes in range(4)),
)


# What comes in walks of one bank, where some tills are near the end of their life.
WALK_KINDS = (
    *(f"{event}: T fault {fault}" for event, faults in TILL_FAULTS.items() for fault in faults
      if fault not in ("NotLoaded", "LoadsSpent")),
    *BEHIND_STOPS, *UNDONE, "T done KSN 00", "T undone KSN", "answer K refused KSN 5",
    "payment: answer K refused KSN 6", "reversal: answer K refused KSN 6", "host fault Store Device",
    *(f"{event}: T fault Spent" for event in ("begin", "reverse")),
    "T spent open KSN", "T spent undone KSN", "every till is at rest",
)


def kind_of_event(event: str) -> str:
    """The command of an event, and what it is done to where that is another than it mostly is."""
    command, *words = event.split(" ")
    if words[0] == "host":
        return f"{command} host"
    return "arm book" if command == "arm" and words[1] == "book" else command


def kind_of(line: str) -> str:
    """An outcome without the numbers that it has by chance."""
    for pattern, word in NAMES:
        line = pattern.sub(word, line)
    return line
