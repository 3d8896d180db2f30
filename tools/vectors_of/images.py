"""The image of a terminal: what it stores, and how each call takes it to the next one."""
from __future__ import annotations

from typing import Callable

from .draw import Draw
from .form import Case, Group
from .numbers import (
    IKSN, INITIAL, LAST, MOST_ONES, after, drawn_counter, drawn_iksn, flags_of, greatest_of, ksn,
    least_of, ones, plural)
from .proved import Proved

OWN = "this project's own: docs/FORMATS.md, over ANSI X9.24-1:2009 annex A"
# Where the parts of an image stand: version, number and counter; registers; what was there before.
NUMBER, COUNTER, REGISTERS, PAST, END = 1, 11, 14, 350, 431
REGISTER, SERIAL, MOST_PAST = 16, 10, 8
ZEROS = bytes(SERIAL)

# What is told of an image, and the image.
Told = tuple[str, bytes]


class Images:
    """Images that the proved library makes."""

    def __init__(self, proved: Proved, draw: Draw) -> None:
        self.library, self.draw = proved.library, draw
        self.fresh = self.at(1)
        self.spent = self.library.registers_next(self.at(LAST)).image

    def at(self, counter: int, iksn: int = IKSN) -> bytes:
        """The image of a terminal whose next number has this counter."""
        return bytes(self.library.registers_at(INITIAL, ksn(iksn + counter)))

    def after_loads(self, count: int, image: bytes) -> bytes:
        """The image of a terminal that had so many numbers before its own."""
        for _ in range(count):
            iksn = ksn(drawn_iksn(self.draw))
            image = bytes(self.library.registers_reload(image, self.draw.bytes(16), iksn))
        return image


def put(image: bytes, at: int, value: bytes) -> bytes:
    """An image with other bytes at a place."""
    return image[:at] + value + image[at + len(value) :]


def of_version_1(image: bytes) -> bytes:
    """The same terminal in an image of version 1, which knows of no numbers before its own."""
    return b"\x01" + image[1:PAST]


def past_place(place: int) -> int:
    """Where the number at a place of those before the terminal's own stands."""
    return PAST + 1 + SERIAL * place


def groups(proved: Proved, draw: Draw) -> list[Group]:
    """All groups of `images.json`."""
    make = Images(proved, draw)
    return [loads(draw), not_loaded(draw), whole_images(draw), numbers_read(make), not_read(make),
            taken(make), not_taken(make), reloaded(make), not_reloaded(make)]


def loads(draw: Draw) -> Group:
    """Terminals that are loaded."""
    cases = [Case("the sample of the standard", {"iksn": ksn(IKSN)}, ["Sample"]),
             Case("a number of zeros", {"iksn": ZEROS})]
    cases += [Case("at random", {"initial_key": draw.bytes(16), "iksn": ksn(drawn_iksn(draw))},
                   ["Random"]) for _ in range(6)]
    return Group("load", "The image of a terminal before its first number.", OWN, cases,
                 {"initial_key": INITIAL})


def not_loaded(draw: Draw) -> Group:
    """Numbers and keys with which none is loaded."""
    cases = [Case(f"counter {counter:06X}", {"iksn": ksn(IKSN + counter)}, ["CounterNotZero"],
                  "NotInitial") for counter in (1, 2, 0x100000, 0x1FFFFF)]
    cases += [Case(f"a key of {size} bytes", {"initial_key": draw.bytes(size)}, ["WrongLength"],
                   "Length") for size in (0, 8, 15, 17, 24)]
    cases += [Case(f"a number of {size} bytes", {"iksn": ksn(IKSN)[:size]}, ["WrongLength"],
                   "Length") for size in (0, 8, 9)]
    return Group("load", "No terminal begins so.", OWN, cases,
                 {"initial_key": INITIAL, "iksn": ksn(IKSN)})


def counters(draw: Draw) -> list[int]:
    """Counters that show which registers are full: each kind of place and depth."""
    found = {1, 2, 3, 4, 7, 8, 0x3FF, 0x7FE, 0x100000, 0x155400, LAST}
    for depth in range(1, MOST_ONES + 1):
        found |= {least_of(depth), greatest_of(depth), drawn_counter(draw, depth)}
    return sorted(found)


def whole_images(draw: Draw) -> Group:
    """Terminals before a number of each kind."""
    cases = [Case(f"counter {counter:06X}, {plural(ones(counter), 'one bit')}",
                  {"ksn": ksn(IKSN + counter)}, flags_of(counter)) for counter in counters(draw)]
    cases += [Case(f"counter {counter:06X}, {plural(ones(counter), 'one bit')}",
                   {"ksn": ksn(IKSN + counter)}, ["Unusable"], "NotUsable")
              for counter in (0, least_of(11), 0x1FF801, 0x1FFFFF)]
    return Group("image_at", "The image of a terminal whose next number this is.", OWN, cases,
                 {"initial_key": INITIAL})


# Images that are read


def right_images(make: Images) -> list[Told]:
    """Images of each kind: of either version, with and without numbers before their own."""
    middle = make.at(0x0A5A5)
    found = [("before the first number", make.fresh), ("in the middle", middle),
             ("before the last number", make.at(LAST)),
             ("before the first number, version 1", of_version_1(make.fresh)),
             ("in the middle, version 1", of_version_1(middle)),
             ("a number of zeros", make.at(3, 0)),
             ("a number with all bits one but those of the counter",
              make.at(3, (1 << 80) - (1 << 21)))]
    found += [(f"{plural(count, 'number')} before its own", make.after_loads(count, middle))
              for count in (1, 2, 3, 7, 8)]
    two = make.after_loads(2, middle)
    found += [("one of the numbers before its own is of zeros", put(two, past_place(1), ZEROS)),
              ("one number more by the count: it is of zeros", put(two, PAST, b"\x03")),
              ("keys of any bytes", put(middle, REGISTERS, b"\xFF" * REGISTER))]
    return found


def broken_images(make: Images) -> list[Told]:
    """Bytes that are no image, each for a cause of its own."""
    image = make.at(0x0A5A5)
    found = [(f"version {version}", put(image, 0, bytes([version]))) for version in (0, 3, 255)]
    found += [("version 1 with the length of version 2", put(image, 0, b"\x01")),
              ("version 2 with the length of version 1", image[:PAST]),
              ("version 0 with the length of version 1", b"\x00" + image[1:PAST])]
    found += [(f"{len(it)} bytes", it) for it in (b"", image[:349], image[:-1], image + b"\x00")]
    found += [(f"counter {counter:06X}", put(image, COUNTER, counter.to_bytes(3, "big")))
              for counter in (0, least_of(11), 0x1FFFFF, 0x200001, 0xFFFFFF)]
    found += [("the number has its lowest counter bit", put(image, 10, b"\x01")),
              ("the number has its highest counter bit",
               put(image, 8, bytes([image[8] | 0x10])))]
    found += full_registers(make) + broken_pasts(make)
    return found


def full_registers(make: Images) -> list[Told]:
    """Images in which a byte stands in a register that has to be empty."""
    image = make.at(LAST)
    empty = [place for place in range(21)
             if not any(image[REGISTERS + REGISTER * place :][:REGISTER])]
    return [(f"a byte {told} register {place}, which is empty then",
             put(image, REGISTERS + REGISTER * place + at, b"\x01"))
            for place in (empty[0], empty[-1]) for told, at in (("first in", 0), ("last in", 15))]


def broken_pasts(make: Images) -> list[Told]:
    """Images whose numbers before the terminal's own are none."""
    middle = make.at(0x0A5A5)
    two, three, eight = (make.after_loads(count, middle) for count in (2, 3, MOST_PAST))

    def copied(image: bytes, of: int, to: int) -> bytes:
        """The image with the number at one place at another place too."""
        return put(image, past_place(to), image[past_place(of) :][:SERIAL])

    found = [(f"a count of {count}", put(eight, PAST, bytes([count]))) for count in (9, 10, 255)]
    found.append(("a number too few by the count", put(two, PAST, b"\x01")))
    found += [(f"places {of + 1} and {to + 1} of {count} are equal", copied(image, of, to))
              for count, image, of, to in (
                  (2, two, 0, 1), (3, three, 0, 1), (3, three, 1, 2), (8, eight, 6, 7),
                  (8, eight, 0, 7))]
    found += [(f"place {place + 1} has the terminal's own number",
               put(three, past_place(place), three[NUMBER : NUMBER + SERIAL])) for place in (0, 2)]
    found += [(f"a byte {value:02X} {told} behind the numbers", put(two, at, bytes([value])))
              for told, at in (("first", past_place(2)), ("last", END - 1)) for value in (1, 0xFF)]
    found += [(f"the number at place {place + 1} has counter {counter:06X}", put(
        three, past_place(place),
        (int.from_bytes(three[past_place(place) :][:SERIAL], "big") + counter).to_bytes(10, "big")))
        for place, counter in ((0, 1), (2, 1), (1, 2), (1, 0x100000))]
    return found


def cases_of(images: list[Told], fault: str, flag: str) -> list[Case]:
    """The cases of images that have one fault."""
    return [Case(told, {"image": image}, [flag], fault) for told, image in images]


def numbers_read(make: Images) -> Group:
    """Images of which the number is read."""
    cases = [Case(told, {"image": image}) for told, image in right_images(make)]
    return Group("number", "The number that a terminal uses next.", OWN, cases)


def not_read(make: Images) -> Group:
    """Bytes that are no image, and a terminal without a number."""
    cases = cases_of(broken_images(make), "NotAnImage", "BrokenImage")
    cases.append(Case("no number is left", {"image": make.spent}, ["SpentTerminal"], "Spent"))
    return Group("number", "No terminal has such an image, or it has no next number.", OWN, cases)


def taken(make: Images) -> Group:
    """Images of each kind, and counters of each kind."""
    cases = [Case(told, {"image": image}) for told, image in right_images(make)]
    cases += [Case(f"counter {counter:06X}, then {after(counter):06X}",
                   {"image": make.at(counter)}, flags_of(counter))
              for counter in counters(make.draw) if counter != LAST]
    return Group("take", "The key of the next number, and the image behind it: the key has left its"
                 " register, and those below it are full.", OWN, cases)


def not_taken(make: Images) -> Group:
    """Bytes that are no image, and a terminal without a key."""
    cases = cases_of(broken_images(make), "NotAnImage", "BrokenImage")
    cases.append(Case("no number is left", {"image": make.spent}, ["SpentTerminal"], "Spent"))
    return Group("take", "No terminal has such an image, or it has no key left.", OWN, cases)


# Another initial key


def new_number(image: bytes) -> bytes:
    """A number that differs from the terminal's own in its first two bytes alone."""
    own = image[NUMBER : NUMBER + SERIAL]
    return bytes([own[0] ^ 0x80, own[1] ^ 1]) + own[2:]


def reload_case(
    told: str, image: bytes, iksn: Callable[[bytes], bytes], flag: str = "", fault: str = ""
) -> Case:
    """The case of an image, and of a number that is made of it."""
    return Case(told, {"image": image, "iksn": iksn(image)}, [flag] if flag else [], fault or None)


def reloaded(make: Images) -> Group:
    """Terminals that are loaded again."""
    images = [it for it in right_images(make) if not it[0].startswith("8 numbers")]
    cases = [reload_case(told, image, new_number) for told, image in images]
    cases += [reload_case("no number was left", make.spent, new_number, "SpentTerminal"),
              reload_case("the new number is of zeros", make.fresh, lambda image: ZEROS),
              reload_case("the new number differs in its last bit alone", make.fresh,
                          lambda image: ksn(IKSN + (1 << 21)))]
    return Group("reload", "Another initial key. The terminal's number is among those before its"
                 " own from then on.", OWN, cases, {"initial_key": make.draw.bytes(16)})


def past(place: int) -> Callable[[bytes], bytes]:
    """The number at a place of those before a terminal's own."""
    return lambda image: image[past_place(place) :][:SERIAL]


def own_number(image: bytes) -> bytes:
    """The terminal's own number."""
    return image[NUMBER : NUMBER + SERIAL]


def not_reloaded(make: Images) -> Group:
    """Numbers that a terminal had, or that it has no place for."""
    three, eight = (make.after_loads(count, make.at(0x0A5A5)) for count in (3, MOST_PAST))
    used, full = "UsedNumber", "EightLoads"
    cases = [reload_case("its own number", make.fresh, own_number, used, "IksnSpent"),
             reload_case("its own number, of version 1", of_version_1(make.fresh), own_number, used,
                         "IksnSpent"),
             reload_case("its own number, behind three others", three, own_number, used,
                         "IksnSpent")]
    cases += [reload_case(f"a number that it had before, place {place + 1} of 3", three,
                          past(place), used, "IksnSpent") for place in range(3)]
    cases += [reload_case("a new number behind eight others", eight, new_number, full,
                          "LoadsSpent"),
              reload_case("its own number behind eight others", eight, own_number, full,
                          "IksnSpent"),
              reload_case("the last of eight others", eight, past(7), full, "IksnSpent"),
              reload_case("a number with counter 1", make.fresh,
                          lambda image: ksn(IKSN + (1 << 21) + 1), "CounterNotZero", "NotInitial")]
    cases += [Case(told, {"image": image, "iksn": ksn(IKSN + (1 << 21))}, ["BrokenImage"],
                   "NotAnImage") for told, image in broken_images(make)[::5]]
    return Group("reload", "A terminal takes no number twice, and no more than eight times another"
                 " one.", OWN, cases, {"initial_key": make.draw.bytes(16)})
