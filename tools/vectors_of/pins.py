"""PIN blocks of format 0, in clear and enciphered."""
from __future__ import annotations

from .draw import Draw
from .form import Case, Group
from .keys import wrong_key_flags
from .proved import Proved

FORMAT = "ISO 9564-1 format 0"
UNDER_KEY = "ISO 9564-1 format 0, under a PIN key of ANSI X9.24-1:2009 annex A"
PIN_LENGTHS, PAN_LENGTHS = range(4, 13), range(12, 20)
PAN, PIN = "4012345678909", "1234"
# The PIN key of the standard's first sample number.
PIN_KEY = bytes.fromhex("042666B49184CF5C68DE9628D0397B36")
LETTERS = (("a letter", "A"), ("a space", " "), ("a hyphen", "-"), ("a colon", ":"),
           ("a slash", "/"))


def groups(proved: Proved, draw: Draw) -> list[Group]:
    """All groups of `pin_block.json`."""
    return [made_lengths(draw), made_edges(draw), made_digits(draw), made_wrong(draw),
            read_lengths(proved, draw), read_edges(proved), wrong_fields(draw),
            wrong_digits(draw), wrong_fillers(draw), other_pans(proved, draw), wrong_pans(),
            *enciphered(proved, draw)]


def of(pin: str, pan: str) -> dict[str, str]:
    """The inputs of a PIN and a PAN."""
    return {"pin": pin, "pan": pan}


def pan_flags(pan: str) -> list[str]:
    """What is told of a PAN by its length."""
    return ["ShortPan"] if len(pan) == 12 else []


# Blocks that are made


def made_lengths(draw: Draw) -> Group:
    """Each length of a PIN with each of a PAN, made."""
    cases = []
    for digits in PIN_LENGTHS:
        for count in PAN_LENGTHS:
            pan = draw.digits(count)
            cases.append(Case(f"a PIN of {digits} digits, a PAN of {count}",
                              of(draw.digits(digits), pan), pan_flags(pan)))
    return Group("pin_block", "Each length of a PIN with each of a PAN.", FORMAT, cases)


def made_edges(draw: Draw) -> Group:
    """Which digits of a PAN count, and PINs and PANs of one digit alone."""
    cases = [Case("the sample of ANSI X9.24-1", of(PIN, PAN), ["Sample"])]
    cases += [Case(f"check digit {digit}: the same block", of(PIN, PAN[:-1] + str(digit)),
                   ["CheckDigit"]) for digit in range(10)]
    cases += [Case(f"{front} before the twelve digits: the same block",
                   of(PIN, front + PAN), ["LeadingDigits"])
              for front in ("9", "00", "123", "7777", "99999", "314159")]
    cases += [Case("a PAN of 12 digits: a zero is put before its eleven", of(PIN, "123456789012"),
                   ["ShortPan"]),
              Case("the same with that zero", of(PIN, "0123456789012"))]
    for digit in "0123456789":
        cases.append(Case(f"a PIN of {digit} alone", of(digit * draw.between(4, 12), PAN)))
        cases.append(Case(f"a PAN of {digit} alone", of(PIN, digit * draw.between(12, 19))))
    for place in range(13):
        digits = "0" * place + "1" + "0" * (12 - place)
        cases.append(Case(f"a one at place {place} of the PAN", of("000000000000", digits),
                          ["CheckDigit"] if place == 12 else []))
    return Group("pin_block", "The account field has the twelve rightmost digits of the PAN without"
                 " its check digit.", FORMAT, cases)


def made_digits(draw: Draw) -> Group:
    """Each digit at each place of a PIN."""
    cases = []
    for turn in range(10):
        pin = "".join(str((turn + place) % 10) for place in range(12))
        cases.append(Case(f"each digit at each place, turned by {turn}",
                          of(pin[: draw.between(4, 12)], "0000000000000")))
        cases.append(Case(f"twelve digits, turned by {turn}", of(pin, draw.digits(16))))
    return Group("pin_block", "Each digit at each place of a PIN.", FORMAT, cases)


def wrong_words(name: str, lengths: range, draw: Draw) -> list[tuple[str, str, str]]:
    """Each way in which a PIN or a PAN is wrong: what, the word, and the fault."""
    found = [("none" if count == 0 else f"{count} digits", draw.digits(count), f"{name}Length")
             for count in (0, 1, lengths[0] - 1, lengths[-1] + 1, lengths[-1] + 2, 32)]
    for told, letter in LETTERS:
        for count in (lengths[0], lengths[-1]):
            for place in (0, count // 2, count - 1):
                word = draw.digits(count)
                word = word[:place] + letter + word[place + 1 :]
                found.append((f"{told} at place {place} of {count}", word, f"{name}Digit"))
    return found


def wrong_pan_flags(word: str) -> list[str]:
    """The standard takes shorter PANs, with zeros in front."""
    return ["WrongPan", "OwnRule"] if 0 < len(word) < PAN_LENGTHS[0] else ["WrongPan"]


def wrong_of(draw: Draw) -> list[Case]:
    """Each PIN and each PAN that is refused, beside one that is right."""
    cases = [Case(f"PIN: {told}", of(word, PAN), ["WrongPin"], fault)
             for told, word, fault in wrong_words("Pin", PIN_LENGTHS, draw)]
    return cases + [Case(f"PAN: {told}", of(PIN, word), wrong_pan_flags(word), fault)
                    for told, word, fault in wrong_words("Pan", PAN_LENGTHS, draw)]


def made_wrong(draw: Draw) -> Group:
    """No block is made of a wrong PIN or PAN."""
    return Group("pin_block", "A PIN has 4 to 12 digits, and a PAN 12 to 19 here.", FORMAT,
                 wrong_of(draw))


# Blocks that are read


def account_field(pan: str) -> int:
    """The twelve digits of a PAN that are in its blocks, as a number."""
    return int(pan[:-1][-12:], 16)


def block_of(field: str, pan: str) -> bytes:
    """The block of a PIN field of 16 nibbles, right or wrong."""
    return (int(field, 16) ^ account_field(pan)).to_bytes(8, "big")


def pin_field(pin: str) -> str:
    """The sixteen nibbles of a PIN before those of the PAN are added."""
    return f"0{len(pin):X}{pin}".ljust(16, "F")


def read(comment: str, field: str, pan: str, flag: str, is_wrong: bool = True) -> Case:
    """The case of a PIN field, which is mostly wrong."""
    return Case(comment, {"block": block_of(field, pan), "pan": pan}, [flag] if flag else [],
                "NotAPinBlock" if is_wrong else None)


def read_lengths(proved: Proved, draw: Draw) -> Group:
    """Each length of a PIN with each of a PAN, read."""
    cases = []
    for digits in PIN_LENGTHS:
        for count in PAN_LENGTHS:
            pan = draw.digits(count)
            block = proved.library.pin_block(draw.digits(digits).encode(), pan.encode())
            cases.append(Case(f"a PIN of {digits} digits, a PAN of {count}",
                              {"block": block, "pan": pan}, pan_flags(pan)))
    return Group("pin_of_block", "Each length of a PIN with each of a PAN.", FORMAT, cases)


def read_edges(proved: Proved) -> Group:
    """Which digits of a PAN are looked at."""
    sample = proved.library.pin_block(PIN.encode(), PAN.encode())
    cases = [Case("the sample of ANSI X9.24-1", {"block": sample, "pan": PAN}, ["Sample"])]
    cases += [Case(f"{what}: the same PIN", {"block": sample, "pan": pan}, [flag])
              for what, pan, flag in (
                  ("another check digit", PAN[:-1] + "0", "CheckDigit"),
                  ("more digits in front", "555" + PAN, "LeadingDigits"))]
    for digit in "0123456789":
        block = proved.library.pin_block((digit * 12).encode(), PAN.encode())
        cases.append(Case(f"a PIN of {digit} alone", {"block": block, "pan": PAN}))
    return Group("pin_of_block", "Which digits of a PAN count.", FORMAT, cases)


def wrong_fields(draw: Draw) -> Group:
    """The two nibbles in front, with all else as it would be right."""
    cases = []
    for nibble in range(1, 16):
        field = pin_field(draw.digits(draw.between(4, 12)))
        cases.append(read(f"format {nibble:X}", f"{nibble:X}{field[1:]}", PAN, "WrongFormat"))
    for length in (0, 1, 2, 3):
        pin = draw.digits(length)
        cases.append(read(f"a length of {length}, and so many digits", pin_field(pin), PAN,
                          "WrongPinLength"))
    for length in (13, 14):
        cases.append(read(f"a length of {length}, and so many digits",
                          pin_field(draw.digits(length)), PAN, "WrongPinLength"))
    cases.append(read("a length of 15, and fourteen digits", f"0F{draw.digits(14)}", PAN,
                      "WrongPinLength"))
    for digits in PIN_LENGTHS:
        field = pin_field("".join(str(1 + draw.below(9)) for _ in range(digits)))
        for length in range(16):
            if length != digits:
                cases.append(read(f"a length of {length} with {digits} digits",
                                  f"0{length:X}{field[2:]}", PAN, "WrongPinLength"))
    return Group("pin_of_block", "The first nibble is 0, the second the number of digits, 4 to 12.",
                 FORMAT, cases)


def wrong_digits(draw: Draw) -> Group:
    """A nibble above 9 at each place of a PIN of each length."""
    cases = []
    for digits in PIN_LENGTHS:
        for place in range(digits):
            field = pin_field(draw.digits(digits))
            at = 2 + place
            letter = draw.pick("ABCDE" if place == digits - 1 else "ABCDEF")
            cases.append(read(f"{letter} at place {place} of {digits} digits",
                              field[:at] + letter + field[at + 1 :], PAN, "WrongPinDigit"))
    cases += [read(f"{letter} at the last place of 6 digits", f"0612345{letter}".ljust(16, "F"),
                   PAN, "WrongPinDigit") for letter in "ABCDEF"]
    return Group("pin_of_block", "The nibbles of the PIN are digits.", FORMAT, cases)


def wrong_fillers(draw: Draw) -> Group:
    """A nibble that is no F at each place behind a PIN of each length."""
    cases = []
    for digits in range(4, 13):
        for at in range(2 + digits, 16):
            field = pin_field(draw.digits(digits))
            filler = draw.pick("0123456789ABCDE")
            cases.append(read(f"{filler} for a filler at nibble {at}, behind {digits} digits",
                              field[:at] + filler + field[at + 1 :], PAN, "WrongFiller"))
    cases += [read(f"fillers of {filler}", f"04{PIN}".ljust(16, filler), PAN, "WrongFiller")
              for filler in "0123456789ABCDE"]
    return Group("pin_of_block", "Behind the PIN each nibble is F.", FORMAT, cases)


def other_pans(proved: Proved, draw: Draw) -> Group:
    """A PAN that is not the block's: mostly it is no PIN block then; where only digits meet the
    PIN's, another PIN comes out."""
    cases = []
    for digits in PIN_LENGTHS:
        block = proved.library.pin_block(draw.digits(digits).encode(), PAN.encode())
        for place in range(12):
            digit = (int(PAN[place]) + draw.between(1, 9)) % 10
            pan = PAN[:place] + str(digit) + PAN[place + 1 :]
            fault = proved.answer("pin_of_block", {"block": block, "pan": pan}).fault
            cases.append(Case(f"another digit at place {place} of the PAN, a PIN of {digits}",
                              {"block": block, "pan": pan}, ["OtherPan"], fault))
    return Group("pin_of_block", "A block under another PAN is none, or has another PIN where the"
                 " digits that differ meet the PIN's.", FORMAT, cases)


def wrong_pans() -> Group:
    """Each PAN that is refused, and blocks of other lengths."""
    block = block_of(pin_field(PIN), PAN)
    draw = Draw("PANs of blocks")
    cases = [Case(told, {"pan": word}, wrong_pan_flags(word), fault)
             for told, word, fault in wrong_words("Pan", PAN_LENGTHS, draw)]
    cases += [Case(f"a block of {size} bytes", {"block": (block * 2)[:size], "pan": PAN},
                   ["WrongLength"], "Length") for size in (0, 7, 9, 16)]
    return Group("pin_of_block", "PANs and blocks of other lengths.", FORMAT, cases,
                 {"block": block})


# Enciphered blocks


def enciphered(proved: Proved, draw: Draw) -> list[Group]:
    """The groups of blocks under a PIN key."""
    return [encrypt_samples(draw), encrypt_wrong(draw), decrypt_samples(proved, draw),
            decrypt_wrong(proved, draw)]


def encrypt_samples(draw: Draw) -> Group:
    """Blocks that are made and enciphered."""
    cases = [Case("the sample of ANSI X9.24-1", {"key": PIN_KEY, **of(PIN, PAN)}, ["Sample"])]
    for size in (16, 24):
        cases += [Case(f"at random, a key of {size} bytes",
                       {"key": draw.bytes(size), **drawn(draw)}, ["Random"]) for _ in range(25)]
    return Group("encrypt_pin", "The block under triple DES.", UNDER_KEY, cases)


def drawn(draw: Draw) -> dict[str, str]:
    """A PIN and a PAN of any lengths."""
    return of(draw.digits(draw.between(4, 12)), draw.digits(draw.between(12, 19)))


def encrypt_wrong(draw: Draw) -> Group:
    """Some of the PINs and PANs that are refused, and keys of other lengths."""
    few = wrong_of(draw)[::5]
    cases = [Case(it.comment, {"key": PIN_KEY, **it.inputs}, it.flags, it.fault) for it in few]
    cases += [Case(f"a key of {size} bytes", {"key": (PIN_KEY * 2)[:size], **of(PIN, PAN)},
                   wrong_key_flags(size), "Length") for size in (0, 8, 15, 17, 32)]
    return Group("encrypt_pin", "PINs, PANs and keys that are refused.", UNDER_KEY, cases)


def decrypt_samples(proved: Proved, draw: Draw) -> Group:
    """Blocks that are deciphered and read."""
    sample = proved.answer("encrypt_pin", {"key": PIN_KEY, **of(PIN, PAN)}).outputs["block"]
    cases = [Case("the sample of ANSI X9.24-1", {"key": PIN_KEY, "block": sample, "pan": PAN},
                  ["Sample"])]
    for size in (16, 24):
        for _ in range(25):
            key, words = draw.bytes(size), drawn(draw)
            block = proved.answer("encrypt_pin", {"key": key, **words}).outputs["block"]
            cases.append(Case(f"at random, a key of {size} bytes",
                              {"key": key, "block": block, "pan": words["pan"]}, ["Random"]))
    return Group("decrypt_pin", "The PIN of a block under triple DES.", UNDER_KEY, cases)


def decrypt_wrong(proved: Proved, draw: Draw) -> Group:
    """Another key, a changed bit, and clear blocks that are none."""
    encrypt = proved.library.tdes_encrypt
    right = encrypt(PIN_KEY, block_of(pin_field(PIN), PAN))
    wrong = "NotAPinBlock"
    cases = [Case(told, {"key": key, "block": right}, ["WrongKey"], wrong) for told, key in (
        ("the transaction key", bytes.fromhex("042666B49184CFA368DE9628D0397BC9")),
        ("the key for MACs of requests", bytes.fromhex("042666B4918430A368DE9628D03984C9")),
        ("the halves in the other order", PIN_KEY[8:] + PIN_KEY[:8]),
        ("a key at random", draw.bytes(16)))]
    for bit in range(0, 64, 4):
        block = (int.from_bytes(right, "big") ^ 1 << bit).to_bytes(8, "big")
        cases.append(Case(f"bit {63 - bit} of the block is turned", {"block": block}, ["Changed"],
                          wrong))
    fields = [(f"format {nibble:X}", f"{nibble:X}4{PIN}".ljust(16, "F")) for nibble in (1, 2, 3, 4)]
    fields += [("a length of 3", pin_field("123")), ("a length of 13", pin_field("1" * 13)),
               ("a letter in the PIN", "0412A4".ljust(16, "F")),
               ("a filler that is 0", "041234" + "F" * 9 + "0")]
    cases += [Case(told, {"block": encrypt(PIN_KEY, block_of(field, PAN))}, ["WrongFormat"], wrong)
              for told, field in fields]
    cases += [Case("the block in clear", {"block": block_of(pin_field(PIN), PAN)}, ["WrongKey"],
                   wrong)]
    cases += [Case(f"PAN: {told}", {"block": right, "pan": word}, wrong_pan_flags(word),
                   fault)
              for told, word, fault in wrong_words("Pan", PAN_LENGTHS, draw)[::6]]
    return Group("decrypt_pin", "Under another key, and where the clear block is no PIN's.",
                 UNDER_KEY, cases, {"key": PIN_KEY, "pan": PAN})
