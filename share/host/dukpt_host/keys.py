"""The keys of this host, from the key blocks of its configuration.

Over a database they are in the library's module alone, under the local master key, which that has
too; it is wiped when the host ends. Over a journal the process below wants a configuration with
keys in the clear: it is made in memory, and comes to that process by a pipe, so that no file,
argument or variable has it. The clear keys are in the memory of both processes then: of that one,
which uses them, and of this one, which starts it again. What Python and the library copied on the
way here is not wiped.

Test keys stand in the clear in the configuration. Over a database they are put into key blocks
under a random local master key, which nobody has.
"""
from __future__ import annotations

from binascii import hexlify
from secrets import token_bytes
from typing import Callable, Final, Mapping

from dukpt import Card, DukptError, Module, unwrap, wrap
from dukpt.faults import BlockMac, WrongUse

from .components import in_place, local_master_key, wipe
from .configuration import BLOCKS, CLEAR, Configuration, Refused, read_configuration
from .settings import Settings

# What is wrong with a key block that is one.
FAULTS: Final[Mapping[type[DukptError], str]] = {
    BlockMac: "it was changed, or the local master key is another one",
    WrongUse: "it holds a key for another use"}
ZONE, BDK = b"P0TB00N", b"B0TX00N"
# What is needed to fill the blocks of a key with its length.
PADDING = 6


def module_of(settings: Settings) -> Module:
    """The module with the keys and the cards. Whoever has it closes it."""
    if settings.has_test_keys:
        return module_of_test_keys(read_configuration(settings.config, CLEAR))
    configuration = read_configuration(settings.config, BLOCKS)
    with local_master_key(settings.components) as lmk:
        return module_under(lmk, configuration)


def clear_text(settings: Settings) -> bytearray:
    """The configuration of the process below. What that needs, but does not use, is zeros and ones;
    its local master key is a random one."""
    configuration = read_configuration(settings.config, BLOCKS)
    with local_master_key(settings.components) as lmk:
        # It refuses what a host over a database refuses.
        module_under(lmk, configuration).close()
        text = bytearray()
        text += b'lmk = "%b"\nloading = "%b"\nterminals = 1\nlog = 1\nzone = "%b"\n' % (
            hexlify(token_bytes(24)), b"0" * 32, digits(lmk, configuration.zone))
        for prefix, block in configuration.keys.items():
            text += b'[[bdk]]\nprefix = "%b"\nkey = "%b"\n' % (hexlify(prefix), digits(lmk, block))
    for card in configuration.cards:
        text += b'[[card]]\npan = "%b"\npin = "%b"\nlimit = %d\n' % card
    return text


def digits(lmk: bytearray, block: str) -> bytes:
    return hexlify(unwrap(in_place(lmk), block.encode()).key)


def module_of_test_keys(found: Configuration) -> Module:
    lmk = bytearray(token_bytes(24))

    def wrapped(header: bytes, key: str) -> str:
        return wrap(in_place(lmk), header, bytes.fromhex(key), token_bytes(PADDING)).decode()

    zone = wrapped(ZONE, found.zone)
    keys = {prefix: wrapped(BDK, key) for prefix, key in found.keys.items()}
    try:
        return module_under(lmk, Configuration(zone, keys, found.cards))
    finally:
        wipe(lmk)


def module_under(lmk: bytearray, configuration: Configuration) -> Module:
    module = Module(in_place(lmk), [Card(*it) for it in configuration.cards])
    try:
        load("zone", lambda: module.load_zone(configuration.zone.encode()))
        for at, (prefix, block) in enumerate(configuration.keys.items(), 1):
            load(f"bdk {at}", lambda: module.load_bdk(prefix, block.encode()))
    except Refused:
        module.close()
        raise
    return module


def load(name: str, loads: Callable[[], None]) -> None:
    try:
        loads()
    except DukptError as why:
        fault = FAULTS.get(type(why), "no key block")
        raise Refused(f"config: {name}: {fault}") from None
