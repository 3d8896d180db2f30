"""A terminal, which stores its next image before it gives a key."""
from __future__ import annotations

import inspect
import os
from threading import RLock
from typing import Callable, NamedTuple, NoReturn

from ._library import Data, as_bytes
from ._registers import (
    registers_at, registers_load, registers_next, registers_number, registers_reload)
from ._values import Secret, shown
from .faults import Spent

# Keeps an image so that it outlives a stop, or raises.
Store = Callable[[bytes], object]


class Transaction(NamedTuple):
    """A transaction key (16 bytes) and its key serial number (10). Its `repr` has no key."""

    key: Secret
    ksn: bytes

    def __repr__(self) -> str:
        return shown(self)


class Terminal:
    """A terminal over the image of its registers.

    `image` is what a store keeps, and with which `from_image` begins after a stop. What changes the
    registers takes a function `store` that keeps the next image: it is called first, and only after
    it has returned the terminal changes and gives a key. Where it raises, the terminal is as it
    was, and no key was given.

    There is one terminal for a stored image, and no copy of it: two of them would use each number
    twice. Threads may share it; a process that was forked may not. There `take`, `reload` and
    `image` raise a `RuntimeError`, and nothing is taken. Processes that open one stored image, each
    a terminal of its own, hold a lock from reading it to storing the next one.

    >>> initial = bytes.fromhex("6AC292FAA1315B4D858AB3A3D7D5933A")
    >>> stored = []
    >>> terminal = Terminal.load(initial, bytes.fromhex("FFFF9876543210E00000"))
    >>> key, ksn = terminal.take(stored.append)
    >>> key.hex().upper(), ksn.hex().upper()
    ('042666B49184CFA368DE9628D0397BC9', 'FFFF9876543210E00001')
    >>> after_a_stop = Terminal.from_image(stored[-1])
    >>> after_a_stop.take(stored.append).key.hex().upper()
    'C46551CEF9FD24B0AA9AD834130D3BC7'
    """

    __slots__ = ("_image", "_lock", "_process", "_storing")

    def __init__(self, image: Data) -> None:
        """Raises `NotAnImage`."""
        self._image = Secret(as_bytes("image", image))
        self._lock = RLock()
        self._process = os.getpid()
        self._storing = False
        try:
            registers_number(self._image)
        except Spent:
            pass

    @classmethod
    def load(cls, initial: Data, iksn: Data) -> Terminal:
        """A terminal that has used no number yet, from its initial key (16 bytes) and its initial
        key serial number (10). It is stored with its first number, or as `image` before that.

        Raises `Length`, then `NotInitial`.
        """
        return cls(registers_load(initial, iksn))

    @classmethod
    def at(cls, initial: Data, ksn: Data) -> Terminal:
        """A terminal whose next key serial number is this one (10 bytes), from its initial key
        (16).

        Raises `Length`, then `NotUsable`.
        """
        return cls(registers_at(initial, ksn))

    @classmethod
    def from_image(cls, image: Data) -> Terminal:
        """The terminal whose image a store kept: 431 bytes, or 350 of version 1.

        Raises `NotAnImage`.
        """
        return cls(image)

    @property
    def image(self) -> Secret:
        """The image of the terminal as it is."""
        self._demand_own_process()
        return self._image

    @property
    def number(self) -> bytes:
        """The key serial number (10 bytes) that the terminal uses next.

        Raises `Spent`.
        """
        return registers_number(self._image)

    def take(self, store: Store) -> Transaction:
        """Uses the next number: has the next image stored, and only then gives the transaction key
        and the key serial number.

        Raises `Spent`, and what `store` raises.
        """
        self._demand_own_process()
        with self._lock:
            taken = registers_next(self._image)
            self._keep(store, taken.image)
            return Transaction(taken.key, taken.ksn)

    def reload(self, initial: Data, iksn: Data, store: Store) -> None:
        """Gives the terminal another initial key (16 bytes) under another initial key serial number
        (10), once the image of that is stored.

        Raises `Length`, then `NotInitial`, `IksnSpent`, `LoadsSpent`, and what `store` raises.
        """
        self._demand_own_process()
        with self._lock:
            self._keep(store, registers_reload(self._image, initial, iksn))

    def _demand_own_process(self) -> None:
        """A fork copies the terminal. The copy would give the numbers and keys of the first one."""
        if os.getpid() != self._process:
            raise RuntimeError(
                "the terminal is of another process, and a fork copied it: open the stored image "
                "in one process")

    def _keep(self, store: Store, image: Secret) -> None:
        """Has an image stored, and has it only then."""
        if self._storing:
            raise RuntimeError("the terminal waits for its store, which may not change it")
        self._storing = True
        try:
            kept = store(image)
        finally:
            self._storing = False
        # A store that forks returns in both processes.
        self._demand_own_process()
        if inspect.isawaitable(kept):
            raise TypeError("store is to keep the image before it returns, and not later")
        self._image = image

    def __reduce__(self) -> NoReturn:
        raise TypeError("a terminal is not copied: store its image")

    def __repr__(self) -> str:
        try:
            return f"<dukpt.Terminal, next {self.number.hex().upper()}>"
        except Spent:
            return "<dukpt.Terminal, spent>"
