"""The terminal of the Python package: it stores before it gives a key, whatever the store does."""
from __future__ import annotations

import copy
import multiprocessing
import os
import pickle
import signal
import threading
from typing import Any, Callable, NoReturn

from ..support.formats.images import image_of, read_image
from ..support.library.python_library import PythonLibraryCase
from ..support.standards.dukpt import SPENT, Registers, initial_key, key_of, registers_at
from ..vectors.test_ciphers import BASE, IKSN

INITIAL = initial_key(BASE, IKSN)
OTHER = 0xFFFF9876543210C00000
TAKEN = 300
SECONDS, ALARM = 60, 15
# What a terminal says in a process that is not its own.
FORKED = ("^RuntimeError: the terminal is of another process, and a fork copied it: open the "
          "stored image in one process$")


def bytes_of(serial: int) -> bytes:
    return serial.to_bytes(10, "big")


class Full(Exception):
    """That a store cannot keep an image."""


class TerminalCase(PythonLibraryCase):
    def setUp(self) -> None:
        super().setUp()
        self.terminal = self.dukpt.Terminal.load(INITIAL, bytes_of(IKSN))
        self.stored: list[bytes] = []

    def at(self, counter: int) -> Any:
        return self.dukpt.Terminal.at(INITIAL, bytes_of(IKSN + counter))

    def full(self, image: bytes) -> NoReturn:
        """A store that sees the image, and does not keep it."""
        self.stored.append(image)
        raise Full


class TestLife(TerminalCase):
    def test_numbers_in_turn(self) -> None:
        """Keys, numbers and images are those of the model, and each image leads on after a stop."""
        for start in (1, 0x7FB, self.chance.randrange(1 << 10) << 11 | 1):
            terminal, model = self.at(start), registers_at(INITIAL, IKSN, start)
            self.assertEqual(terminal.image, image_of(model))
            for _ in range(TAKEN * self.times):
                self.assertEqual(terminal.number, bytes_of(IKSN + model.counter))
                key, serial, model = model.take()
                taken = terminal.take(self.stored.append)
                self.assertEqual(taken, (key, bytes_of(serial)))
                self.assertEqual((taken.key, taken.ksn), taken)
                self.assertEqual(self.stored[-1], image_of(model))
                self.assertEqual(terminal.image, self.stored[-1])
                if self.chance.random() < 0.3:
                    terminal = self.dukpt.Terminal.from_image(self.stored[-1])

    def test_lives(self) -> None:
        """A terminal is loaded nine times, and no number comes again."""
        iksns = [IKSN, *(0xFFFF987654 << 40 | life << 21 for life in range(1, 9))]
        for life, iksn in enumerate(iksns):
            if life:
                self.terminal.reload(INITIAL, bytes_of(iksn), self.stored.append)
                wanted = image_of(registers_at(INITIAL, iksn, 1, tuple(iksns[:life])))
                self.assertEqual((self.stored[-1], self.terminal.image), (wanted, wanted))
            taken = self.terminal.take(self.stored.append)
            self.assertEqual(taken, (key_of(INITIAL, iksn + 1), bytes_of(iksn + 1)))
        before = self.terminal.image
        with self.assertRaises(self.dukpt.faults.IksnSpent):
            self.terminal.reload(INITIAL, bytes_of(IKSN), self.stored.append)
        with self.assertRaises(self.dukpt.faults.LoadsSpent):
            self.terminal.reload(INITIAL, bytes_of(OTHER), self.stored.append)
        self.assertEqual((self.terminal.image, self.stored[-1]), (before, before))

    def test_the_end(self) -> None:
        terminal = self.at(0x1FF800)
        key, ksn = terminal.take(self.stored.append)
        self.assertEqual((key, ksn), (key_of(INITIAL, IKSN + 0x1FF800), bytes_of(IKSN + 0x1FF800)))
        spent = image_of(Registers(IKSN, SPENT, (bytes(16),) * 21))
        self.assertEqual(self.stored, [spent])
        for it in (terminal, self.dukpt.Terminal.from_image(spent)):
            with self.assertRaises(self.dukpt.faults.Spent):
                it.take(self.stored.append)
            with self.assertRaises(self.dukpt.faults.Spent):
                it.number
            self.assertIn("spent", repr(it))
        self.assertEqual(self.stored, [spent])

    def test_images(self) -> None:
        """An image of version 1 is read, and the next one is of version 2; what is none is none."""
        model = registers_at(INITIAL, IKSN, 5)
        terminal = self.dukpt.Terminal.from_image(bytearray(image_of(model, 1)))
        self.assertEqual(terminal.image, image_of(model, 1))
        terminal.take(self.stored.append)
        self.assertEqual(self.stored, [image_of(model.take()[2])])
        for wrong in (b"", self.stored[0][:-1], b"\x03" + self.stored[0][1:]):
            with self.assertRaises(self.dukpt.faults.NotAnImage):
                self.dukpt.Terminal.from_image(wrong)


class TestStores(TerminalCase):
    """What a store does."""

    def test_the_order(self) -> None:
        """While the store is asked, the terminal has no key given, and is as it was."""
        before = self.terminal.image
        seen = []

        def store(image: bytes) -> None:
            seen.append((self.terminal.image, self.terminal.number, image))

        key, _ = self.terminal.take(store)
        model = registers_at(INITIAL, IKSN, 2)
        self.assertEqual(seen, [(before, bytes_of(IKSN + 1), image_of(model))])
        self.assertNotIn(key, read_image(seen[0][2]).keys)

    def test_a_store_that_fails(self) -> None:
        before = self.terminal.image
        for _ in range(3):
            with self.assertRaises(Full):
                self.terminal.take(self.full)
            with self.assertRaises(Full):
                self.terminal.reload(INITIAL, bytes_of(OTHER), self.full)
        self.assertEqual(self.terminal.image, before)
        self.assertEqual(len(self.stored), 6)
        self.assertEqual(self.terminal.take(self.stored.append).ksn, bytes_of(IKSN + 1))

    def test_what_is_no_store(self) -> None:
        """It gives no key, and the terminal is as it was."""
        async def later(image: bytes) -> None:
            self.stored.append(image)

        before = self.terminal.image
        for store in (None, b"", "image", later, lambda: None, lambda image, more: None):
            with self.assertRaises(TypeError):
                self.terminal.take(store)
            with self.assertRaises(TypeError):
                self.terminal.reload(INITIAL, bytes_of(OTHER), store)
        self.assertEqual((self.terminal.image, self.stored), (before, []))

    def test_a_store_that_takes(self) -> None:
        """A store that takes a number itself would get the key that the first one waits for."""
        taken = []

        def store(image: bytes) -> None:
            taken.append(self.terminal.take(self.stored.append))

        with self.assertRaises(RuntimeError):
            self.terminal.take(store)
        self.assertEqual(taken, [])
        self.assertEqual(self.terminal.number, bytes_of(IKSN + 1))

    def test_threads(self) -> None:
        """Threads that share a terminal get each number once, behind its image."""
        taken: list[tuple[bytes, bytes]] = []

        def work() -> None:
            for _ in range(40):
                key, ksn = self.terminal.take(self.stored.append)
                taken.append((key, ksn))

        threads = [threading.Thread(target=work) for _ in range(8)]
        for thread in threads:
            thread.start()
        for thread in threads:
            thread.join()
        model, wanted, images = registers_at(INITIAL, IKSN, 1), [], []
        for _ in range(320):
            key, serial, model = model.take()
            wanted.append((key, bytes_of(serial)))
            images.append(image_of(model))
        self.assertEqual(sorted(taken, key=lambda it: it[1]), wanted)
        self.assertEqual(self.stored, images)


class TestProcesses(TerminalCase):
    """A process that a fork made has a copy of the terminal, which gives nothing."""

    def in_child(self, what: Callable[[], object]) -> str:
        """What comes of it in a forked process: the name of an exception and its text, or what it
        gives."""
        mine, theirs = os.pipe()
        child = os.fork()
        if child == 0:
            # Where it waits for a lock that nobody has, this ends it.
            signal.alarm(ALARM)
            try:
                said = repr(what())
            except BaseException as why:
                said = f"{type(why).__name__}: {why}"
            os.write(theirs, said.encode())
            os._exit(0)
        os.close(theirs)
        with open(mine, "rb") as given:
            said = given.read().decode()
        self.assertEqual(os.waitpid(child, 0)[1], 0)
        return said

    def test_a_fork(self) -> None:
        """It is refused before the store is asked, and before anything is taken."""
        log = self.folder() / "stored"

        def store(image: bytes) -> None:
            log.write_bytes(image)

        for what in (lambda: self.terminal.take(store),
                     lambda: self.terminal.reload(INITIAL, bytes_of(OTHER), store),
                     lambda: self.terminal.image):
            self.assertRegex(self.in_child(what), FORKED)
            self.assertFalse(log.exists())
        self.assertEqual(self.terminal.take(self.stored.append).ksn, bytes_of(IKSN + 1))

    def test_a_fork_while_a_thread_takes(self) -> None:
        """The lock that the copy has is held by a thread that the child has not."""
        inside, done = threading.Event(), threading.Event()

        def store(image: bytes) -> None:
            inside.set()
            done.wait(SECONDS)

        thread = threading.Thread(target=self.terminal.take, args=(store,))
        thread.start()
        self.assertTrue(inside.wait(SECONDS))
        said = self.in_child(lambda: self.terminal.take(self.stored.append))
        done.set()
        thread.join()
        self.assertRegex(said, FORKED)

    def test_a_store_that_forks(self) -> None:
        """Of two processes that return from a store one has the key."""
        ends = os.pipe()
        before = os.getpid()

        def store(image: bytes) -> None:
            self.stored.append(image)
            os.fork()

        try:
            taken = self.terminal.take(store)
            said = f"{taken.ksn.hex()}"
        except BaseException as why:
            said = f"{type(why).__name__}: {why}"
        if os.getpid() != before:
            os.write(ends[1], said.encode())
            os._exit(0)
        os.wait()
        os.close(ends[1])
        with open(ends[0], "rb") as given:
            self.assertRegex(given.read().decode(), FORKED)
        self.assertEqual(said, bytes_of(IKSN + 1).hex())

    def test_a_terminal_of_the_child(self) -> None:
        """It may open the stored image itself."""
        image = self.terminal.image
        said = self.in_child(
            lambda: self.dukpt.Terminal.from_image(image).take(self.stored.append).ksn.hex())
        self.assertEqual(said, repr(bytes_of(IKSN + 1).hex()))

    def test_many(self) -> None:
        """Eight children at once: none has a number."""
        with multiprocessing.get_context("fork").Pool(8, taking, (self.terminal,)) as pool:
            said = pool.map(take_in_child, range(16))
        self.assertEqual({it[: len("RuntimeError")] for it in said}, {"RuntimeError"})


def taking(terminal: Any) -> None:
    """Where a child of a pool has the terminal."""
    take_in_child.terminal = terminal  # type: ignore[attr-defined]


def take_in_child(_: int) -> str:
    try:
        return str(take_in_child.terminal.take(lambda image: None))  # type: ignore[attr-defined]
    except RuntimeError as why:
        return f"RuntimeError: {why}"


class TestSecrets(TerminalCase):
    def test_no_copies(self) -> None:
        for way in (copy.copy, copy.deepcopy, pickle.dumps):
            with self.assertRaises(TypeError):
                way(self.terminal)
        for protocol in range(pickle.HIGHEST_PROTOCOL + 1):
            with self.assertRaises(TypeError):
                pickle.dumps({"terminal": self.terminal}, protocol)

    def secrets(self) -> dict[str, bytes]:
        """Each secret that a call gives, by the call's name."""
        key, ksn, pan = INITIAL, bytes_of(IKSN + 1), b"4012345678909"
        image = self.terminal.image
        frame = self.dukpt.payment_request(key, ksn, pan, b"1234", 1)
        text = self.dukpt.wrap(key, b"B1TX00N", key, bytes(6))
        return {
            "initial_key": self.dukpt.initial_key(BASE, bytes_of(IKSN)),
            "derive": self.dukpt.derive(BASE, ksn),
            "derive_from_initial": self.dukpt.derive_from_initial(key, ksn),
            **{name: getattr(self.dukpt, name)(key) for name in (
                "pin_key", "request_key", "response_key", "request_data_key",
                "response_data_key")},
            "registers_load": self.dukpt.registers_load(key, bytes_of(IKSN)),
            "registers_at": self.dukpt.registers_at(key, ksn),
            "registers_reload": self.dukpt.registers_reload(image, key, bytes_of(OTHER)),
            "pin_block": self.dukpt.pin_block(b"1234", pan),
            "pin_of_block": self.dukpt.pin_of_block(self.dukpt.pin_block(b"1234", pan), pan),
            "request_pin": self.dukpt.request_pin(key, frame),
            "unwrap": self.dukpt.unwrap(key, text).key,
            "unwrap_for": self.dukpt.unwrap_for(key, b"B1", 16, text),
            "registers_next": self.dukpt.registers_next(image).key,
            "registers_next image": self.dukpt.registers_next(image).image,
            "image": image, "take": self.terminal.take(self.stored.append).key,
            "stored": self.stored[-1],
        }

    def test_secrets(self) -> None:
        """Keys, PINs, clear PIN blocks and images are bytes that say how many they are."""
        for name, value in self.secrets().items():
            self.assertIsInstance(value, bytes, name)
            said = f"<{len(value)} secret bytes>"
            for spoken in (repr(value), str(value), f"{value}", f"{value!r}", "%s" % value,
                           "{}".format(value), ascii(value), repr([value])[1:-1]):
                self.assertEqual(spoken, said, name)
            plain = bytes(bytearray(value))
            self.assertEqual((value, hash(value), value.hex()), (plain, hash(plain), plain.hex()))
            self.assertEqual(pickle.loads(pickle.dumps(value)), plain)

    def test_a_fault_has_no_value(self) -> None:
        """What is raised names lengths, and no byte of a key."""
        with self.assertRaises(self.dukpt.DukptError) as raised:
            self.dukpt.derive(INITIAL[1:], bytes_of(IKSN + 1))
        self.assertNotIn(INITIAL[1:].hex(), str(raised.exception).lower())
        self.assertNotIn(repr(INITIAL[1:])[2:-1], repr(raised.exception))

    def test_what_is_shown(self) -> None:
        """The rest is in hexadecimal."""
        dukpt, ksn, other = self.dukpt, bytes_of(IKSN + 1), bytes_of(IKSN + 2)
        frame = dukpt.payment_request(INITIAL, ksn, b"4012345678909", b"1234", 1)
        reversal = dukpt.reversal_request(INITIAL, other, ksn)
        text = dukpt.wrap(INITIAL, b"B1TX00N", INITIAL, bytes(6))
        first, second = f"{IKSN + 1:020X}", f"{IKSN + 2:020X}"
        for value, said in (
            (dukpt.read_request(frame),
             f"Request(ksn={first}, pan=.., amount=1, block={frame[-16:-8].hex().upper()}, "
             f"mac={frame[-8:].hex().upper()})"),
            (dukpt.read_reply(dukpt.request_reply(INITIAL, ksn, b"51")),
             f"Reply(ksn={first}, code=51)"),
            (dukpt.read_refusal(dukpt.request_refusal(ksn, 6)), f"Refusal(ksn={first}, reason=6)"),
            (dukpt.read_reversal(reversal),
             f"Reversal(ksn={second}, reversed={first}, mac={reversal[-8:].hex().upper()})"),
            (dukpt.read_reversal_reply(dukpt.reversal_reply(INITIAL, other, ksn, 1)),
             f"ReversalReply(ksn={second}, reversed={first}, state=1)"),
            (dukpt.unwrap(INITIAL, text), "KeyBlock(header=B1TX00N, key=..)"),
            (dukpt.registers_next(self.terminal.image),
             f"Taken(image=.., key=.., ksn={first})"),
            (self.terminal.take(self.stored.append), f"Transaction(key=.., ksn={first})"),
            (self.terminal, f"<dukpt.Terminal, next {second}>"),
        ):
            self.assertEqual((repr(value), str(value)), (said, said))
