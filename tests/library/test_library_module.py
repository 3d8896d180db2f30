"""A host's security module and its two steps, in C and in Python, by the bench's own ciphers."""
from __future__ import annotations

import copy
import ctypes
import os
import pickle
import threading
from pathlib import Path
from typing import Any, Sequence
from unittest.mock import patch

from ..support.formats import frames
from ..support.library.library import built_library
from ..support.library.library_calls import STATUS, answer
from ..support.library.library_modules import (
    CARD, ENTRY, FULL, IMAGE, KEPT, KNOWN_AGAIN, USED, Card, card_bytes, entries_in, held_in, image_of)
from ..support.library.library_values import ROOM, parts
from ..support.library.python_library import PythonLibraryCase
from ..support.standards import key_blocks
from ..support.standards.dukpt import derive

BDK_HEADER, ZONE_HEADER = b"B0TX00N", b"P0TB00N"
PADDING = {16: bytes(6), 24: bytes(6)}
# As many as are worked on at once, and two more.
MOST = 130


class ModuleCase(PythonLibraryCase):
    """A module with three key sets and a zone key, and some cards."""

    def setUp(self) -> None:
        super().setUp()
        chance = self.chance
        self.lmk = chance.randbytes(chance.choice((16, 24)))
        self.keys = {chance.randbytes(5): chance.randbytes(16) for _ in range(3)}
        self.zone = chance.randbytes(chance.choice((16, 24)))
        self.cards = [Card(self.digits(12, 19), self.digits(4, 12), chance.randrange(2_000))
                      for _ in range(5)]
        self.cards.append(Card(self.cards[0].pan, self.digits(4, 12), 0))
        self.image = self.image_with(self.keys, self.zone)
        self.card_bytes = b"".join(map(card_bytes, self.cards))

    def digits(self, least: int, most: int) -> str:
        return "".join(self.chance.choices("0123456789", k=self.chance.randint(least, most)))

    def wrapped(self, header: bytes, key: bytes) -> bytes:
        return key_blocks.wrap(self.lmk, header, key, PADDING[len(key)])

    def image_with(self, keys: dict[bytes, bytes], zone: bytes) -> bytes:
        entries = [(0, prefix, self.wrapped(BDK_HEADER, key)) for prefix, key in keys.items()]
        entries.insert(self.chance.randrange(len(entries) + 1),
                       (1, bytes(5), self.wrapped(ZONE_HEADER, zone)))
        return image_of(self.lmk, entries)

    def module(self) -> Any:
        made = self.dukpt.Module(
            self.lmk, [self.dukpt.Card(it.pan.encode(), it.pin.encode(), it.limit)
                       for it in self.cards])
        for kind, prefix, block in entries_in(self.image):
            if kind:
                made.load_zone(block)
            else:
                made.load_bdk(prefix, block)
        return made

    def serial(self, prefix: bytes) -> int:
        """A number of a key set, mostly a usable one."""
        counter = self.chance.choice((1, 2, 0x10, 0x1FFFFF, 0, 0xFF800, 3, 0x155))
        return (int.from_bytes(prefix, "big") << 40) + (self.chance.getrandbits(19) << 21) + counter

    def frame(self) -> bytes:
        """A payment or a reversal, mostly a right one."""
        chance = self.chance
        prefix, key = chance.choice(list(self.keys.items()))
        serial = self.serial(prefix if chance.random() < 0.9 else chance.randbytes(5))
        own = derive(key, serial)
        if chance.random() < 0.3:
            made = frames.write_reversal(own, serial, serial ^ 4)
        else:
            card = chance.choice(self.cards)
            pan = card.pan if chance.random() < 0.8 else self.digits(12, 19)
            pin = card.pin if chance.random() < 0.8 else self.digits(4, 12)
            made = frames.write_request(own, serial, pan, pin, chance.randrange(2_500))
            if chance.random() < 0.1:
                made = frames.request_of_block(own, serial, pan, 1, chance.getrandbits(64))
        way = chance.randrange(15)
        if way == 0:
            return made[:-1] + bytes([made[-1] ^ 1])
        return made[:-1] if way == 1 else made

    def settled(self, judged: bytes) -> bytes:
        """What a book may make of what was judged, or of something else."""
        chance = self.chance
        became = chance.choice((KEPT, KNOWN_AGAIN, USED, FULL))
        said = bytearray(judged)
        said[1] = became
        if said[0] == 2:
            said[30] = chance.randrange(2)
        if said[0] == 1:
            said[16:18] = chance.choice((b"00", b"14", b"30", b"51", b"55"))
        if chance.random() < 0.1:
            said[chance.choice((0, 1, 2, 11, 16, 21, 30))] ^= chance.choice((1, 4, 0x80))
        return bytes(said)


def on_stack(secrets: Sequence[bytes]) -> list[bytes]:
    """The secrets of which 8 bytes are on the stack of the process."""
    lines = Path("/proc/self/maps").read_text().splitlines()
    begin, end = next(line.split(" ")[0].split("-") for line in lines if line.endswith("[stack]"))
    with open("/proc/self/mem", "rb", buffering=0) as memory:
        memory.seek(int(begin, 16))
        stack = memory.read(int(end, 16) - int(begin, 16))
    return [it for it in secrets if any(stack.find(it[at : at + 8]) >= 0 for at in range(0, len(it), 8))]


class TestCalls(ModuleCase):
    """The exports, and the package over them."""

    def setUp(self) -> None:
        super().setUp()
        self.library = ctypes.CDLL(str(built_library() / "libdukpt.so.0"))

    def call(self, name: str, *given: bytes) -> tuple[int, bytes]:
        """The status of a call, and its last argument afterwards."""
        held = ctypes.create_string_buffer(given[-1], len(given[-1]))
        words: list[Any] = [word for it in given[:-1] for word in (it, ctypes.c_size_t(len(it)))]
        return getattr(self.library, name)(*words, held, ctypes.c_size_t(len(held))), held.raw

    def check_call(self, name: str, *given: bytes) -> bytes:
        """That a call answers what the bench does. Gives what it wrote."""
        found = self.call(name, *given)
        wanted = answer(name, given)
        self.assertEqual(found, (wanted.status, wanted.arguments[-1]), name)
        return found[1]

    def test_loads(self) -> None:
        """Key blocks of each kind, right ones and others, in each order."""
        for _ in range(60 * self.times):
            lmk, more = self.chance.choice((self.lmk, self.lmk[:15])), self.chance.choice((0, 7, -1))
            self.check_call("dukpt_module_new", lmk, self.chance.randbytes(IMAGE + more))
            image = image_of(self.lmk)
            for _ in range(11):
                header = self.chance.choice((BDK_HEADER, BDK_HEADER, BDK_HEADER, ZONE_HEADER,
                                             b"B0TN00N", b"P0TE00S", b"K0TB00N", b"B0TE00N"))
                size = self.chance.choice((16, 16, 24))
                block = self.wrapped(header, self.chance.randbytes(size))
                if self.chance.random() < 0.1:
                    at = self.chance.randrange(len(block))
                    block = block[:at] + b"0" + block[at + 1 :]
                prefix = self.chance.choice((*self.keys, self.chance.randbytes(5)))
                if self.chance.random() < 0.3:
                    image = self.check_call("dukpt_module_load_zone", block, image)
                else:
                    image = self.check_call("dukpt_module_load_bdk", prefix, block, image)
            spoiled = bytearray(image)
            at = self.chance.choice((0, 1, 2, 40, 4680, 4681, 4690))
            spoiled[at] ^= 1 << self.chance.randrange(8)
            self.check_call("dukpt_module_load_zone", self.wrapped(ZONE_HEADER, self.zone),
                            bytes(spoiled))

    def test_steps(self) -> None:
        """Groups of each length are judged, settled somehow and answered."""
        reached: set[bytes] = set()
        for size in (*range(4), 64, 127, 128, 129, MOST):
            given = [self.frame() for _ in range(size)]
            places = b"".join(it + self.chance.randbytes(ROOM - len(it)) for it in given)
            judged = self.check_call("dukpt_host_judge", self.image, self.card_bytes, places,
                                     self.chance.randbytes(len(places) + 3))
            reached.update(it[:1] + it[13:14] for it in parts(judged[: len(places)], ROOM))
            said = b"".join(map(self.settled, parts(judged[: len(places)], ROOM)))
            self.check_call("dukpt_host_answer", self.image, said,
                            self.chance.randbytes(len(said) + 5))
        self.assertGreater(len(reached), 3)

    def test_refused_calls(self) -> None:
        """Each fault of the two steps, and nothing is written then."""
        frame = self.frame().ljust(ROOM, b"\0")
        room = self.chance.randbytes(ROOM)
        without = image_of(self.lmk, [it for it in entries_in(self.image) if it[0] == 0])
        bad_card = b"\x0b" + self.card_bytes[1:]
        for image, cards, status in (
                (self.image, self.card_bytes[:-1], "Length"), (self.image[:-1], b"", "Length"),
                (bytes(IMAGE), b"", "NotAModule"), (without, bad_card, "NoZone"),
                (self.image, bad_card, "NotACard"), (self.image, self.card_bytes, "Ok")):
            self.assertEqual(self.call("dukpt_host_judge", image, cards, frame, room)[0],
                             STATUS[status])
            self.check_call("dukpt_host_judge", image, cards, frame, room)
        for image, settled, status in (
                (self.image, frame[:-1], "Length"), (bytes(IMAGE), frame, "NotAModule"),
                (without, frame, "Ok")):
            found = self.call("dukpt_host_answer", image, settled, room)[0]
            self.assertEqual(found, STATUS[status])
            self.check_call("dukpt_host_answer", image, settled, room)


class TestModule(ModuleCase):
    """The package's class."""

    def steps(self, module: Any, given: Sequence[bytes]) -> None:
        """That frames are judged and answered as the bench does."""
        held = held_in(self.image)
        places = b"".join(it.ljust(ROOM, b"\0") for it in given)
        wanted = answer("dukpt_host_judge",
                        (self.image, self.card_bytes, places, bytes(len(places)))).arguments[-1]
        judged = module.judge(given)
        self.assertEqual(len(judged), len(given))
        assert isinstance(wanted, bytes)
        authentic = []
        for found, place in zip(judged, parts(wanted, ROOM)):
            if place[0] == 1:
                self.assertEqual(found, (place[2:12], int.from_bytes(place[12:16], "big"),
                                         place[16:18], place[18:26]))
                self.assertIsInstance(found, self.dukpt.Payment)
                authentic.append(found)
            elif place[0] == 2:
                self.assertEqual(found, (place[2:12], place[12:22], place[22:30]))
                self.assertIsInstance(found, self.dukpt.Reversal)
                authentic.append(found)
            else:
                self.assertEqual(found, (place[: 2 + place[1]],))
                self.assertIsInstance(found, self.dukpt.Refused)
        settled, answers = [], []
        for it in authentic:
            became = self.chance.choice(list(self.dukpt.Settlement))
            state = self.chance.randrange(2)
            settled.append(self.dukpt.Settled(it, became, state))
            serial = int.from_bytes(it.ksn, "big")
            key = derive(held.bdks[it.ksn[:5]], serial)
            if became in (USED, FULL):
                answers.append(frames.write_refusal(serial, 5 if became == USED else 6))
            elif isinstance(it, self.dukpt.Payment):
                answers.append(frames.write_reply(key, serial, it.code.decode()))
            else:
                answers.append(frames.write_reversal_reply(
                    key, serial, int.from_bytes(it.reversed, "big"), state))
        self.assertEqual(module.answer(settled), answers)

    def test_steps(self) -> None:
        with self.module() as module:
            for size in (0, 1, 2, 127, 128, 129):
                self.steps(module, [it for it in (self.frame() for _ in range(size))
                                    if len(it) == 2 + it[1]])
        with self.assertRaisesRegex(RuntimeError, "^the module is closed$"):
            module.judge([])
        with self.assertRaisesRegex(RuntimeError, "^the module is closed$"):
            module.load_zone(b"")
        module.close()

    def test_no_whole_frames(self) -> None:
        with self.module() as module:
            found = module.judge([b"", b"\0", b"\0\x05ab", self.frame() + b"\0", bytes(70)])
            self.assertEqual(found, [(frames.write_refusal(0, 1),)] * 5)

    def test_faults(self) -> None:
        faults = self.dukpt.faults
        with self.assertRaises(faults.Length):
            self.dukpt.Module(bytes(15))
        for card in ((b"1" * 11, b"1234", 0), (b"1" * 12, b"123", 0),
                     (b"1" * 11 + b"a", b"1234", 0)):
            with self.assertRaisesRegex(faults.NotACard, r"cards\[0\]$") as raised:
                self.dukpt.Module(self.lmk, [self.dukpt.Card(*card)])
            self.assertNotIn("1111", str(raised.exception))
        zone = self.wrapped(ZONE_HEADER, self.zone)
        bdk = self.wrapped(BDK_HEADER, bytes(16))
        with self.dukpt.Module(self.lmk) as module:
            with self.assertRaises(faults.NoZone):
                module.judge([])
            with self.assertRaises(faults.Length):
                module.load_bdk(bytes(4), bdk)
            with self.assertRaises(faults.WrongUse):
                module.load_zone(bdk)
            with self.assertRaises(faults.BlockLength):
                module.load_zone(zone[:-1])
            module.load_zone(zone)
            with self.assertRaises(faults.ZoneTaken):
                module.load_zone(zone)
            for number in range(8):
                module.load_bdk(bytes([number] * 5), bdk)
            with self.assertRaises(faults.PrefixTaken):
                module.load_bdk(bytes(5), bdk)
            with self.assertRaises(faults.SlotsFull):
                module.load_bdk(b"other", bdk)
            kept = self.dukpt.Settlement.KEPT
            payment = self.dukpt.Payment(bytes(9) + b"\1", 1, b"00", bytes(8))
            self.assertEqual(len(module.answer([self.dukpt.Settled(payment, kept)])), 1)
            for other, fault in (
                    (payment._replace(code=b"99"), faults.NotSettled),
                    (payment._replace(ksn=bytes(9)), faults.NotSettled),
                    (payment._replace(ksn=bytes(10)), faults.NotUsable),
                    (payment._replace(ksn=b"\xff" * 9 + b"\1"), faults.NoKeySet)):
                with self.assertRaises(fault):
                    module.answer([self.dukpt.Settled(other, kept)])

    def test_is_not_shown_or_copied(self) -> None:
        module = self.module()
        self.assertEqual(repr(module), "<dukpt.Module>")
        for way in (copy.copy, copy.deepcopy, pickle.dumps):
            with self.assertRaises(TypeError):
                way(module)
        card = self.dukpt.Card(b"4012345678909", b"1234", 5)
        self.assertEqual(repr(card), "Card(pan=.., pin=.., limit=5)")
        module.close()
        self.assertEqual(repr(module), "<dukpt.Module, closed>")

    def test_is_wiped(self) -> None:
        """Zeros stand where the keys and the cards were, when it is closed and when it is gone."""
        for way in ("close", "__del__"):
            module = self.module()
            image, cards = module._image, module._cards
            self.assertIn(self.lmk, image.raw)
            getattr(module, way)()
            self.assertEqual((image.raw, cards.raw), (bytes(IMAGE), bytes(CARD * len(self.cards))))

    def test_a_refused_card_leaves_no_key(self) -> None:
        """What is made before a card is refused is overwritten with the module."""
        rooms, room = [], self.dukpt._module.room

        def kept(size: int) -> Any:
            rooms.append(room(size))
            return rooms[-1]

        with patch.object(self.dukpt._module, "room", kept):
            with self.assertRaises(self.dukpt.faults.NotACard):
                self.dukpt.Module(self.lmk, [self.dukpt.Card(b"1" * 11, b"1234", 0)])
        self.assertEqual(rooms[0].raw, bytes(IMAGE))

    def test_stack_is_wiped(self) -> None:
        """No key of the module is on the stack behind either step; without the wipe one is."""
        module, given = self.module(), [self.frame() for _ in range(30)]
        kept = self.dukpt.Settlement.KEPT
        settled = [self.dukpt.Settled(it, kept) for it in module.judge(given)
                   if not isinstance(it, self.dukpt.Refused)]
        secrets = [self.lmk, self.zone, *self.keys.values()]
        for step in (lambda: module.judge(given), lambda: module.answer(settled)):
            step()
            self.assertEqual(on_stack(secrets), [])
            with patch.object(self.dukpt._module, "wipe_host_stack"):
                step()
            self.assertNotEqual(on_stack(secrets), [])
            # Whatever the next step is, it begins without them.
            self.dukpt._module.wipe_host_stack()

    def test_what_is_refused_is_not_settled(self) -> None:
        with self.module() as module:
            refused, = module.judge([b""])
            kept = self.dukpt.Settlement.KEPT
            with self.assertRaisesRegex(TypeError, "^candidate is to be a Payment or a Reversal, and "
                                                   "not Refused$"):
                module.answer([self.dukpt.Settled(refused, kept)])
            self.assertEqual(module.answer([]), [])

    def test_others_are_refused(self) -> None:
        """Where the module is another's, or its image was changed, nothing is judged by it."""
        given = [self.frame() for _ in range(4)]
        module, other = self.module(), self.dukpt.Module(self.lmk[::-1])
        for at, (kind, prefix, block) in enumerate(entries_in(self.image)):
            with self.assertRaises(self.dukpt.faults.BlockMac):
                if kind:
                    other.load_zone(block)
                else:
                    other.load_bdk(prefix, block)
            for place in (ENTRY * at + 2, ENTRY * at + 8 + 50):
                module._image[place] = bytes([module._image.raw[place] ^ 0x10])
                for refused in (lambda: module.judge(given), lambda: module.answer([]),
                                lambda: module.load_zone(block)):
                    with self.assertRaises(self.dukpt.faults.NotAModule):
                        refused()
                module._image[place] = bytes([module._image.raw[place] ^ 0x10])
        self.assertEqual(len(module.judge(given)), 4)

    def test_a_fork_closes(self) -> None:
        """A process closes what a fork copied in the midst of calls, and does not wait for these."""
        module = self.module()
        module._users = 1
        module._changed.acquire()
        child = os.fork()
        if child == 0:
            closed = threading.Thread(target=module.close, daemon=True)
            closed.start()
            closed.join(20)
            os._exit(0 if module._image is None and not closed.is_alive() else 1)
        module._changed.release()
        self.assertEqual(os.waitstatus_to_exitcode(os.waitpid(child, 0)[1]), 0)
        module._users = 0
        module.close()

    def test_a_fork(self) -> None:
        """The module that a fork copied gives nothing."""
        module = self.module()
        reading, writing = os.pipe()
        child = os.fork()
        if child == 0:
            try:
                module.judge([])
                told = b"judged"
            except RuntimeError as why:
                told = str(why).encode()
            os.write(writing, told)
            os._exit(0)
        os.close(writing)
        os.waitpid(child, 0)
        with os.fdopen(reading, "rb") as told_by:
            self.assertTrue(told_by.read().startswith(b"the module is of another process"))
        module.judge([])

    def test_threads(self) -> None:
        """Eight threads judge and answer at once, and one closes the module in the end."""
        module, given = self.module(), [self.frame() for _ in range(40)]
        wanted, failed = module.judge(given), []

        def judge() -> None:
            for _ in range(20):
                if module.judge(given) != wanted:
                    failed.append(1)

        threads = [threading.Thread(target=judge) for _ in range(8)]
        for it in threads:
            it.start()
        for it in threads:
            it.join()
        module.close()
        self.assertEqual(failed, [])
