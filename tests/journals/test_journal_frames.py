"""What the memory of a service over a journal has of the frames that it answered."""
from __future__ import annotations

import re
from pathlib import Path
from typing import Iterator

from ..support.service.client import Exchange, payments
from ..support.service.journal_case import ON_JOURNAL, JournalCase
from ..support.service.service import Service
from ..support.service.service_case import answers_to, stream_of

# A group has so many frames at most.
GROUP = 1024
# What calls leave on the stack are the parts of a few frames.
FEW = 8
# A program that is built with checks has longer stretches, for marks of its own.
LONGEST = 1 << 28


def memory_of(service: Service) -> Iterator[bytes]:
    """What the process may write, piece by piece."""
    folder = Path(f"/proc/{service.process.pid}")
    with open(folder / "mem", "rb", 0) as memory:
        for first, last, rights, *_ in map(fields_of, (folder / "maps").read_text().splitlines()):
            if rights.startswith("rw") and last - first <= LONGEST:
                memory.seek(first)
                yield memory.read(last - first)


def fields_of(line: str) -> tuple[int, int, str]:
    found = re.match(r"([0-9a-f]+)-([0-9a-f]+) (\S+) ", line)
    assert found, line
    return int(found[1], 16), int(found[2], 16), found[3]


def block_of(request: Exchange) -> bytes:
    """The enciphered PIN block of a request: eight bytes, before the eight of its MAC."""
    return request.frame[-16:-8]


class FramesInMemory(JournalCase):
    """A service that waits for its input has none but a few of the enciphered PIN blocks that it was
    given: not in the frames of a group, nor in what was read of them."""

    def test_a_whole_group(self) -> None:
        requests = payments(GROUP)
        self.assertEqual(len({block_of(it) for it in requests}), GROUP)
        self.make_room(2 * GROUP)
        service = self.start(*ON_JOURNAL)
        for some in (requests, requests[:9]):
            service.ask_all(stream_of(some), len(answers_to(some)))
            service.sleeps()
            memory = b"".join(memory_of(service))
            found = sum(block_of(it) in memory for it in requests)
            self.tells(f"{found} of {GROUP} behind a group of {len(some)}")
            self.assertLess(found, FEW)
        self.assert_output(service.end(), answers_to(requests) + answers_to(requests[:9]), "", "")
