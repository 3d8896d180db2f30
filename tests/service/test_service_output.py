"""The output of a service that takes little or nothing, and writes to its log that fail."""
from __future__ import annotations

import os
import signal
import subprocess
from typing import Sequence

from ..support.formats.log_file import RECORD
from ..support.program import SECONDS, Ended, Limits
from ..support.service.client import Exchange, payments
from ..support.service.service import NARROW, PIECE, PLAIN, How
from ..support.service.service_case import (
    AMPLE, LOG_FAILED, ON_LOG, READ_FAILED, WRITE_FAILED, ServiceCase, answers_to, frames_of,
    numbers_of, stream_of)


class SlowOutput(ServiceCase):
    """There are more answers than a pipe holds, and they are read slowly."""

    weight = 1

    def read_slowly(self, requests: Sequence[Exchange], how: How, most: int, pause: float) -> None:
        service = self.start("serve", "wide.toml", how=how)
        service.talk([stream_of(requests)], most=most, pause=pause)
        self.assert_output(service.end(), answers_to(requests), "", "an output that is read slowly")

    def test_a_pipe(self) -> None:
        self.read_slowly(payments(2000) * 4, PLAIN, 1500, 0.001)

    def test_a_pipe_of_a_page(self) -> None:
        self.read_slowly(self.mixed(1000), NARROW, PIECE, 0.02)


class LostOutput(ServiceCase):
    """An output that takes nothing ends the service, which has one number more in its log."""

    def test_closed_early(self) -> None:
        """It is reported as a failed write, and ends nothing by a signal, whether or not whoever
        starts the service ignores that signal."""
        for ignored in (True, False):
            ended = self.close_early(How(ignores_pipe_signal=ignored))
            self.assert_output(ended, answers_to(payments(9)), WRITE_FAILED, "closed early")

    def close_early(self, how: How) -> Ended:
        """Nine answers are read, and the tenth cannot be written; a later run goes on behind it."""
        requests = payments(20)
        self.make_log(30)
        service = self.start(*ON_LOG, how=how)
        service.ask(frames_of(requests[:9]))
        service.close_output()
        service.talk(frames_of(requests[9:]))
        ended = service.end()
        used = numbers_of(requests[:10])
        self.assert_image(used, "an output that is closed early")
        self.check_requests(ON_LOG, requests, used, what="behind an output that was closed")
        self.assert_image(numbers_of(requests), "behind an output that was closed")
        return ended

    def test_a_full_device(self) -> None:
        requests = payments(20)
        self.make_log(30)
        with open("/dev/full", "wb") as full:
            how = How(taken=full.fileno())
            self.check(ON_LOG, frames_of(requests), b"", WRITE_FAILED, how)
        self.assert_image(numbers_of(requests[:1]), "an output that takes nothing")

    def test_a_closed_one(self) -> None:
        """The log is not taken for it, nor for standard error."""
        requests, cut = payments(2), payments(1)[0].frame[:9]
        for way, answers, kept in ((">&-", b"", 1), (">&- 2>&-", b"", 1), ("<&- >&- 2>&-", b"", 0),
                                   ("2>&-", answers_to(requests), 2), ("<&-", b"", 0)):
            self.make_log(3)
            done = subprocess.run(
                ["bash", "-c", f'exec "$0" "$@" {way}', str(self.program.path), *ON_LOG],
                cwd=self.home, input=stream_of(requests) + cut, capture_output=True, check=False,
                timeout=SECONDS)
            fault = b"" if "2>" in way else f"{WRITE_FAILED if kept else READ_FAILED}\n".encode()
            self.assertEqual((done.returncode, done.stdout, done.stderr), (1, answers, fault), way)
            self.assert_image(numbers_of(requests[:kept]), way)


class FailingWrites(ServiceCase):
    """A log that may not grow beyond some byte, at which a write is cut."""

    weight = 3
    # How many records the limit has room for, how many bytes more, and how many of the records
    # are used before.
    limits = ((0, 0, 0), (0, 1, 0), (0, 9, 0), (5, 1, 0), (7, 8, 0), (9, 15, 0), (9, 15, 9),
              (64, 0, 0), (64, 0, 50), (128, 0, 0), (128, 0, 50), (128, 10, 50))

    def test_reported(self) -> None:
        """Where the signal is ignored the write fails."""
        for kept, beyond, used in self.limits:
            found = self.stop_in_a_write(kept, beyond, used, True)
            self.assert_output(found, self.answers(kept, used), LOG_FAILED, f"{kept}, {beyond}")

    def test_by_signal(self) -> None:
        """Where it is not, the signal ends the process."""
        for kept, beyond, used in self.limits:
            found = self.stop_in_a_write(kept, beyond, used, False)
            wanted = self.answers(kept, used)
            self.assert_ended(found, -signal.SIGXFSZ, wanted, b"", f"{kept}, {beyond}")

    def answers(self, kept: int, used: int) -> bytes:
        return answers_to(payments(kept), numbers_of(payments(used)))

    def stop_in_a_write(self, kept: int, beyond: int, used: int, ignored: bool) -> Ended:
        requests = payments(kept + 12)
        numbers, what = numbers_of(requests), f"a limit of {kept} records and {beyond} bytes"
        self.make_log(256, numbers[:used])
        how = How(limits=Limits(file_size=kept * RECORD + beyond, ignores_file_signal=ignored))
        ended = self.run_service(ON_LOG, [stream_of(requests)], how)
        self.assert_kept(numbers[:kept], what)
        listed = self.check_requests(ON_LOG, requests, numbers[:kept], what=f"behind {what}")
        self.assert_image(listed, f"behind {what}")
        return ended


# What a full file system needs: the size of its one page, and the program. The log is copied away
# from it, since it goes with the processes that see it.
ON_A_FULL_FILE_SYSTEM = """
mount -t tmpfs -o size="$1" none full && truncate -s $((4 * $1)) full/log || exit 77
"$2" serve wide.toml --log full/log
status=$?
cp full/log log || exit 78
exit $status
"""


class FullFileSystem(ServiceCase):
    """A sparse log on a file system that is full behind the first page of it."""

    def test_a_full_file_system(self) -> None:
        """It needs no rights, but a system where any user may have a user namespace."""
        page = os.sysconf("SC_PAGE_SIZE")
        kept = page // RECORD
        requests = payments(kept + 20)
        os.mkdir(self.home / "full")
        done = subprocess.run(
            ["unshare", "--user", "--map-root-user", "--mount", "sh", "-c", ON_A_FULL_FILE_SYSTEM,
             "sh", str(page), self.program.path],
            cwd=self.home, input=stream_of(requests), capture_output=True, timeout=SECONDS,
            check=False)
        ended = Ended(done.returncode, done.stdout, done.stderr)
        self.assertNotIn(ended.status, (77, 78), f"there is no such file system: {ended}")
        self.assert_output(ended, answers_to(requests[:kept], room=AMPLE), LOG_FAILED, "a full one")
        self.room = 4 * kept
        self.assert_image(numbers_of(requests[:kept]), "a full file system")
        used = numbers_of(requests[:kept])
        self.check_requests(ON_LOG, requests, used, what="behind a full file system")
