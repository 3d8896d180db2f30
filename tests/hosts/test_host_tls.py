"""`dukpt-host` behind TLS: only clients whose certificate its authority signed are answered."""
from __future__ import annotations

import signal
import ssl
import subprocess
import time
from typing import Optional

from ..support.service.certificates import client_context, make_authority, make_certificate
from ..support.service.client import payments
from ..support.service.host import (
    HERE, HOST, ON_JOURNAL, SECONDS, TEST_KEYS, HostCase, Running, at_once, command_of)
from ..support.service.journal_case import stream_of

TLS = ("--tls", "host.pem", "host.key", "ours.pem")


class Tls(HostCase):
    weight = 5

    def setUp(self) -> None:
        super().setUp()
        for name in ("ours", "theirs"):
            make_authority(self.home, name)
        for name, authority in (("host", "ours"), ("right", "ours"), ("wrong", "theirs")):
            make_certificate(self.home, name, authority)
        self.make_journal(400)

    def answer(self, host, context: Optional[ssl.SSLContext], frame: bytes) -> Optional[bytes]:
        """The answer to a client, or none where it is not let in."""
        try:
            return self.connect(host, context).ask(frame)
        except ssl.SSLError:
            return None

    def test_certificates(self) -> None:
        """No other authority counts, also where the system believes it."""
        host, given = self.start_host(*TLS, environment={"SSL_CERT_FILE": "theirs.pem"}), payments(4)
        right = client_context(self.home, "right")
        self.assertEqual(self.answer(host, right, given[0].frame), given[0].answer)
        for context in (client_context(self.home, "wrong"), client_context(self.home), None):
            self.assertIsNone(self.answer(host, context, given[1].frame))
        old = client_context(self.home, "right")
        old.maximum_version = ssl.TLSVersion.TLSv1_1
        self.assertIsNone(self.answer(host, old, given[1].frame))
        host.told("not let in: no TLS", 4)
        self.assertEqual(self.answer(host, right, given[2].frame), given[2].answer)
        self.assertEqual(len(self.kept()), 2)
        self.assertEqual(host.metrics()['dukpt_connections_refused_totalwhy="no TLS"'], 4)
        self.assertEqual(host.stop(), 0)

    def test_too_many(self) -> None:
        """One that has not shown its certificate yet counts as any other."""
        host = self.start_host(*TLS, "--connections", "2")
        for _ in range(3):
            self.connect(host)
        host.told("not let in: too many")

    def test_silent_handshake(self) -> None:
        """One that never shows a certificate is closed, so that it takes no place from another for long."""
        host = self.start_host(*TLS, "--connections", "1")
        client, began = self.connect(host), time.monotonic()
        self.assertEqual(client.take_all(), b"")
        self.assertLess(time.monotonic() - began, 30)
        context, given = client_context(self.home, "right"), payments(1)[0]
        self.assertEqual(self.answer(host, context, given.frame), given.answer)

    def test_many(self) -> None:
        """Answers in their order, to several at once."""
        host, given = self.start_host(*TLS), payments(160)
        context = client_context(self.home, "right")
        clients = [self.connect(host, context) for _ in range(4)]

        def talk(place: int) -> None:
            own = given[place::4]
            clients[place].send(stream_of(own))
            self.assertEqual(clients[place].take_answers(len(own)), [it.answer for it in own])

        at_once([lambda place=place: talk(place) for place in range(4)])
        self.assertEqual(host.stop(), 0)

    def test_line_that_breaks(self) -> None:
        """One that breaks within a frame cuts that off, though nothing has told the end of its side. One
        that breaks behind a frame is a client that goes."""
        host, given = self.start_host(*TLS), payments(1)[0]
        context = client_context(self.home, "right")
        for sent in (given.frame, given.frame[:9]):
            client = self.connect(host, context)
            client.send(sent)
            if sent == given.frame:
                self.assertEqual(client.take_answers(1), [given.answer])
            client.close()
        host.told("closed: its input ends in a frame")
        closed = {why: host.metrics()[f'dukpt_connections_closed_totalwhy="{why}"']
                  for why in ("client", "cut frame")}
        self.assertEqual(closed, {"client": 1, "cut frame": 1})
        self.assertEqual(host.stop(), 0)

    def test_closed_first(self) -> None:
        """Of a client that goes once the host has closed, no more is told than why that was."""
        host = self.start_host(*TLS)
        client = self.connect(host, client_context(self.home, "right"))
        client.send(bytes([255, 255]))
        self.assertEqual(client.take_all(), b"")
        client.close()
        host.told("closed: bytes that are no frame")
        self.assertEqual(host.stop(), 0)
        self.assert_own_lines(host)

    def test_client_that_does_not_go(self) -> None:
        """One that leaves the host's end without an answer is cut off in time. A host that has no processor
        just then finds all limits of time over at once, and ends in order too."""
        host, given = self.start_host(*TLS, "--closing", "2"), payments(1)[0]
        client = self.connect(host, client_context(self.home, "right"))
        self.assertEqual(client.ask(given.frame), given.answer)
        below = host.below()
        host.process.send_signal(signal.SIGTERM)
        until = time.monotonic() + SECONDS
        while command_of(below) and time.monotonic() < until:
            time.sleep(0.01)
        # By then it waits for its client alone.
        time.sleep(0.3)
        host.process.send_signal(signal.SIGSTOP)
        time.sleep(2.5)
        host.process.send_signal(signal.SIGCONT)
        self.assertEqual(host.end(), 0)
        self.assert_own_lines(host)

    def assert_own_lines(self, host: Running) -> None:
        """That nothing but the host told anything, as Python does of a fault that nobody foresaw."""
        self.assertEqual([it for it in host.lines if not it.startswith("dukpt-host: ")], [])

    def test_what_is_not_started(self) -> None:
        """An address that other machines reach wants TLS, or a word that it does not."""
        anywhere = "0.0.0.0:0"
        for words, why in ((("--listen", anywhere), "other machines reach 0.0.0.0:"),
                           (("--listen", HERE, "--listen", anywhere), "other machines reach"),
                           (("--listen", HERE, "--tls", "host.pem", "wrong.key", "ours.pem"), "TLS: "),
                           (("--listen", HERE, "--tls", "host.pem", "host.key", "none.pem"),
                            "TLS: [Errno 2] No such file or directory: 'none.pem'")):
            done = self.run_host(*words)
            self.assertEqual(done.returncode, 1, words)
            self.assertIn(f"dukpt-host: not started: {why}", done.stderr)
        for words in (("--listen", anywhere, "--plain"), ("--listen", anywhere, *TLS)):
            host = self.start_host(*words)
            host.told("serving after")
            self.assertEqual(host.stop(), 0)

    def run_host(self, *words: str) -> subprocess.CompletedProcess[str]:
        return subprocess.run([HOST, *TEST_KEYS, *ON_JOURNAL, *words], cwd=self.home,
                              capture_output=True, text=True, timeout=SECONDS, check=False)
