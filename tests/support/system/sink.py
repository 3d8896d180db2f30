"""A listener that notes who connects to it: what a page must not do."""
from __future__ import annotations

import socket
import threading
from types import TracebackType
from typing import Optional

ANSWER = (b"HTTP/1.1 200 OK\r\nContent-Type: text/plain\r\nAccess-Control-Allow-Origin: *\r\n"
          b"Content-Length: 2\r\nConnection: close\r\n\r\nok")


class Sink:
    """It listens on a free port of 127.0.0.1, and answers each request alike. `seen` has the first
    line of each."""

    def __init__(self) -> None:
        self.seen: list[str] = []
        self.socket = socket.create_server(("127.0.0.1", 0))
        self.address = f"127.0.0.1:{self.socket.getsockname()[1]}"
        self.thread = threading.Thread(target=self.listen, daemon=True)
        self.thread.start()

    def listen(self) -> None:
        while True:
            try:
                connection, _ = self.socket.accept()
            except OSError:
                return
            threading.Thread(target=self.answer, args=(connection,), daemon=True).start()

    def answer(self, connection: socket.socket) -> None:
        with connection:
            connection.settimeout(10)
            try:
                request = connection.recv(4096)
                self.seen.append(request.split(b"\r\n")[0].decode("latin-1"))
                connection.sendall(ANSWER)
            except OSError:
                self.seen.append("a connection without a request")

    def __enter__(self) -> "Sink":
        return self

    def __exit__(self, kind: Optional[type[BaseException]], why: Optional[BaseException],
                 where: Optional[TracebackType]) -> None:
        # Closing alone does not end a wait for a connection.
        self.socket.shutdown(socket.SHUT_RDWR)
        self.socket.close()
        self.thread.join()
