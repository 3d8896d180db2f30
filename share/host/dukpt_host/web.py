"""Metrics and health, over HTTP."""
from __future__ import annotations

import asyncio

from .metrics import Metrics
from .serving import Serving

# Seconds for a request to come, and for a probe to be answered.
REQUEST, PROBE = 5.0, 2.0
LONGEST = 8192
TEXT = "text/plain; version=0.0.4; charset=utf-8"


class Web:
    def __init__(self, metrics: Metrics, service: Serving, mark: str) -> None:
        self.metrics, self.service, self.mark = metrics, service, mark

    async def talk(self, reader: asyncio.StreamReader, writer: asyncio.StreamWriter) -> None:
        """Answers one request, and closes."""
        try:
            head = await asyncio.wait_for(reader.readuntil(b"\r\n\r\n"), REQUEST)
            writer.write(response(*await self.answer(head)))
            await asyncio.wait_for(writer.drain(), REQUEST)
        except (OSError, asyncio.TimeoutError, asyncio.IncompleteReadError,
                asyncio.LimitOverrunError):
            pass
        finally:
            writer.close()

    async def answer(self, head: bytes) -> tuple[str, bytes]:
        method, path = [*head.split(b"\r\n")[0].split(b" "), b"", b""][:2]
        if method != b"GET":
            return "405 Method Not Allowed", b"GET alone\n"
        if path == b"/metrics":
            return "200 OK", self.metrics.text()
        if path == b"/health":
            wrong = await self.wrong()
            status = "503 Service Unavailable" if wrong else "200 OK"
            return status, f"{self.mark}{wrong or self.service.right}\n".encode()
        return "404 Not Found", b"/metrics or /health\n"

    async def wrong(self) -> str:
        """What is wrong: nothing only where frames are answered now."""
        if not self.service.wrong and not await self.service.exchange.probe(PROBE):
            return self.service.wrong or f"{self.service.silent} within {PROBE:g} s"
        return self.service.wrong


def response(status: str, body: bytes) -> bytes:
    return (f"HTTP/1.1 {status}\r\nContent-Type: {TEXT}\r\nContent-Length: {len(body)}\r\n"
            "Connection: close\r\n\r\n").encode() + body
