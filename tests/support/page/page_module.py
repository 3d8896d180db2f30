"""Calls of the module that the page carries, inside the page: many cases at once.

Cases go in and come back as base64: of each argument two bytes of length and the bytes, or the four
bytes of a number. Back comes of each case the status in a byte, and each argument that is written.
"""
from __future__ import annotations

import base64
from typing import Iterator, Sequence

from ..library.call_cases import Argument
from .browser import Browser

# The element that has the module, as base64 of raw deflate.
MODULE = "module"

LOAD = """
const text = atob(document.getElementById(arguments[0]).textContent.trim());
const packed = Uint8Array.from(text, (it) => it.charCodeAt(0));
const stream = new Blob([packed]).stream().pipeThrough(new DecompressionStream("deflate-raw"));
const bytes = await new Response(stream).arrayBuffer();
const { module, instance } = await WebAssembly.instantiate(bytes);
window.tried = instance.exports;
return { exports: WebAssembly.Module.exports(module).map((it) => it.name),
         imports: WebAssembly.Module.imports(module).map((it) => it.name) };
"""

CALL = """
const [name, kinds, given] = arguments;
const bytes = Uint8Array.from(atob(given), (it) => it.charCodeAt(0));
const view = new DataView(bytes.buffer);
const call = window.tried[name];
const front = Number(window.tried.__heap_base.value);
const memory = new Uint8Array(window.tried.memory.buffer);
const numbers = new DataView(memory.buffer);
const back = new Uint8Array(bytes.length + bytes.length / 4 + 8);
const backNumbers = new DataView(back.buffer);
let at = 0;
let end = 0;
while (at < bytes.length) {
  const words = [];
  const written = [];
  let free = front;
  for (const kind of kinds) {
    if (kind === "n" || kind === "c") {
      const number = view.getUint32(at);
      at += 4;
      if (kind === "n") { words.push(number); continue; }
      numbers.setUint32(free, number, true);
      written.push([free, -1]);
      words.push(BigInt(free));
      free += 8;
      continue;
    }
    const length = view.getUint16(at);
    memory.set(bytes.subarray(at + 2, at + 2 + length), free);
    at += 2 + length;
    if (kind === "o") written.push([free, length]);
    words.push(BigInt(free), BigInt(length));
    free += Math.ceil(length / 8) * 8 + 8;
  }
  back[end++] = call(...words);
  for (const [place, length] of written) {
    if (length < 0) {
      backNumbers.setUint32(end, numbers.getUint32(place, true));
      end += 4;
    } else {
      back.set(memory.subarray(place, place + length), end);
      end += length;
    }
  }
}
let text = "";
for (let from = 0; from < end; from += 8192)
  text += String.fromCharCode(...back.subarray(from, Math.min(end, from + 8192)));
return btoa(text);
"""


class PageModule:
    """The module of the page that a browser shows, in an instance of its own."""

    def __init__(self, browser: Browser) -> None:
        self.browser = browser
        found = browser.run_async(LOAD, MODULE)
        self.exports: list[str] = found["exports"]
        self.imports: list[str] = found["imports"]

    def call(self, name: str, kinds: str, given: Sequence[Sequence[Argument]]
             ) -> Iterator[tuple[int, list[Argument]]]:
        """The status of each case, and its arguments as they are then."""
        blob = b"".join(packed(value) for arguments in given for value in arguments)
        answer = self.browser.run(CALL, name, kinds, base64.b64encode(blob).decode())
        back, at = base64.b64decode(answer), 0
        for arguments in given:
            status, at, behind = back[at], at + 1, list(arguments)
            for place, (kind, value) in enumerate(zip(kinds, arguments)):
                if kind == "c":
                    behind[place], at = int.from_bytes(back[at : at + 4], "big"), at + 4
                elif kind == "o" and isinstance(value, bytes):
                    behind[place], at = back[at : at + len(value)], at + len(value)
            yield status, behind

    def version(self) -> int:
        return self.browser.run("return window.tried.dukpt_version();")


def packed(value: Argument) -> bytes:
    if isinstance(value, int):
        return value.to_bytes(4, "big")
    return len(value).to_bytes(2, "big") + value
