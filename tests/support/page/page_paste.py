"""Texts as they are pasted into the page, with dirt around their digits."""
from __future__ import annotations

from typing import Sequence

from .page_case import PageCase
from .page_values import upper

SPACES = [" ", "  ", "\t", "\u00a0", "\u2009", "\u202f", "\u3000"]
LINES = ["\n", "\r\n", "\n\n", "\u2028"]
UNSEEN = ["\u200b", "\u200c", "\u200d", "\u2060", "\ufeff", "\u00ad", "\u200e", "\U000E0100"]
HYPHENS = ["-", "\u2010", "\u2011"]
SIGNS = [":", ",", ", ", " : ", *HYPHENS]


class PasteCase(PageCase):
    def dirty(self, digits: str, between: Sequence[str], prefix: Sequence[str] = ("",)) -> str:
        """Digits with dirt before, between and behind groups of them; groups may have a prefix."""
        chance = self.chance
        text, at = chance.choice(("", *between)) + chance.choice(prefix), 0
        while at < len(digits):
            count = chance.choice((1, 2, 2, 4, 8))
            text += digits[at : at + count] + chance.choice(between)
            at += count
            if at < len(digits):
                text += chance.choice(prefix)
        return text

    def dirty_hex(self, data: bytes, lines: Sequence[str] = ()) -> str:
        """Bytes in either case of letters, as programs and documents show them."""
        digits = "".join(self.chance.choice((it.lower(), it)) for it in upper(data))
        between = [*SPACES, *UNSEEN, *SIGNS, *lines]
        return self.dirty(digits, between, self.chance.choice((("",), ("0x",), ("", "0X", "0x"))))

    def dirty_digits(self, digits: str) -> str:
        return self.dirty(digits, [*SPACES, *UNSEEN, *HYPHENS])
