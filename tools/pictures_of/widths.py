"""How wide words are, by the widest of the usual fonts (DejaVu Sans): in another one they take less."""
from __future__ import annotations

# In hundredths of the size of the font; what is not here is as wide as the widest.
OF_LETTERS = {
    28: "'ijl", 30: "IJ", 32: " .,", 34: "/:;", 36: "-f", 40: "()[]t!", 42: "r", 46: '"', 50: "_*", 53: "sz",
    55: "c", 56: "L", 58: "Fk", 60: "vxy", 62: "aeoEPTY", 64: "bdghnpquS0123456789", 66: "K",
    70: "ABCRVXZ", 74: "U", 78: "DGHN&", 80: "OQ", 84: "w+=<>↓→←", 87: "M",
}
WIDTHS = {letter: width for width, letters in OF_LETTERS.items() for letter in letters}
# A letter of a font in which all are as wide; how much wider bold ones are.
OF_MONOSPACE, BOLD = 60.3, 1.13


def width_of(text: str, kind: str, size: float) -> float:
    """How many pixels a line of a kind takes, in a font of this size."""
    if kind in ("name", "code"):
        return len(text) * OF_MONOSPACE * size / 100
    more = BOLD if kind in ("title", "head") else 1
    return sum(WIDTHS.get(it, 100) for it in text) * more * size / 100
