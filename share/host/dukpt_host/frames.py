"""Frames of a stream, and what an answer says: docs/FORMATS.md, "Frames"."""
from __future__ import annotations

LONGEST = 62
# A frame without contents. It is answered by a refusal, changes nothing, and shows that the process
# below answers.
PROBE = bytes(2)
# The bytes of an answer: its kind, the number, and both with the reason where the frame has none.
KIND = 3
NUMBER = slice(4, 14)
REPLY, REFUSAL, REVERSED = 2, 3, 5
MALFORMED = bytes([REFUSAL, *bytes(10), 1])
REASONS = {1: "malformed", 2: "unknown key set", 3: "bad counter", 4: "bad MAC", 5: "used",
           6: "log full"}
CODES = (b"00", b"14", b"30", b"51", b"55")
# What answers say, each as `says` has it.
SAID = (*(bytes([REPLY]) + it for it in CODES), bytes([REVERSED, 0]), bytes([REVERSED, 1]),
        *(bytes([REFUSAL, it]) for it in REASONS))


class Cutter:
    """Cuts a stream into its frames, however its bytes come."""

    def __init__(self) -> None:
        # The beginning of a frame, and whether bytes came that begin none.
        self.rest = b""
        self.is_broken = False

    def cut(self, data: bytes) -> list[bytes]:
        """The frames that these bytes end, up to bytes that begin none."""
        if self.rest:
            data = self.rest + data
        frames, at, size = [], 0, len(data)
        while size - at >= 2:
            length = data[at] << 8 | data[at + 1]
            if length > LONGEST:
                self.is_broken = True
                at = size
                break
            end = at + 2 + length
            if end > size:
                break
            frames.append(data[at:end])
            at = end
        self.rest = data[at:]
        return frames


def belongs(frame: bytes, answer: bytes) -> bool:
    """Whether an answer is one to this frame: it has its number, or says that it is malformed."""
    return answer[NUMBER] == frame[NUMBER] or answer[KIND:] == MALFORMED


def says(answer: bytes) -> bytes:
    """The kind of an answer, and behind it its code, reason or state, as they stand in it."""
    kind = answer[KIND]
    if kind == REPLY:
        return answer[3:4] + answer[14:16]
    return answer[3:4] + (answer[24:25] if kind == REVERSED else answer[14:15])


def words(said: bytes) -> tuple[str, str]:
    """The kind of an answer and what it says, in words."""
    kind, rest = said[0], said[1:]
    if kind == REPLY:
        return "reply", rest.decode("ascii", "replace")
    if kind == REVERSED:
        return "reversal", "undone" if rest == b"\x01" else "none stands"
    return "refusal", REASONS.get(rest[0] if rest else 0, "unknown")
