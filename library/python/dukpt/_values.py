"""The values that calls give, and how they are shown: in hexadecimal, and nothing secret."""
from __future__ import annotations

from typing import NamedTuple


class Secret(bytes):
    """The bytes of a key, a PIN, a clear PIN block or an image of registers. They are bytes in all
    but one: `repr`, `str` and formats tell how many they are, and not what. `hex()` does.

    >>> key = Secret(16)
    >>> key, f"{key}", key == bytes(16)
    (<16 secret bytes>, '<16 secret bytes>', True)
    >>> key.hex()
    '00000000000000000000000000000000'
    """

    __slots__ = ()

    def __repr__(self) -> str:
        return f"<{len(self)} secret bytes>"

    __str__ = __repr__


def shown(value: NamedTuple, *hidden: str, text: str = "") -> str:
    """A named tuple with its bytes in hexadecimal, and two points for what is secret or hidden. The
    field `text` has printable ASCII, and is shown as it is.

    >>> class Sent(NamedTuple):
    ...     ksn: bytes
    ...     code: bytes
    ...     key: bytes
    >>> shown(Sent(bytes.fromhex("FFFF9876543210E00001"), b"00", Secret(16)), text="code")
    'Sent(ksn=FFFF9876543210E00001, code=00, key=..)'
    """
    fields = []
    for name, field in zip(value._fields, value):
        if name in hidden or isinstance(field, Secret):
            spoken = ".."
        elif name == text:
            spoken = field.decode("ascii", "backslashreplace")
        else:
            spoken = field.hex().upper() if isinstance(field, bytes) else str(field)
        fields.append(f"{name}={spoken}")
    return f"{type(value).__name__}({', '.join(fields)})"
