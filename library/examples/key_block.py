"""A key block (TR-31): a facility wraps a terminal's initial key, and the terminal unwraps it."""
from __future__ import annotations

import secrets

import dukpt

LOADING = bytes.fromhex("4CF15134A2850DD58A3D10BA80570D38")
INITIAL = bytes.fromhex("6AC292FAA1315B4D858AB3A3D7D5933A")
# An initial key for TDES, from which others are derived, and which is not exported.
HEADER, USAGE, LENGTH = b"B1TX00N", b"B1", 16


def fault_of(text: bytes, usage: bytes) -> str:
    """Why a key block is not taken for a key of this usage."""
    try:
        dukpt.unwrap_for(LOADING, usage, LENGTH, text)
    except dukpt.DukptError as fault:
        return fault.name
    return "none"


def main() -> None:
    # Two bytes of length, the key and six bytes of padding are whole blocks of 8. The padding is
    # random: the library has no source of that.
    text = dukpt.wrap(LOADING, HEADER, INITIAL, secrets.token_bytes(6))
    print("block", text.decode())
    print("key", dukpt.unwrap_for(LOADING, USAGE, LENGTH, text).hex().upper())

    # A terminal that wants a PIN encryption key does not take an initial key for one.
    print("other", fault_of(text, b"P0"))

    # Of a block that another one made, the MAC is wrong.
    forged = text[:-1] + (b"1" if text.endswith(b"0") else b"0")
    print("forged", fault_of(forged, USAGE))


if __name__ == "__main__":
    main()
