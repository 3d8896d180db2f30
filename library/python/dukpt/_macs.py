"""MACs, CMAC (NIST SP 800-38B) and the retail MAC (ANSI X9.19), and check values of keys
(ANSI X9.24-1:2017 annex A)."""
from __future__ import annotations

from ._library import Data, call, room


def check_value(key: Data) -> bytes:
    """The check value (3 bytes) of a key of 16 or 24 bytes.

    Raises `Length`.

    >>> check_value(bytes.fromhex("0123456789ABCDEFFEDCBA9876543210")).hex().upper()
    '08D7B4'
    """
    value = room(3)
    call("dukpt_check_value", key=key, value=value)
    return value.raw


def cmac_check_value(key: Data) -> bytes:
    """The check value by CMAC (5 bytes) of a key of 16 or 24 bytes.

    Raises `Length`.

    >>> cmac_check_value(bytes.fromhex("0123456789ABCDEFFEDCBA9876543210")).hex().upper()
    '0A82458664'
    """
    value = room(5)
    call("dukpt_cmac_check_value", key=key, value=value)
    return value.raw


def cmac(key: Data, message: Data) -> bytes:
    """The CMAC (8 bytes) of a message of any length under a key of 16 or 24 bytes.

    Raises `Length`.

    >>> key = bytes.fromhex("4CF15134A2850DD58A3D10BA80570D38")
    >>> cmac(key, bytes.fromhex("6BC1BEE22E409F96")).hex().upper()
    '4FF2AB813C53CE83'
    """
    mac = room(8)
    call("dukpt_cmac", key=key, message=message, mac=mac)
    return mac.raw


def retail_mac(key: Data, message: Data) -> bytes:
    """The retail MAC (8 bytes) of a message of one byte or more under a key of 16.

    Raises `Length`.

    >>> key = bytes.fromhex("0123456789ABCDEFFEDCBA9876543210")
    >>> retail_mac(key, b"Now is the time for all ").hex().upper()
    'A1C72E74EA3FA9B6'
    """
    mac = room(8)
    call("dukpt_retail_mac", key=key, message=message, mac=mac)
    return mac.raw
