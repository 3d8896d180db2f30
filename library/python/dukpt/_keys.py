"""The keys of the key tree (ANSI X9.24-1:2009 annex A)."""
from __future__ import annotations

from typing import Iterable

from ._library import Data, call, joined, parts, room
from ._values import Secret


def initial_key(bdk: Data, iksn: Data) -> Secret:
    """The initial key (16 bytes) of an initial key serial number (10) under the base derivation key
    (16).

    Raises `Length`, then `NotInitial`.

    >>> bdk = bytes.fromhex("0123456789ABCDEFFEDCBA9876543210")
    >>> initial_key(bdk, bytes.fromhex("FFFF9876543210E00000")).hex().upper()
    '6AC292FAA1315B4D858AB3A3D7D5933A'
    """
    key = room(16)
    call("dukpt_initial_key", bdk=bdk, iksn=iksn, key=key)
    return Secret(key.raw)


def derive(bdk: Data, ksn: Data) -> Secret:
    """The transaction key (16 bytes) of a key serial number (10) under the base derivation key
    (16). The counter may be any: zero gives the initial key.

    Raises `Length`.

    >>> bdk = bytes.fromhex("0123456789ABCDEFFEDCBA9876543210")
    >>> derive(bdk, bytes.fromhex("FFFF9876543210E00001")).hex().upper()
    '042666B49184CFA368DE9628D0397BC9'
    """
    key = room(16)
    call("dukpt_derive", bdk=bdk, ksn=ksn, key=key)
    return Secret(key.raw)


def derive_many(bdk: Data, ksns: Iterable[Data]) -> list[Secret]:
    """The transaction keys (16 bytes each) of key serial numbers (10 each) under one base derivation
    key (16), in their order. They are those of `derive`, and many are made in less time.

    Raises `Length`.

    >>> bdk = bytes.fromhex("0123456789ABCDEFFEDCBA9876543210")
    >>> ksns = [bytes.fromhex(f"FFFF9876543210E0000{number}") for number in (1, 2)]
    >>> [key.hex().upper() for key in derive_many(bdk, ksns)]
    ['042666B49184CFA368DE9628D0397BC9', 'C46551CEF9FD24B0AA9AD834130D3BC7']
    """
    held = joined("ksns", ksns, 10)
    keys = room(16 * (len(held) // 10))
    call("dukpt_derive_many", bdk=bdk, ksns=held, keys=keys)
    return [Secret(key) for key in parts(keys, 16)]


def derive_from_initial(initial: Data, ksn: Data) -> Secret:
    """The transaction key (16 bytes) of a key serial number (10) under the initial key (16) of its
    terminal. The counter may be any: zero gives the initial key.

    Raises `Length`.

    >>> initial = bytes.fromhex("6AC292FAA1315B4D858AB3A3D7D5933A")
    >>> derive_from_initial(initial, bytes.fromhex("FFFF9876543210E00001")).hex().upper()
    '042666B49184CFA368DE9628D0397BC9'
    """
    key = room(16)
    call("dukpt_derive_from_initial", initial=initial, ksn=ksn, key=key)
    return Secret(key.raw)


def pin_key(key: Data) -> Secret:
    """The variant of a transaction key that enciphers PINs; each has 16 bytes.

    Raises `Length`.

    >>> pin_key(bytes.fromhex("042666B49184CFA368DE9628D0397BC9")).hex().upper()
    '042666B49184CF5C68DE9628D0397B36'
    """
    variant = room(16)
    call("dukpt_pin_key", key=key, variant=variant)
    return Secret(variant.raw)


def request_key(key: Data) -> Secret:
    """The variant of a transaction key that makes the MACs of requests; each has 16 bytes.

    Raises `Length`.

    >>> request_key(bytes.fromhex("042666B49184CFA368DE9628D0397BC9")).hex().upper()
    '042666B4918430A368DE9628D03984C9'
    """
    variant = room(16)
    call("dukpt_request_key", key=key, variant=variant)
    return Secret(variant.raw)


def response_key(key: Data) -> Secret:
    """The variant of a transaction key that makes the MACs of replies; each has 16 bytes.

    Raises `Length`.

    >>> response_key(bytes.fromhex("042666B49184CFA368DE9628D0397BC9")).hex().upper()
    '042666B46E84CFA368DE96282F397BC9'
    """
    variant = room(16)
    call("dukpt_response_key", key=key, variant=variant)
    return Secret(variant.raw)


def request_data_key(key: Data) -> Secret:
    """The key that enciphers the data of a request, or of both ways (16 bytes), of a transaction
    key (16), by ANSI X9.24-1:2009 annex A.4.1. `cbc_encrypt` enciphers under it.

    Raises `Length`.

    >>> request_data_key(bytes.fromhex("042666B49184CFA368DE9628D0397BC9")).hex().upper()
    '448D3F076D8304036A55A3D7E0055A78'
    """
    variant = room(16)
    call("dukpt_request_data_key", key=key, variant=variant)
    return Secret(variant.raw)


def response_data_key(key: Data) -> Secret:
    """The key that enciphers the data of a response (16 bytes), of a transaction key (16), by
    ANSI X9.24-1:2009 annex A.4.1.

    Raises `Length`.

    >>> response_data_key(bytes.fromhex("042666B49184CFA368DE9628D0397BC9")).hex().upper()
    'AD7BFC8B06AD3A08A560B4105CF8D9E5'
    """
    variant = room(16)
    call("dukpt_response_data_key", key=key, variant=variant)
    return Secret(variant.raw)
