"""An adapter for OpenSSL alone, by its library libcrypto. In the folder of the vectors:

    python3 -m dukpt_check python3 adapters/openssl.py

It needs OpenSSL 3, which has TDES, CBC and CMAC. The retail MAC and the check values are made of
these: DES is TDES with three equal keys, so that no provider for old ciphers is needed. It has no
DUKPT, PIN blocks or key blocks.
"""
from __future__ import annotations

import ctypes
import ctypes.util
import json
import sys
from ctypes import byref, c_char_p, c_int, c_size_t, c_void_p
from typing import Any, Callable

CRYPTO = ctypes.CDLL(ctypes.util.find_library("crypto") or "libcrypto.so.3")
for name in ("EVP_des_ede3_ecb", "EVP_des_ede3_cbc", "EVP_CIPHER_CTX_new", "EVP_MAC_fetch",
             "EVP_MAC_CTX_new"):
    getattr(CRYPTO, name).restype = c_void_p


class Refused(Exception):
    """Why a case is refused."""


class Parameter(ctypes.Structure):
    """OpenSSL's OSSL_PARAM."""

    _fields_ = [("key", c_char_p), ("kind", ctypes.c_uint), ("data", c_void_p),
                ("size", c_size_t), ("written", c_size_t)]


def demand(holds: Any, why: str) -> None:
    """Refuses the case where something does not hold."""
    if not holds:
        raise Refused(why)


def three_keys(key: bytes) -> bytes:
    """A TDES key of three DES keys: of two the first one is the third too."""
    demand(len(key) in (16, 24), "a key has 16 or 24 bytes")
    return key + key[:8] if len(key) == 16 else key


def crypt(key: bytes, data: bytes, encrypts: bool, iv: bytes = b"") -> bytes:
    """Whole blocks by TDES: in a chain from an initial vector, or each by itself without one."""
    demand(len(data) % 8 == 0, "data has whole blocks")
    cipher = CRYPTO.EVP_des_ede3_cbc() if iv else CRYPTO.EVP_des_ede3_ecb()
    context = c_void_p(CRYPTO.EVP_CIPHER_CTX_new())
    made, count = ctypes.create_string_buffer(len(data) + 8), c_int()
    ok = CRYPTO.EVP_CipherInit_ex(context, c_void_p(cipher), None, three_keys(key), iv or None,
                                  int(encrypts))
    CRYPTO.EVP_CIPHER_CTX_set_padding(context, 0)
    ok = ok and CRYPTO.EVP_CipherUpdate(context, made, byref(count), data, len(data))
    CRYPTO.EVP_CIPHER_CTX_free(context)
    demand(ok and count.value == len(data), "OpenSSL failed")
    return made.raw[: len(data)]


def block_of(key: bytes, block: bytes, encrypts: bool) -> bytes:
    """A block by TDES."""
    demand(len(block) == 8, "a block has 8 bytes")
    return crypt(key, block, encrypts)


def chain_of(key: bytes, iv: bytes, data: bytes, encrypts: bool) -> bytes:
    """Blocks in cipher block chaining."""
    demand(len(iv) == 8, "an initial vector has 8 bytes")
    return crypt(key, data, encrypts, iv)


def cmac(key: bytes, message: bytes) -> bytes:
    """The CMAC of a message."""
    method = c_void_p(CRYPTO.EVP_MAC_fetch(None, b"CMAC", None))
    context = c_void_p(CRYPTO.EVP_MAC_CTX_new(method))
    cipher = ctypes.create_string_buffer(b"DES-EDE3-CBC")
    # A text (4), and the end of the list.
    parameters = (Parameter * 2)(
        Parameter(b"cipher", 4, ctypes.cast(cipher, c_void_p), 12, 0), Parameter())
    made, count, whole = ctypes.create_string_buffer(8), c_size_t(), three_keys(key)
    ok = (CRYPTO.EVP_MAC_init(context, whole, c_size_t(len(whole)), parameters)
          and CRYPTO.EVP_MAC_update(context, message, c_size_t(len(message)))
          and CRYPTO.EVP_MAC_final(context, made, byref(count), c_size_t(8)))
    CRYPTO.EVP_MAC_CTX_free(context)
    CRYPTO.EVP_MAC_free(method)
    demand(ok and count.value == 8, "OpenSSL failed")
    return made.raw


def retail_mac(key: bytes, message: bytes) -> bytes:
    """The retail MAC: DES in a chain under the left half, and the last block by TDES."""
    demand(len(key) == 16, "a key has 16 bytes")
    demand(message, "a message is not empty")
    padded = message + bytes(-len(message) % 8)
    left, right = key[:8], key[8:]
    chained = crypt(left * 3, padded, True, bytes(8))[-8:]
    return crypt(left * 3, crypt(right * 3, chained, False), True)


OPERATIONS: dict[str, Callable[..., dict[str, bytes]]] = {
    "tdes_encrypt": lambda key, block: {"block": block_of(key, block, True)},
    "tdes_decrypt": lambda key, block: {"block": block_of(key, block, False)},
    "cbc_encrypt": lambda key, iv, data: {"data": chain_of(key, iv, data, True)},
    "cbc_decrypt": lambda key, iv, data: {"data": chain_of(key, iv, data, False)},
    "retail_mac": lambda key, message: {"mac": retail_mac(key, message)},
    "cmac": lambda key, message: {"mac": cmac(key, message)},
    "check_value": lambda key: {"kcv": crypt(key, bytes(8), True)[:3]},
    "cmac_check_value": lambda key: {"kcv": cmac(key, bytes(8))[:5]},
}


def answer(operation: str, inputs: dict[str, str]) -> dict[str, Any]:
    """The answer to a case, but for its number."""
    if operation not in OPERATIONS:
        return {"unsupported": True}
    try:
        values = {name: bytes.fromhex(value) for name, value in inputs.items()}
        found = OPERATIONS[operation](**values)
    except (Refused, ValueError) as why:
        return {"error": str(why)}
    return {name: value.hex().upper() for name, value in found.items()}


def main() -> None:
    """Answers each line."""
    for line in sys.stdin:
        case = json.loads(line)
        number, operation = case.pop("tcId"), case.pop("operation")
        print(json.dumps({"tcId": number, **answer(operation, case)}), flush=True)


if __name__ == "__main__":
    main()
