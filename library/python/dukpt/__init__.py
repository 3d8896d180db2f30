"""Keys, registers, ciphers, MACs, PIN blocks, key blocks and frames of TDES DUKPT (ANSI X9.24-1).

Each function calls the proved library `libdukpt`. Values are bytes: 16 for a key, 10 for a key
serial number, ASCII for PINs, PANs and key blocks. A call that is refused raises the class of its
fault in `dukpt.faults`, all of which are a `DukptError`. What is secret is a `Secret`: bytes that
are not printed by chance.

>>> import dukpt
>>> bdk = bytes.fromhex("0123456789ABCDEFFEDCBA9876543210")
>>> dukpt.derive(bdk, bytes.fromhex("FFFF9876543210E00001")).hex().upper()
'042666B49184CFA368DE9628D0397BC9'
"""
from __future__ import annotations

from . import faults
from ._blocks import KeyBlock, unwrap, unwrap_for, unwrap_optional, wrap, wrap_with
from ._ciphers import cbc_decrypt, cbc_encrypt, tdes_decrypt, tdes_encrypt
from ._frames import frame_length
from ._keys import (
    derive, derive_from_initial, derive_many, initial_key, pin_key, request_data_key, request_key,
    response_data_key, response_key)
from ._library import version
from ._macs import check_value, cmac, cmac_check_value, retail_mac
from ._module import Card, Judged, Module, Payment, Refused, Settled, Settlement
from ._numbers import check_usable, next_number
from ._pins import pin_block, pin_of_block
from ._registers import (
    Taken, registers_at, registers_load, registers_next, registers_number, registers_reload)
from ._replies import (
    Refusal, Reply, check_reply, read_refusal, read_reply, request_refusal, request_reply)
from ._requests import (
    Request, check_request, check_requests, payment_request, read_request, request_pin)
from ._reversals import (
    NONE_STANDS, UNDONE, Reversal, ReversalReply, check_reversal, check_reversal_reply,
    read_reversal, read_reversal_reply, reversal_reply, reversal_request)
from ._terminal import Terminal, Transaction
from ._values import Secret
from ._version import __version__
from .faults import DukptError

__all__ = [
    "Card", "DukptError", "Judged", "KeyBlock", "Module", "NONE_STANDS", "Payment", "Refusal",
    "Refused", "Reply", "Request", "Reversal", "ReversalReply", "Secret", "Settled", "Settlement",
    "Taken", "Terminal", "Transaction", "UNDONE", "__version__",
    "cbc_decrypt", "cbc_encrypt", "check_reply", "check_request", "check_requests",
    "check_reversal", "check_reversal_reply", "check_usable", "check_value", "cmac",
    "cmac_check_value", "derive", "derive_from_initial", "derive_many", "faults", "frame_length",
    "initial_key", "next_number", "payment_request", "pin_block", "pin_key", "pin_of_block",
    "read_refusal", "read_reply", "read_request", "read_reversal", "read_reversal_reply",
    "registers_at", "registers_load", "registers_next", "registers_number", "registers_reload",
    "request_data_key", "request_key", "request_pin", "request_refusal", "request_reply",
    "response_data_key", "response_key", "retail_mac", "reversal_reply", "reversal_request",
    "tdes_decrypt", "tdes_encrypt", "unwrap", "unwrap_for", "unwrap_optional", "version", "wrap",
    "wrap_with",
]
