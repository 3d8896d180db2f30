"""The exports of libdukpt, as library/c/dukpt.h declares them.

Each has its arguments in their order, by name and kind:

| kind | what the call takes |
|---|---|
| `bytes` | `const uint8_t *` and `size_t`: bytes that it reads, and how many they are |
| `buffer` | `uint8_t *` and `size_t`: bytes that it writes, and how many there are |
| `count` | `uint32_t *`: a number that it writes |
| `number` | `uint32_t`: a number that it reads |

Each answers a `uint32_t`: a status, and `dukpt_version` the version.

Made of library/calls.toml by `tools/library --make`.
"""
from __future__ import annotations

from typing import Final, Literal, Mapping

Kind = Literal["bytes", "buffer", "count", "number"]

EXPORTS: Final[Mapping[str, Mapping[str, Kind]]] = {
    "dukpt_version": {},
    "dukpt_initial_key": {"bdk": "bytes", "iksn": "bytes", "key": "buffer"},
    "dukpt_derive": {"bdk": "bytes", "ksn": "bytes", "key": "buffer"},
    "dukpt_derive_many": {"bdk": "bytes", "ksns": "bytes", "keys": "buffer"},
    "dukpt_derive_from_initial": {"initial": "bytes", "ksn": "bytes", "key": "buffer"},
    "dukpt_pin_key": {"key": "bytes", "variant": "buffer"},
    "dukpt_request_key": {"key": "bytes", "variant": "buffer"},
    "dukpt_response_key": {"key": "bytes", "variant": "buffer"},
    "dukpt_request_data_key": {"key": "bytes", "variant": "buffer"},
    "dukpt_response_data_key": {"key": "bytes", "variant": "buffer"},
    "dukpt_check_usable": {"ksn": "bytes"},
    "dukpt_next_number": {"ksn": "bytes", "next": "buffer"},
    "dukpt_check_value": {"key": "bytes", "value": "buffer"},
    "dukpt_cmac_check_value": {"key": "bytes", "value": "buffer"},
    "dukpt_registers_load": {"initial": "bytes", "iksn": "bytes", "image": "buffer"},
    "dukpt_registers_at": {"initial": "bytes", "ksn": "bytes", "image": "buffer"},
    "dukpt_registers_number": {"image": "bytes", "ksn": "buffer"},
    "dukpt_registers_next": {
        "image": "bytes", "next_image": "buffer", "key": "buffer", "ksn": "buffer"},
    "dukpt_registers_reload": {
        "image": "bytes", "initial": "bytes", "iksn": "bytes", "next_image": "buffer"},
    "dukpt_tdes_encrypt": {"key": "bytes", "block": "buffer"},
    "dukpt_tdes_decrypt": {"key": "bytes", "block": "buffer"},
    "dukpt_cbc_encrypt": {"key": "bytes", "iv": "bytes", "bytes": "buffer"},
    "dukpt_cbc_decrypt": {"key": "bytes", "iv": "bytes", "bytes": "buffer"},
    "dukpt_cmac": {"key": "bytes", "message": "bytes", "mac": "buffer"},
    "dukpt_retail_mac": {"key": "bytes", "message": "bytes", "mac": "buffer"},
    "dukpt_pin_block": {"pin": "bytes", "pan": "bytes", "block": "buffer"},
    "dukpt_pin_of_block": {
        "block": "bytes", "pan": "bytes", "pin": "buffer", "pin_length": "count"},
    "dukpt_wrap": {
        "kbpk": "bytes", "header": "bytes", "key": "bytes", "padding": "bytes", "text": "buffer",
        "text_length": "count"},
    "dukpt_wrap_with": {
        "kbpk": "bytes", "header": "bytes", "optional": "bytes", "key": "bytes", "padding": "bytes",
        "text": "buffer", "text_length": "count"},
    "dukpt_unwrap": {
        "kbpk": "bytes", "text": "bytes", "header": "buffer", "key": "buffer",
        "key_length": "count"},
    "dukpt_unwrap_for": {
        "kbpk": "bytes", "usage": "bytes", "wanted": "number", "text": "bytes", "key": "buffer"},
    "dukpt_unwrap_optional": {
        "kbpk": "bytes", "text": "bytes", "id": "bytes", "content": "buffer",
        "content_length": "count"},
    "dukpt_payment_request": {
        "key": "bytes", "ksn": "bytes", "pan": "bytes", "pin": "bytes", "amount": "number",
        "frame": "buffer", "frame_length": "count"},
    "dukpt_read_request": {
        "frame": "bytes", "ksn": "buffer", "pan": "buffer", "pan_length": "count",
        "amount": "count", "block": "buffer", "mac": "buffer"},
    "dukpt_check_request": {"key": "bytes", "frame": "bytes"},
    "dukpt_check_requests": {"bdk": "bytes", "frames": "bytes", "results": "buffer"},
    "dukpt_request_pin": {"key": "bytes", "frame": "bytes", "pin": "buffer", "pin_length": "count"},
    "dukpt_request_reply": {
        "key": "bytes", "ksn": "bytes", "code": "bytes", "frame": "buffer",
        "frame_length": "count"},
    "dukpt_request_refusal": {
        "ksn": "bytes", "reason": "number", "frame": "buffer", "frame_length": "count"},
    "dukpt_read_reply": {"frame": "bytes", "ksn": "buffer", "code": "buffer"},
    "dukpt_read_refusal": {"frame": "bytes", "ksn": "buffer", "reason": "count"},
    "dukpt_check_reply": {"key": "bytes", "ksn": "bytes", "frame": "bytes"},
    "dukpt_reversal_request": {
        "key": "bytes", "ksn": "bytes", "reversed": "bytes", "frame": "buffer",
        "frame_length": "count"},
    "dukpt_read_reversal": {
        "frame": "bytes", "ksn": "buffer", "reversed": "buffer", "mac": "buffer"},
    "dukpt_check_reversal": {"key": "bytes", "frame": "bytes"},
    "dukpt_reversal_reply": {
        "key": "bytes", "ksn": "bytes", "reversed": "bytes", "state": "number", "frame": "buffer",
        "frame_length": "count"},
    "dukpt_read_reversal_reply": {
        "frame": "bytes", "ksn": "buffer", "reversed": "buffer", "state": "count"},
    "dukpt_check_reversal_reply": {
        "key": "bytes", "ksn": "bytes", "reversed": "bytes", "frame": "bytes"},
    "dukpt_module_new": {"lmk": "bytes", "image": "buffer"},
    "dukpt_module_load_bdk": {"prefix": "bytes", "block": "bytes", "image": "buffer"},
    "dukpt_module_load_zone": {"block": "bytes", "image": "buffer"},
    "dukpt_host_judge": {"image": "bytes", "cards": "bytes", "frames": "bytes", "judged": "buffer"},
    "dukpt_host_answer": {"image": "bytes", "settled": "bytes", "answers": "buffer"},
    "dukpt_frame_length": {"bytes": "bytes", "count": "count"},
}
