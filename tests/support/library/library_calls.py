"""The calls of libdukpt by the ciphers and formats of this bench: what each has to answer.

It is written from the documents and the comments of library/c/dukpt.h, over the modules beside it.
"""
from __future__ import annotations

from dataclasses import dataclass
from typing import Callable, Sequence

from ..formats.images import image_of, read_image
from ..standards.des import cbc_decrypt, cbc_encrypt, decrypt_block, encrypt_block
from ..standards.dukpt import (
    MOST_PAST, SPENT, Registers, counter_of, derive, initial_key, iksn_of, key_of, next_counter,
    pin_key, registers_at, request_data_key, request_key, response_data_key, response_key, usable)
from ..standards.macs import cmac, retail_mac
from ..standards.pin_blocks import PIN_LENGTHS, pin_block
from .library_blocks import (
    write_optional_content, write_unwrapped, write_unwrapped_for, write_wrapped, write_wrapped_with)
from .library_frames import (
    check_reply, check_request, write_frame_length, write_refusal, write_refusal_parts, write_reply,
    write_reply_parts, write_request, write_request_parts, write_request_pin, write_verdicts)
from .library_modules import (
    write_answers, write_bdk_loaded, write_judged, write_module, write_zone_loaded)
from .library_reversals import (
    check_reversal, check_reversal_reply, write_reversal, write_reversal_parts,
    write_reversal_reply, write_reversal_reply_parts)
from .library_values import (
    BLOCK, FAULTS, IMAGE, KEY, KSN, STATUS, TDES_KEYS, Fault, Value, demand, found_pin, number,
    octets, pan_of, parts, pin_of, roomy, sized)

__all__ = ["CALLS", "FAULTS", "STATUS", "Answer", "Call", "Fault", "Value", "answer"]


@dataclass(frozen=True)
class Answer:
    """The status of a call, and its arguments afterwards."""

    status: int
    arguments: tuple[Value, ...]


@dataclass(frozen=True)
class Call:
    """The kinds of a call's arguments, and what it writes: a value for each `buffer` and `count`,
    in their order. Of a buffer that is longer than the value the rest stays as it was."""

    kinds: tuple[str, ...]
    written: Callable[..., Sequence[Value]]


def answer(name: str, arguments: Sequence[Value]) -> Answer:
    call = CALLS[name]
    try:
        written = iter(call.written(*arguments))
    except Fault as why:
        return Answer(STATUS[str(why)], tuple(arguments))
    after = tuple(behind(next(written), value) if kind in ("buffer", "count") else value
                  for kind, value in zip(call.kinds, arguments))
    return Answer(0, after)


def behind(new: Value, old: Value) -> Value:
    """What an argument is after this was written into it."""
    return new + old[len(new) :] if isinstance(new, bytes) and isinstance(old, bytes) else new


# Keys


def write_initial_key(bdk: bytes, iksn: bytes, key: bytes) -> Sequence[Value]:
    sized((bdk, KEY), (iksn, KSN))
    roomy((key, KEY))
    demand(counter_of(number(iksn)) == 0, "NotInitial")
    return [initial_key(bdk, number(iksn))]


def write_derived(bdk: bytes, ksn: bytes, key: bytes) -> Sequence[Value]:
    sized((bdk, KEY), (ksn, KSN))
    roomy((key, KEY))
    return [derive(bdk, number(ksn))]


def write_derived_many(bdk: bytes, ksns: bytes, keys: bytes) -> Sequence[Value]:
    sized((bdk, KEY))
    demand(len(ksns) % KSN == 0)
    roomy((keys, KEY * (len(ksns) // KSN)))
    return [b"".join(derive(bdk, number(ksn)) for ksn in parts(ksns, KSN))]


def write_derived_from_initial(initial: bytes, ksn: bytes, key: bytes) -> Sequence[Value]:
    sized((initial, KEY), (ksn, KSN))
    roomy((key, KEY))
    return [key_of(initial, number(ksn))]


def variant_by(function: Callable[[bytes], bytes]) -> Callable[..., Sequence[Value]]:
    def write(key: bytes, variant: bytes) -> Sequence[Value]:
        sized((key, KEY))
        roomy((variant, KEY))
        return [function(key)]

    return write


def check_usable(ksn: bytes) -> Sequence[Value]:
    sized((ksn, KSN))
    demand(usable(counter_of(number(ksn))), "NotUsable")
    return []


def write_next(ksn: bytes, after: bytes) -> Sequence[Value]:
    sized((ksn, KSN))
    roomy((after, KSN))
    counter = next_counter(counter_of(number(ksn)))
    demand(counter != SPENT, "Spent")
    return [octets(iksn_of(number(ksn)) + counter)]


# Ciphers and MACs


def write_check_value(key: bytes, value: bytes) -> Sequence[Value]:
    demand(len(key) in TDES_KEYS and len(value) >= 3)
    return [encrypt_block(key, bytes(BLOCK))[:3]]


def write_cmac_check_value(key: bytes, value: bytes) -> Sequence[Value]:
    demand(len(key) in TDES_KEYS and len(value) >= 5)
    return [cmac(key, bytes(BLOCK))[:5]]


def block_by(cipher: Callable[[bytes, bytes], bytes]) -> Callable[..., Sequence[Value]]:
    def write(key: bytes, block: bytes) -> Sequence[Value]:
        demand(len(key) in TDES_KEYS and len(block) == BLOCK)
        return [cipher(key, block)]

    return write


def chain_by(mode: Callable[[bytes, bytes, bytes], bytes]) -> Callable[..., Sequence[Value]]:
    def write(key: bytes, iv: bytes, data: bytes) -> Sequence[Value]:
        demand(len(key) in TDES_KEYS and len(iv) == BLOCK and len(data) % BLOCK == 0)
        return [mode(key, iv, data)]

    return write


def write_cmac(key: bytes, message: bytes, mac: bytes) -> Sequence[Value]:
    demand(len(key) in TDES_KEYS and len(mac) >= BLOCK)
    return [cmac(key, message)]


def write_retail_mac(key: bytes, message: bytes, mac: bytes) -> Sequence[Value]:
    demand(len(key) == KEY and len(message) > 0 and len(mac) >= BLOCK)
    return [retail_mac(key, message)]


# Registers


def write_loaded(initial: bytes, iksn: bytes, image: bytes) -> Sequence[Value]:
    sized((initial, KEY), (iksn, KSN))
    roomy((image, IMAGE))
    demand(counter_of(number(iksn)) == 0, "NotInitial")
    return [image_of(registers_at(initial, number(iksn), 1))]


def write_registers_at(initial: bytes, ksn: bytes, image: bytes) -> Sequence[Value]:
    sized((initial, KEY), (ksn, KSN))
    roomy((image, IMAGE))
    counter = counter_of(number(ksn))
    demand(usable(counter), "NotUsable")
    return [image_of(registers_at(initial, iksn_of(number(ksn)), counter))]


def stored_in(image: bytes) -> Registers:
    registers = read_image(image)
    if registers is None:
        raise Fault("NotAnImage")
    return registers


def unspent_in(image: bytes) -> Registers:
    registers = stored_in(image)
    demand(registers.next is not None, "Spent")
    return registers


def write_number(image: bytes, ksn: bytes) -> Sequence[Value]:
    roomy((ksn, KSN))
    registers = unspent_in(image)
    return [octets(registers.iksn + registers.counter)]


def write_taken(image: bytes, next_image: bytes, key: bytes, ksn: bytes) -> Sequence[Value]:
    roomy((next_image, IMAGE), (key, KEY), (ksn, KSN))
    taken, serial, left = unspent_in(image).take()
    return [image_of(left), taken, octets(serial)]


def write_reloaded(
    image: bytes, initial: bytes, iksn: bytes, next_image: bytes
) -> Sequence[Value]:
    sized((initial, KEY), (iksn, KSN))
    roomy((next_image, IMAGE))
    demand(counter_of(number(iksn)) == 0, "NotInitial")
    registers = stored_in(image)
    had = (*registers.past, registers.iksn)
    demand(number(iksn) not in had, "IksnSpent")
    demand(len(had) <= MOST_PAST, "LoadsSpent")
    return [image_of(registers_at(initial, number(iksn), 1, had))]


# PIN blocks


def write_pin_block(pin: bytes, pan: bytes, block: bytes) -> Sequence[Value]:
    roomy((block, BLOCK))
    digits = pin_of(pin)
    return [pin_block(digits, pan_of(pan)).to_bytes(BLOCK, "big")]


def write_pin_of_block(block: bytes, pan: bytes, pin: bytes, _: int) -> Sequence[Value]:
    sized((block, BLOCK))
    roomy((pin, PIN_LENGTHS[-1]))
    return found_pin(number(block), pan_of(pan))


LETTERS = {"b": "bytes", "w": "buffer", "c": "count", "n": "number"}


def takes(letters: str, written: Callable[..., Sequence[Value]]) -> Call:
    """A call by its kinds, a letter each: b for bytes, w for a buffer, c and n for numbers that are
    written and read."""
    return Call(tuple(LETTERS[it] for it in letters), written)


CALLS: dict[str, Call] = {
    "dukpt_initial_key": takes("bbw", write_initial_key),
    "dukpt_derive": takes("bbw", write_derived),
    "dukpt_derive_many": takes("bbw", write_derived_many),
    "dukpt_derive_from_initial": takes("bbw", write_derived_from_initial),
    "dukpt_pin_key": takes("bw", variant_by(pin_key)),
    "dukpt_request_key": takes("bw", variant_by(request_key)),
    "dukpt_response_key": takes("bw", variant_by(response_key)),
    "dukpt_request_data_key": takes("bw", variant_by(request_data_key)),
    "dukpt_response_data_key": takes("bw", variant_by(response_data_key)),
    "dukpt_check_usable": takes("b", check_usable),
    "dukpt_next_number": takes("bw", write_next),
    "dukpt_check_value": takes("bw", write_check_value),
    "dukpt_cmac_check_value": takes("bw", write_cmac_check_value),
    "dukpt_registers_load": takes("bbw", write_loaded),
    "dukpt_registers_at": takes("bbw", write_registers_at),
    "dukpt_registers_number": takes("bw", write_number),
    "dukpt_registers_next": takes("bwww", write_taken),
    "dukpt_registers_reload": takes("bbbw", write_reloaded),
    "dukpt_tdes_encrypt": takes("bw", block_by(encrypt_block)),
    "dukpt_tdes_decrypt": takes("bw", block_by(decrypt_block)),
    "dukpt_cbc_encrypt": takes("bbw", chain_by(cbc_encrypt)),
    "dukpt_cbc_decrypt": takes("bbw", chain_by(cbc_decrypt)),
    "dukpt_cmac": takes("bbw", write_cmac),
    "dukpt_retail_mac": takes("bbw", write_retail_mac),
    "dukpt_pin_block": takes("bbw", write_pin_block),
    "dukpt_pin_of_block": takes("bbwc", write_pin_of_block),
    "dukpt_wrap": takes("bbbbwc", write_wrapped),
    "dukpt_wrap_with": takes("bbbbbwc", write_wrapped_with),
    "dukpt_unwrap": takes("bbwwc", write_unwrapped),
    "dukpt_unwrap_for": takes("bbnbw", write_unwrapped_for),
    "dukpt_unwrap_optional": takes("bbbwc", write_optional_content),
    "dukpt_payment_request": takes("bbbbnwc", write_request),
    "dukpt_read_request": takes("bwwccww", write_request_parts),
    "dukpt_check_request": takes("bb", check_request),
    "dukpt_check_requests": takes("bbw", write_verdicts),
    "dukpt_request_pin": takes("bbwc", write_request_pin),
    "dukpt_request_reply": takes("bbbwc", write_reply),
    "dukpt_request_refusal": takes("bnwc", write_refusal),
    "dukpt_read_reply": takes("bww", write_reply_parts),
    "dukpt_read_refusal": takes("bwc", write_refusal_parts),
    "dukpt_check_reply": takes("bbb", check_reply),
    "dukpt_reversal_request": takes("bbbwc", write_reversal),
    "dukpt_read_reversal": takes("bwww", write_reversal_parts),
    "dukpt_check_reversal": takes("bb", check_reversal),
    "dukpt_reversal_reply": takes("bbbnwc", write_reversal_reply),
    "dukpt_read_reversal_reply": takes("bwwc", write_reversal_reply_parts),
    "dukpt_check_reversal_reply": takes("bbbb", check_reversal_reply),
    "dukpt_module_new": takes("bw", write_module),
    "dukpt_module_load_bdk": takes("bbw", write_bdk_loaded),
    "dukpt_module_load_zone": takes("bw", write_zone_loaded),
    "dukpt_host_judge": takes("bbbw", write_judged),
    "dukpt_host_answer": takes("bbw", write_answers),
    "dukpt_frame_length": takes("bc", write_frame_length),
}
