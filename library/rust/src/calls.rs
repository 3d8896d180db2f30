//! Each export as a safe function. `unsafe` stands here and in `wipe` alone.
//!
//! An export asks of its caller that each pointer is valid for the length behind it and not null,
//! also where that is 0, and that what it writes overlaps nothing else. It asks no more: its
//! contract holds for all lengths and all bytes. It keeps no pointer after it has answered.

#![allow(unsafe_code)]

use crate::exports;

/// Calls an export. `read` is a `&[u8]` and `write` a `&mut [u8]`: each becomes a pointer and a
/// length. `set` is a `&mut u32`, and `number` a `u32`.
macro_rules! call {
    ($export:ident: $($arguments:tt)*) => {
        call!(@ $export () $($arguments)*,)
    };
    (@ $export:ident ($($word:expr,)*) read $bytes:ident, $($rest:tt)*) => {{
        let bytes: &[u8] = $bytes;
        call!(@ $export ($($word,)* bytes.as_ptr(), bytes.len(),) $($rest)*)
    }};
    (@ $export:ident ($($word:expr,)*) write $bytes:ident, $($rest:tt)*) => {{
        let bytes: &mut [u8] = $bytes;
        call!(@ $export ($($word,)* bytes.as_mut_ptr(), bytes.len(),) $($rest)*)
    }};
    (@ $export:ident ($($word:expr,)*) set $count:ident, $($rest:tt)*) => {{
        let count: &mut u32 = $count;
        call!(@ $export ($($word,)* count,) $($rest)*)
    }};
    (@ $export:ident ($($word:expr,)*) number $number:ident, $($rest:tt)*) => {
        call!(@ $export ($($word,)* $number,) $($rest)*)
    };
    (@ $export:ident ($($word:expr,)*) $(,)?) => {
        // SAFETY: the arms above make each pointer and its length of one slice, or of a `&mut u32`.
        // References are never null, and what the export writes is borrowed by `&mut`, beside which
        // there is no other borrow of it. Both outlive the call.
        unsafe { exports::$export($($word),*) }
    };
}

// The calls: made of library/calls.toml by `tools/library --make`.

pub fn version() -> u32 {
    call!(dukpt_version: )
}

pub fn initial_key(bdk: &[u8], iksn: &[u8], key: &mut [u8]) -> u32 {
    call!(dukpt_initial_key: read bdk, read iksn, write key)
}

pub fn derive(bdk: &[u8], ksn: &[u8], key: &mut [u8]) -> u32 {
    call!(dukpt_derive: read bdk, read ksn, write key)
}

pub fn derive_many(bdk: &[u8], ksns: &[u8], keys: &mut [u8]) -> u32 {
    call!(dukpt_derive_many: read bdk, read ksns, write keys)
}

pub fn derive_from_initial(initial: &[u8], ksn: &[u8], key: &mut [u8]) -> u32 {
    call!(dukpt_derive_from_initial: read initial, read ksn, write key)
}

pub fn pin_key(key: &[u8], variant: &mut [u8]) -> u32 {
    call!(dukpt_pin_key: read key, write variant)
}

pub fn request_key(key: &[u8], variant: &mut [u8]) -> u32 {
    call!(dukpt_request_key: read key, write variant)
}

pub fn response_key(key: &[u8], variant: &mut [u8]) -> u32 {
    call!(dukpt_response_key: read key, write variant)
}

pub fn request_data_key(key: &[u8], variant: &mut [u8]) -> u32 {
    call!(dukpt_request_data_key: read key, write variant)
}

pub fn response_data_key(key: &[u8], variant: &mut [u8]) -> u32 {
    call!(dukpt_response_data_key: read key, write variant)
}

pub fn check_usable(ksn: &[u8]) -> u32 {
    call!(dukpt_check_usable: read ksn)
}

pub fn next_number(ksn: &[u8], next: &mut [u8]) -> u32 {
    call!(dukpt_next_number: read ksn, write next)
}

pub fn check_value(key: &[u8], value: &mut [u8]) -> u32 {
    call!(dukpt_check_value: read key, write value)
}

pub fn cmac_check_value(key: &[u8], value: &mut [u8]) -> u32 {
    call!(dukpt_cmac_check_value: read key, write value)
}

pub fn registers_load(initial: &[u8], iksn: &[u8], image: &mut [u8]) -> u32 {
    call!(dukpt_registers_load: read initial, read iksn, write image)
}

pub fn registers_at(initial: &[u8], ksn: &[u8], image: &mut [u8]) -> u32 {
    call!(dukpt_registers_at: read initial, read ksn, write image)
}

pub fn registers_number(image: &[u8], ksn: &mut [u8]) -> u32 {
    call!(dukpt_registers_number: read image, write ksn)
}

pub fn registers_next(image: &[u8], next_image: &mut [u8], key: &mut [u8], ksn: &mut [u8]) -> u32 {
    call!(dukpt_registers_next: read image, write next_image, write key, write ksn)
}

pub fn registers_reload(image: &[u8], initial: &[u8], iksn: &[u8], next_image: &mut [u8]) -> u32 {
    call!(dukpt_registers_reload: read image, read initial, read iksn, write next_image)
}

pub fn tdes_encrypt(key: &[u8], block: &mut [u8]) -> u32 {
    call!(dukpt_tdes_encrypt: read key, write block)
}

pub fn tdes_decrypt(key: &[u8], block: &mut [u8]) -> u32 {
    call!(dukpt_tdes_decrypt: read key, write block)
}

pub fn cbc_encrypt(key: &[u8], iv: &[u8], bytes: &mut [u8]) -> u32 {
    call!(dukpt_cbc_encrypt: read key, read iv, write bytes)
}

pub fn cbc_decrypt(key: &[u8], iv: &[u8], bytes: &mut [u8]) -> u32 {
    call!(dukpt_cbc_decrypt: read key, read iv, write bytes)
}

pub fn cmac(key: &[u8], message: &[u8], mac: &mut [u8]) -> u32 {
    call!(dukpt_cmac: read key, read message, write mac)
}

pub fn retail_mac(key: &[u8], message: &[u8], mac: &mut [u8]) -> u32 {
    call!(dukpt_retail_mac: read key, read message, write mac)
}

pub fn pin_block(pin: &[u8], pan: &[u8], block: &mut [u8]) -> u32 {
    call!(dukpt_pin_block: read pin, read pan, write block)
}

pub fn pin_of_block(block: &[u8], pan: &[u8], pin: &mut [u8], pin_length: &mut u32) -> u32 {
    call!(dukpt_pin_of_block: read block, read pan, write pin, set pin_length)
}

pub fn wrap(
    kbpk: &[u8],
    header: &[u8],
    key: &[u8],
    padding: &[u8],
    text: &mut [u8],
    text_length: &mut u32,
) -> u32 {
    call!(dukpt_wrap: read kbpk, read header, read key, read padding, write text, set text_length)
}

pub fn wrap_with(
    kbpk: &[u8],
    header: &[u8],
    optional: &[u8],
    key: &[u8],
    padding: &[u8],
    text: &mut [u8],
    text_length: &mut u32,
) -> u32 {
    call!(dukpt_wrap_with:
        read kbpk, read header, read optional, read key, read padding, write text, set text_length)
}

pub fn unwrap(
    kbpk: &[u8],
    text: &[u8],
    header: &mut [u8],
    key: &mut [u8],
    key_length: &mut u32,
) -> u32 {
    call!(dukpt_unwrap: read kbpk, read text, write header, write key, set key_length)
}

pub fn unwrap_for(kbpk: &[u8], usage: &[u8], wanted: u32, text: &[u8], key: &mut [u8]) -> u32 {
    call!(dukpt_unwrap_for: read kbpk, read usage, number wanted, read text, write key)
}

pub fn unwrap_optional(
    kbpk: &[u8],
    text: &[u8],
    id: &[u8],
    content: &mut [u8],
    content_length: &mut u32,
) -> u32 {
    call!(dukpt_unwrap_optional: read kbpk, read text, read id, write content, set content_length)
}

pub fn payment_request(
    key: &[u8],
    ksn: &[u8],
    pan: &[u8],
    pin: &[u8],
    amount: u32,
    frame: &mut [u8],
    frame_length: &mut u32,
) -> u32 {
    call!(dukpt_payment_request:
        read key, read ksn, read pan, read pin, number amount, write frame, set frame_length)
}

pub fn read_request(
    frame: &[u8],
    ksn: &mut [u8],
    pan: &mut [u8],
    pan_length: &mut u32,
    amount: &mut u32,
    block: &mut [u8],
    mac: &mut [u8],
) -> u32 {
    call!(dukpt_read_request:
        read frame, write ksn, write pan, set pan_length, set amount, write block, write mac)
}

pub fn check_request(key: &[u8], frame: &[u8]) -> u32 {
    call!(dukpt_check_request: read key, read frame)
}

pub fn check_requests(bdk: &[u8], frames: &[u8], results: &mut [u8]) -> u32 {
    call!(dukpt_check_requests: read bdk, read frames, write results)
}

pub fn request_pin(key: &[u8], frame: &[u8], pin: &mut [u8], pin_length: &mut u32) -> u32 {
    call!(dukpt_request_pin: read key, read frame, write pin, set pin_length)
}

pub fn request_reply(
    key: &[u8],
    ksn: &[u8],
    code: &[u8],
    frame: &mut [u8],
    frame_length: &mut u32,
) -> u32 {
    call!(dukpt_request_reply: read key, read ksn, read code, write frame, set frame_length)
}

pub fn request_refusal(ksn: &[u8], reason: u32, frame: &mut [u8], frame_length: &mut u32) -> u32 {
    call!(dukpt_request_refusal: read ksn, number reason, write frame, set frame_length)
}

pub fn read_reply(frame: &[u8], ksn: &mut [u8], code: &mut [u8]) -> u32 {
    call!(dukpt_read_reply: read frame, write ksn, write code)
}

pub fn read_refusal(frame: &[u8], ksn: &mut [u8], reason: &mut u32) -> u32 {
    call!(dukpt_read_refusal: read frame, write ksn, set reason)
}

pub fn check_reply(key: &[u8], ksn: &[u8], frame: &[u8]) -> u32 {
    call!(dukpt_check_reply: read key, read ksn, read frame)
}

pub fn reversal_request(
    key: &[u8],
    ksn: &[u8],
    reversed: &[u8],
    frame: &mut [u8],
    frame_length: &mut u32,
) -> u32 {
    call!(dukpt_reversal_request: read key, read ksn, read reversed, write frame, set frame_length)
}

pub fn read_reversal(frame: &[u8], ksn: &mut [u8], reversed: &mut [u8], mac: &mut [u8]) -> u32 {
    call!(dukpt_read_reversal: read frame, write ksn, write reversed, write mac)
}

pub fn check_reversal(key: &[u8], frame: &[u8]) -> u32 {
    call!(dukpt_check_reversal: read key, read frame)
}

pub fn reversal_reply(
    key: &[u8],
    ksn: &[u8],
    reversed: &[u8],
    state: u32,
    frame: &mut [u8],
    frame_length: &mut u32,
) -> u32 {
    call!(dukpt_reversal_reply:
        read key, read ksn, read reversed, number state, write frame, set frame_length)
}

pub fn read_reversal_reply(
    frame: &[u8],
    ksn: &mut [u8],
    reversed: &mut [u8],
    state: &mut u32,
) -> u32 {
    call!(dukpt_read_reversal_reply: read frame, write ksn, write reversed, set state)
}

pub fn check_reversal_reply(key: &[u8], ksn: &[u8], reversed: &[u8], frame: &[u8]) -> u32 {
    call!(dukpt_check_reversal_reply: read key, read ksn, read reversed, read frame)
}

pub fn module_new(lmk: &[u8], image: &mut [u8]) -> u32 {
    call!(dukpt_module_new: read lmk, write image)
}

pub fn module_load_bdk(prefix: &[u8], block: &[u8], image: &mut [u8]) -> u32 {
    call!(dukpt_module_load_bdk: read prefix, read block, write image)
}

pub fn module_load_zone(block: &[u8], image: &mut [u8]) -> u32 {
    call!(dukpt_module_load_zone: read block, write image)
}

pub fn host_judge(image: &[u8], cards: &[u8], frames: &[u8], judged: &mut [u8]) -> u32 {
    call!(dukpt_host_judge: read image, read cards, read frames, write judged)
}

pub fn host_answer(image: &[u8], settled: &[u8], answers: &mut [u8]) -> u32 {
    call!(dukpt_host_answer: read image, read settled, write answers)
}

pub fn frame_length(bytes: &[u8], count: &mut u32) -> u32 {
    call!(dukpt_frame_length: read bytes, set count)
}
