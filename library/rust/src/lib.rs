//! Keys, registers, ciphers, MACs, PIN blocks, key blocks and frames of TDES DUKPT (ANSI X9.24-1).
//!
//! Each function calls the proved library `libdukpt`. Lengths that are fixed are in the types, so
//! that a call is refused only where its bytes are wrong; [`Fault`] says why. Nothing here takes
//! memory.
//!
//! What is secret is a [`Key`] or a [`Secret`], which is not printed and does not outlive its place.
//! The working copies that a call leaves on the stack stay there, but for those of a [`Module`]'s two
//! steps.
//!
//! ```
//! use dukpt::{Key, Ksn};
//!
//! let bdk = Key::new(*b"\x01\x23\x45\x67\x89\xAB\xCD\xEF\xFE\xDC\xBA\x98\x76\x54\x32\x10");
//! let ksn = Ksn::new(*b"\xFF\xFF\x98\x76\x54\x32\x10\xE0\x00\x01");
//! let published = *b"\x04\x26\x66\xB4\x91\x84\xCF\xA3\x68\xDE\x96\x28\xD0\x39\x7B\xC9";
//! assert_eq!(dukpt::derive(&bdk, &ksn), Key::new(published));
//! ```
#![no_std]
#![deny(unsafe_code, missing_docs)]

#[cfg(feature = "std")]
extern crate std;

mod blocks;
mod bytes;
mod calls;
mod ciphers;
mod exports;
mod fault;
mod frames;
mod key;
mod keys;
mod ksn;
mod macs;
mod module;
mod numbers;
mod pins;
mod registers;
mod replies;
mod requests;
mod reversals;
mod secret;
mod shown;
mod tdes_key;
mod terminal;
mod wipe;

pub use blocks::{
    unwrap, unwrap_for, unwrap_optional, wrap, wrap_with, BlockText, KeyBlock, KeyBytes,
    OptionalContent,
};
pub use bytes::Bytes;
pub use ciphers::{cbc_decrypt, cbc_encrypt, tdes_decrypt, tdes_encrypt};
pub use fault::Fault;
pub use frames::{frame_length, Frame};
pub use key::Key;
pub use keys::{
    derive, derive_from_initial, derive_many, initial_key, pin_key, request_data_key, request_key,
    response_data_key, response_key,
};
pub use ksn::Ksn;
pub use macs::{check_value, cmac, cmac_check_value, retail_mac};
pub use module::{card, Judged, Module, Payment, Settled, Settlement};
pub use numbers::{check_usable, next_number};
pub use pins::{pin_block, pin_of_block, Pan, Pin};
pub use registers::{
    registers_at, registers_load, registers_next, registers_number, registers_reload, Image, Taken,
};
pub use replies::{
    check_reply, read_refusal, read_reply, request_refusal, request_reply, Refusal, Reply,
};
pub use requests::{
    check_request, check_requests, payment_request, read_request, request_pin, Request,
};
pub use reversals::{
    check_reversal, check_reversal_reply, read_reversal, read_reversal_reply, reversal_reply,
    reversal_request, Reversal, ReversalReply, ReversalState,
};
pub use secret::Secret;
pub use tdes_key::TdesKey;
pub use terminal::{Terminal, TerminalFault, Transaction};

/// The examples of the readme.
#[cfg(doctest)]
#[doc = include_str!("../README.md")]
struct Readme;

/// The version of the library: major, minor and patch.
///
/// ```
/// assert_eq!(dukpt::version(), (0, 1, 0));
/// ```
pub fn version() -> (u8, u8, u8) {
    let [_, major, minor, patch] = calls::version().to_be_bytes();
    (major, minor, patch)
}
