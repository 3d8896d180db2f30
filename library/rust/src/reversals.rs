//! The frames of reversals and of their replies (docs/FORMATS.md).
//!
//! A terminal that has no reply to a payment's request does not know whether the payment stands. It
//! reverses it under its next key serial number, and asks for the same until a reply comes.

use crate::bytes::Bytes;
use crate::fault::{done, Fault};
use crate::shown::Hexadecimal;
use crate::{calls, Frame, Key, Ksn};
use core::fmt;

/// What a host found of the payment that was to be reversed.
#[derive(Debug, Clone, Copy, PartialEq, Eq, Hash)]
#[repr(u32)]
pub enum ReversalState {
    /// No payment of that number stands.
    NoneStands = 0,
    /// It was approved, and is undone now.
    Undone = 1,
}

/// Refused with `NotAState`.
impl TryFrom<u32> for ReversalState {
    type Error = Fault;

    fn try_from(state: u32) -> Result<Self, Fault> {
        match state {
            0 => Ok(ReversalState::NoneStands),
            1 => Ok(ReversalState::Undone),
            _ => Err(Fault::NotAState),
        }
    }
}

/// The fields of a reversal.
#[derive(Clone, Copy, PartialEq, Eq)]
pub struct Reversal {
    /// The key serial number of the reversal itself.
    pub ksn: Ksn,
    /// The key serial number of the payment.
    pub reversed: Ksn,
    /// The MAC.
    pub mac: [u8; 8],
}

impl fmt::Debug for Reversal {
    fn fmt(&self, f: &mut fmt::Formatter<'_>) -> fmt::Result {
        let mut shown = f.debug_struct("Reversal");
        shown.field("ksn", &self.ksn).field("reversed", &self.reversed);
        shown.field("mac", &Hexadecimal(&self.mac)).finish()
    }
}

/// The fields of the reply to a reversal.
#[derive(Debug, Clone, Copy, PartialEq, Eq)]
pub struct ReversalReply {
    /// The key serial number of the reversal.
    pub ksn: Ksn,
    /// The key serial number of the payment.
    pub reversed: Ksn,
    /// What the host found.
    pub state: ReversalState,
}

/// The reversal, 30 bytes, of the payment with another key serial number of the same terminal,
/// under the transaction key of its own.
///
/// Refused with `NotReversed`.
///
/// ```
/// use dukpt::{Key, Ksn};
///
/// let key = Key::new(*b"\xC4\x65\x51\xCE\xF9\xFD\x24\xB0\xAA\x9A\xD8\x34\x13\x0D\x3B\xC7");
/// let ksn = Ksn::new(*b"\xFF\xFF\x98\x76\x54\x32\x10\xE0\x00\x02");
/// let payment = Ksn::new(*b"\xFF\xFF\x98\x76\x54\x32\x10\xE0\x00\x01");
/// let frame = dukpt::reversal_request(&key, &ksn, &payment)?;
/// dukpt::check_reversal(&key, &frame)?;
/// let reversal = dukpt::read_reversal(&frame)?;
/// assert_eq!((reversal.ksn, reversal.reversed), (ksn, payment));
/// assert_eq!(reversal.mac, *b"\x3B\x8E\xA6\x1D\x9F\x5F\x53\x2F");
/// # Ok::<(), dukpt::Fault>(())
/// ```
pub fn reversal_request(key: &Key, ksn: &Ksn, reversed: &Ksn) -> Result<Frame, Fault> {
    let (key, ksn, reversed) = (key.as_bytes(), ksn.as_bytes(), reversed.as_bytes());
    Bytes::written(|frame, count| done(calls::reversal_request(key, ksn, reversed, frame, count)))
}

/// The fields of a reversal's frame. The MAC is not compared: [`check_reversal`] does that.
///
/// Refused with `NotAReversal`.
pub fn read_reversal(frame: &[u8]) -> Result<Reversal, Fault> {
    let (mut ksn, mut reversed, mut mac) = ([0; 10], [0; 10], [0; 8]);
    done(calls::read_reversal(frame, &mut ksn, &mut reversed, &mut mac))?;
    Ok(Reversal { ksn: Ksn::new(ksn), reversed: Ksn::new(reversed), mac })
}

/// Tests that a reversal's frame has the MAC of its bytes under the transaction key.
///
/// Refused with `NotAReversal`, then `BadMac`.
pub fn check_reversal(key: &Key, frame: &[u8]) -> Result<(), Fault> {
    done(calls::check_reversal(key.as_bytes(), frame))
}

/// The reply, 31 bytes, to a reversal under the transaction key of its key serial number.
///
/// Refused with `NotReversed`.
///
/// ```
/// use dukpt::{Key, Ksn, ReversalState};
///
/// let key = Key::new(*b"\xC4\x65\x51\xCE\xF9\xFD\x24\xB0\xAA\x9A\xD8\x34\x13\x0D\x3B\xC7");
/// let ksn = Ksn::new(*b"\xFF\xFF\x98\x76\x54\x32\x10\xE0\x00\x02");
/// let payment = Ksn::new(*b"\xFF\xFF\x98\x76\x54\x32\x10\xE0\x00\x01");
/// let frame = dukpt::reversal_reply(&key, &ksn, &payment, ReversalState::Undone)?;
/// assert_eq!(frame[24..], *b"\x01\x2D\xEB\xE2\x73\x52\xA6\x9B\x94");
/// dukpt::check_reversal_reply(&key, &ksn, &payment, &frame)?;
/// assert_eq!(dukpt::read_reversal_reply(&frame)?.state, ReversalState::Undone);
/// # Ok::<(), dukpt::Fault>(())
/// ```
pub fn reversal_reply(
    key: &Key,
    ksn: &Ksn,
    reversed: &Ksn,
    state: ReversalState,
) -> Result<Frame, Fault> {
    let (key, ksn, reversed) = (key.as_bytes(), ksn.as_bytes(), reversed.as_bytes());
    Bytes::written(|frame, count| {
        done(calls::reversal_reply(key, ksn, reversed, state as u32, frame, count))
    })
}

/// The fields of the reply to a reversal. The MAC is not compared: [`check_reversal_reply`] does
/// that.
///
/// Refused with `NotAReversalReply`.
pub fn read_reversal_reply(frame: &[u8]) -> Result<ReversalReply, Fault> {
    let (mut ksn, mut reversed, mut state) = ([0; 10], [0; 10], 0);
    done(calls::read_reversal_reply(frame, &mut ksn, &mut reversed, &mut state))?;
    let state = ReversalState::try_from(state)?;
    Ok(ReversalReply { ksn: Ksn::new(ksn), reversed: Ksn::new(reversed), state })
}

/// Tests that a frame is the reply to the reversal with this transaction key, this key serial
/// number and this payment. Then the payment does not stand: it was undone, or never stood.
///
/// Refused with `NotAReversalReply`, then `NotMine`, then `BadMac`.
pub fn check_reversal_reply(
    key: &Key,
    ksn: &Ksn,
    reversed: &Ksn,
    frame: &[u8],
) -> Result<(), Fault> {
    let (key, ksn, reversed) = (key.as_bytes(), ksn.as_bytes(), reversed.as_bytes());
    done(calls::check_reversal_reply(key, ksn, reversed, frame))
}
