//! Request frames (docs/FORMATS.md).

use crate::bytes::Bytes;
use crate::fault::{done, sure, Fault};
use crate::secret::Secret;
use crate::{calls, Frame, Key, Ksn, Pan, Pin};
use core::fmt;

/// How many frames are given to a call at once, out of an array of 64 bytes for each.
const GROUP: usize = 128;

/// The fields of a request. `Debug` tells number and amount.
#[derive(Clone, Copy, PartialEq, Eq)]
pub struct Request {
    /// The key serial number.
    pub ksn: Ksn,
    /// The PAN.
    pub pan: Pan,
    /// The amount in the smallest unit of the currency.
    pub amount: u32,
    /// The enciphered PIN block.
    pub block: [u8; 8],
    /// The MAC.
    pub mac: [u8; 8],
}

impl fmt::Debug for Request {
    fn fmt(&self, f: &mut fmt::Formatter<'_>) -> fmt::Result {
        let mut shown = f.debug_struct("Request");
        shown.field("ksn", &self.ksn).field("amount", &self.amount).finish_non_exhaustive()
    }
}

/// The request of a payment, 47 to 54 bytes, under the transaction key of its key serial number.
/// The PAN has 12 to 19 ASCII digits, the PIN 4 to 12; the amount is in the smallest unit of the
/// currency.
///
/// Refused with `PanLength` or `PanDigit`, then `PinLength` or `PinDigit`.
///
/// ```
/// use dukpt::{Key, Ksn};
///
/// let key = Key::new(*b"\x04\x26\x66\xB4\x91\x84\xCF\xA3\x68\xDE\x96\x28\xD0\x39\x7B\xC9");
/// let ksn = Ksn::new(*b"\xFF\xFF\x98\x76\x54\x32\x10\xE0\x00\x01");
/// let frame = dukpt::payment_request(&key, &ksn, b"4012345678909", b"1234", 1)?;
/// dukpt::check_request(&key, &frame)?;
/// let request = dukpt::read_request(&frame)?;
/// assert_eq!((request.ksn, request.amount), (ksn, 1));
/// assert_eq!(request.block, *b"\x1B\x9C\x18\x45\xEB\x99\x3A\x7A");
/// assert_eq!(request.mac, *b"\xA0\x56\x19\x89\x6B\x68\x3F\x13");
/// assert_eq!(*dukpt::request_pin(&key, &frame)?, *b"1234");
/// # Ok::<(), dukpt::Fault>(())
/// ```
pub fn payment_request(
    key: &Key,
    ksn: &Ksn,
    pan: &[u8],
    pin: &[u8],
    amount: u32,
) -> Result<Frame, Fault> {
    let (key, ksn) = (key.as_bytes(), ksn.as_bytes());
    Bytes::written(|frame, count| {
        done(calls::payment_request(key, ksn, pan, pin, amount, frame, count))
    })
}

/// The fields of a request's frame. The MAC is not compared: [`check_request`] does that.
///
/// Refused with `NotARequest`.
pub fn read_request(frame: &[u8]) -> Result<Request, Fault> {
    let (mut ksn, mut amount, mut block, mut mac) = ([0; 10], 0, [0; 8], [0; 8]);
    let pan = Bytes::written(|pan, count| {
        done(calls::read_request(frame, &mut ksn, pan, count, &mut amount, &mut block, &mut mac))
    })?;
    Ok(Request { ksn: Ksn::new(ksn), pan, amount, block, mac })
}

/// Tests that a request's frame has the MAC of its bytes under the transaction key.
///
/// Refused with `NotARequest`, then `BadMac`.
pub fn check_request(key: &Key, frame: &[u8]) -> Result<(), Fault> {
    done(calls::check_request(key.as_bytes(), frame))
}

/// Tests that frames are requests, each with the MAC of its bytes under the transaction key of its
/// own key serial number, which is derived of the base derivation key. What is told of them goes in
/// the front of a slice with room for as many: that a frame is right, or the first of its faults,
/// `NotARequest`, `NotUsable` or `BadMac`. Many are tested in less time than by [`derive`] and
/// [`check_request`].
///
/// Refused with `Length`, where the slice is shorter.
///
/// ```
/// use dukpt::{Fault, Key, Ksn};
///
/// let bdk = Key::new(*b"\x01\x23\x45\x67\x89\xAB\xCD\xEF\xFE\xDC\xBA\x98\x76\x54\x32\x10");
/// let ksn = Ksn::new(*b"\xFF\xFF\x98\x76\x54\x32\x10\xE0\x00\x01");
/// let key = dukpt::derive(&bdk, &ksn);
/// let frame = dukpt::payment_request(&key, &ksn, b"4012345678909", b"1234", 1)?;
/// let mut results = [Ok(()); 2];
/// dukpt::check_requests(&bdk, &[&frame[..], &frame[1..]], &mut results)?;
/// assert_eq!(results, [Ok(()), Err(Fault::NotARequest)]);
/// # Ok::<(), dukpt::Fault>(())
/// ```
///
/// [`derive`]: crate::derive
pub fn check_requests<F: AsRef<[u8]>>(
    bdk: &Key,
    frames: &[F],
    results: &mut [Result<(), Fault>],
) -> Result<(), Fault> {
    let results = results.get_mut(..frames.len()).ok_or(Fault::Length)?;
    for (frames, results) in frames.chunks(GROUP).zip(results.chunks_mut(GROUP)) {
        check_group(bdk, frames, results);
    }
    Ok(())
}

/// Tests at most a group of frames.
fn check_group<F: AsRef<[u8]>>(bdk: &Key, frames: &[F], results: &mut [Result<(), Fault>]) {
    let (mut places, mut told) = ([0; 64 * GROUP], [0; GROUP]);
    for (place, frame) in places.chunks_exact_mut(64).zip(frames) {
        place_in(frame.as_ref(), place);
    }
    let told = &mut told[..frames.len()];
    sure(calls::check_requests(bdk.as_bytes(), &places[..64 * frames.len()], told));
    for (result, status) in results.iter_mut().zip(told) {
        *result = done(u32::from(*status));
    }
}

/// Writes a frame in front of the zeros of a place. One that has not the length which it says stands
/// as zeros, which are malformed as it is.
pub(crate) fn place_in(frame: &[u8], place: &mut [u8]) {
    if is_whole(frame) {
        place[..frame.len()].copy_from_slice(frame);
    }
}

/// Whether bytes are a frame of at most 64 bytes with the length that it says.
fn is_whole(frame: &[u8]) -> bool {
    match *frame {
        [high, low, ..] => {
            frame.len() <= 64 && frame.len() == 2 + usize::from(u16::from_be_bytes([high, low]))
        }
        _ => false,
    }
}

/// The PIN of a request's frame under the transaction key. The MAC is not compared:
/// [`check_request`] does that.
///
/// Refused with `NotARequest`, then `NotAPinBlock`.
pub fn request_pin(key: &Key, frame: &[u8]) -> Result<Pin, Fault> {
    Secret::written(|pin, count| done(calls::request_pin(key.as_bytes(), frame, pin, count)))
}
