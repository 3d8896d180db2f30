//! The frames of accepted replies and refusals (docs/FORMATS.md).

use crate::bytes::Bytes;
use crate::fault::{done, Fault};
use crate::shown::Characters;
use crate::{calls, Frame, Key, Ksn};
use core::fmt;

/// The fields of an accepted reply.
#[derive(Clone, Copy, PartialEq, Eq)]
pub struct Reply {
    /// The key serial number.
    pub ksn: Ksn,
    /// The code, two ASCII digits.
    pub code: [u8; 2],
}

impl fmt::Debug for Reply {
    fn fmt(&self, f: &mut fmt::Formatter<'_>) -> fmt::Result {
        let mut shown = f.debug_struct("Reply");
        shown.field("ksn", &self.ksn).field("code", &Characters(&self.code)).finish()
    }
}

/// The fields of a refusal.
#[derive(Debug, Clone, Copy, PartialEq, Eq)]
pub struct Refusal {
    /// The key serial number.
    pub ksn: Ksn,
    /// The reason, 1 to 6.
    pub reason: u32,
}

/// The accepted reply, 24 bytes, to a request under the transaction key of its key serial number.
/// The code is `00`, `14`, `30`, `51` or `55`.
///
/// Refused with `NotACode`.
///
/// ```
/// use dukpt::{Key, Ksn};
///
/// let key = Key::new(*b"\x04\x26\x66\xB4\x91\x84\xCF\xA3\x68\xDE\x96\x28\xD0\x39\x7B\xC9");
/// let ksn = Ksn::new(*b"\xFF\xFF\x98\x76\x54\x32\x10\xE0\x00\x01");
/// let frame = dukpt::request_reply(&key, &ksn, b"00")?;
/// assert_eq!(frame[16..], *b"\x59\x1B\x50\xE0\xCA\x98\xFE\x70");
/// dukpt::check_reply(&key, &ksn, &frame)?;
/// assert_eq!(dukpt::read_reply(&frame)?.code, *b"00");
/// # Ok::<(), dukpt::Fault>(())
/// ```
pub fn request_reply(key: &Key, ksn: &Ksn, code: &[u8; 2]) -> Result<Frame, Fault> {
    let (key, ksn) = (key.as_bytes(), ksn.as_bytes());
    Bytes::written(|frame, count| done(calls::request_reply(key, ksn, code, frame, count)))
}

/// The refusal, 15 bytes, of a request with this key serial number, zeros where the bytes were no
/// request, for a reason from 1 to 6.
///
/// Refused with `NotAReason`.
///
/// ```
/// let ksn = dukpt::Ksn::new(*b"\xFF\xFF\x98\x76\x54\x32\x10\xE0\x00\x01");
/// let frame = dukpt::request_refusal(&ksn, 5)?;
/// assert_eq!(*frame, *b"\x00\x0D\x01\x03\xFF\xFF\x98\x76\x54\x32\x10\xE0\x00\x01\x05");
/// assert_eq!(dukpt::read_refusal(&frame)?.reason, 5);
/// # Ok::<(), dukpt::Fault>(())
/// ```
pub fn request_refusal(ksn: &Ksn, reason: u32) -> Result<Frame, Fault> {
    let ksn = ksn.as_bytes();
    Bytes::written(|frame, count| done(calls::request_refusal(ksn, reason, frame, count)))
}

/// The fields of an accepted reply's frame. The MAC is not compared: [`check_reply`] does that.
///
/// Refused with `NotAReply`.
pub fn read_reply(frame: &[u8]) -> Result<Reply, Fault> {
    let (mut ksn, mut code) = ([0; 10], [0; 2]);
    done(calls::read_reply(frame, &mut ksn, &mut code))?;
    Ok(Reply { ksn: Ksn::new(ksn), code })
}

/// The fields of a refusal's frame. It has no MAC.
///
/// Refused with `NotARefusal`.
pub fn read_refusal(frame: &[u8]) -> Result<Refusal, Fault> {
    let (mut ksn, mut reason) = ([0; 10], 0);
    done(calls::read_refusal(frame, &mut ksn, &mut reason))?;
    Ok(Refusal { ksn: Ksn::new(ksn), reason })
}

/// Tests that a frame is the accepted reply to the request with this transaction key and this key
/// serial number. Accepted is not approved: [`read_reply`] has the code.
///
/// Refused with `NotAReply`, then `NotMine`, then `BadMac`.
pub fn check_reply(key: &Key, ksn: &Ksn, frame: &[u8]) -> Result<(), Fault> {
    done(calls::check_reply(key.as_bytes(), ksn.as_bytes(), frame))
}
