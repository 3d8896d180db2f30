//! What all frames have in common (docs/FORMATS.md).

use crate::bytes::Bytes;
use crate::calls;
use crate::fault::{done, Fault};

/// A frame: 2 bytes of length, and the contents.
pub type Frame = Bytes<64>;

/// How many bytes, 2 to 64, the frame has with which these begin, its two length bytes counted.
///
/// Refused with `PartOfFrame`, then `TooLong`.
///
/// ```
/// assert_eq!(dukpt::frame_length(b"\x00\x16\x01\x02\xFF\xFF"), Ok(24));
/// ```
pub fn frame_length(bytes: &[u8]) -> Result<usize, Fault> {
    let mut count = 0;
    done(calls::frame_length(bytes, &mut count)).map(|()| count as usize)
}
