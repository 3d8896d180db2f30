//! Key serial numbers as values.

use crate::fault::Fault;
use crate::shown::Hexadecimal;
use core::fmt;

/// A key serial number of 10 bytes, whose last 21 bits are the counter.
///
/// `Display` and `Debug` write 20 hexadecimal digits.
///
/// ```
/// let ksn = dukpt::Ksn::new(*b"\xFF\xFF\x98\x76\x54\x32\x10\xE0\x00\x01");
/// assert_eq!(ksn.to_string(), "FFFF9876543210E00001");
/// ```
#[derive(Clone, Copy, PartialEq, Eq, PartialOrd, Ord, Hash)]
pub struct Ksn([u8; 10]);

impl Ksn {
    /// The number with these bytes.
    pub const fn new(bytes: [u8; 10]) -> Self {
        Ksn(bytes)
    }

    /// The bytes of the number.
    pub const fn as_bytes(&self) -> &[u8; 10] {
        &self.0
    }
}

impl fmt::Display for Ksn {
    fn fmt(&self, f: &mut fmt::Formatter<'_>) -> fmt::Result {
        fmt::Debug::fmt(self, f)
    }
}

impl fmt::Debug for Ksn {
    fn fmt(&self, f: &mut fmt::Formatter<'_>) -> fmt::Result {
        Hexadecimal(&self.0).fmt(f)
    }
}

impl From<[u8; 10]> for Ksn {
    fn from(bytes: [u8; 10]) -> Self {
        Ksn(bytes)
    }
}

/// Refused with `Length`.
impl TryFrom<&[u8]> for Ksn {
    type Error = Fault;

    fn try_from(bytes: &[u8]) -> Result<Self, Fault> {
        <[u8; 10]>::try_from(bytes).map(Ksn).map_err(|_| Fault::Length)
    }
}
