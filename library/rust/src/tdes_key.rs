//! TDES keys of either length.

use crate::fault::Fault;
use crate::Key;
use core::fmt;

/// A borrowed TDES key of 16 bytes, whose first half is used again as the third, or of 24.
///
/// Where a function takes `impl Into<TdesKey>` it takes a `&Key`, a `&Key<24>`, a `&[u8; 16]` or a
/// `&[u8; 24]`. A slice becomes one by `TdesKey::try_from`, which refuses other lengths with
/// `Length`.
#[derive(Clone, Copy)]
pub enum TdesKey<'a> {
    /// Of 16 bytes.
    Double(&'a [u8; 16]),
    /// Of 24 bytes.
    Triple(&'a [u8; 24]),
}

impl<'a> TdesKey<'a> {
    pub(crate) fn bytes(self) -> &'a [u8] {
        match self {
            TdesKey::Double(key) => key,
            TdesKey::Triple(key) => key,
        }
    }
}

/// Tells the length alone.
impl fmt::Debug for TdesKey<'_> {
    fn fmt(&self, f: &mut fmt::Formatter<'_>) -> fmt::Result {
        write!(f, "TdesKey({})", self.bytes().len())
    }
}

impl<'a> From<&'a [u8; 16]> for TdesKey<'a> {
    fn from(key: &'a [u8; 16]) -> Self {
        TdesKey::Double(key)
    }
}

impl<'a> From<&'a [u8; 24]> for TdesKey<'a> {
    fn from(key: &'a [u8; 24]) -> Self {
        TdesKey::Triple(key)
    }
}

impl<'a> From<&'a Key> for TdesKey<'a> {
    fn from(key: &'a Key) -> Self {
        TdesKey::Double(key.as_bytes())
    }
}

impl<'a> From<&'a Key<24>> for TdesKey<'a> {
    fn from(key: &'a Key<24>) -> Self {
        TdesKey::Triple(key.as_bytes())
    }
}

impl<'a> TryFrom<&'a [u8]> for TdesKey<'a> {
    type Error = Fault;

    fn try_from(key: &'a [u8]) -> Result<Self, Fault> {
        match key.len() {
            16 => <&[u8; 16]>::try_from(key).map(TdesKey::Double),
            _ => <&[u8; 24]>::try_from(key).map(TdesKey::Triple),
        }
        .map_err(|_| Fault::Length)
    }
}
