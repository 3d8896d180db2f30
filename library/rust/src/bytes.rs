//! Bytes in a fixed array.

use crate::fault::Fault;
use core::fmt;
use core::ops::Deref;

/// At most `N` bytes. It is a slice of them; `Debug` tells their number alone, so that no PAN is
/// printed by chance.
#[derive(Clone, Copy)]
pub struct Bytes<const N: usize> {
    bytes: [u8; N],
    length: usize,
}

impl<const N: usize> Bytes<N> {
    /// What a call writes in the front of an array, and how many bytes it says that these are.
    pub(crate) fn written(
        call: impl FnOnce(&mut [u8], &mut u32) -> Result<(), Fault>,
    ) -> Result<Self, Fault> {
        let (mut bytes, mut count) = ([0; N], 0);
        call(&mut bytes, &mut count)?;
        let length = count as usize;
        Ok(Bytes { bytes, length })
    }

    /// These bytes, which are no more than `N`.
    pub(crate) fn of(given: &[u8]) -> Self {
        let mut bytes = [0; N];
        bytes[..given.len()].copy_from_slice(given);
        Bytes { bytes, length: given.len() }
    }
}

/// No bytes.
impl<const N: usize> Default for Bytes<N> {
    fn default() -> Self {
        Bytes::of(&[])
    }
}

impl<const N: usize> Deref for Bytes<N> {
    type Target = [u8];

    fn deref(&self) -> &[u8] {
        &self.bytes[..self.length]
    }
}

impl<const N: usize> AsRef<[u8]> for Bytes<N> {
    fn as_ref(&self) -> &[u8] {
        self
    }
}

impl<const N: usize> PartialEq for Bytes<N> {
    fn eq(&self, other: &Self) -> bool {
        **self == **other
    }
}

impl<const N: usize> Eq for Bytes<N> {}

impl<const N: usize> fmt::Debug for Bytes<N> {
    fn fmt(&self, f: &mut fmt::Formatter<'_>) -> fmt::Result {
        write!(f, "Bytes({})", self.length)
    }
}
