//! Secret bytes of a length that varies.

use crate::fault::Fault;
use crate::wipe::{are_equal, Wiped};
use core::fmt;
use core::ops::Deref;

/// At most `N` bytes that are as secret as a key, and are treated as a [`Key`](crate::Key) is. They
/// are a slice.
///
/// ```
/// let typed = dukpt::Pin::try_from(&b"1234"[..])?;
/// assert_eq!((&*typed, format!("{:?}", typed)), (&b"1234"[..], "Secret(..)".into()));
/// # Ok::<(), dukpt::Fault>(())
/// ```
pub struct Secret<const N: usize> {
    bytes: Wiped<N>,
    length: usize,
}

impl<const N: usize> Secret<N> {
    /// What a call writes in the front of an array, and how many bytes it says that these are.
    pub(crate) fn written(
        call: impl FnOnce(&mut [u8], &mut u32) -> Result<(), Fault>,
    ) -> Result<Self, Fault> {
        let (mut bytes, mut count) = (Wiped([0; N]), 0);
        call(&mut bytes.0, &mut count)?;
        Ok(Secret { bytes, length: count as usize })
    }

    /// What a call writes that fills the array.
    pub(crate) fn filled(call: impl FnOnce(&mut [u8]) -> Result<(), Fault>) -> Result<Self, Fault> {
        let mut bytes = Wiped([0; N]);
        call(&mut bytes.0)?;
        Ok(Secret { bytes, length: N })
    }
}

impl<const N: usize> Deref for Secret<N> {
    type Target = [u8];

    fn deref(&self) -> &[u8] {
        &self.bytes.0[..self.length]
    }
}

impl<const N: usize> AsRef<[u8]> for Secret<N> {
    fn as_ref(&self) -> &[u8] {
        self
    }
}

impl<const N: usize> Clone for Secret<N> {
    fn clone(&self) -> Self {
        Secret { bytes: Wiped(self.bytes.0), length: self.length }
    }
}

impl<const N: usize> PartialEq for Secret<N> {
    fn eq(&self, other: &Self) -> bool {
        are_equal(self, other)
    }
}

impl<const N: usize> Eq for Secret<N> {}

/// Writes `Secret(..)`.
impl<const N: usize> fmt::Debug for Secret<N> {
    fn fmt(&self, f: &mut fmt::Formatter<'_>) -> fmt::Result {
        f.write_str("Secret(..)")
    }
}

/// Refused with `Length`, where the bytes are more than there is room for.
impl<const N: usize> TryFrom<&[u8]> for Secret<N> {
    type Error = Fault;

    fn try_from(given: &[u8]) -> Result<Self, Fault> {
        let mut bytes = Wiped([0; N]);
        bytes.0.get_mut(..given.len()).ok_or(Fault::Length)?.copy_from_slice(given);
        Ok(Secret { bytes, length: given.len() })
    }
}
