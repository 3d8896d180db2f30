//! Keys of a fixed length.

use crate::fault::Fault;
use crate::wipe::{are_equal, Wiped};
use core::fmt;

/// A key of 16 bytes: a transaction key, an initial key, a base derivation key or a variant. A
/// `Key<24>` is a TDES key of three parts.
///
/// A key is not printed, and not copied but by `clone`. It is overwritten with zeros when it is
/// dropped, and `==` takes the same time for all keys. To move a key can leave its bytes where it
/// was before: from then on, a `Box` keeps it in one place.
///
/// ```
/// use dukpt::Key;
///
/// let key = Key::new(*b"\x04\x26\x66\xB4\x91\x84\xCF\xA3\x68\xDE\x96\x28\xD0\x39\x7B\xC9");
/// assert_eq!(format!("{:?}", key), "Key(..)");
/// assert_eq!(Key::try_from(&key.as_bytes()[..])?, key);
/// # Ok::<(), dukpt::Fault>(())
/// ```
///
/// It cannot be used again after it was given away:
///
/// ```compile_fail,E0382
/// let key = dukpt::Key::new([1; 16]);
/// drop(key);
/// dukpt::pin_key(&key);
/// ```
pub struct Key<const N: usize = 16>(Wiped<N>);

impl<const N: usize> Key<N> {
    /// The key with these bytes.
    pub const fn new(bytes: [u8; N]) -> Self {
        Key(Wiped(bytes))
    }

    /// The bytes of the key.
    pub const fn as_bytes(&self) -> &[u8; N] {
        &self.0 .0
    }

    /// The bytes of the key, for a call that writes it.
    pub(crate) fn as_bytes_mut(&mut self) -> &mut [u8; N] {
        &mut self.0 .0
    }
}

impl<const N: usize> Clone for Key<N> {
    fn clone(&self) -> Self {
        Key::new(*self.as_bytes())
    }
}

impl<const N: usize> PartialEq for Key<N> {
    fn eq(&self, other: &Self) -> bool {
        are_equal(self.as_bytes(), other.as_bytes())
    }
}

impl<const N: usize> Eq for Key<N> {}

/// Writes `Key(..)`.
impl<const N: usize> fmt::Debug for Key<N> {
    fn fmt(&self, f: &mut fmt::Formatter<'_>) -> fmt::Result {
        f.write_str("Key(..)")
    }
}

impl<const N: usize> From<[u8; N]> for Key<N> {
    fn from(bytes: [u8; N]) -> Self {
        Key::new(bytes)
    }
}

/// Refused with `Length`.
impl<const N: usize> TryFrom<&[u8]> for Key<N> {
    type Error = Fault;

    fn try_from(bytes: &[u8]) -> Result<Self, Fault> {
        <[u8; N]>::try_from(bytes).map(Key::new).map_err(|_| Fault::Length)
    }
}
