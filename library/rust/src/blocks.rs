//! Key blocks (ANSI X9.143, version B).

use crate::bytes::Bytes;
use crate::fault::{done, Fault};
use crate::secret::Secret;
use crate::shown::Characters;
use crate::{calls, Key, TdesKey};
use core::fmt;

/// The 80 to 512 characters of a key block.
pub type BlockText = Bytes<512>;

/// A key of 16 or 24 bytes.
pub type KeyBytes = Secret<24>;

/// The content of an optional block, without its four characters of name and length.
pub type OptionalContent = Bytes<251>;

/// What a key block holds. `Debug` leaves the key out.
#[derive(Clone, PartialEq, Eq)]
pub struct KeyBlock {
    /// Usage, algorithm, mode, version and exportability.
    pub header: [u8; 7],
    /// The key.
    pub key: KeyBytes,
}

impl fmt::Debug for KeyBlock {
    fn fmt(&self, f: &mut fmt::Formatter<'_>) -> fmt::Result {
        let mut shown = f.debug_struct("KeyBlock");
        shown.field("header", &Characters(&self.header)).finish_non_exhaustive()
    }
}

/// The key block of a key under the key block protection key. The header is usage, algorithm, mode,
/// version and exportability. The padding stands after the key, and has to be random: 6 bytes fill
/// the blocks.
///
/// Refused with `BlockHeaderField`, then `BlockPadLength`.
pub fn wrap<'a, 'b>(
    kbpk: impl Into<TdesKey<'a>>,
    header: &[u8; 7],
    key: impl Into<TdesKey<'b>>,
    padding: &[u8],
) -> Result<BlockText, Fault> {
    let (kbpk, key) = (kbpk.into().bytes(), key.into().bytes());
    Bytes::written(|text, count| done(calls::wrap(kbpk, header, key, padding, text, count)))
}

/// The key block that [`wrap`] makes, with optional blocks. They are given one after another as
/// they stand in the text: of each the name, its length as two hexadecimal digits, and its content;
/// in all a multiple of 8 characters.
///
/// Refused with `BlockHeaderField`, then `BlockOptionalBlock`, `BlockPadLength`.
///
/// ```
/// use dukpt::{unwrap_for, unwrap_optional, wrap_with, Key};
///
/// let kbpk = Key::new(*b"\xDD\x75\x15\xF2\xBF\xC1\x7F\x85\xCE\x48\xF3\xCA\x25\xCB\x21\xF6");
/// let initial = Key::new(*b"\x6A\xC2\x92\xFA\xA1\x31\x5B\x4D\x85\x8A\xB3\xA3\xD7\xD5\x93\x3A");
/// let number = b"KS18FFFF9876543210E00000";
/// let text = wrap_with(&kbpk, b"B1TX00N", number, &initial, b"random")?;
/// assert_eq!(text[..40], *b"B0104B1TX00N0100KS18FFFF9876543210E00000");
/// assert_eq!(text[40..], *b"77C977719C3F3343339A7286C16333F5474FFCFA6F8DCBB93DEBB34E5779C9F0");
/// assert_eq!(*unwrap_optional(&kbpk, &text, b"KS")?, *b"FFFF9876543210E00000");
/// assert_eq!(unwrap_for(&kbpk, b"B1", &text), Ok(initial));
/// # Ok::<(), dukpt::Fault>(())
/// ```
pub fn wrap_with<'a, 'b>(
    kbpk: impl Into<TdesKey<'a>>,
    header: &[u8; 7],
    optional: &[u8],
    key: impl Into<TdesKey<'b>>,
    padding: &[u8],
) -> Result<BlockText, Fault> {
    let (kbpk, key) = (kbpk.into().bytes(), key.into().bytes());
    Bytes::written(|text, count| {
        done(calls::wrap_with(kbpk, header, optional, key, padding, text, count))
    })
}

/// The header and the key of a key block under the key block protection key. It may be a key of any
/// usage: [`unwrap_for`] refuses all but one.
///
/// Refused with the first of `BlockLength`, `BlockVersion`, `BlockHeaderField`,
/// `BlockOptionalBlock`, `BlockHex`, `BlockMac` and `BlockPayload`.
///
/// ```
/// use dukpt::{Key, TdesKey};
///
/// let kbpk = Key::new(*b"\xDD\x75\x15\xF2\xBF\xC1\x7F\x85\xCE\x48\xF3\xCA\x25\xCB\x21\xF6");
/// let text = b"B0080P0TE00E000094B420079CC80BA3461F86FE26EFC4A3B8E4FA4C5F5341176EED7B727B8A248E";
/// let block = dukpt::unwrap(&kbpk, text)?;
/// assert_eq!(block.header, *b"P0TE00E");
/// assert_eq!(*block.key, *b"\x3F\x41\x9E\x1C\xB7\x07\x94\x42\xAA\x37\x47\x4C\x2E\xFB\xF8\xB8");
///
/// let again = dukpt::wrap(&kbpk, &block.header, TdesKey::try_from(&*block.key)?, b"random")?;
/// assert_eq!(dukpt::unwrap(&kbpk, &again)?, block);
/// # Ok::<(), dukpt::Fault>(())
/// ```
pub fn unwrap<'a>(kbpk: impl Into<TdesKey<'a>>, text: &[u8]) -> Result<KeyBlock, Fault> {
    let (kbpk, mut header) = (kbpk.into().bytes(), [0; 7]);
    let key =
        Secret::written(|key, count| done(calls::unwrap(kbpk, text, &mut header, key, count)))?;
    Ok(KeyBlock { header, key })
}

/// The TDES key (algorithm `T`) of a key block whose usage is this one, as `B1` for an initial key.
/// `N` is its length, 16 or 24, as what it is given to asks for it. The mode of use is not compared:
/// [`unwrap`] gives it in the header.
///
/// Refused with `Length` where `N` is another, then as [`unwrap`] is, then with `OtherUsage`, also
/// for another algorithm, `OtherKeyLength`.
///
/// ```
/// use dukpt::{unwrap_for, Fault, Key};
///
/// let kbpk = Key::new(*b"\xDD\x75\x15\xF2\xBF\xC1\x7F\x85\xCE\x48\xF3\xCA\x25\xCB\x21\xF6");
/// let text = b"B0080P0TE00E000094B420079CC80BA3461F86FE26EFC4A3B8E4FA4C5F5341176EED7B727B8A248E";
/// let key: Key = unwrap_for(&kbpk, b"P0", text)?;
/// assert_eq!(key, Key::new(*b"\x3F\x41\x9E\x1C\xB7\x07\x94\x42\xAA\x37\x47\x4C\x2E\xFB\xF8\xB8"));
/// assert_eq!(unwrap_for::<16>(&kbpk, b"B1", text), Err(Fault::OtherUsage));
/// assert_eq!(unwrap_for::<24>(&kbpk, b"P0", text), Err(Fault::OtherKeyLength));
/// # Ok::<(), Fault>(())
/// ```
pub fn unwrap_for<'a, const N: usize>(
    kbpk: impl Into<TdesKey<'a>>,
    usage: &[u8; 2],
    text: &[u8],
) -> Result<Key<N>, Fault> {
    let kbpk = kbpk.into().bytes();
    let wanted = u32::try_from(N).unwrap_or(0);
    let key = KeyBytes::filled(|key| done(calls::unwrap_for(kbpk, usage, wanted, text, key)))?;
    Key::try_from(&key[..N])
}

/// The content of the first optional block with a name, as `KS` for a key serial number, of a key
/// block under the key block protection key.
///
/// Refused as [`unwrap`] is, then with `NoOptionalBlock`.
///
/// The example of [`wrap_with`] shows it.
pub fn unwrap_optional<'a>(
    kbpk: impl Into<TdesKey<'a>>,
    text: &[u8],
    id: &[u8; 2],
) -> Result<OptionalContent, Fault> {
    let kbpk = kbpk.into().bytes();
    Bytes::written(|content, count| done(calls::unwrap_optional(kbpk, text, id, content, count)))
}
