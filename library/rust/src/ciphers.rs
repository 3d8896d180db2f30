//! TDES, on a block (NIST SP 800-67) and in cipher block chaining (NIST SP 800-38A).

use crate::fault::{done, sure, Fault};
use crate::{calls, TdesKey};

/// A block enciphered under a key.
///
/// ```
/// let key = b"\x01\x23\x45\x67\x89\xAB\xCD\xEF\x23\x45\x67\x89\xAB\xCD\xEF\x01\
///     \x45\x67\x89\xAB\xCD\xEF\x01\x23";
/// let enciphered = dukpt::tdes_encrypt(key, b"The qufc");
/// assert_eq!(enciphered, *b"\xA8\x26\xFD\x8C\xE5\x3B\x85\x5F");
/// assert_eq!(dukpt::tdes_decrypt(key, &enciphered), *b"The qufc");
/// ```
pub fn tdes_encrypt<'a>(key: impl Into<TdesKey<'a>>, block: &[u8; 8]) -> [u8; 8] {
    let mut replaced = *block;
    sure(calls::tdes_encrypt(key.into().bytes(), &mut replaced));
    replaced
}

/// A block deciphered under a key.
pub fn tdes_decrypt<'a>(key: impl Into<TdesKey<'a>>, block: &[u8; 8]) -> [u8; 8] {
    let mut replaced = *block;
    sure(calls::tdes_decrypt(key.into().bytes(), &mut replaced));
    replaced
}

/// Enciphers whole blocks of 8 bytes, perhaps none, in place by CBC, from an initial vector.
///
/// Refused with `Length`, where the bytes are no whole blocks.
///
/// ```
/// let key = b"\x01\x23\x45\x67\x89\xAB\xCD\xEF\x23\x45\x67\x89\xAB\xCD\xEF\x01\
///     \x45\x67\x89\xAB\xCD\xEF\x01\x23";
/// let mut bytes = *b"The qufck brown fox jump";
/// dukpt::cbc_encrypt(key, &[0; 8], &mut bytes)?;
/// assert_eq!(bytes[..8], *b"\xA8\x26\xFD\x8C\xE5\x3B\x85\x5F");
/// dukpt::cbc_decrypt(key, &[0; 8], &mut bytes)?;
/// assert_eq!(bytes, *b"The qufck brown fox jump");
/// # Ok::<(), dukpt::Fault>(())
/// ```
pub fn cbc_encrypt<'a>(
    key: impl Into<TdesKey<'a>>,
    iv: &[u8; 8],
    bytes: &mut [u8],
) -> Result<(), Fault> {
    done(calls::cbc_encrypt(key.into().bytes(), iv, bytes))
}

/// Deciphers whole blocks of 8 bytes, perhaps none, in place by CBC, from an initial vector.
///
/// Refused with `Length`, where the bytes are no whole blocks.
pub fn cbc_decrypt<'a>(
    key: impl Into<TdesKey<'a>>,
    iv: &[u8; 8],
    bytes: &mut [u8],
) -> Result<(), Fault> {
    done(calls::cbc_decrypt(key.into().bytes(), iv, bytes))
}
