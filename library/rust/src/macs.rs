//! MACs, CMAC (NIST SP 800-38B) and the retail MAC (ANSI X9.19), and check values of keys
//! (ANSI X9.24-1:2017 annex A).

use crate::fault::{done, sure, Fault};
use crate::{calls, Key, TdesKey};

/// The check value of a key.
pub fn check_value<'a>(key: impl Into<TdesKey<'a>>) -> [u8; 3] {
    let mut value = [0; 3];
    sure(calls::check_value(key.into().bytes(), &mut value));
    value
}

/// The check value by CMAC of a key.
pub fn cmac_check_value<'a>(key: impl Into<TdesKey<'a>>) -> [u8; 5] {
    let mut value = [0; 5];
    sure(calls::cmac_check_value(key.into().bytes(), &mut value));
    value
}

/// The CMAC of a message of any length.
///
/// ```
/// let key = b"\x4C\xF1\x51\x34\xA2\x85\x0D\xD5\x8A\x3D\x10\xBA\x80\x57\x0D\x38";
/// let mac = dukpt::cmac(key, b"\x6B\xC1\xBE\xE2\x2E\x40\x9F\x96");
/// assert_eq!(mac, *b"\x4F\xF2\xAB\x81\x3C\x53\xCE\x83");
/// ```
pub fn cmac<'a>(key: impl Into<TdesKey<'a>>, message: &[u8]) -> [u8; 8] {
    let mut mac = [0; 8];
    sure(calls::cmac(key.into().bytes(), message, &mut mac));
    mac
}

/// The retail MAC of a message of one byte or more.
///
/// Refused with `Length`, where the message has no byte.
///
/// ```
/// let bytes = *b"\x01\x23\x45\x67\x89\xAB\xCD\xEF\xFE\xDC\xBA\x98\x76\x54\x32\x10";
/// let mac = dukpt::retail_mac(&dukpt::Key::new(bytes), b"Now is the time for all ")?;
/// assert_eq!(mac, *b"\xA1\xC7\x2E\x74\xEA\x3F\xA9\xB6");
/// # Ok::<(), dukpt::Fault>(())
/// ```
pub fn retail_mac(key: &Key, message: &[u8]) -> Result<[u8; 8], Fault> {
    let mut mac = [0; 8];
    done(calls::retail_mac(key.as_bytes(), message, &mut mac)).map(|()| mac)
}
