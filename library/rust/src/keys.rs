//! The keys of the key tree, and the variants of a transaction key (ANSI X9.24-1:2009 annex A).

use crate::fault::{done, sure, Fault};
use crate::wipe::Wiped;
use crate::{calls, Key, Ksn};

/// How many numbers are given to a call at once, out of arrays of their bytes.
const GROUP: usize = 128;

/// The initial key of an initial key serial number, under the base derivation key.
///
/// Refused with `NotInitial`.
///
/// ```
/// use dukpt::{Key, Ksn};
///
/// let bdk = Key::new(*b"\x01\x23\x45\x67\x89\xAB\xCD\xEF\xFE\xDC\xBA\x98\x76\x54\x32\x10");
/// let iksn = Ksn::new(*b"\xFF\xFF\x98\x76\x54\x32\x10\xE0\x00\x00");
/// let initial = dukpt::initial_key(&bdk, &iksn)?;
/// let published = *b"\x6A\xC2\x92\xFA\xA1\x31\x5B\x4D\x85\x8A\xB3\xA3\xD7\xD5\x93\x3A";
/// assert_eq!(initial, Key::new(published));
/// # Ok::<(), dukpt::Fault>(())
/// ```
pub fn initial_key(bdk: &Key, iksn: &Ksn) -> Result<Key, Fault> {
    let mut key = Key::new([0; 16]);
    let status = calls::initial_key(bdk.as_bytes(), iksn.as_bytes(), key.as_bytes_mut());
    done(status).map(|()| key)
}

/// The key that a call makes whose one fault is that lengths do not fit, where they do.
fn made(call: impl FnOnce(&mut [u8]) -> u32) -> Key {
    let mut key = Key::new([0; 16]);
    sure(call(key.as_bytes_mut()));
    key
}

/// The transaction key of a key serial number, under the base derivation key. The counter may be
/// any: zero gives the initial key.
///
/// The example of the crate shows it.
pub fn derive(bdk: &Key, ksn: &Ksn) -> Key {
    made(|key| calls::derive(bdk.as_bytes(), ksn.as_bytes(), key))
}

/// Writes the transaction keys of key serial numbers, under one base derivation key, in the front
/// of a slice with room for as many. They are those of [`derive`], and many are made in less time.
///
/// Refused with `Length`, where the slice is shorter.
///
/// ```
/// use dukpt::{Key, Ksn};
///
/// let bdk = Key::new(*b"\x01\x23\x45\x67\x89\xAB\xCD\xEF\xFE\xDC\xBA\x98\x76\x54\x32\x10");
/// let ksns = [1, 2].map(|n| Ksn::new([0xFF, 0xFF, 0x98, 0x76, 0x54, 0x32, 0x10, 0xE0, 0x00, n]));
/// let mut keys = [Key::new([0; 16]), Key::new([0; 16])];
/// dukpt::derive_many(&bdk, &ksns, &mut keys)?;
/// assert_eq!(keys, ksns.map(|ksn| dukpt::derive(&bdk, &ksn)));
/// # Ok::<(), dukpt::Fault>(())
/// ```
pub fn derive_many(bdk: &Key, ksns: &[Ksn], keys: &mut [Key]) -> Result<(), Fault> {
    let keys = keys.get_mut(..ksns.len()).ok_or(Fault::Length)?;
    for (ksns, keys) in ksns.chunks(GROUP).zip(keys.chunks_mut(GROUP)) {
        derive_group(bdk, ksns, keys);
    }
    Ok(())
}

/// Writes the transaction keys of at most a group of key serial numbers.
fn derive_group(bdk: &Key, ksns: &[Ksn], keys: &mut [Key]) {
    let (mut numbers, mut made) = ([0; 10 * GROUP], Wiped([0; 16 * GROUP]));
    for (place, ksn) in numbers.chunks_exact_mut(10).zip(ksns) {
        place.copy_from_slice(ksn.as_bytes());
    }
    let made = &mut made.0[..16 * ksns.len()];
    sure(calls::derive_many(bdk.as_bytes(), &numbers[..10 * ksns.len()], made));
    for (key, bytes) in keys.iter_mut().zip(made.chunks_exact(16)) {
        key.as_bytes_mut().copy_from_slice(bytes);
    }
}

/// The transaction key of a key serial number, under the initial key of its terminal. The counter
/// may be any: zero gives the initial key.
///
/// ```
/// use dukpt::{Key, Ksn};
///
/// let initial = Key::new(*b"\x6A\xC2\x92\xFA\xA1\x31\x5B\x4D\x85\x8A\xB3\xA3\xD7\xD5\x93\x3A");
/// let ksn = Ksn::new(*b"\xFF\xFF\x98\x76\x54\x32\x10\xE0\x00\x01");
/// let published = *b"\x04\x26\x66\xB4\x91\x84\xCF\xA3\x68\xDE\x96\x28\xD0\x39\x7B\xC9";
/// assert_eq!(dukpt::derive_from_initial(&initial, &ksn), Key::new(published));
/// ```
pub fn derive_from_initial(initial: &Key, ksn: &Ksn) -> Key {
    made(|key| calls::derive_from_initial(initial.as_bytes(), ksn.as_bytes(), key))
}

/// The variant of a transaction key that enciphers PINs.
///
/// ```
/// use dukpt::{pin_key, request_key, response_key, Key};
///
/// let key = Key::new(*b"\x04\x26\x66\xB4\x91\x84\xCF\xA3\x68\xDE\x96\x28\xD0\x39\x7B\xC9");
/// let pin = *b"\x04\x26\x66\xB4\x91\x84\xCF\x5C\x68\xDE\x96\x28\xD0\x39\x7B\x36";
/// assert_eq!(pin_key(&key), Key::new(pin));
/// let request = *b"\x04\x26\x66\xB4\x91\x84\x30\xA3\x68\xDE\x96\x28\xD0\x39\x84\xC9";
/// assert_eq!(request_key(&key), Key::new(request));
/// let response = *b"\x04\x26\x66\xB4\x6E\x84\xCF\xA3\x68\xDE\x96\x28\x2F\x39\x7B\xC9";
/// assert_eq!(response_key(&key), Key::new(response));
/// ```
pub fn pin_key(key: &Key) -> Key {
    made(|variant| calls::pin_key(key.as_bytes(), variant))
}

/// The variant of a transaction key that makes the MACs of requests, as the example of [`pin_key`]
/// shows.
pub fn request_key(key: &Key) -> Key {
    made(|variant| calls::request_key(key.as_bytes(), variant))
}

/// The variant of a transaction key that makes the MACs of replies, as the example of [`pin_key`]
/// shows.
pub fn response_key(key: &Key) -> Key {
    made(|variant| calls::response_key(key.as_bytes(), variant))
}

/// The key that enciphers the data of requests: the variant of a transaction key for it, each half
/// enciphered under the variant itself (ANSI X9.24-1:2009 annex A.4.1).
///
/// ```
/// use dukpt::{request_data_key, response_data_key, Key};
///
/// let key = Key::new(*b"\x04\x26\x66\xB4\x91\x84\xCF\xA3\x68\xDE\x96\x28\xD0\x39\x7B\xC9");
/// let request = *b"\x44\x8D\x3F\x07\x6D\x83\x04\x03\x6A\x55\xA3\xD7\xE0\x05\x5A\x78";
/// assert_eq!(request_data_key(&key), Key::new(request));
/// let response = *b"\xAD\x7B\xFC\x8B\x06\xAD\x3A\x08\xA5\x60\xB4\x10\x5C\xF8\xD9\xE5";
/// assert_eq!(response_data_key(&key), Key::new(response));
/// ```
pub fn request_data_key(key: &Key) -> Key {
    made(|variant| calls::request_data_key(key.as_bytes(), variant))
}

/// The key that enciphers the data of responses, made in the same way, as the example of
/// [`request_data_key`] shows.
pub fn response_data_key(key: &Key) -> Key {
    made(|variant| calls::response_data_key(key.as_bytes(), variant))
}
