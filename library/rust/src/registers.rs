//! The registers of a terminal, each call from image to image (ANSI X9.24-1:2009 annex A).
//!
//! An image of 350 bytes, of version 1, is read too, and not written. `Terminal` is made of these
//! calls, and stores the next image before a key is used.

use crate::fault::{done, Fault};
use crate::secret::Secret;
use crate::{calls, Key, Ksn};
use core::fmt;

/// The image of a terminal. It has keys in it.
pub type Image = Secret<431>;

/// What a transaction takes of an image. The image is to be stored before the key is used. `Debug`
/// tells the number alone.
pub struct Taken {
    /// The image afterwards.
    pub image: Image,
    /// The transaction key.
    pub key: Key,
    /// The key serial number.
    pub ksn: Ksn,
}

impl fmt::Debug for Taken {
    fn fmt(&self, f: &mut fmt::Formatter<'_>) -> fmt::Result {
        f.debug_struct("Taken").field("ksn", &self.ksn).finish_non_exhaustive()
    }
}

/// The image of a terminal that has used no number yet, from its initial key and its initial key
/// serial number.
///
/// Refused with `NotInitial`.
///
/// ```
/// use dukpt::{registers_at, registers_load, registers_number, Key, Ksn};
///
/// let initial = Key::new(*b"\x6A\xC2\x92\xFA\xA1\x31\x5B\x4D\x85\x8A\xB3\xA3\xD7\xD5\x93\x3A");
/// let iksn = Ksn::new(*b"\xFF\xFF\x98\x76\x54\x32\x10\xE0\x00\x00");
/// let image = registers_load(&initial, &iksn)?;
/// let ksn = registers_number(&image)?;
/// assert_eq!(ksn.to_string(), "FFFF9876543210E00001");
/// assert_eq!(registers_at(&initial, &ksn)?, image);
/// # Ok::<(), dukpt::Fault>(())
/// ```
pub fn registers_load(initial: &Key, iksn: &Ksn) -> Result<Image, Fault> {
    Secret::filled(|image| done(calls::registers_load(initial.as_bytes(), iksn.as_bytes(), image)))
}

/// The image of a terminal whose next key serial number is this one, from its initial key: what
/// [`registers_load`] and then [`registers_next`] for each number before it leave.
///
/// Refused with `NotUsable`.
pub fn registers_at(initial: &Key, ksn: &Ksn) -> Result<Image, Fault> {
    Secret::filled(|image| done(calls::registers_at(initial.as_bytes(), ksn.as_bytes(), image)))
}

/// The key serial number that a terminal with this image uses next.
///
/// Refused with `NotAnImage`, then `Spent`.
pub fn registers_number(image: &[u8]) -> Result<Ksn, Fault> {
    let mut ksn = [0; 10];
    done(calls::registers_number(image, &mut ksn)).map(|()| Ksn::new(ksn))
}

/// Uses the next number of a terminal with this image. The image that it gives is to be stored
/// before the key is used, so that no stop brings the key back; [`Terminal::take`] sees to that.
///
/// Refused with `NotAnImage`, then `Spent`.
///
/// [`Terminal::take`]: crate::Terminal::take
pub fn registers_next(image: &[u8]) -> Result<Taken, Fault> {
    let (mut key, mut ksn) = (Key::new([0; 16]), [0; 10]);
    let next_image = Secret::filled(|next_image| {
        done(calls::registers_next(image, next_image, key.as_bytes_mut(), &mut ksn))
    })?;
    Ok(Taken { image: next_image, key, ksn: Ksn::new(ksn) })
}

/// The image of the terminal with this image after it is given another initial key under another
/// initial key serial number.
///
/// Refused with `NotInitial`, then `NotAnImage`, `IksnSpent`, `LoadsSpent`.
pub fn registers_reload(image: &[u8], initial: &Key, iksn: &Ksn) -> Result<Image, Fault> {
    Secret::filled(|next_image| {
        done(calls::registers_reload(image, initial.as_bytes(), iksn.as_bytes(), next_image))
    })
}
