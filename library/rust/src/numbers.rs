//! Key serial numbers, and the order in which a terminal uses them (ANSI X9.24-1:2009 annex A).

use crate::fault::{done, Fault};
use crate::{calls, Ksn};

/// Tests that a key serial number numbers a transaction: its counter has one to ten one bits.
///
/// Refused with `NotUsable`.
pub fn check_usable(ksn: &Ksn) -> Result<(), Fault> {
    done(calls::check_usable(ksn.as_bytes()))
}

/// The key serial number that a terminal uses after this one: that with the least usable counter
/// above its own.
///
/// Refused with `Spent`.
///
/// ```
/// use dukpt::{check_usable, next_number, Fault, Ksn};
///
/// let ten_ones = Ksn::new(*b"\xFF\xFF\x98\x76\x54\x32\x10\xE0\x07\xFE");
/// assert_eq!(next_number(&ten_ones)?.to_string(), "FFFF9876543210E00800");
/// let eleven_ones = Ksn::new(*b"\xFF\xFF\x98\x76\x54\x32\x10\xE0\x07\xFF");
/// assert_eq!(check_usable(&eleven_ones), Err(Fault::NotUsable));
/// # Ok::<(), Fault>(())
/// ```
pub fn next_number(ksn: &Ksn) -> Result<Ksn, Fault> {
    let mut next = [0; 10];
    done(calls::next_number(ksn.as_bytes(), &mut next)).map(|()| Ksn::new(next))
}
