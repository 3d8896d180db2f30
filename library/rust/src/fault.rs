//! Why a call is refused.

mod kinds;

pub use kinds::Fault;

use core::fmt;

impl Fault {
    /// The fault's number, by which other languages know it.
    pub fn number(self) -> u32 {
        self as u32
    }

    /// The fault with a number, if there is one.
    pub fn from_number(number: u32) -> Option<Fault> {
        Fault::ALL.into_iter().find(|fault| fault.number() == number)
    }
}

/// Writes name, number and cause.
///
/// ```
/// let text = dukpt::Fault::BadMac.to_string();
/// assert_eq!(text, "BadMac (27): the MAC is not that of the frame");
/// ```
impl fmt::Display for Fault {
    fn fmt(&self, f: &mut fmt::Formatter<'_>) -> fmt::Result {
        write!(f, "{:?} ({}): {}", self, self.number(), self.cause())
    }
}

#[cfg(feature = "std")]
impl std::error::Error for Fault {}

/// The answer of a call with this status.
pub(crate) fn done(status: u32) -> Result<(), Fault> {
    if status == 0 {
        return Ok(());
    }
    Err(Fault::from_number(status).expect("the library answers its own numbers"))
}

/// That a call is done whose one fault is that lengths do not fit, where they do.
pub(crate) fn sure(status: u32) {
    assert_eq!(status, 0, "the lengths are those of the call");
}
