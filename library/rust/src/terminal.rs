//! A terminal, which stores its next image before it gives a key.

use crate::fault::Fault;
use crate::registers::{
    registers_at, registers_load, registers_next, registers_number, registers_reload, Image,
};
use crate::{Key, Ksn};
use core::fmt;

/// A transaction key and its key serial number. `Debug` leaves the key out.
pub struct Transaction {
    /// The transaction key.
    pub key: Key,
    /// Its key serial number.
    pub ksn: Ksn,
}

impl fmt::Debug for Transaction {
    fn fmt(&self, f: &mut fmt::Formatter<'_>) -> fmt::Result {
        f.debug_struct("Transaction").field("ksn", &self.ksn).finish_non_exhaustive()
    }
}

/// Why a terminal did not change.
#[derive(Debug, Clone, Copy, PartialEq, Eq)]
pub enum TerminalFault<E> {
    /// The call is refused.
    Call(Fault),
    /// The store did not keep the next image.
    Store(E),
}

impl<E> From<Fault> for TerminalFault<E> {
    fn from(fault: Fault) -> Self {
        TerminalFault::Call(fault)
    }
}

/// Says which of both it is. What stands behind it is the error's `source`.
impl<E> fmt::Display for TerminalFault<E> {
    fn fmt(&self, f: &mut fmt::Formatter<'_>) -> fmt::Result {
        f.write_str(match self {
            TerminalFault::Call(_) => "the call is refused",
            TerminalFault::Store(_) => "the image was not stored",
        })
    }
}

#[cfg(feature = "std")]
impl<E: std::error::Error + 'static> std::error::Error for TerminalFault<E> {
    fn source(&self) -> Option<&(dyn std::error::Error + 'static)> {
        Some(match self {
            TerminalFault::Call(fault) => fault,
            TerminalFault::Store(why) => why,
        })
    }
}

/// A terminal over the image of its registers.
///
/// [`image`](Terminal::image) is what a store keeps, and with which
/// [`from_image`](Terminal::from_image) begins after a stop. What changes the registers takes a
/// function that stores the next image: it is called first, and only after it has answered `Ok` the
/// terminal changes and gives a key. Where it fails, the terminal is as it was, and no key was
/// given.
///
/// There is one terminal for a stored image, and no copy of it: two of them would use each number
/// twice. A process that is forked is such a copy. The terminal of the examples keeps a lock from
/// reading the image to storing the next one.
///
/// ```
/// use dukpt::{Key, Ksn, Terminal, TerminalFault};
///
/// let initial = Key::new(*b"\x6A\xC2\x92\xFA\xA1\x31\x5B\x4D\x85\x8A\xB3\xA3\xD7\xD5\x93\x3A");
/// let iksn = Ksn::new(*b"\xFF\xFF\x98\x76\x54\x32\x10\xE0\x00\x00");
/// let mut terminal = Terminal::load(&initial, &iksn)?;
/// let mut stored = terminal.image().to_vec();
///
/// let full_disk = terminal.take(|_| Err("the disk is full")).unwrap_err();
/// assert_eq!(full_disk, TerminalFault::Store("the disk is full"));
///
/// let taken = terminal.take(|image| {
///     stored = image.to_vec();
///     Ok::<(), &str>(())
/// })?;
/// assert_eq!(taken.ksn.to_string(), "FFFF9876543210E00001");
/// let published = *b"\x04\x26\x66\xB4\x91\x84\xCF\xA3\x68\xDE\x96\x28\xD0\x39\x7B\xC9";
/// assert_eq!(taken.key, Key::new(published));
///
/// let after_a_stop = Terminal::from_image(&stored)?;
/// assert_eq!(after_a_stop.number()?.to_string(), "FFFF9876543210E00002");
/// # Ok::<(), TerminalFault<&str>>(())
/// ```
///
/// It cannot be cloned:
///
/// ```compile_fail,E0599
/// fn twin(terminal: &dukpt::Terminal) -> dukpt::Terminal {
///     dukpt::Terminal::clone(terminal)
/// }
/// ```
pub struct Terminal {
    image: Image,
}

/// Tells the next number alone.
impl fmt::Debug for Terminal {
    fn fmt(&self, f: &mut fmt::Formatter<'_>) -> fmt::Result {
        f.debug_struct("Terminal").field("number", &self.number()).finish_non_exhaustive()
    }
}

impl Terminal {
    /// A terminal that has used no number yet, from its initial key and its initial key serial
    /// number. It is stored with its first number, or as `image` before that.
    ///
    /// Refused with `NotInitial`.
    pub fn load(initial: &Key, iksn: &Ksn) -> Result<Self, Fault> {
        Ok(Terminal { image: registers_load(initial, iksn)? })
    }

    /// A terminal whose next key serial number is this one, from its initial key.
    ///
    /// Refused with `NotUsable`.
    pub fn at(initial: &Key, ksn: &Ksn) -> Result<Self, Fault> {
        Ok(Terminal { image: registers_at(initial, ksn)? })
    }

    /// The terminal whose image a store kept: 431 bytes, or 350 of version 1.
    ///
    /// Refused with `NotAnImage`.
    pub fn from_image(image: &[u8]) -> Result<Self, Fault> {
        match registers_number(image) {
            Ok(_) | Err(Fault::Spent) => {}
            Err(fault) => return Err(fault),
        }
        Ok(Terminal { image: Image::try_from(image)? })
    }

    /// The image of the terminal as it is.
    pub fn image(&self) -> &[u8] {
        &self.image
    }

    /// The key serial number that the terminal uses next.
    ///
    /// Refused with `Spent`.
    pub fn number(&self) -> Result<Ksn, Fault> {
        registers_number(&self.image)
    }

    /// Uses the next number: has the next image stored, and only then gives the transaction key and
    /// the key serial number.
    ///
    /// Refused with `Spent`, or with what `store` answers.
    pub fn take<E>(
        &mut self,
        store: impl FnOnce(&Image) -> Result<(), E>,
    ) -> Result<Transaction, TerminalFault<E>> {
        let taken = registers_next(&self.image)?;
        self.keep(store, taken.image)?;
        Ok(Transaction { key: taken.key, ksn: taken.ksn })
    }

    /// Gives the terminal another initial key under another initial key serial number, once the
    /// image of that is stored.
    ///
    /// Refused with `NotInitial`, then `IksnSpent`, `LoadsSpent`, or with what `store` answers.
    pub fn reload<E>(
        &mut self,
        initial: &Key,
        iksn: &Ksn,
        store: impl FnOnce(&Image) -> Result<(), E>,
    ) -> Result<(), TerminalFault<E>> {
        let next_image = registers_reload(&self.image, initial, iksn)?;
        self.keep(store, next_image)
    }

    /// Has an image stored, and has it only then.
    fn keep<E>(
        &mut self,
        store: impl FnOnce(&Image) -> Result<(), E>,
        image: Image,
    ) -> Result<(), TerminalFault<E>> {
        store(&image).map_err(TerminalFault::Store)?;
        self.image = image;
        Ok(())
    }
}
