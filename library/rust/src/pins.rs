//! PIN blocks (ISO 9564-1 format 0).

use crate::bytes::Bytes;
use crate::calls;
use crate::fault::{done, Fault};
use crate::secret::Secret;

/// The 4 to 12 ASCII digits of a PIN.
pub type Pin = Secret<12>;

/// The 12 to 19 ASCII digits of a PAN.
pub type Pan = Bytes<19>;

/// The PIN block of a PIN of 4 to 12 ASCII digits and a PAN of 12 to 19. It is in clear, and as
/// secret as the PIN.
///
/// Refused with `PinLength` or `PinDigit`, then `PanLength` or `PanDigit`.
///
/// ```
/// let block = dukpt::pin_block(b"1234", b"4012345678909")?;
/// assert_eq!(block, *b"\x04\x12\x74\xED\xCB\xA9\x87\x6F");
/// assert_eq!(*dukpt::pin_of_block(&block, b"4012345678909")?, *b"1234");
/// # Ok::<(), dukpt::Fault>(())
/// ```
pub fn pin_block(pin: &[u8], pan: &[u8]) -> Result<[u8; 8], Fault> {
    let mut block = [0; 8];
    done(calls::pin_block(pin, pan, &mut block)).map(|()| block)
}

/// The PIN of a PIN block under a PAN of 12 to 19 ASCII digits.
///
/// Refused with `PanLength` or `PanDigit`, then `NotAPinBlock`.
pub fn pin_of_block(block: &[u8; 8], pan: &[u8]) -> Result<Pin, Fault> {
    Secret::written(|pin, count| done(calls::pin_of_block(block, pan, pin, count)))
}
