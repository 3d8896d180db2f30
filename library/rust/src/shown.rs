//! How `Debug` shows bytes that are not secret.

use core::fmt::{self, Write};

/// Bytes as hexadecimal digits.
pub struct Hexadecimal<'a>(pub &'a [u8]);

impl fmt::Debug for Hexadecimal<'_> {
    fn fmt(&self, f: &mut fmt::Formatter<'_>) -> fmt::Result {
        self.0.iter().try_for_each(|byte| write!(f, "{:02X}", byte))
    }
}

/// Bytes as ASCII characters.
pub struct Characters<'a>(pub &'a [u8]);

impl fmt::Debug for Characters<'_> {
    fn fmt(&self, f: &mut fmt::Formatter<'_>) -> fmt::Result {
        let escaped = self.0.iter().flat_map(|byte| core::ascii::escape_default(*byte));
        f.write_char('"')?;
        escaped.map(char::from).try_for_each(|it| f.write_char(it))?;
        f.write_char('"')
    }
}
