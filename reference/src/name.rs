//! Names of registers, holdings, values and predicates.

use std::fmt;

/// The longest name, in bytes.
pub const LONGEST: usize = 16;

/// Up to 16 bytes, padded with zeros. They need not spell a proper name; ask
/// `is_proper`.
#[derive(Clone, Copy, PartialEq, Eq)]
pub struct Name {
    bytes: [u8; LONGEST],
    length: u8,
}

impl Name {
    /// No bytes, to fill a place that is not in use.
    pub const EMPTY: Name = Name { bytes: [0; LONGEST], length: 0 };

    /// Holds any bytes; `None` only when there are more than 16.
    pub fn new(text: &[u8]) -> Option<Name> {
        if text.len() > LONGEST {
            return None;
        }
        let mut bytes = [0; LONGEST];
        bytes[..text.len()].copy_from_slice(text);
        Some(Name { bytes, length: text.len() as u8 })
    }

    pub fn as_bytes(&self) -> &[u8] {
        &self.bytes[..usize::from(self.length)]
    }

    /// Could a statement have this name?
    pub fn is_proper(&self) -> bool {
        is_proper(self.as_bytes())
    }
}

impl fmt::Debug for Name {
    fn fmt(&self, f: &mut fmt::Formatter) -> fmt::Result {
        write!(f, "\"{}\"", self.as_bytes().escape_ascii())
    }
}

/// A letter, a digit, `_` or `$`.
pub(crate) fn is_name_byte(byte: u8) -> bool {
    byte.is_ascii_alphanumeric() || byte == b'_' || byte == b'$'
}

/// One to 16 bytes from a letter, or two to 16 from `_`, `$` or `%`; name bytes
/// behind the first.
pub(crate) fn is_proper(text: &[u8]) -> bool {
    let Some((&first, others)) = text.split_first() else {
        return false;
    };
    let good_start = if first.is_ascii_alphabetic() { true } else { matches!(first, b'_' | b'$' | b'%') && !others.is_empty() };
    good_start && text.len() <= LONGEST && others.iter().all(|&byte| is_name_byte(byte))
}
