//! The C interface's buffers, as words of 8 bytes, and how a word is shown.

use core::fmt;

/// A word that is shown in hexadecimal.
pub(crate) struct Hex(pub(crate) u64);

impl fmt::Debug for Hex {
    fn fmt(&self, f: &mut fmt::Formatter<'_>) -> fmt::Result {
        write!(f, "{:#X}", self.0)
    }
}

/// The words of a buffer, little-endian.
pub(crate) fn split<const WORDS: usize>(bytes: &[u8]) -> [[u8; 8]; WORDS] {
    let mut words = [[0; 8]; WORDS];
    for (to, from) in words.as_flattened_mut().iter_mut().zip(bytes) {
        *to = *from;
    }
    words
}

/// The buffer of words, little-endian.
pub(crate) fn join<const SIZE: usize>(words: &[[u8; 8]]) -> [u8; SIZE] {
    let mut bytes = [0; SIZE];
    for (to, from) in bytes.iter_mut().zip(words.as_flattened()) {
        *to = *from;
    }
    bytes
}
