//! The `hex` crate: bytes as hexadecimal digits.

use super::alloc::{AllocError, Global};
use super::vec::Vec;

/// Why a string can't be decoded to whole bytes, or why there is no room for them.
#[derive(Clone, Copy, Debug, PartialEq, Eq)]
pub enum FromHexError {
    InvalidHexCharacter { c: char, index: usize },
    OddLength,
    InvalidStringLength,
    OutOfMemory,
}

impl From<AllocError> for FromHexError {
    fn from(_: AllocError) -> Self {
        FromHexError::OutOfMemory
    }
}

/// Decodes a string of hexadecimal digits.
pub fn decode(alloc: Global, text: &str) -> Result<Vec<u8>, FromHexError> {
    let digits = text.as_bytes();
    if digits.len() % 2 != 0 {
        return Err(FromHexError::OddLength);
    }
    let value = |index: usize| {
        let c = char::from(digits[index]);
        c.to_digit(16).map(|it| it as u8).ok_or(FromHexError::InvalidHexCharacter { c, index })
    };
    let mut bytes = Vec::with_capacity(alloc, digits.len() / 2)?;
    for k in 0..digits.len() / 2 {
        bytes.push_reserved(value(2 * k)? << 4 | value(2 * k + 1)?);
    }
    Ok(bytes)
}

/// Encodes bytes as lowercase digits, two for each byte.
pub fn encode_to_slice(bytes: &[u8], digits: &mut [u8]) -> Result<(), FromHexError> {
    if digits.len() != 2 * bytes.len() {
        return Err(FromHexError::InvalidStringLength);
    }
    for (byte, two) in bytes.iter().zip(digits.chunks_exact_mut(2)) {
        two[0] = b"0123456789abcdef"[usize::from(byte >> 4)];
        two[1] = b"0123456789abcdef"[usize::from(byte & 15)];
    }
    Ok(())
}
