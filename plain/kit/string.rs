//! `String`: a string whose allocations may fail. It wraps Rust's string, and grows it with fallible calls.

use super::alloc::{AllocError, Global};
use super::vec::Vec;
use alloc::string::String as Text;
use core::fmt;
use core::ops::Deref;

/// A string.
#[derive(Debug, PartialEq, Eq, PartialOrd, Ord)]
pub struct String(Text);

/// Bytes that aren't valid UTF-8.
#[derive(Debug, PartialEq, Eq)]
pub struct FromUtf8Error {
    bytes: Vec<u8>,
    error: core::str::Utf8Error,
}

impl FromUtf8Error {
    pub fn utf8_error(&self) -> core::str::Utf8Error {
        self.error
    }

    pub fn into_bytes(self) -> Vec<u8> {
        self.bytes
    }
}

impl String {
    pub fn new(_alloc: Global) -> Self {
        String(Text::new())
    }

    pub fn with_capacity(alloc: Global, count: usize) -> Result<Self, AllocError> {
        let mut made = String::new(alloc);
        made.0.try_reserve_exact(count).map_err(|_| AllocError)?;
        Ok(made)
    }

    /// Copies a string.
    pub fn from_str(alloc: Global, text: &str) -> Result<Self, AllocError> {
        let mut made = String::with_capacity(alloc, text.len())?;
        made.0.push_str(text);
        Ok(made)
    }

    /// Converts bytes to a string, in the same memory.
    pub fn from_utf8(bytes: Vec<u8>) -> Result<Self, FromUtf8Error> {
        Text::from_utf8(bytes.into_std()).map(String).map_err(|refused| {
            let error = refused.utf8_error();
            FromUtf8Error { bytes: Vec::of_std(refused.into_bytes()), error }
        })
    }

    /// Converts the string to bytes, in the same memory.
    pub fn into_bytes(self) -> Vec<u8> {
        Vec::of_std(self.0.into_bytes())
    }

    pub fn as_str(&self) -> &str {
        &self.0
    }

    pub fn capacity(&self) -> usize {
        self.0.capacity()
    }

    pub fn clear(&mut self) {
        self.0.clear();
    }

    pub fn push(&mut self, letter: char) -> Result<(), AllocError> {
        self.push_str(letter.encode_utf8(&mut [0; 4]))
    }

    #[inline]
    pub fn push_str(&mut self, text: &str) -> Result<(), AllocError> {
        self.0.try_reserve(text.len()).map_err(|_| AllocError)?;
        self.0.push_str(text);
        Ok(())
    }

    /// Called by `write!`. Fails only if memory runs out.
    pub fn write_fmt(&mut self, text: fmt::Arguments<'_>) -> Result<(), AllocError> {
        fmt::write(self, text).map_err(|_| AllocError)
    }
}

impl Deref for String {
    type Target = str;

    fn deref(&self) -> &str {
        &self.0
    }
}

impl AsRef<str> for String {
    fn as_ref(&self) -> &str {
        &self.0
    }
}

impl fmt::Write for String {
    fn write_str(&mut self, text: &str) -> fmt::Result {
        self.push_str(text).map_err(|_| fmt::Error)
    }
}

impl fmt::Display for String {
    fn fmt(&self, f: &mut fmt::Formatter<'_>) -> fmt::Result {
        f.pad(&self.0)
    }
}

/// Replaces each occurrence of a substring.
pub trait ReplaceIn {
    fn replace_in(&self, alloc: Global, from: &str, to: &str) -> Result<String, AllocError>;
}

impl ReplaceIn for str {
    fn replace_in(&self, alloc: Global, from: &str, to: &str) -> Result<String, AllocError> {
        let mut made = String::new(alloc);
        for (place, part) in self.split(from).enumerate() {
            if place > 0 {
                made.push_str(to)?;
            }
            made.push_str(part)?;
        }
        Ok(made)
    }
}

/// Called by `format_in!`.
pub fn formatted(alloc: Global, text: fmt::Arguments<'_>) -> Result<String, AllocError> {
    let mut made = String::new(alloc);
    made.write_fmt(text)?;
    Ok(made)
}

/// `format!` with an allocator, whose allocations may fail: `format_in!(in alloc; "{word}")?`.
#[macro_export]
macro_rules! format_in {
    (in $alloc:expr; $($all:tt)*) => { $crate::kit::string::formatted($alloc, format_args!($($all)*)) };
}
