//! `std::convert`, with Rattle's trait for types that contain text.

pub use core::convert::*;

/// A type that can be borrowed as text.
pub trait AsStr {
    fn as_str(&self) -> &str;
}

impl AsStr for super::string::String {
    fn as_str(&self) -> &str {
        self
    }
}

impl AsStr for &str {
    fn as_str(&self) -> &str {
        self
    }
}
