//! `std::mem`.

pub use core::mem::{replace, swap, ManuallyDrop};
