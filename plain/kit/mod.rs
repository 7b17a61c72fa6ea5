//! The parts of Rattle's library that the sources use, as plain Rust.
//!
//! The sources name `std::..`, which is a separate library in Rattle. Rattle's library uses Rust's names, and differs
//! from Rust's library in three ways that this module reproduces:
//!
//! - Running out of memory is an error, not an abort. A call that allocates takes an allocator, `Global`, and returns a
//!   `Result`; the error returns what couldn't be stored. Rust's `Vec` and `String` have fallible calls, which the kit
//!   uses. Rust's `Box`, `Arc`, `VecDeque`, maps and sets abort the process, so the kit has its own.
//! - Access to the process needs a handle, `HostRuntime`, which `main` receives.
//! - A value that owns something may need an explicit call to destroy it. Rust drops such a value like any other.
//!
//! Each module's documentation says what it replaces. All `unsafe` code of the kit is in `raw`.

pub mod alloc;
pub mod arrayvec;
pub mod bitflags;
pub mod boxed;
pub mod byteorder;
#[cfg(any(feature = "c", test))]
pub mod c;
pub mod clap;
pub mod collections;
pub mod convert;
#[cfg(all(test, unix, not(feature = "c")))]
mod edges;
pub mod hex;
pub mod host;
pub mod io;
mod maps;
pub mod mem;
#[allow(unsafe_code)]
mod raw;
pub mod rtrb;
pub mod simd;
pub mod string;
pub mod sync;
pub mod thread;
pub mod vec;

pub use core::{cmp, fmt, hint, iter, marker, str};
pub use host::{env, fs, process, test};
#[cfg(unix)]
pub use raw::run_with_words;

/// Names that Rattle's files can use without an import, but that Rust's prelude lacks or defines differently.
pub mod prelude {
    pub use super::boxed::Box;
    pub use super::host::{HostRuntime, Print};
    pub use super::string::{ReplaceIn, String};
    pub use super::vec::{CollectIn, ToVec, Vec};
    pub use super::{arrayvec, bitflags, byteorder, clap, hex, rtrb};
    pub use crate::{assert_eq_on, assert_on, format_in, panic_on, println_on, prove, vec_in};

    /// Rattle's bound for types that may be dropped instead of destroyed by a call. In Rust every type may be dropped.
    pub trait Drop {}

    impl<T: ?Sized> Drop for T {}
}

/// A condition that the proofs rely on. It is checked if debug assertions are enabled.
#[macro_export]
macro_rules! prove {
    ($($all:tt)*) => { debug_assert!($($all)*) };
}
