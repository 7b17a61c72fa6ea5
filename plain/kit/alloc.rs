//! `std::alloc`: the allocator that collections use, and the errors for exhausted memory.
//!
//! `Global` is zero-sized: Rust's allocator does the work. In the C library (feature `c`), Rust's allocator uses the
//! calls `rattle_alloc`, `rattle_realloc` and `rattle_dealloc`, which `c/Makefile` links and renames (`c/heap.syms`). A
//! program that counts or refuses allocations in these calls sees all allocations in the library, as in a library that
//! Rattle's compiler built.

use core::fmt;

/// The heap.
#[derive(Clone, Copy, Debug, PartialEq, Eq)]
pub struct Global;

/// A source of memory for collections.
pub trait Allocator {}

impl Allocator for Global {}

/// Memory ran out.
#[derive(Clone, Copy, Debug, PartialEq, Eq)]
pub struct AllocError;

/// Memory ran out while storing this value.
#[derive(Clone, Copy, Debug, PartialEq, Eq)]
pub struct AllocFailed<T> {
    pub value: T,
}

/// A value that provides an allocator.
pub trait AllocGlobal {
    fn alloc(&self) -> Global;
}

impl<T> From<AllocFailed<T>> for AllocError {
    fn from(_: AllocFailed<T>) -> AllocError {
        AllocError
    }
}

impl From<AllocError> for fmt::Error {
    fn from(_: AllocError) -> fmt::Error {
        fmt::Error
    }
}

impl fmt::Display for AllocError {
    fn fmt(&self, f: &mut fmt::Formatter<'_>) -> fmt::Result {
        f.pad("memory allocation failed")
    }
}
