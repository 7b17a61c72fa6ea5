//! `Box`: a value on the heap, whose allocation may fail. It wraps Rust's box, but allocates differently.

use super::alloc::{AllocFailed, Global};
use super::raw;
use alloc::boxed::Box as Boxed;
use core::marker::PhantomData;
use core::ops::{Deref, DerefMut};

/// A value on the heap. For C it is a pointer, and `Option<Box<T>>` is a pointer that may be null.
#[derive(Debug, PartialEq, Eq)]
#[repr(transparent)]
pub struct Box<T, A = Global>(Boxed<T>, PhantomData<A>);

impl<T> Box<T> {
    /// Moves a value to the heap. Returns the value if memory runs out.
    #[inline]
    pub fn new(_alloc: Global, value: T) -> Result<Self, AllocFailed<T>> {
        match raw::boxed(value) {
            Ok(place) => Ok(Box(place, PhantomData)),
            Err(value) => Err(AllocFailed { value }),
        }
    }

    pub fn into_inner(it: Self) -> T {
        *it.0
    }

    /// Wraps Rust's box, without moving the value.
    pub(crate) fn of_std(place: Boxed<T>) -> Self {
        Box(place, PhantomData)
    }

    /// Returns Rust's box, without moving the value.
    pub(crate) fn into_std(self) -> Boxed<T> {
        self.0
    }
}

impl<T, A> Deref for Box<T, A> {
    type Target = T;

    #[inline]
    fn deref(&self) -> &T {
        &self.0
    }
}

impl<T, A> DerefMut for Box<T, A> {
    #[inline]
    fn deref_mut(&mut self) -> &mut T {
        &mut self.0
    }
}
