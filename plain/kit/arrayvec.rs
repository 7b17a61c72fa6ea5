//! The `arrayvec` crate: an inline vector of at most N elements, for `Copy` elements.

use super::raw::Slots;
use core::fmt;
use core::ops::{Deref, DerefMut};

/// An inline vector of at most N elements.
#[derive(Clone, Copy)]
pub struct ArrayVec<T: Copy, const N: usize>(Slots<T, N>);

/// The vector has no room for this value.
#[derive(Clone, Copy, Debug, PartialEq, Eq)]
pub struct CapacityError<T>(pub T);

impl<T: Copy, const N: usize> ArrayVec<T, N> {
    pub fn new() -> Self {
        ArrayVec(Slots::new())
    }

    /// Appends an element. The proofs show that there is room; without room, this panics.
    #[inline]
    pub fn push(&mut self, value: T) {
        self.0.push(value);
    }

    /// Appends an element if there is room, otherwise returns it.
    pub fn try_push(&mut self, value: T) -> Result<(), CapacityError<T>> {
        if self.len() == N {
            return Err(CapacityError(value));
        }
        self.push(value);
        Ok(())
    }

    pub fn pop(&mut self) -> Option<T> {
        let last = *self.last()?;
        self.0.truncate(self.len() - 1);
        Some(last)
    }

    /// Removes the element at an index, and moves later ones down.
    pub fn remove(&mut self, at: usize) -> T {
        let value = self[at];
        self.copy_within(at + 1.., at);
        self.0.truncate(self.len() - 1);
        value
    }

    /// Keeps the elements for which the function returns true, in order.
    pub fn retain(&mut self, is_kept: impl Fn(&T) -> bool) {
        let mut count = 0;
        for at in 0..self.len() {
            let value = self[at];
            if is_kept(&value) {
                self[count] = value;
                count += 1;
            }
        }
        self.0.truncate(count);
    }

    pub fn as_slice(&self) -> &[T] {
        self
    }
}

impl<T: Copy, const N: usize> Deref for ArrayVec<T, N> {
    type Target = [T];

    #[inline]
    fn deref(&self) -> &[T] {
        self.0.written()
    }
}

impl<T: Copy, const N: usize> DerefMut for ArrayVec<T, N> {
    #[inline]
    fn deref_mut(&mut self) -> &mut [T] {
        self.0.written_mut()
    }
}

impl<T: Copy + fmt::Debug, const N: usize> fmt::Debug for ArrayVec<T, N> {
    fn fmt(&self, f: &mut fmt::Formatter<'_>) -> fmt::Result {
        f.debug_list().entries(self.iter()).finish()
    }
}
