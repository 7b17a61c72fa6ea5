//! A value in a separate allocation. In Rattle it is a pointer; here it is a box.

use crate::kit::prelude::*;

/// An allocation and its value; it owns both.
pub(crate) struct Raw<T, A>(Box<T, A>);

impl<T, A> Raw<T, A> {
    /// Takes over a box's allocation with its value, without a copy.
    pub(crate) fn of(value: Box<T, A>) -> Raw<T, A> {
        Raw(value)
    }

    /// Drops the value and frees its allocation.
    pub(crate) fn free(self) {
        drop(self);
    }

    /// Returns the value's box. Dropping it frees the memory.
    pub(crate) fn into_box(self) -> Box<T, A> {
        self.0
    }

    /// Borrows the value.
    #[inline]
    pub(crate) fn get(&self) -> &T {
        &self.0
    }

    /// Borrows the value mutably.
    #[inline]
    pub(crate) fn get_mut(&mut self) -> &mut T {
        &mut self.0
    }
}
