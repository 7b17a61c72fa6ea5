//! A `Box` in parts. In Rattle the parts are a pointer and an allocator, as fields that the proofs can see; here they
//! are the box itself.

use crate::kit::prelude::*;

/// The parts of a box.
pub struct Parts<T>(Box<T>);

impl<T> Parts<T> {
    /// Takes a box apart.
    pub fn of(boxed: Box<T>) -> Parts<T> {
        Parts(boxed)
    }

    /// Puts the box together again.
    pub fn into_box(self) -> Box<T> {
        self.0
    }
}
