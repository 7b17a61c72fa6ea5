//! C's handles to a card and to a snapshot: opaque pointers.
//!
//! In Rattle they are pointers, and a box is recreated to free them. In C, a Rust box or its absence is a pointer or
//! null, so here they are optional boxes, which Rust frees.

use crate::card::{Card, Kept};
use crate::kit::c::Held;
use crate::kit::prelude::*;

/// A handle to a card on the heap. In C, the handle is a struct with one pointer.
#[repr(C)]
pub struct Handle {
    card: Option<Box<Card>>,
}

/// A handle to a snapshot on the heap. In C it is a struct with one pointer.
#[repr(C)]
pub struct KeptHandle {
    kept: Option<Box<Kept>>,
}

fn address_of<T>(boxed: &Option<Box<T>>) -> usize {
    boxed.as_ref().map_or(0, |it| &**it as *const T as usize)
}

impl Handle {
    /// Borrows the card. C makes no call with a null handle.
    #[inline]
    pub fn get_mut(&mut self) -> &mut Card {
        self.card.as_mut().expect("the handle is null: it has no card")
    }
}

impl KeptHandle {
    /// Borrows the snapshot. C makes no call with a null handle.
    #[inline]
    pub fn get_mut(&mut self) -> &mut Kept {
        self.kept.as_mut().expect("the handle is null: it has no snapshot")
    }
}

impl Held for Handle {
    #[inline]
    fn address(&self) -> usize {
        address_of(&self.card)
    }
}

impl Held for KeptHandle {
    #[inline]
    fn address(&self) -> usize {
        address_of(&self.kept)
    }
}
