//! Out-parameters through which C receives the pointers to a new card and to a snapshot.
//!
//! Nothing is known about the memory that C passes, so a store overwrites its contents without dropping them.

use crate::card::{Card, Kept};
use crate::kit::mem::ManuallyDrop;
use crate::kit::prelude::*;
use crate::nic82599_c::parts::Parts;

/// Room for C to receive a handle's pointer. In C it is a struct with one pointer, or the pointer itself. A handle that
/// is overwritten is leaked.
#[repr(C)]
pub struct HandleOut {
    card: ManuallyDrop<Option<Box<Card>>>,
}

/// Room for C to receive the pointer of a snapshot's handle, like `HandleOut`.
#[repr(C)]
pub struct KeptHandleOut {
    kept: ManuallyDrop<Option<Box<Kept>>>,
}

impl HandleOut {
    /// Creates an out-parameter that contains a handle to the card whose box has these parts.
    pub fn of(parts: Parts<Card>) -> HandleOut {
        HandleOut { card: ManuallyDrop::new(Some(parts.into_box())) }
    }
}

impl KeptHandleOut {
    /// Creates an out-parameter that contains the handle of the snapshot in a box with these parts.
    pub fn of(parts: Parts<Kept>) -> KeptHandleOut {
        KeptHandleOut { kept: ManuallyDrop::new(Some(parts.into_box())) }
    }
}
