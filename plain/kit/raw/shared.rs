//! A value with several owners, the basis of `Arc`. Rust's own aborts if it can't allocate its block.

use super::boxed;
use alloc::boxed::Box;
use core::marker::PhantomData;
use core::ptr::NonNull;
use core::sync::atomic::{fence, AtomicU64, Ordering};

struct Block<T> {
    owners: AtomicU64,
    value: T,
}

/// One of a value's owners; the last of them drops the value.
pub(in crate::kit) struct Shared<T> {
    block: NonNull<Block<T>>,
    owns: PhantomData<Block<T>>,
}

/// No owner may be added beyond this count.
const MOST: u64 = u64::MAX / 2;

impl<T> Shared<T> {
    pub(in crate::kit) fn new(value: T) -> Result<Self, T> {
        match boxed(Block { owners: AtomicU64::new(1), value }) {
            Ok(block) => Ok(Shared { block: NonNull::from(Box::leak(block)), owns: PhantomData }),
            Err(block) => Err(block.value),
        }
    }

    fn block(&self) -> &Block<T> {
        // SAFETY: the block exists for as long as it has an owner, and this value is an owner.
        unsafe { self.block.as_ref() }
    }

    /// Adds an owner. Returns None if there are too many.
    pub(in crate::kit) fn another(&self) -> Option<Self> {
        let owners = &self.block().owners;
        if owners.fetch_add(1, Ordering::Relaxed) >= MOST {
            owners.fetch_sub(1, Ordering::Relaxed);
            return None;
        }
        Some(Shared { block: self.block, owns: PhantomData })
    }

    pub(in crate::kit) fn owners(&self) -> u64 {
        self.block().owners.load(Ordering::Acquire)
    }

    #[inline]
    pub(in crate::kit) fn value(&self) -> &T {
        &self.block().value
    }
}

impl<T> Drop for Shared<T> {
    fn drop(&mut self) {
        if self.block().owners.fetch_sub(1, Ordering::Release) != 1 {
            return;
        }
        fence(Ordering::Acquire);
        // SAFETY: the block came from a box, and this value was its last owner. The fence orders the other owners'
        // accesses before it.
        drop(unsafe { Box::from_raw(self.block.as_ptr()) });
    }
}

// SAFETY: owners in several threads refer to one value and may drop it in any of them, so it must be `Send` and `Sync`;
// the count is atomic.
unsafe impl<T: Send + Sync> Send for Shared<T> {}
// SAFETY: as above.
unsafe impl<T: Send + Sync> Sync for Shared<T> {}
