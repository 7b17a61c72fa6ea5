//! A heap for tests that refuses a thread's memory requests, starting with a given one.

use core::alloc::{GlobalAlloc, Layout};
use core::cell::Cell;
use std::alloc::System;

thread_local! {
    /// How many more requests will be granted; `u64::MAX`: all.
    static GRANTS: Cell<u64> = const { Cell::new(u64::MAX) };
    /// How many requests have been made so far.
    static ASKED: Cell<u64> = const { Cell::new(0) };
}

fn is_granted() -> bool {
    ASKED.with(|it| it.set(it.get() + 1));
    GRANTS.with(|it| {
        let left = it.get();
        it.set(left.saturating_sub(u64::from(left != u64::MAX)));
        left != 0
    })
}

struct Refusing;

#[global_allocator]
static HEAP: Refusing = Refusing;

// SAFETY: each call calls the system's heap, or reports that there is no memory.
unsafe impl GlobalAlloc for Refusing {
    unsafe fn alloc(&self, layout: Layout) -> *mut u8 {
        // SAFETY: the caller guarantees it.
        if is_granted() {
            unsafe { System.alloc(layout) }
        } else {
            core::ptr::null_mut()
        }
    }

    unsafe fn dealloc(&self, piece: *mut u8, layout: Layout) {
        // SAFETY: the caller guarantees it.
        unsafe { System.dealloc(piece, layout) }
    }

    unsafe fn realloc(&self, piece: *mut u8, layout: Layout, size: usize) -> *mut u8 {
        // SAFETY: the caller guarantees it.
        if is_granted() {
            unsafe { System.realloc(piece, layout, size) }
        } else {
            core::ptr::null_mut()
        }
    }
}

/// Runs a call, granting only its first `requests` memory requests, and returns its result.
pub(in crate::kit) fn granted<R>(requests: u64, call: impl FnOnce() -> R) -> R {
    GRANTS.with(|it| it.set(requests));
    let result = call();
    GRANTS.with(|it| it.set(u64::MAX));
    result
}

/// Runs a call, and returns its result and the number of memory requests that it made.
pub(in crate::kit) fn counted<R>(call: impl FnOnce() -> R) -> (R, u64) {
    let before = ASKED.with(Cell::get);
    let result = call();
    (result, ASKED.with(Cell::get) - before)
}
