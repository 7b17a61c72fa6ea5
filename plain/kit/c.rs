//! Wraps the calls for C: makes slices from pointers and lengths, and stops panics before they reach C.
//!
//! Proofs rule out panics. This edition has no proofs, so a panic may happen, for example because of an index out of
//! range or an integer overflow. The call then returns `NIC_BROKEN`, and so does each later call with that handle,
//! because the handle's object may be half changed. The object can still be freed, and still returns the caller's
//! memory. Standard error shows where the panic happened.

use super::raw::keeping;
pub use super::raw::{slice, slice_mut};
use core::sync::atomic::{AtomicUsize, Ordering};
use std::panic::{catch_unwind, AssertUnwindSafe};

/// Marks this edition's archive, so that `nic_edition()` recognizes it (c/about.c). `no_mangle` counts as unsafe code,
/// because another symbol could have the same name; none does.
#[allow(unsafe_code, non_upper_case_globals)]
#[no_mangle]
pub static nicl_is_plain: u8 = 1;

/// The status of a call that panicked, as in `nic82599.h`.
pub const BROKEN: u8 = 41;

/// A handle that C has: the address of its object.
pub trait Held {
    fn address(&self) -> usize;
}

/// A type that a call returns to C, with the value that it returns after a panic.
pub trait Answer {
    const BROKEN: Self;
}

impl Answer for u8 {
    const BROKEN: u8 = BROKEN;
}

impl Answer for usize {
    const BROKEN: usize = 0;
}

impl Answer for () {
    const BROKEN: () = ();
}

/// The addresses of objects that a panic left half changed. If there are more than this array has room for, all handles
/// count as broken.
static PLACES: [AtomicUsize; 64] = [NOBODY; 64];
#[allow(clippy::declare_interior_mutable_const)]
const NOBODY: AtomicUsize = AtomicUsize::new(0);

/// The number of panics; while it is 0, `PLACES` needn't be searched.
static PANICS: AtomicUsize = AtomicUsize::new(0);

/// Whether more objects are broken than `PLACES` has room for.
static OVERFLOWED: AtomicUsize = AtomicUsize::new(0);

fn replaced(old: usize, new: usize) -> bool {
    let swap = |it: &AtomicUsize| it.compare_exchange(old, new, Ordering::SeqCst, Ordering::SeqCst).is_ok();
    PLACES.iter().any(swap)
}

#[cold]
fn note(address: usize) {
    if !replaced(0, address) {
        OVERFLOWED.store(1, Ordering::SeqCst);
    }
    PANICS.fetch_add(1, Ordering::SeqCst);
}

#[cold]
fn is_noted(address: usize) -> bool {
    OVERFLOWED.load(Ordering::SeqCst) != 0 || PLACES.iter().any(|it| it.load(Ordering::SeqCst) == address)
}

fn is_broken(address: usize) -> bool {
    PANICS.load(Ordering::Relaxed) != 0 && is_noted(address)
}

/// Runs a call with a handle.
#[inline]
pub fn guarded<H: Held, R: Answer>(handle: &mut H, call: impl FnOnce(&mut H) -> R) -> R {
    let address = handle.address();
    if is_broken(address) {
        return R::BROKEN;
    }
    caught(address, handle, |handle| {
        planted("a call");
        call(handle)
    })
}

/// Runs a call that exchanges memory, even if the handle is broken, because the caller must get its memory back. During
/// an exchange, two owners share an allocation, and a panic would free the allocation for one of them, so a panic frees
/// nothing here. C knows both allocations, and its next exchange shows which one the handle has.
#[inline]
pub fn exchanging<H: Held, R: Answer>(handle: &mut H, call: impl FnOnce(&mut H) -> R) -> R {
    caught(handle.address(), handle, |handle| {
        keeping(|| {
            planted("an exchange");
            call(handle)
        })
    })
}

#[inline]
fn caught<H, R: Answer>(address: usize, handle: &mut H, call: impl FnOnce(&mut H) -> R) -> R {
    catch_unwind(AssertUnwindSafe(|| call(handle))).unwrap_or_else(|_| {
        if !is_broken(address) {
            note(address);
        }
        R::BROKEN
    })
}

/// If this edition is compiled with `--cfg planted` (dev/check_broken), the place with the number NIC82599_PLANTED
/// panics. Each call has one such place. An exchange has two: one before the exchange and one after it.
#[inline]
pub fn planted(_place: &str) {
    #[allow(unexpected_cfgs)]
    #[cfg(planted)]
    {
        static PLACES: AtomicUsize = AtomicUsize::new(1);
        let number = std::env::var("NIC82599_PLANTED").ok().and_then(|it| it.parse().ok());
        assert!(number != Some(PLACES.fetch_add(1, Ordering::SeqCst)), "planted in {_place}");
    }
}

/// Runs a call without a handle.
#[inline]
pub fn alone<R: Answer>(call: impl FnOnce() -> R) -> R {
    catch_unwind(AssertUnwindSafe(call)).unwrap_or(R::BROKEN)
}

/// Runs a call that frees a handle's object, broken or not.
#[inline]
pub fn ending<H: Held, R: Answer>(handle: H, call: impl FnOnce(H) -> R) -> R {
    let address = handle.address();
    if PANICS.load(Ordering::Relaxed) != 0 {
        replaced(address, 0);
    }
    alone(|| call(handle))
}

#[cfg(test)]
mod tests {
    use super::*;

    struct Handle(usize);

    impl Held for Handle {
        fn address(&self) -> usize {
            self.0
        }
    }

    /// A call that panics, without a message on standard error.
    fn panics() -> u8 {
        std::panic::resume_unwind(Box::new("a fault"))
    }

    #[test]
    fn a_panic_breaks_its_handle_alone() {
        let (mut one, mut other) = (Handle(0x1000), Handle(0x2000));
        assert_eq!(guarded(&mut one, |_| 7u8), 7);
        assert_eq!(guarded(&mut one, |_| panics()), BROKEN);
        assert_eq!(guarded(&mut one, |_| 7u8), BROKEN);
        assert_eq!(guarded(&mut one, |_| 7usize), 0);
        assert_eq!(exchanging(&mut one, |_| 7u8), 7);
        assert_eq!(guarded(&mut other, |_| 7u8), 7);
        assert_eq!(alone(panics), BROKEN);
        ending(one, |_| ());
        assert_eq!(guarded(&mut Handle(0x1000), |_| 7u8), 7);
        // With more broken objects than `PLACES` has room for, all handles count as broken.
        let mut many: Vec<Handle> = (1..=PLACES.len() + 1).map(|k| Handle(0x10 * k)).collect();
        assert!(many.iter_mut().all(|it| guarded(it, |_| panics()) == BROKEN));
        assert_eq!(guarded(&mut other, |_| 7u8), BROKEN);
    }
}
