//! Calls in which a panic frees nothing.

use core::sync::atomic::{AtomicUsize, Ordering};

/// The number of such calls in progress.
static CALLS: AtomicUsize = AtomicUsize::new(0);

struct Call;

impl Drop for Call {
    fn drop(&mut self) {
        CALLS.fetch_sub(1, Ordering::Relaxed);
    }
}

/// Runs a call in which a panic frees nothing. What the call owns is then leaked, so an allocation to which other code
/// still refers isn't freed. (What another thread drops because of its own panic during the call is leaked too.)
#[inline]
pub(in crate::kit) fn keeping<R>(call: impl FnOnce() -> R) -> R {
    CALLS.fetch_add(1, Ordering::Relaxed);
    let _call = Call;
    call()
}

/// Whether to leak the values that this thread is dropping now.
#[inline]
pub(super) fn keeps() -> bool {
    CALLS.load(Ordering::Relaxed) != 0 && std::thread::panicking()
}

#[cfg(test)]
mod tests {
    use super::*;
    use core::cell::Cell;

    /// Records, when dropped, whether its contents would be leaked.
    struct Noted<'a>(&'a Cell<Option<bool>>);

    impl Drop for Noted<'_> {
        fn drop(&mut self) {
            self.0.set(Some(keeps()));
        }
    }

    #[test]
    fn only_a_panic_keeps() {
        let (dropped, lost) = (Cell::new(None), Cell::new(None));
        keeping(|| drop(Noted(&dropped)));
        let panics = || {
            let _noted = Noted(&lost);
            std::panic::resume_unwind(Box::new("a fault"))
        };
        assert!(std::panic::catch_unwind(std::panic::AssertUnwindSafe(|| keeping::<()>(panics))).is_err());
        assert_eq!((dropped.get(), lost.get(), keeps()), (Some(false), Some(true), false));
    }
}
