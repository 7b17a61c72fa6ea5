//! All `unsafe` code of the kit, with a reason for each use. All exported calls are safe, except the slices from C's
//! pointers and the handles of boxes. Callers of these must meet the requirements of the C header.

#[cfg(any(feature = "c", test))]
mod keeping;
#[cfg(all(test, not(feature = "c")))]
mod refusing;
mod ring;
mod shared;
mod threads;

#[cfg(any(feature = "c", test))]
pub(super) use keeping::keeping;
#[cfg(all(test, not(feature = "c")))]
pub(super) use refusing::{counted, granted};
pub(super) use ring::Ring;
pub(super) use shared::Shared;
pub use threads::beside;

use alloc::alloc::{alloc, realloc, Layout};
use alloc::boxed::Box;
use alloc::vec::Vec;
use core::mem::{ManuallyDrop, MaybeUninit};

/// Allocates a box for a value. Returns the value if memory runs out.
pub(super) fn boxed<T>(value: T) -> Result<Box<T>, T> {
    let layout = Layout::new::<T>();
    if layout.size() == 0 {
        return Ok(Box::new(value));
    }
    // SAFETY: the layout's size isn't 0. The memory is new and has that layout. It is written before it becomes a box,
    // which frees it like any Rust box.
    unsafe {
        let place = alloc(layout).cast::<T>();
        if place.is_null() {
            return Err(value);
        }
        place.write(value);
        Ok(Box::from_raw(place))
    }
}

/// Moves the elements to a block of their exact size. If the allocator refuses that block, the elements stay in their
/// old block; Rust's vectors abort in that case.
pub(super) fn shrunk<T>(items: Vec<T>) -> Vec<T> {
    let (len, room) = (items.len(), items.capacity());
    if len == room || len == 0 || core::mem::size_of::<T>() == 0 {
        return if len == 0 { Vec::new() } else { items };
    }
    let mut items = ManuallyDrop::new(items);
    let at = items.as_mut_ptr();
    // SAFETY: the block belongs to the vector, which is no longer used, and has this layout, because it was allocated
    // with it. The new size isn't 0. The result of `realloc` contains the elements and has that size; or it is null,
    // and the block is unchanged.
    unsafe {
        let layout = Layout::from_size_align_unchecked(room * core::mem::size_of::<T>(), core::mem::align_of::<T>());
        let to = realloc(at.cast::<u8>(), layout, len * core::mem::size_of::<T>()).cast::<T>();
        if to.is_null() {
            return Vec::from_raw_parts(at, len, room);
        }
        Vec::from_raw_parts(to, len, len)
    }
}

/// Slots for `Copy` values, of which the first `count` are initialized.
#[derive(Clone, Copy)]
pub(super) struct Slots<T: Copy, const N: usize> {
    items: [MaybeUninit<T>; N],
    count: usize,
}

impl<T: Copy, const N: usize> Slots<T, N> {
    pub(super) fn new() -> Self {
        Slots { items: [MaybeUninit::uninit(); N], count: 0 }
    }

    /// Writes the next slot. Panics if there is none.
    #[inline]
    pub(super) fn push(&mut self, value: T) {
        self.items[self.count] = MaybeUninit::new(value);
        self.count += 1;
    }

    /// Forgets all initialized slots after the first `count`.
    pub(super) fn truncate(&mut self, count: usize) {
        self.count = self.count.min(count);
    }

    #[inline]
    pub(super) fn written(&self) -> &[T] {
        let written = &self.items[..self.count];
        // SAFETY: `push` initialized the first `count` slots, and nothing else increases `count`.
        unsafe { core::slice::from_raw_parts(written.as_ptr().cast(), written.len()) }
    }

    #[inline]
    pub(super) fn written_mut(&mut self) -> &mut [T] {
        let written = &mut self.items[..self.count];
        // SAFETY: as in `written`. A value of a `Copy` type may be overwritten.
        unsafe { core::slice::from_raw_parts_mut(written.as_mut_ptr().cast(), written.len()) }
    }
}

/// The C library's heap, under the three names that `c/Makefile` renames.
#[cfg(feature = "c")]
mod heap {
    use core::alloc::{GlobalAlloc, Layout};

    /// The result of a call: whether there was memory, and the pointer.
    #[repr(C)]
    struct Taken {
        is_there: usize,
        piece: *mut u8,
    }

    extern "C" {
        fn rattle_alloc(size: usize, align: usize) -> Taken;
        fn rattle_realloc(piece: *mut u8, old: usize, size: usize, align: usize) -> Taken;
        fn rattle_dealloc(piece: *mut u8);
    }

    impl Taken {
        fn or_null(self) -> *mut u8 {
            if self.is_there == 0 {
                core::ptr::null_mut()
            } else {
                self.piece
            }
        }
    }

    struct Heap;

    #[global_allocator]
    static HEAP: Heap = Heap;

    // SAFETY: the calls behave like malloc, realloc and free (plain/heap.c). They return memory that nothing else uses,
    // aligned for every type in the crate (no type needs more than malloc's alignment), keep its contents, and return
    // null if memory runs out.
    unsafe impl GlobalAlloc for Heap {
        #[inline]
        unsafe fn alloc(&self, layout: Layout) -> *mut u8 {
            // SAFETY: every size and alignment is allowed.
            unsafe { rattle_alloc(layout.size(), layout.align()).or_null() }
        }

        #[inline]
        unsafe fn dealloc(&self, piece: *mut u8, _: Layout) {
            if super::keeping::keeps() {
                return;
            }
            // SAFETY: the caller frees memory from `alloc` or `realloc`.
            unsafe { rattle_dealloc(piece) }
        }

        #[inline]
        unsafe fn realloc(&self, piece: *mut u8, layout: Layout, size: usize) -> *mut u8 {
            // SAFETY: the caller passes memory from `alloc` or `realloc`, with its layout.
            unsafe { rattle_realloc(piece, layout.size(), size, layout.align()).or_null() }
        }
    }
}

/// Returns the elements that C passes as a pointer and a length; the pointer may be null if the length is 0.
///
/// # Safety
/// There must be `length` elements at the pointer for as long as the slice is used, and nothing may write to them.
#[cfg(any(feature = "c", test))]
#[inline]
pub unsafe fn slice<'a, T>(at: *const T, length: usize) -> &'a [T] {
    if length == 0 {
        return &[];
    }
    // SAFETY: the caller guarantees it.
    unsafe { core::slice::from_raw_parts(at, length) }
}

/// Like `slice`, but mutable.
///
/// # Safety
/// As for `slice`, and nothing else may read or write them.
#[cfg(any(feature = "c", test))]
#[inline]
pub unsafe fn slice_mut<'a, T>(at: *mut T, length: usize) -> &'a mut [T] {
    if length == 0 {
        return &mut [];
    }
    // SAFETY: the caller guarantees it.
    unsafe { core::slice::from_raw_parts_mut(at, length) }
}

/// Standard input and output as unbuffered files: Rust's `stdin` and `stdout` abort if memory runs out.
#[cfg(unix)]
pub(super) fn standard(number: i32) -> core::mem::ManuallyDrop<std::fs::File> {
    use std::os::unix::io::FromRawFd;
    // SAFETY: the process has descriptors 0 and 1 for as long as it runs; the file is never closed.
    core::mem::ManuallyDrop::new(unsafe { std::fs::File::from_raw_fd(number) })
}

#[cfg(unix)]
pub use words::run_with_words;

/// The command-line arguments, as C passes them to `main`.
#[cfg(unix)]
mod words {
    use std::ffi::CStr;
    use std::os::raw::{c_char, c_int};
    use std::sync::atomic::{AtomicPtr, AtomicUsize, Ordering};

    static FIRST: AtomicPtr<*const c_char> = AtomicPtr::new(core::ptr::null_mut());
    static COUNT: AtomicUsize = AtomicUsize::new(0);

    extern "C" {
        fn signal(number: c_int, handler: usize) -> usize;
    }

    const SIGPIPE: c_int = 13;
    const SIG_IGN: usize = 1;

    /// Runs a program with these arguments, for a `main` with C's signature; only `program!` defines one. From now on,
    /// a write to a closed pipe fails instead of raising a signal.
    ///
    /// # Safety
    /// The arguments must be `main`'s own parameters.
    pub unsafe fn run_with_words(count: c_int, words: *const *const c_char, main: fn() -> u8) -> c_int {
        COUNT.store(usize::try_from(count).unwrap_or(0), Ordering::SeqCst);
        FIRST.store(words as *mut *const c_char, Ordering::SeqCst);
        // SAFETY: C's headers define these numbers for this signal and for ignoring it.
        unsafe { signal(SIGPIPE, SIG_IGN) };
        c_int::from(main())
    }

    /// Returns a command-line argument, or None after the last.
    pub(in crate::kit) fn word(place: usize) -> Option<&'static [u8]> {
        let first = FIRST.load(Ordering::SeqCst);
        if place >= COUNT.load(Ordering::SeqCst) || first.is_null() {
            return None;
        }
        // SAFETY: `main` received this many pointers to NUL-terminated strings, which nothing changes while it runs.
        Some(unsafe { CStr::from_ptr(*first.add(place)) }.to_bytes())
    }
}
#[cfg(unix)]
pub(super) use words::word;

#[cfg(test)]
mod tests {
    use super::*;
    use std::rc::Rc;

    #[test]
    fn a_smaller_block_has_the_elements() {
        let mut items = Vec::with_capacity(100);
        items.extend(["a", "b", "c"].map(String::from));
        let items = shrunk(items);
        assert_eq!((items.capacity(), items.join("")), (3, "abc".into()));
        assert_eq!(shrunk(Vec::<u8>::with_capacity(5)).capacity(), 0);
        assert_eq!(*boxed(7).unwrap(), 7);
    }

    #[test]
    fn the_last_owner_drops() {
        let value = Rc::new(());
        let one = Shared::new(value.clone()).unwrap();
        let other = one.another().unwrap();
        assert_eq!((one.owners(), Rc::strong_count(other.value())), (2, 2));
        drop(one);
        assert_eq!((other.owners(), Rc::strong_count(&value)), (1, 2));
        drop(other);
        assert_eq!(Rc::strong_count(&value), 1);
    }

    #[test]
    fn slots_are_written_in_order() {
        let mut slots = Slots::<u16, 3>::new();
        slots.push(5);
        slots.push(6);
        slots.written_mut()[0] = 4;
        assert_eq!(slots.written(), [4, 6]);
        slots.truncate(1);
        assert_eq!(slots.written(), [4]);
    }
}
