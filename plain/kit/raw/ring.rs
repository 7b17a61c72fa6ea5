//! A ring of slots, the basis of `VecDeque`. Rust's own aborts if memory runs out; before version 1.67, even creating
//! an empty one may abort.

use alloc::vec::Vec;
use core::mem::{ManuallyDrop, MaybeUninit};

/// Elements in `len` slots of a block, starting at slot `head` and wrapping to slot 0.
pub(in crate::kit) struct Ring<T> {
    // The block's length is the capacity: each slot exists, and contains an element or nothing.
    slots: Vec<MaybeUninit<T>>,
    head: usize,
    len: usize,
}

/// The minimum capacity of a block, the same as for Rust's vectors.
fn least<T>() -> usize {
    match core::mem::size_of::<T>() {
        0..=1 => 8,
        2..=1024 => 4,
        _ => 1,
    }
}

impl<T> Ring<T> {
    pub(in crate::kit) fn new() -> Self {
        Ring { slots: Vec::new(), head: 0, len: 0 }
    }

    /// Converts a vector to a ring, in the same block.
    pub(in crate::kit) fn of(from: Vec<T>) -> Self {
        let mut from = ManuallyDrop::new(from);
        let (at, len, room) = (from.as_mut_ptr(), from.len(), from.capacity());
        // SAFETY: the block belongs to the vector, which is no longer used. A slot needn't contain an element, so the
        // new length may be the whole capacity.
        let slots = unsafe { Vec::from_raw_parts(at.cast::<MaybeUninit<T>>(), room, room) };
        Ring { slots, head: 0, len }
    }

    /// Returns the elements as a vector, in the same block.
    pub(in crate::kit) fn into_vec(mut self) -> Vec<T> {
        self.slots.rotate_left(self.head);
        let len = core::mem::replace(&mut self.len, 0);
        let mut slots = ManuallyDrop::new(core::mem::take(&mut self.slots));
        let (at, room) = (slots.as_mut_ptr(), slots.capacity());
        // SAFETY: the block belongs to the slots, which are no longer used; the elements are in its first `len` slots.
        unsafe { Vec::from_raw_parts(at.cast::<T>(), len, room) }
    }

    #[inline]
    pub(in crate::kit) fn len(&self) -> usize {
        self.len
    }

    #[inline]
    pub(in crate::kit) fn capacity(&self) -> usize {
        self.slots.len()
    }

    /// Returns the slot of an index, which is at most the capacity.
    #[inline]
    fn slot(&self, place: usize) -> usize {
        let slot = self.head + place;
        if slot < self.slots.len() {
            slot
        } else {
            slot - self.slots.len()
        }
    }

    /// Makes room for at least this many elements, doubling the capacity if that is enough. Returns false if memory
    /// runs out; in that case nothing changes.
    #[cold]
    #[inline(never)]
    pub(in crate::kit) fn grow(&mut self, more: usize) -> bool {
        let old = self.slots.len();
        if more <= old - self.len {
            return true;
        }
        // (Rattle's queue doubles the number of elements if these don't start the block, otherwise the block's length.)
        let base = if self.head == 0 { old } else { self.len };
        let wanted = self.len.saturating_add(more).max(base.saturating_mul(2)).max(least::<T>());
        if self.slots.try_reserve_exact(wanted - old).is_err() {
            return false;
        }
        let new = self.slots.capacity();
        self.slots.resize_with(new, MaybeUninit::uninit);
        if self.head + self.len > old {
            // The elements from `head` to the old end of the block move to its new end.
            let moved = old - self.head;
            for k in 1..=moved {
                self.slots.swap(old - k, new - k);
            }
            self.head = new - moved;
        }
        true
    }

    /// Appends an element. Panics if there is no room.
    #[inline]
    pub(in crate::kit) fn push_back(&mut self, value: T) {
        assert!(self.len < self.slots.len(), "the ring has no room");
        let slot = self.slot(self.len);
        self.slots[slot] = MaybeUninit::new(value);
        self.len += 1;
    }

    /// Prepends an element. Panics if there is no room.
    #[inline]
    pub(in crate::kit) fn push_front(&mut self, value: T) {
        assert!(self.len < self.slots.len(), "the ring has no room");
        self.head = if self.head == 0 { self.slots.len() - 1 } else { self.head - 1 };
        self.slots[self.head] = MaybeUninit::new(value);
        self.len += 1;
    }

    #[inline]
    pub(in crate::kit) fn pop_front(&mut self) -> Option<T> {
        if self.len == 0 {
            return None;
        }
        let slot = self.head;
        self.head = self.slot(1);
        self.len -= 1;
        // SAFETY: the first slot contains an element, and counts as empty from now on.
        Some(unsafe { self.slots[slot].assume_init_read() })
    }

    #[inline]
    pub(in crate::kit) fn pop_back(&mut self) -> Option<T> {
        if self.len == 0 {
            return None;
        }
        self.len -= 1;
        let slot = self.slot(self.len);
        // SAFETY: the last slot contains an element, and counts as empty from now on.
        Some(unsafe { self.slots[slot].assume_init_read() })
    }

    #[inline]
    pub(in crate::kit) fn get(&self, place: usize) -> Option<&T> {
        if place >= self.len {
            return None;
        }
        // SAFETY: the slot of an index below `len` contains an element.
        Some(unsafe { self.slots[self.slot(place)].assume_init_ref() })
    }

    #[inline]
    pub(in crate::kit) fn get_mut(&mut self, place: usize) -> Option<&mut T> {
        if place >= self.len {
            return None;
        }
        let slot = self.slot(place);
        // SAFETY: as in `get`.
        Some(unsafe { self.slots[slot].assume_init_mut() })
    }

    /// Returns the elements as two slices, in order.
    pub(in crate::kit) fn as_slices(&self) -> (&[T], &[T]) {
        let upper = self.len.min(self.slots.len() - self.head);
        let (first, second) = (&self.slots[self.head..self.head + upper], &self.slots[..self.len - upper]);
        // SAFETY: all of these slots contain elements.
        unsafe {
            (
                core::slice::from_raw_parts(first.as_ptr().cast(), first.len()),
                core::slice::from_raw_parts(second.as_ptr().cast(), second.len()),
            )
        }
    }
}

impl<T> Drop for Ring<T> {
    fn drop(&mut self) {
        while let Some(it) = self.pop_front() {
            drop(it);
        }
    }
}

#[cfg(test)]
mod tests {
    use super::*;
    use std::collections::VecDeque;
    use std::rc::Rc;

    /// Makes the same random calls to a ring and to Rust's own queue, with elements that count their owners.
    #[test]
    fn a_ring_is_a_queue() {
        let (mut ring, mut queue, mut chance) = (Ring::new(), VecDeque::new(), 1u64);
        let counted = Rc::new(());
        for step in 0..20_000 {
            chance = chance.wrapping_mul(6364136223846793005).wrapping_add(1442695040888963407);
            match chance >> 60 {
                kind @ 0..=6 if queue.len() < 40 => {
                    assert!(ring.len() < ring.capacity() || ring.grow(1));
                    let value = (step, counted.clone());
                    if kind % 2 == 0 {
                        queue.push_back(step);
                        ring.push_back(value);
                    } else {
                        queue.push_front(step);
                        ring.push_front(value);
                    }
                }
                7..=9 => assert_eq!(ring.pop_front().map(|it| it.0), queue.pop_front()),
                10..=12 => assert_eq!(ring.pop_back().map(|it| it.0), queue.pop_back()),
                13 => assert!(ring.grow(3)),
                14 => ring = Ring::of(core::mem::replace(&mut ring, Ring::new()).into_vec()),
                _ => {}
            }
            let (first, second) = ring.as_slices();
            assert!(first.iter().chain(second).map(|it| it.0).eq(queue.iter().copied()));
            assert!((0..=queue.len()).all(|k| ring.get(k).map(|it| it.0) == queue.get(k).copied()));
            assert_eq!(Rc::strong_count(&counted), 1 + ring.len());
        }
        drop(ring);
        assert_eq!(Rc::strong_count(&counted), 1);
    }

    #[test]
    fn a_ring_grows_as_rattles() {
        let mut ring = Ring::new();
        let mut rooms = vec![];
        for k in 0..20u32 {
            assert!(ring.len() < ring.capacity() || ring.grow(1));
            ring.push_back(k);
            rooms.push(ring.capacity());
        }
        assert_eq!((rooms[0], rooms[4], rooms[8], rooms[16]), (4, 8, 16, 32));
        ring.pop_front();
        assert!(ring.grow(20));
        assert_eq!(ring.capacity(), 39);
    }
}
