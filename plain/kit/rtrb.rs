//! The `rtrb` crate: a ring from one thread to another. The original has no locks. This version has a lock for each
//! place, but no thread waits for a lock: an end takes the lock only if the counts show that the other end is done with
//! the place.

use super::alloc::{AllocError, Global};
use super::sync::Arc;
use super::vec::Vec;
use core::fmt;
use core::sync::atomic::{AtomicUsize, Ordering};
use std::sync::{Mutex, PoisonError};

struct Ring<T> {
    places: Vec<Mutex<Option<T>>>,
    // Both counts are modulo twice the number of places, so they never overflow, and a full ring differs from an empty
    // one.
    pushed: AtomicUsize,
    popped: AtomicUsize,
}

impl<T> Ring<T> {
    /// Exchanges the contents of the place that belongs to a count.
    fn exchange(&self, count: usize, value: Option<T>) -> Option<T> {
        let place = &self.places[count % self.places.len()];
        core::mem::replace(&mut place.lock().unwrap_or_else(PoisonError::into_inner), value)
    }

    /// Returns the count that follows this one.
    fn after(&self, count: usize) -> usize {
        (count + 1) % (2 * self.places.len())
    }

    /// Returns the number of items.
    fn held(&self) -> usize {
        let (pushed, popped) = (self.pushed.load(Ordering::Acquire), self.popped.load(Ordering::Acquire));
        if pushed >= popped {
            pushed - popped
        } else {
            pushed + 2 * self.places.len() - popped
        }
    }
}

/// Creates both ends.
pub struct RingBuffer;

/// The end that pushes.
pub struct Producer<T>(Arc<Ring<T>>);

/// The end that pops.
pub struct Consumer<T>(Arc<Ring<T>>);

/// The ring has no free place for this item.
#[derive(PartialEq, Eq)]
pub enum PushError<T> {
    Full(T),
}

/// The ring is empty.
#[derive(Clone, Copy, Debug, PartialEq, Eq)]
pub enum PopError {
    Empty,
}

impl<T> fmt::Debug for PushError<T> {
    fn fmt(&self, f: &mut fmt::Formatter<'_>) -> fmt::Result {
        f.pad("Full(_)")
    }
}

impl RingBuffer {
    #[allow(clippy::new_ret_no_self)]
    pub fn new<T>(alloc: Global, count: usize) -> Result<(Producer<T>, Consumer<T>), AllocError> {
        let mut places = Vec::with_capacity(alloc, count)?;
        for _ in 0..count {
            places.push_reserved(Mutex::new(None));
        }
        let ring = Ring { places, pushed: AtomicUsize::new(0), popped: AtomicUsize::new(0) };
        let ring = Arc::new(alloc, ring)?;
        Ok((Producer(Arc::try_clone(&ring)?), Consumer(ring)))
    }
}

impl<T> Producer<T> {
    /// Appends an item. Returns it if there is no free place.
    pub fn push(&mut self, value: T) -> Result<(), PushError<T>> {
        if self.0.held() == self.0.places.len() {
            return Err(PushError::Full(value));
        }
        self.push_reserved(value);
        Ok(())
    }

    /// Appends an item; there must be a free place.
    pub fn push_reserved(&mut self, value: T) {
        let count = self.0.pushed.load(Ordering::Relaxed);
        let former = self.0.exchange(count, Some(value));
        debug_assert!(former.is_none());
        self.0.pushed.store(self.0.after(count), Ordering::Release);
    }
}

impl<T> Consumer<T> {
    /// Removes the oldest item.
    pub fn pop(&mut self) -> Result<T, PopError> {
        let count = self.0.popped.load(Ordering::Relaxed);
        if self.0.held() == 0 {
            return Err(PopError::Empty);
        }
        let item = self.0.exchange(count, None);
        self.0.popped.store(self.0.after(count), Ordering::Release);
        item.ok_or(PopError::Empty)
    }

    /// Removes an item that is known to exist.
    pub fn pop_known(&mut self) -> T {
        self.pop().expect("the ring is empty")
    }

    /// Returns the number of items.
    pub fn slots(&mut self) -> usize {
        self.0.held()
    }

    /// Returns the number of items, for a caller that also has the producer.
    pub fn slots_beside(&mut self, _: &mut Producer<T>) -> usize {
        self.0.held()
    }
}

#[cfg(test)]
mod tests {
    use super::*;

    #[test]
    fn all_that_is_pushed_comes_out_in_order() {
        let (mut producer, mut consumer) = RingBuffer::new(Global, 4).unwrap();
        std::thread::scope(|all| {
            all.spawn(move || {
                for k in 0..1_000 {
                    while producer.push(k) != Ok(()) {
                        std::thread::yield_now();
                    }
                }
            });
            for k in 0..1_000 {
                while consumer.slots() == 0 {
                    std::thread::yield_now();
                }
                assert_eq!(consumer.pop(), Ok(k));
            }
        });
        assert_eq!(consumer.pop(), Err(PopError::Empty));
    }
}
