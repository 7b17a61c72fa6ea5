//! `std::collections`: a double-ended queue, a map and a set, whose allocations may fail.

pub use super::maps::{BTreeMap, BTreeSet};

use super::alloc::{AllocError, AllocFailed, Global};
use super::raw::Ring;
use super::vec::Vec;
use core::fmt;
use core::ops::{Index, IndexMut};

/// A double-ended queue. It grows like a vector.
pub struct VecDeque<T>(Ring<T>);

impl<T> VecDeque<T> {
    pub fn new(_alloc: Global) -> Self {
        VecDeque(Ring::new())
    }

    pub fn with_capacity(alloc: Global, count: usize) -> Result<Self, AllocError> {
        Ok(VecDeque::from_vec(Vec::with_capacity(alloc, count)?))
    }

    /// Converts a vector to a queue, in the same memory.
    pub fn from_vec(from: Vec<T>) -> Self {
        VecDeque(Ring::of(from.into_std()))
    }

    /// Returns the elements, in the same memory.
    pub fn into_vec(self) -> Vec<T> {
        Vec::of_std(self.0.into_vec())
    }

    /// Destroys an empty queue.
    pub fn destroy_empty(self) {
        debug_assert!(self.is_empty());
    }

    pub fn len(&self) -> usize {
        self.0.len()
    }

    pub fn is_empty(&self) -> bool {
        self.0.len() == 0
    }

    pub fn capacity(&self) -> usize {
        self.0.capacity()
    }

    pub fn allocator(&self) -> &Global {
        &Global
    }

    pub fn get(&self, place: usize) -> Option<&T> {
        self.0.get(place)
    }

    pub fn get_mut(&mut self, place: usize) -> Option<&mut T> {
        self.0.get_mut(place)
    }

    pub fn front(&self) -> Option<&T> {
        self.0.get(0)
    }

    pub fn front_mut(&mut self) -> Option<&mut T> {
        self.0.get_mut(0)
    }

    pub fn back(&self) -> Option<&T> {
        self.0.get(self.len().checked_sub(1)?)
    }

    pub fn back_mut(&mut self) -> Option<&mut T> {
        self.0.get_mut(self.len().checked_sub(1)?)
    }

    /// Returns the elements as two slices, in order.
    pub fn as_slices(&self) -> (&[T], &[T]) {
        self.0.as_slices()
    }

    pub fn iter(&self) -> Iter<'_, T> {
        let (first, second) = self.as_slices();
        first.iter().chain(second)
    }

    pub fn contains(&self, wanted: &T) -> bool
    where
        T: PartialEq,
    {
        self.iter().any(|it| it == wanted)
    }

    /// Reserves room for more elements.
    pub fn reserve(&mut self, more: usize) -> Result<(), AllocError> {
        if more <= self.capacity() - self.len() || self.0.grow(more) {
            Ok(())
        } else {
            Err(AllocError)
        }
    }

    /// Appends an element. Returns it if memory runs out.
    #[inline]
    pub fn push_back(&mut self, value: T) -> Result<(), AllocFailed<T>> {
        if self.len() == self.capacity() && !self.0.grow(1) {
            return Err(AllocFailed { value });
        }
        self.0.push_back(value);
        Ok(())
    }

    /// Prepends an element. Returns it if memory runs out.
    #[inline]
    pub fn push_front(&mut self, value: T) -> Result<(), AllocFailed<T>> {
        if self.len() == self.capacity() && !self.0.grow(1) {
            return Err(AllocFailed { value });
        }
        self.0.push_front(value);
        Ok(())
    }

    /// Appends an element; there must be room.
    #[inline]
    pub fn push_back_reserved(&mut self, value: T) {
        self.0.push_back(value);
    }

    /// Prepends an element; there must be room.
    #[inline]
    pub fn push_front_reserved(&mut self, value: T) {
        self.0.push_front(value);
    }

    #[inline]
    pub fn pop_front(&mut self) -> Option<T> {
        self.0.pop_front()
    }

    #[inline]
    pub fn pop_back(&mut self) -> Option<T> {
        self.0.pop_back()
    }

    /// Keeps the first elements, and drops the others.
    pub fn truncate(&mut self, count: usize) {
        while self.len() > count {
            drop(self.pop_back());
        }
    }

    pub fn clear(&mut self) {
        self.truncate(0);
    }

    /// Removes the element at an index, and moves later ones down.
    pub fn remove(&mut self, place: usize) -> Option<T> {
        let count = self.len();
        let mut found = None;
        for at in 0..count {
            let it = self.pop_front()?;
            if at == place {
                found = Some(it);
            } else {
                self.push_back_reserved(it);
            }
        }
        found
    }

    /// Keeps the elements for which the function returns true, in order.
    pub fn retain(&mut self, mut is_kept: impl FnMut(&T) -> bool) {
        for _ in 0..self.len() {
            match self.pop_front() {
                Some(it) if is_kept(&it) => self.push_back_reserved(it),
                _ => {}
            }
        }
    }
}

/// An iterator over a queue's elements, in order.
pub type Iter<'a, T> = core::iter::Chain<core::slice::Iter<'a, T>, core::slice::Iter<'a, T>>;

impl<T> Index<usize> for VecDeque<T> {
    type Output = T;

    fn index(&self, place: usize) -> &T {
        self.get(place).expect("the index is beyond the queue's end")
    }
}

impl<T> IndexMut<usize> for VecDeque<T> {
    fn index_mut(&mut self, place: usize) -> &mut T {
        self.get_mut(place).expect("the index is beyond the queue's end")
    }
}

impl<'a, T> IntoIterator for &'a VecDeque<T> {
    type Item = &'a T;
    type IntoIter = Iter<'a, T>;

    fn into_iter(self) -> Iter<'a, T> {
        self.iter()
    }
}

impl<T> IntoIterator for VecDeque<T> {
    type Item = T;
    type IntoIter = alloc::vec::IntoIter<T>;

    fn into_iter(self) -> alloc::vec::IntoIter<T> {
        self.into_vec().into_iter()
    }
}

impl<T: PartialEq> PartialEq for VecDeque<T> {
    fn eq(&self, other: &Self) -> bool {
        self.len() == other.len() && self.iter().eq(other.iter())
    }
}

impl<T: Eq> Eq for VecDeque<T> {}

impl<T: fmt::Debug> fmt::Debug for VecDeque<T> {
    fn fmt(&self, f: &mut fmt::Formatter<'_>) -> fmt::Result {
        f.debug_list().entries(self.iter()).finish()
    }
}
