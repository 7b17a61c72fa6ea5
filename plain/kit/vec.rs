//! `Vec`: a vector whose allocations may fail. It wraps Rust's vector, and grows it with fallible calls that request
//! the same sizes as Rattle's vectors.

use super::alloc::{AllocError, AllocFailed, Global};
use super::raw;
use alloc::vec::{IntoIter, Vec as Items};
use core::ops::{Deref, DerefMut};

/// A vector.
#[derive(Debug, PartialEq, Eq, PartialOrd, Ord)]
pub struct Vec<T>(Items<T>);

impl<T> Vec<T> {
    #[inline]
    pub fn new(_alloc: Global) -> Self {
        Vec(Items::new())
    }

    pub fn with_capacity(_alloc: Global, count: usize) -> Result<Self, AllocError> {
        let mut items = Items::new();
        items.try_reserve_exact(count).map_err(|_| AllocError)?;
        Ok(Vec(items))
    }

    pub(super) fn of_std(items: Items<T>) -> Self {
        Vec(items)
    }

    pub(super) fn into_std(self) -> Items<T> {
        self.0
    }

    /// Creates a vector from an array's elements. Returns them if memory runs out.
    pub fn from_array<const N: usize>(alloc: Global, items: [T; N]) -> Result<Self, AllocFailed<[T; N]>> {
        // (If there are no elements, Rattle allocates room for one.)
        match Vec::with_capacity(alloc, N.max(1)) {
            Ok(mut made) => {
                made.0.extend(items);
                Ok(made)
            }
            Err(_) => Err(AllocFailed { value: items }),
        }
    }

    pub fn allocator(&self) -> &Global {
        &Global
    }

    #[inline]
    pub fn capacity(&self) -> usize {
        self.0.capacity()
    }

    /// Reserves room for more elements.
    #[inline]
    pub fn reserve(&mut self, more: usize) -> Result<(), AllocError> {
        self.0.try_reserve(more).map_err(|_| AllocError)
    }

    pub fn reserve_exact(&mut self, more: usize) -> Result<(), AllocError> {
        self.0.try_reserve_exact(more).map_err(|_| AllocError)
    }

    /// Appends an element. Returns it if memory runs out.
    #[inline]
    pub fn push(&mut self, value: T) -> Result<(), AllocFailed<T>> {
        if self.0.len() == self.0.capacity() && self.0.try_reserve(1).is_err() {
            return Err(AllocFailed { value });
        }
        self.0.push(value);
        Ok(())
    }

    /// Appends an element; there must be room.
    #[inline]
    pub fn push_reserved(&mut self, value: T) {
        debug_assert!(self.0.len() < self.0.capacity());
        self.0.push(value);
    }

    /// Inserts an element at an index, and moves later ones up. Returns the element if memory runs out.
    pub fn insert(&mut self, place: usize, value: T) -> Result<(), AllocFailed<T>> {
        if self.0.len() == self.0.capacity() && self.0.try_reserve(1).is_err() {
            return Err(AllocFailed { value });
        }
        self.0.insert(place, value);
        Ok(())
    }

    /// Moves another vector's elements to the end of this one.
    pub fn append(&mut self, other: &mut Vec<T>) -> Result<(), AllocError> {
        self.reserve(other.0.len())?;
        self.0.append(&mut other.0);
        Ok(())
    }

    pub fn remove(&mut self, place: usize) -> T {
        self.0.remove(place)
    }

    pub fn swap_remove(&mut self, place: usize) -> T {
        self.0.swap_remove(place)
    }

    pub fn retain(&mut self, is_kept: impl FnMut(&T) -> bool) {
        self.0.retain(is_kept);
    }

    #[inline]
    pub fn pop(&mut self) -> Option<T> {
        self.0.pop()
    }

    #[inline]
    pub fn as_slice(&self) -> &[T] {
        &self.0
    }

    #[inline]
    pub fn as_mut_slice(&mut self) -> &mut [T] {
        &mut self.0
    }

    pub fn truncate(&mut self, count: usize) {
        self.0.truncate(count);
    }

    pub fn clear(&mut self) {
        self.0.clear();
    }

    /// Frees unused capacity. If a smaller block is refused, the vector keeps its block.
    pub fn shrink_to_fit(&mut self) {
        self.0 = raw::shrunk(core::mem::take(&mut self.0));
    }

    /// Destroys an empty vector.
    pub fn destroy_empty(self) {
        debug_assert!(self.0.is_empty());
    }
}

impl<T: Copy> Vec<T> {
    /// Copies a slice. (Copying a device copies hundreds of empty slices.)
    #[inline(always)]
    pub fn from_slice(alloc: Global, from: &[T]) -> Result<Self, AllocError> {
        if from.is_empty() {
            return Ok(Vec::new(alloc));
        }
        let mut made = Vec::with_capacity(alloc, from.len())?;
        made.0.extend_from_slice(from);
        Ok(made)
    }

    /// Called by `vec_in!`.
    pub fn from_elem(alloc: Global, value: T, count: usize) -> Result<Self, AllocError> {
        let mut made = Vec::with_capacity(alloc, count)?;
        made.0.resize(count, value);
        Ok(made)
    }

    #[inline]
    pub fn extend_from_slice(&mut self, from: &[T]) -> Result<(), AllocError> {
        self.reserve(from.len())?;
        self.0.extend_from_slice(from);
        Ok(())
    }

    /// Truncates the vector, or extends it with copies of a value.
    pub fn resize(&mut self, count: usize, value: T) -> Result<(), AllocError> {
        self.reserve(count.saturating_sub(self.0.len()))?;
        self.0.resize(count, value);
        Ok(())
    }
}

/// Copies a slice.
pub trait ToVec<T> {
    fn to_vec_in(&self, alloc: Global) -> Result<Vec<T>, AllocError>;
}

impl<T: Copy> ToVec<T> for [T] {
    fn to_vec_in(&self, alloc: Global) -> Result<Vec<T>, AllocError> {
        Vec::from_slice(alloc, self)
    }
}

/// Collects an iterator into a vector.
pub trait CollectIn: Iterator + Sized {
    fn collect_in(self, alloc: Global) -> Result<Vec<Self::Item>, AllocError> {
        let mut made = Vec::new(alloc);
        let mut rest = self;
        while let Some(it) = rest.next() {
            if made.0.len() == made.0.capacity() {
                // The size hint may be too high, so only a refused request for one element is an error.
                let hint = rest.size_hint().0.saturating_add(1);
                if made.reserve(hint).is_err() {
                    made.reserve(1)?;
                }
            }
            made.0.push(it);
        }
        Ok(made)
    }
}

impl<I: Iterator> CollectIn for I {}

impl<T> Deref for Vec<T> {
    type Target = [T];

    #[inline]
    fn deref(&self) -> &[T] {
        &self.0
    }
}

impl<T> DerefMut for Vec<T> {
    #[inline]
    fn deref_mut(&mut self) -> &mut [T] {
        &mut self.0
    }
}

impl<T> IntoIterator for Vec<T> {
    type Item = T;
    type IntoIter = IntoIter<T>;

    #[inline]
    fn into_iter(self) -> IntoIter<T> {
        self.0.into_iter()
    }
}

impl<'a, T> IntoIterator for &'a Vec<T> {
    type Item = &'a T;
    type IntoIter = core::slice::Iter<'a, T>;

    #[inline]
    fn into_iter(self) -> core::slice::Iter<'a, T> {
        self.0.iter()
    }
}

impl<'a, T> IntoIterator for &'a mut Vec<T> {
    type Item = &'a mut T;
    type IntoIter = core::slice::IterMut<'a, T>;

    #[inline]
    fn into_iter(self) -> core::slice::IterMut<'a, T> {
        self.0.iter_mut()
    }
}

/// `vec!` with an allocator, whose allocations may fail: `vec_in![in alloc; value; count]?`, `vec_in![in alloc; a,
/// b]?`.
#[macro_export]
macro_rules! vec_in {
    (in $alloc:expr; $value:expr; $count:expr) => {
        $crate::kit::vec::Vec::from_elem($alloc, $value, $count)
    };
    (in $alloc:expr; $($value:expr),* $(,)?) => {
        $crate::kit::vec::Vec::from_array($alloc, [$($value),*])
    };
}
