//! `std::sync`: shared values and locks. Taking a lock needs the right to wait, as Rattle's types require. Locks aren't
//! poisoned, because a panic ends the process or the device.

use super::alloc::{AllocError, AllocFailed, Global};
use super::raw::Shared;
use core::fmt;
use core::ops::{Deref, DerefMut};
use std::sync::PoisonError;

/// A value with several owners, possibly in different threads.
pub struct Arc<T>(Shared<T>);

impl<T> Arc<T> {
    /// Creates a value with one owner. Returns the value if memory runs out.
    pub fn new(_alloc: Global, value: T) -> Result<Self, AllocFailed<T>> {
        Shared::new(value).map(Arc).map_err(|value| AllocFailed { value })
    }

    /// Adds an owner. Fails if there are too many.
    pub fn try_clone(it: &Self) -> Result<Self, AllocError> {
        it.0.another().map(Arc).ok_or(AllocError)
    }

    pub fn strong_count(it: &Self) -> usize {
        it.0.owners() as usize
    }
}

impl<T> Deref for Arc<T> {
    type Target = T;

    #[inline]
    fn deref(&self) -> &T {
        self.0.value()
    }
}

impl<T: fmt::Debug> fmt::Debug for Arc<T> {
    fn fmt(&self, f: &mut fmt::Formatter<'_>) -> fmt::Result {
        (**self).fmt(f)
    }
}

/// The right to wait.
pub trait Wait {
    /// Returns an endless iterator, for polling loops.
    fn forever(&self) -> core::iter::Repeat<()> {
        core::iter::repeat(())
    }
}

impl<R: Wait> Wait for &R {}

/// A lock around a value.
#[derive(Debug)]
pub struct Mutex<T>(std::sync::Mutex<T>);

/// The value of a held lock.
pub struct MutexGuard<'a, T>(std::sync::MutexGuard<'a, T>);

impl<T> Mutex<T> {
    pub fn new(value: T) -> Self {
        Mutex(std::sync::Mutex::new(value))
    }

    pub fn lock<R: Wait>(&self, _: &R) -> MutexGuard<'_, T> {
        MutexGuard(self.0.lock().unwrap_or_else(PoisonError::into_inner))
    }

    /// Returns the value if the lock is free.
    pub fn try_lock(&self) -> Option<MutexGuard<'_, T>> {
        self.0.try_lock().ok().map(MutexGuard)
    }

    pub fn into_inner(self) -> T {
        self.0.into_inner().unwrap_or_else(PoisonError::into_inner)
    }

    pub fn get_mut(&mut self) -> &mut T {
        self.0.get_mut().unwrap_or_else(PoisonError::into_inner)
    }
}

impl<T> Deref for MutexGuard<'_, T> {
    type Target = T;

    fn deref(&self) -> &T {
        &self.0
    }
}

impl<T> DerefMut for MutexGuard<'_, T> {
    fn deref_mut(&mut self) -> &mut T {
        &mut self.0
    }
}

/// A condition variable: threads that hold the lock can wait on it.
#[derive(Debug)]
pub struct Condvar(std::sync::Condvar);

impl Condvar {
    pub fn new() -> Self {
        Condvar(std::sync::Condvar::new())
    }

    pub fn notify_one(&self) {
        self.0.notify_one();
    }

    pub fn notify_all(&self) {
        self.0.notify_all();
    }

    /// Waits until `is_early` returns false for the value.
    pub fn wait_while<'a, T, R: Wait>(
        &self,
        _: &R,
        guard: MutexGuard<'a, T>,
        is_early: impl FnMut(&mut T) -> bool,
    ) -> MutexGuard<'a, T> {
        MutexGuard(self.0.wait_while(guard.0, is_early).unwrap_or_else(PoisonError::into_inner))
    }
}

pub mod atomic {
    //! `std::sync::atomic`.

    pub use core::sync::atomic::{AtomicU64, Ordering};
}
