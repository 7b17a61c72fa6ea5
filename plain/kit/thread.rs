//! `std::thread`: work split among threads. If a thread can't be created, the caller's thread does the work: running
//! out of memory makes the program slower, but no work is lost. A caller that needs a separate thread uses `beside`,
//! which reports whether a thread was created.

pub use super::raw::beside;
pub use std::thread::yield_now;

/// The right to start threads.
pub trait Threads {}

impl<R: Threads> Threads for &R {}

/// What a scope's threads may borrow from: in Rattle a value, in Rust a lifetime.
#[derive(Clone, Copy, Debug)]
pub struct ScopeEnv;

pub fn scope_env() -> ScopeEnv {
    ScopeEnv
}

/// Threads that end before `scope` returns.
#[derive(Clone, Copy, Debug)]
pub struct Scope<'scope, 'env>(&'scope std::thread::Scope<'scope, 'env>);

/// No thread was created.
#[derive(Clone, Copy, Debug)]
pub struct SpawnError;

impl<'scope> Scope<'scope, '_> {
    pub fn spawn<F: FnOnce() + Send + 'scope>(&self, call: F) -> Result<(), SpawnError> {
        std::thread::Builder::new().spawn_scoped(self.0, call).map(|_| ()).map_err(|_| SpawnError)
    }
}

/// Calls a function that starts threads, and waits for them. Only tests use it: these threads are Rust's own.
pub fn scope<'env, R, F>(_: ScopeEnv, _: &R, call: F)
where
    R: Threads,
    F: for<'scope> FnOnce(Scope<'scope, 'env>),
{
    std::thread::scope(|all| call(Scope(all)));
}

/// Calls `one` in a separate thread and `other` here. If no thread can be created, calls `one` after `other`.
pub fn join_mut<R, F, G>(_: &R, one: &mut F, other: &mut G)
where
    R: Threads,
    F: FnMut() + Send,
    G: FnMut(),
{
    join(one, other);
}

fn join(one: &mut (dyn FnMut() + Send), other: &mut dyn FnMut()) {
    if !beside(one, other) {
        other();
        one();
    }
}

#[cfg(test)]
mod tests {
    use super::super::host::HostRuntime;
    use super::*;

    #[test]
    fn both_are_called_and_a_panic_is_reported() {
        let (mut one, mut other) = (0, 0);
        join_mut(&HostRuntime, &mut || one += 1, &mut || other += 1);
        assert_eq!((one, other), (1, 1));
        let panics = || join(&mut || std::panic::resume_unwind(Box::new(())), &mut || {});
        assert!(std::panic::catch_unwind(panics).is_err());
    }
}
