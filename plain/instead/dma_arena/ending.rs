//! The values that remain when a program ends.

/// Abandons a value that couldn't be closed, for example an arena to which a block wasn't returned, and returns the
/// failure. In Rattle such a value can't be dropped, so what it owns is leaked; Rust drops it.
pub fn leave<T, F>(value: T, failure: F) -> F {
    drop(value);
    failure
}
