//! Tests each call of the kit against its documentation in edge cases: empty, full, first, last, refused. If Rust's
//! library has an equivalent, the same random calls are made to both. `sources` tests the erased sources in this way,
//! in cases that no program reaches.

mod flat;
mod growing;
mod ordered;
mod queues;
mod refused;
mod sharing;
#[cfg(feature = "tests")]
mod sources;
mod streams;
mod texts;

use super::alloc::Global;

/// A random number generator.
struct Chance(u64);

impl Chance {
    /// Returns the next random number below a bound.
    fn below(&mut self, bound: usize) -> usize {
        self.0 = self.0.wrapping_mul(6_364_136_223_846_793_005).wrapping_add(1_442_695_040_888_963_407);
        (self.0 >> 33) as usize % bound
    }
}

/// Whether a call panics. The panic's message on standard error is part of the test's output.
fn panics(call: impl FnOnce()) -> bool {
    std::panic::catch_unwind(std::panic::AssertUnwindSafe(call)).is_err()
}
