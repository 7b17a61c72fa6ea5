//! Calls that no driver should make, including calls for memory in place and for reasons why nothing happens.

mod common;

use common::hostile::{by_chance, may, some64};
use nic82599::Error;

#[test]
fn none_ends_the_program() {
    by_chance(|nic, chance| {
        let (bus, end) = (some64(chance), some64(chance));
        may(nic.memory().unlend(bus, end as usize), &[Error::NotLent(0), Error::BadMemory]);
        if chance.below(20) == 0 {
            assert!(nic.why().lines().all(|it| it.len() > 10));
        }
    });
}
