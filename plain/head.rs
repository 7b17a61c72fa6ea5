//! The bench in plain Rust: its proved sources without their proofs, with each crate as a module that uses the kit.
//!
//! `dev/plain source` generated this from the sources of a clone; edit the sources instead. `plain/README.md` explains
//! what was left out, what was replaced by what, and what you have to trust.

#![deny(unsafe_code, unsafe_op_in_unsafe_fn)]
// Some items are used only by a proof or by another program.
#![allow(dead_code, unstable_name_collisions, unused_imports, unused_labels, unused_variables)]
// The sources are proved in their current form, and the kit uses the names of Rattle's library. These lints would
// require the same code to be written differently, in some cases in a way that rustc 1.63 doesn't support.
#![allow(
    unknown_lints,
    clippy::collapsible_match,
    clippy::explicit_counter_loop,
    clippy::large_enum_variant,
    clippy::manual_find,
    clippy::manual_map,
    clippy::manual_ok_err,
    clippy::manual_range_contains,
    clippy::module_inception,
    clippy::needless_lifetimes,
    clippy::needless_range_loop,
    clippy::needless_return,
    clippy::new_without_default,
    clippy::nonminimal_bool,
    clippy::question_mark,
    clippy::result_large_err,
    clippy::single_match,
    clippy::too_many_arguments,
    clippy::while_let_on_iterator,
    clippy::write_with_newline
)]

extern crate alloc;

#[macro_use]
pub mod kit;

pub use kit::{arrayvec, bitflags, byteorder, clap, hex, rtrb};

