//! The writer of the plain edition, as a module. The program (`main.rs`) and the build script of `rust/nic82599-model`
//! each use part of it.

// (clippy's suggestion needs a newer compiler than rustc 1.63)
#![allow(clippy::unnecessary_map_or)]

pub mod edition;
mod exports;
pub mod fault;
mod faults;
mod ghosts;
mod known;
mod layout;
mod macros;
mod paths;
mod rust;
mod source;
mod token;
mod uses;
