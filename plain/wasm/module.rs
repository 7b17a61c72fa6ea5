//! The `nicbench` program as a WebAssembly module, based on the plain edition: it takes the command-line arguments and
//! the input, and returns the output and the status. `nicbench.mjs` is the JavaScript interface.
//!
//! Each string has a number: 0 is the arguments, each terminated by a 0 byte; 1 the input; 2 the output; 3 the fault
//! that ended the program. The host calls `room` for the first two, writes them at the returned addresses, calls `run`,
//! and reads the other strings, of `length` bytes at `address`. If a call doesn't return, the program hit a fault that
//! the proofs rule out: the last string then describes it, and no other call is allowed. Each run has a fresh instance,
//! so no data remains from another run.

#![deny(unsafe_code)]

use nic82599::bench::{bench, bench_threads, Input, Outcome, Output, FAILED, NO_MEMORY, REFUSED_WORDS};
use nic82599::kit::alloc::Global;
use nic82599::kit::host::HostRuntime;
use nic82599::kit::io::{self, Write};
use nic82599::kit::string::String;
use nic82599::kit::vec::Vec as Items;
use std::sync::{Mutex, MutexGuard, PoisonError};

const WORDS: usize = 0;
const INPUT: usize = 1;
const PRINTED: usize = 2;
const FAULT: usize = 3;

#[allow(clippy::declare_interior_mutable_const)]
const EMPTY: Mutex<Vec<u8>> = Mutex::new(Vec::new());
static TEXTS: [Mutex<Vec<u8>>; 4] = [EMPTY; 4];

fn text(number: usize) -> MutexGuard<'static, Vec<u8>> {
    TEXTS[number].lock().unwrap_or_else(PoisonError::into_inner)
}

/// The calls that the host makes. `no_mangle` counts as unsafe code, because another symbol could have the same name;
/// none does.
#[allow(unsafe_code)]
mod calls {
    use super::*;

    /// Makes room for a string of this many bytes, and returns its address; 0 if memory runs out. The host calls this
    /// first.
    #[no_mangle]
    extern "C" fn room(number: usize, length: usize) -> usize {
        std::panic::set_hook(Box::new(|fault| *text(FAULT) = fault.to_string().into_bytes()));
        let mut text = text(number);
        text.clear();
        if text.try_reserve_exact(length).is_err() {
            return 0;
        }
        text.resize(length, 0);
        text.as_ptr() as usize
    }

    /// Returns the address of a string's bytes.
    #[no_mangle]
    extern "C" fn address(number: usize) -> usize {
        text(number).as_ptr() as usize
    }

    /// Returns a string's length in bytes.
    #[no_mangle]
    extern "C" fn length(number: usize) -> usize {
        text(number).len()
    }

    /// Runs the program, and returns its status.
    #[no_mangle]
    extern "C" fn run() -> u32 {
        let input = std::mem::take(&mut *text(INPUT));
        let status = match words() {
            Ok(words) => answered(&words, &input),
            Err(status) => status,
        };
        u32::from(status)
    }
}

/// Returns the arguments that the host has written, or the status of a program that can't accept them.
fn words() -> Result<Items<String>, u8> {
    let written = std::mem::take(&mut *text(WORDS));
    let mut words = Items::new(Global);
    for word in written.split_inclusive(|it| *it == 0) {
        let word = std::str::from_utf8(&word[..word.len() - 1]).map_err(|_| REFUSED_WORDS)?;
        let pushed = String::from_str(Global, word).map(|word| words.push(word));
        if !matches!(pushed, Ok(Ok(()))) {
            return Err(without_memory());
        }
    }
    Ok(words)
}

/// A writer that appends to the output.
struct Printed;

impl Write for Printed {
    fn write(&mut self, bytes: &[u8]) -> io::Result<usize> {
        let mut text = text(PRINTED);
        text.try_reserve(bytes.len()).map_err(|_| io::Error::from(io::ErrorKind::OutOfMemory))?;
        text.extend_from_slice(bytes);
        Ok(bytes.len())
    }

    fn flush(&mut self) -> io::Result<()> {
        Ok(())
    }
}

/// Returns the status of nicbench's `main` if there is no memory for the arguments.
fn without_memory() -> u8 {
    match Printed.write_all(b"refused OutOfMemory\n") {
        Ok(()) => NO_MEMORY,
        Err(_) => FAILED,
    }
}

fn answered(words: &Items<String>, mut input: &[u8]) -> u8 {
    let mut printed = Printed;
    let mut output = Output::of(&mut printed);
    match bench(Global, &mut Input::of(&mut input), &mut output, words) {
        Outcome::Ended(status) => output.flush(status),
        Outcome::Threads { workers, frames } => {
            let status = bench_threads(&HostRuntime, Global, &mut output, workers, frames);
            if output.has_failed() {
                output.failed_status()
            } else {
                output.flush(status)
            }
        }
    }
}
