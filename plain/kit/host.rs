//! What `main` and tests receive: the process's arguments, input and output, and the rights to wait, print and start
//! threads.

use super::alloc::{AllocGlobal, Global};
use super::io::{Error, ErrorKind, Read, Result, Write};
use super::string::String;
use super::sync::Wait;
use super::thread::Threads;
use super::vec::Vec;
use core::fmt;

/// The process.
#[derive(Clone, Copy, Debug)]
pub struct HostRuntime;

impl HostRuntime {
    pub fn alloc(&self) -> Global {
        Global
    }

    pub fn stdin(&self) -> Stdin {
        Stdin
    }

    pub fn stdout(&self) -> Stdout {
        Stdout
    }
}

impl AllocGlobal for HostRuntime {
    fn alloc(&self) -> Global {
        Global
    }
}

impl Wait for HostRuntime {}

impl Threads for HostRuntime {}

/// Standard input.
#[derive(Clone, Copy, Debug)]
pub struct Stdin;

/// Standard output, unbuffered.
#[derive(Clone, Copy, Debug)]
pub struct Stdout;

fn error_of(error: std::io::Error) -> Error {
    Error::from(match error.kind() {
        std::io::ErrorKind::BrokenPipe => ErrorKind::BrokenPipe,
        std::io::ErrorKind::Interrupted => ErrorKind::Interrupted,
        std::io::ErrorKind::OutOfMemory => ErrorKind::OutOfMemory,
        std::io::ErrorKind::InvalidData => ErrorKind::InvalidData,
        _ => ErrorKind::Other,
    })
}

#[cfg(unix)]
fn with_standard<R>(number: i32, call: impl FnOnce(&mut std::fs::File) -> R) -> R {
    call(&mut super::raw::standard(number))
}

impl Read for Stdin {
    #[cfg(unix)]
    fn read(&mut self, buffer: &mut [u8]) -> Result<usize> {
        with_standard(0, |it| std::io::Read::read(it, buffer)).map_err(error_of)
    }

    #[cfg(not(unix))]
    fn read(&mut self, buffer: &mut [u8]) -> Result<usize> {
        std::io::Read::read(&mut std::io::stdin().lock(), buffer).map_err(error_of)
    }
}

impl Write for Stdout {
    #[cfg(unix)]
    fn write(&mut self, bytes: &[u8]) -> Result<usize> {
        with_standard(1, |it| std::io::Write::write(it, bytes)).map_err(error_of)
    }

    #[cfg(not(unix))]
    fn write(&mut self, bytes: &[u8]) -> Result<usize> {
        std::io::Write::write(&mut std::io::stdout().lock(), bytes).map_err(error_of)
    }

    #[cfg(unix)]
    fn flush(&mut self) -> Result<()> {
        Ok(())
    }

    #[cfg(not(unix))]
    fn flush(&mut self) -> Result<()> {
        std::io::Write::flush(&mut std::io::stdout().lock()).map_err(error_of)
    }
}

/// The right to print.
pub trait Print {
    /// Called by `println_on!`.
    fn print_line(&self, text: fmt::Arguments<'_>) -> Result<()> {
        Stdout.write_fmt(format_args!("{text}\n"))
    }
}

impl Print for HostRuntime {}

/// Returns standard output to a caller that has the right to print.
pub fn writer<R: Print>(_: &R) -> Stdout {
    Stdout
}

/// `println!` with a handle: `println_on!(rt; "{word}")?`.
#[macro_export]
macro_rules! println_on {
    ($rt:expr; $($all:tt)*) => { $rt.print_line(format_args!($($all)*)) };
}

pub mod env {
    //! `std::env`: the command-line arguments.

    use super::*;

    /// The arguments, starting with the program's name.
    #[derive(Debug)]
    pub struct Args(());

    pub fn args(_: &HostRuntime) -> Result<Args> {
        Ok(Args(()))
    }

    fn text_of(alloc: Global, word: Option<&str>) -> Result<String> {
        Ok(String::from_str(alloc, word.ok_or_else(|| Error::from(ErrorKind::InvalidData))?)?)
    }

    impl Args {
        /// Returns all arguments. Fails if one isn't UTF-8 or memory runs out.
        #[cfg(unix)]
        pub fn collect_in(self, alloc: Global) -> Result<Vec<String>> {
            let mut words = Vec::new(alloc);
            while let Some(word) = super::super::raw::word(words.len()) {
                words.push(text_of(alloc, core::str::from_utf8(word).ok())?)?;
            }
            Ok(words)
        }

        /// Returns all arguments. Fails if one isn't Unicode or memory runs out.
        #[cfg(not(unix))]
        pub fn collect_in(self, alloc: Global) -> Result<Vec<String>> {
            let mut words = Vec::new(alloc);
            for word in std::env::args_os() {
                words.push(text_of(alloc, word.to_str())?)?;
            }
            Ok(words)
        }
    }
}

pub mod fs {
    //! `std::fs`: files of test programs. Their memory comes from Rust's own collections.

    use super::*;

    pub fn read_to_string(_: &HostRuntime, path: &str) -> Result<String> {
        Ok(String::from_str(Global, &std::fs::read_to_string(path).map_err(error_of)?)?)
    }
}

pub mod process {
    //! `std::process`: how a program ends.

    use core::fmt;

    /// A process's exit status.
    #[derive(Clone, Copy, Debug, PartialEq, Eq)]
    pub struct ExitCode(u8);

    impl ExitCode {
        pub const SUCCESS: ExitCode = ExitCode(0);
        pub const FAILURE: ExitCode = ExitCode(1);
    }

    /// A type that a program's `main` may return.
    pub trait Ended {
        fn status(self) -> u8;
    }

    impl Ended for ExitCode {
        fn status(self) -> u8 {
            self.0
        }
    }

    impl Ended for () {
        fn status(self) -> u8 {
            0
        }
    }

    impl<T: Ended, E: fmt::Debug> Ended for Result<T, E> {
        fn status(self) -> u8 {
            match self {
                Ok(ended) => ended.status(),
                Err(error) => {
                    eprintln!("error: {error:?}");
                    1
                }
            }
        }
    }

    impl From<u8> for ExitCode {
        fn from(status: u8) -> ExitCode {
            ExitCode(status)
        }
    }

    /// The right to end the process immediately.
    pub trait Abort {
        /// Called by `panic_on!` and `assert_on!`.
        fn fail(&self, text: fmt::Arguments<'_>) -> ! {
            panic!("{text}")
        }
    }

    impl Abort for super::HostRuntime {}
}

pub mod test {
    //! `std::test`: the types that a test may return.

    /// A test failed.
    #[derive(Clone, Copy, Debug, PartialEq, Eq)]
    pub struct Fail;

    impl<T> From<super::super::alloc::AllocFailed<T>> for Fail {
        fn from(_: super::super::alloc::AllocFailed<T>) -> Fail {
            Fail
        }
    }

    impl From<super::super::alloc::AllocError> for Fail {
        fn from(_: super::super::alloc::AllocError) -> Fail {
            Fail
        }
    }
}

/// Ends a test or a program that failed: `panic_on!(rt; "{word}")`.
#[macro_export]
macro_rules! panic_on {
    ($rt:expr $(;)?) => { panic!() };
    ($rt:expr; $($all:tt)*) => { panic!($($all)*) };
}

/// Asserts a condition: `assert_on!(rt; condition)`, `assert_on!(rt; condition, "{word}")`.
#[macro_export]
macro_rules! assert_on {
    ($rt:expr; $($all:tt)*) => { assert!($($all)*) };
}

/// Asserts that two values are equal: `assert_eq_on!(rt; one, other)`.
#[macro_export]
macro_rules! assert_eq_on {
    ($rt:expr; $($all:tt)*) => { assert_eq!($($all)*) };
}

/// Defines a program's `main`: `program!(nicbench)` for the module with that name, whose `main` takes the process.
#[macro_export]
macro_rules! program {
    ($name:ident) => {
        #[cfg(unix)]
        #[no_mangle]
        unsafe extern "C" fn main(
            count: std::os::raw::c_int,
            words: *const *const std::os::raw::c_char,
        ) -> std::os::raw::c_int {
            fn run() -> u8 {
                $crate::kit::process::Ended::status($crate::$name::main($crate::kit::host::HostRuntime))
            }
            // SAFETY: these are `main`'s own parameters.
            unsafe { $crate::kit::run_with_words(count, words, run) }
        }

        #[cfg(not(unix))]
        fn main() -> std::process::ExitCode {
            std::process::ExitCode::from($crate::kit::process::Ended::status($crate::$name::main(
                $crate::kit::host::HostRuntime,
            )))
        }
    };
}
