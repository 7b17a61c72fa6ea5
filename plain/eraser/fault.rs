//! The reason why no edition is written.

use std::fmt;
use std::path::Path;

/// An unknown form, or a file that can't be read or written, with its location.
#[derive(Debug, PartialEq, Eq)]
pub struct Fault {
    place: String,
    what: String,
}

impl Fault {
    /// Creates a fault at a line of a source.
    pub fn at(path: &str, line: usize, what: impl Into<String>) -> Fault {
        Fault { place: format!("{path}:{line}"), what: what.into() }
    }

    /// Creates a fault in a whole file or folder.
    pub fn of(path: &Path, what: impl fmt::Display) -> Fault {
        Fault { place: path.display().to_string(), what: what.to_string() }
    }
}

impl fmt::Display for Fault {
    fn fmt(&self, f: &mut fmt::Formatter<'_>) -> fmt::Result {
        write!(f, "{}: {}", self.place, self.what)
    }
}
