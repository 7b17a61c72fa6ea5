//! `std::io`: readers and writers for memory and the host's streams. An error has a kind, but no text.

pub use super::host::writer;

use super::alloc::{AllocError, AllocFailed, Global};
use super::vec::Vec;
use core::fmt;

/// The kind of an error.
#[derive(Clone, Copy, Debug, PartialEq, Eq)]
pub enum ErrorKind {
    BrokenPipe,
    Interrupted,
    InvalidData,
    Other,
    OutOfMemory,
    UnexpectedEof,
    WriteZero,
}

/// The error of a failed read or write.
#[derive(Clone, Copy, Debug, PartialEq, Eq)]
pub struct Error(ErrorKind);

pub type Result<T> = core::result::Result<T, Error>;

impl Error {
    pub fn kind(&self) -> ErrorKind {
        self.0
    }
}

impl From<ErrorKind> for Error {
    fn from(kind: ErrorKind) -> Error {
        Error(kind)
    }
}

impl From<AllocError> for Error {
    fn from(_: AllocError) -> Error {
        Error(ErrorKind::OutOfMemory)
    }
}

impl<T> From<AllocFailed<T>> for Error {
    fn from(_: AllocFailed<T>) -> Error {
        Error(ErrorKind::OutOfMemory)
    }
}

/// A source of bytes.
pub trait Read {
    /// Reads some bytes; returns 0 at the end.
    fn read(&mut self, buffer: &mut [u8]) -> Result<usize>;
}

/// A destination for bytes.
pub trait Write {
    /// Writes some bytes, and returns how many.
    fn write(&mut self, bytes: &[u8]) -> Result<usize>;

    fn flush(&mut self) -> Result<()>;

    /// Writes all bytes.
    fn write_all(&mut self, bytes: &[u8]) -> Result<()> {
        let mut rest = bytes;
        while !rest.is_empty() {
            match self.write(rest) {
                Ok(0) => return Err(Error(ErrorKind::WriteZero)),
                Ok(count) => rest = &rest[count..],
                Err(Error(ErrorKind::Interrupted)) => {}
                Err(error) => return Err(error),
            }
        }
        Ok(())
    }

    /// Called by `write!`.
    fn write_fmt<D: fmt::Display>(&mut self, text: D) -> Result<()>
    where
        Self: Sized,
    {
        let mut to = Texts { inner: self, ended: Ok(()) };
        match fmt::write(&mut to, format_args!("{text}")) {
            Ok(()) => Ok(()),
            Err(_) => to.ended.and(Err(Error(ErrorKind::Other))),
        }
    }
}

/// A text writer that stores the error that stopped it.
struct Texts<'a, W> {
    inner: &'a mut W,
    ended: Result<()>,
}

impl<W: Write> fmt::Write for Texts<'_, W> {
    fn write_str(&mut self, text: &str) -> fmt::Result {
        self.ended = self.inner.write_all(text.as_bytes());
        self.ended.map_err(|_| fmt::Error)
    }
}

impl<R: Read> Read for &mut R {
    fn read(&mut self, buffer: &mut [u8]) -> Result<usize> {
        (**self).read(buffer)
    }
}

impl<W: Write> Write for &mut W {
    fn write(&mut self, bytes: &[u8]) -> Result<usize> {
        (**self).write(bytes)
    }

    fn write_all(&mut self, bytes: &[u8]) -> Result<()> {
        (**self).write_all(bytes)
    }

    fn flush(&mut self) -> Result<()> {
        (**self).flush()
    }
}

impl Read for &[u8] {
    fn read(&mut self, buffer: &mut [u8]) -> Result<usize> {
        let count = self.len().min(buffer.len());
        let (read, rest) = self.split_at(count);
        buffer[..count].copy_from_slice(read);
        *self = rest;
        Ok(count)
    }
}

impl Write for Vec<u8> {
    fn write(&mut self, bytes: &[u8]) -> Result<usize> {
        self.extend_from_slice(bytes)?;
        Ok(bytes.len())
    }

    fn flush(&mut self) -> Result<()> {
        Ok(())
    }
}

/// A buffered writer.
#[derive(Debug)]
pub struct BufWriter<W: Write> {
    inner: W,
    room: Vec<u8>,
}

impl<W: Write> BufWriter<W> {
    const ROOM: usize = 8192;

    pub fn new(alloc: Global, inner: W) -> Result<BufWriter<W>> {
        Ok(BufWriter { inner, room: Vec::with_capacity(alloc, Self::ROOM)? })
    }

    fn empty(&mut self) -> Result<()> {
        let written = self.inner.write_all(&self.room);
        self.room.clear();
        written
    }
}

impl<W: Write> Write for BufWriter<W> {
    fn write(&mut self, bytes: &[u8]) -> Result<usize> {
        if self.room.len() + bytes.len() > Self::ROOM {
            self.empty()?;
        }
        if bytes.len() >= Self::ROOM {
            return self.inner.write(bytes);
        }
        self.room.extend_from_slice(bytes)?;
        Ok(bytes.len())
    }

    fn flush(&mut self) -> Result<()> {
        self.empty()?;
        self.inner.flush()
    }
}
