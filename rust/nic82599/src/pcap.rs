//! Captures of Ethernet frames. Reads pcap files (microseconds or nanoseconds, either byte order) and writes them with
//! microseconds. To read pcapng, which Wireshark writes, convert it first with `editcap -F pcap`. `tools/pcap2nic` and
//! the Python module read pcapng directly.
//!
//! ```
//! use nic82599::pcap::{Reader, Writer};
//!
//! let mut file = Vec::new();
//! let mut capture = Writer::new(&mut file)?;
//! capture.put(1_000_000, &[7; 60])?;
//! for frame in Reader::new(&file[..])? {
//!     assert_eq!(frame?, [7; 60]);
//! }
//! # Ok::<(), std::io::Error>(())
//! ```

use std::io::{self, ErrorKind, Read, Write};

/// The longest frame that is read or written, in bytes. Other programs have the same limit.
const LONGEST: u32 = 262_144;
const HEAD: [u8; 24] = [0xD4, 0xC3, 0xB2, 0xA1, 2, 0, 4, 0, 0, 0, 0, 0, 0, 0, 0, 0, 0xFF, 0xFF, 0, 0, 1, 0, 0, 0];

const PCAPNG: [u8; 4] = [0x0A, 0x0D, 0x0D, 0x0A];
const CUT: &str = "the capture ends within a frame";

fn broken(why: &str) -> io::Error {
    io::Error::new(ErrorKind::InvalidData, why)
}

/// Replaces the message of `read_exact` at the end of a file with a better one.
fn whole(read: io::Result<()>, why: &str) -> io::Result<()> {
    read.map_err(|it| if it.kind() == ErrorKind::UnexpectedEof { io::Error::new(it.kind(), why) } else { it })
}

/// Reads a capture frame by frame. It yields nothing after an error.
#[derive(Debug)]
pub struct Reader<R> {
    file: R,
    is_big: bool,
    is_over: bool,
}

impl<R: Read> Reader<R> {
    /// Reads the file header of a capture.
    ///
    /// # Errors
    ///
    /// Any error from reading the file. [`ErrorKind::UnexpectedEof`] if it ends within the header, and
    /// [`ErrorKind::InvalidData`] if it isn't a pcap file of Ethernet frames.
    pub fn new(mut file: R) -> io::Result<Reader<R>> {
        let mut head = [0; 24];
        whole(file.read_exact(&mut head), "not a pcap capture: it ends within its header")?;
        let is_big = match [head[0], head[1], head[2], head[3]] {
            [0xA1, 0xB2, 0xC3, 0xD4] | [0xA1, 0xB2, 0x3C, 0x4D] => true,
            [0xD4, 0xC3, 0xB2, 0xA1] | [0x4D, 0x3C, 0xB2, 0xA1] => false,
            PCAPNG => return Err(broken("a pcapng capture: convert it with `editcap -F pcap`")),
            _ => return Err(broken("not a pcap capture")),
        };
        if word(is_big, &head[20..]) & 0xFFFF != 1 {
            return Err(broken("the capture's link type isn't Ethernet"));
        }
        Ok(Reader { file, is_big, is_over: false })
    }

    fn frame(&mut self) -> io::Result<Option<Vec<u8>>> {
        let mut head = [0; 16];
        if self.file.read(&mut head[..1])? == 0 {
            return Ok(None);
        }
        whole(self.file.read_exact(&mut head[1..]), CUT)?;
        let (kept, length) = (word(self.is_big, &head[8..12]), word(self.is_big, &head[12..]));
        if kept != length || length > LONGEST {
            return Err(broken("a frame was captured only in part or is too long"));
        }
        let mut frame = vec![0; length as usize];
        whole(self.file.read_exact(&mut frame), CUT)?;
        Ok(Some(frame))
    }
}

fn word(is_big: bool, bytes: &[u8]) -> u32 {
    let bytes = [bytes[0], bytes[1], bytes[2], bytes[3]];
    if is_big {
        u32::from_be_bytes(bytes)
    } else {
        u32::from_le_bytes(bytes)
    }
}

impl<R: Read> Iterator for Reader<R> {
    type Item = io::Result<Vec<u8>>;

    fn next(&mut self) -> Option<io::Result<Vec<u8>>> {
        if self.is_over {
            return None;
        }
        let frame = self.frame().transpose();
        self.is_over = !matches!(frame, Some(Ok(_)));
        frame
    }
}

/// Writes a capture frame by frame.
#[derive(Debug)]
pub struct Writer<W> {
    file: W,
}

impl<W: Write> Writer<W> {
    /// Writes the file header of a capture.
    ///
    /// # Errors
    ///
    /// Any error from writing the file.
    pub fn new(mut file: W) -> io::Result<Writer<W>> {
        file.write_all(&HEAD)?;
        Ok(Writer { file })
    }

    /// Writes a frame. `time` is in microseconds.
    ///
    /// # Errors
    ///
    /// Any error from writing the file, and [`ErrorKind::InvalidInput`] for a frame longer than 262,144 bytes.
    pub fn put(&mut self, time: u64, frame: &[u8]) -> io::Result<()> {
        let length = match u32::try_from(frame.len()) {
            Ok(length) if length <= LONGEST => length,
            _ => return Err(io::Error::new(ErrorKind::InvalidInput, "a frame is longer than 262,144 bytes")),
        };
        for word in [(time / 1_000_000) as u32, (time % 1_000_000) as u32, length, length] {
            self.file.write_all(&word.to_le_bytes())?;
        }
        self.file.write_all(frame)
    }

    /// Returns the underlying file.
    pub fn into_inner(self) -> W {
        self.file
    }
}
