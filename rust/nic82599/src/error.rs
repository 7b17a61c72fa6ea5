//! The errors of refused calls.

use std::fmt;

use crate::memory::BLOCK_BYTES;

/// Why a call was refused. A refused call changes nothing, unless its documentation says otherwise.
///
/// `{:?}` prints the same text as `{}`, because `unwrap` and a `main` that returns an error use it:
///
/// ```
/// use nic82599::{Error, Nic, Sizes};
///
/// let refused = Nic::open(Sizes::default())?.memory().read(0x800..0x83C).unwrap_err();
/// assert_eq!(refused, Error::NotLent(0x800));
/// assert_eq!(
///     format!("{refused:?}"),
///     "bus address 0x00800: block 1 isn't lent"
/// );
/// # Ok::<(), Error>(())
/// ```
#[derive(Clone, Copy, PartialEq, Eq, Hash)]
#[non_exhaustive]
pub enum Error {
    /// Some of the memory isn't lent; the value is the first bus address that isn't lent.
    NotLent(u64),
    /// The block is already lent or doesn't exist.
    NoBlock,
    /// Memory in place must start and end at multiples of 2,048 bytes, and none of it may be lent to the controller
    /// already.
    BadMemory,
    /// The queue's number is above the limit: there are 128 queues.
    NoQueue,
    /// The virtual function doesn't exist, or the mode (GCR_EXT) provides no pool for it.
    NoGroup,
    /// There is no register at the address.
    Stray {
        /// The address, or the offset in a virtual function.
        at: u32,
        /// The value that a driver sees; `None` for a write or a peek.
        word: Option<u32>,
        /// Why there is no register.
        why: Absent,
    },
    /// A range of memory ends before it begins.
    BadRange,
    /// A controller has at most 63 virtual functions.
    TooManyVfs,
    /// A controller has room for 1 to 4,096 waiting frames.
    BadFifo,
    /// Packet memory has 1 to 65,536 blocks.
    BadBlocks,
    /// A hash input is at most 36 bytes long.
    TooLong,
    /// The bytes aren't a valid EEPROM image; the previous image stays installed.
    Image(ImageFault),
    /// The source doesn't describe a valid EEPROM image; the previous image stays installed.
    Text(TextFault),
    /// The recording can't be written to this file.
    NoRecording,
    /// Memory ran out.
    OutOfMemory,
}

/// Why there is no register at an address, or at an offset of a virtual function.
#[derive(Clone, Copy, Debug, PartialEq, Eq, Hash)]
#[non_exhaustive]
pub enum Absent {
    /// The controller, or the virtual function, has no register there.
    Register,
    /// The controller has no virtual function with this number.
    Function {
        /// The function's number.
        number: u8,
        /// The number of virtual functions.
        vfs: u8,
    },
    /// The mode (GCR_EXT bits 1:0) provides no pool for the virtual function.
    Pool {
        /// The function's number.
        number: u8,
        /// The number of pools in this mode.
        pools: u8,
    },
    /// The virtual function's pool lacks this register's queue.
    Queue {
        /// The function's number.
        number: u8,
        /// The number of queues in the pool.
        queues: u8,
    },
}

/// Why bytes aren't a valid EEPROM image. If several of these apply, the first is reported.
#[derive(Clone, Copy, Debug, PartialEq, Eq, Hash)]
pub enum ImageFault {
    /// The number of bytes is odd.
    OddLength,
    /// The image doesn't have 64, 128, .. 16,384 words.
    BadSize,
    /// A pointer's section isn't entirely inside the image.
    SectionOutside,
    /// The checksum is wrong.
    BadChecksum,
    /// The length of the CSR section isn't a multiple of three words.
    NotTriples,
}

/// Why a source doesn't describe a valid EEPROM image.
#[derive(Clone, Copy, Debug, PartialEq, Eq, Hash)]
pub enum TextFault {
    /// This line, counted from 1, isn't valid syntax.
    Syntax(u64),
    /// Two lines set the word with this index.
    TwoValues(u64),
    /// A line sets the word with this index, which a source can't set.
    Reserved(u64),
    /// An index or the CSR section is beyond the image's size.
    DoesNotFit,
    /// A pointer is below 0x40, or its section isn't inside the image.
    PointerOutside,
}

impl fmt::Debug for Error {
    fn fmt(&self, f: &mut fmt::Formatter<'_>) -> fmt::Result {
        fmt::Display::fmt(self, f)
    }
}

impl fmt::Display for Error {
    fn fmt(&self, f: &mut fmt::Formatter<'_>) -> fmt::Result {
        let text = match self {
            Error::NotLent(bus) => {
                return write!(f, "bus address 0x{bus:05x}: block {} isn't lent", bus / BLOCK_BYTES);
            }
            Error::NoBlock => "the block is already lent or doesn't exist",
            Error::BadMemory => "memory in place must begin and end at multiples of 2,048 bytes and not be lent yet",
            Error::NoQueue => "the queue's number is above the limit: there are 128 queues",
            Error::NoGroup => "no such virtual function, or the mode has no pool for it",
            Error::Stray { at, word, why } => return write_stray(f, *at, *word, *why),
            Error::BadRange => "a range of memory ends before it begins",
            Error::TooManyVfs => "a controller has at most 63 virtual functions",
            Error::BadFifo => "the number of frames that may wait must be 1 to 4,096",
            Error::BadBlocks => "packet memory has 1 to 65,536 blocks",
            Error::TooLong => "a hash input is at most 36 bytes long",
            Error::Image(fault) => return write!(f, "invalid EEPROM image: {fault}"),
            Error::Text(fault) => return write!(f, "invalid source of an EEPROM image: {fault}"),
            Error::NoRecording => "can't write the recording",
            Error::OutOfMemory => "out of memory",
        };
        f.write_str(text)
    }
}

/// Writes that there is no register, the value that a read returns, and for a virtual function the reason.
fn write_stray(f: &mut fmt::Formatter<'_>, at: u32, word: Option<u32>, why: Absent) -> fmt::Result {
    write!(f, "no register is at 0x{at:05x}")?;
    if let Some(word) = word {
        write!(f, ", which reads as 0x{word:08x}")?;
    }
    match why {
        Absent::Register => Ok(()),
        why => write!(f, ": {why}"),
    }
}

impl fmt::Display for Absent {
    fn fmt(&self, f: &mut fmt::Formatter<'_>) -> fmt::Result {
        match *self {
            Absent::Register => f.write_str("no such register"),
            Absent::Function { number, vfs: 0 } => {
                write!(f, "no virtual function {number}: the controller has none")
            }
            Absent::Function { number, vfs } => {
                write!(f, "no virtual function {number}: the controller has {vfs}, numbered from 0")
            }
            Absent::Pool { number, pools: 0 } => {
                write!(f, "virtual function {number} has no pool: GCR_EXT bits 1:0 select no pools")
            }
            Absent::Pool { number, pools } => {
                write!(f, "virtual function {number} has no pool: GCR_EXT bits 1:0 select {pools} pools")
            }
            Absent::Queue { number, queues } => {
                write!(f, "the pool of virtual function {number} has {queues} queues")
            }
        }
    }
}

impl std::error::Error for Error {}

/// Converts an error to its message, for functions that report errors as text.
impl From<Error> for String {
    fn from(error: Error) -> String {
        error.to_string()
    }
}

impl fmt::Display for ImageFault {
    fn fmt(&self, f: &mut fmt::Formatter<'_>) -> fmt::Result {
        f.write_str(match self {
            ImageFault::OddLength => "an odd number of bytes",
            ImageFault::BadSize => "not 64, 128, .. 16,384 words",
            ImageFault::SectionOutside => "a pointer's section is outside the image",
            ImageFault::BadChecksum => "the checksum is wrong",
            ImageFault::NotTriples => "the CSR section isn't a multiple of three words",
        })
    }
}

impl fmt::Display for TextFault {
    fn fmt(&self, f: &mut fmt::Formatter<'_>) -> fmt::Result {
        match self {
            TextFault::Syntax(line) => write!(f, "line {line} has a syntax error"),
            TextFault::TwoValues(index) => write!(f, "two lines set word {index}"),
            TextFault::Reserved(index) => write!(f, "the source can't set word {index}"),
            TextFault::DoesNotFit => f.write_str("an index or the CSR section exceeds the image's size"),
            TextFault::PointerOutside => f.write_str("a pointer is below 0x40, or its section is outside the image"),
        }
    }
}
