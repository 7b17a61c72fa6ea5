//! Memory that moves to the controller and back by value.

use std::fmt;

use crate::error::Error;
use crate::kit::boxed::Box as Boxed;
use crate::memory::Memory;
use crate::nic::Nic;

/// The memory of a block.
pub type Block = Box<[u8; 2048]>;

/// A refused call's error, together with the value passed to the call.
#[derive(Clone, Copy, PartialEq, Eq, Hash)]
pub struct Refused<T> {
    /// Why the call was refused.
    pub error: Error,
    /// The value passed to the call, unchanged.
    pub value: T,
}

impl<T> fmt::Debug for Refused<T> {
    fn fmt(&self, f: &mut fmt::Formatter<'_>) -> fmt::Result {
        fmt::Display::fmt(&self.error, f)
    }
}

impl<T> fmt::Display for Refused<T> {
    fn fmt(&self, f: &mut fmt::Formatter<'_>) -> fmt::Result {
        fmt::Display::fmt(&self.error, f)
    }
}

impl<T> std::error::Error for Refused<T> {}

impl<T> From<Refused<T>> for Error {
    fn from(refused: Refused<T>) -> Error {
        refused.error
    }
}

/// Memory by value: a block's bytes move to the controller and back without a copy. The controller owns them in the
/// meantime, so no `unsafe` is needed; [`Nic::memory`] still reaches them by bus address.
///
/// ```
/// use nic82599::{Memory, Nic, Sizes};
///
/// let nic = Nic::open(Sizes::default())?;
/// let mut packet = Box::new([0; 2048]);
/// packet[..5].copy_from_slice(b"frame");
/// nic.lend_block(1, packet)?; // bus addresses 0x800..0x1000
/// nic.memory().write(0x800, b"F")?; // as the device does
/// let packet = nic.take_block(1)?;
/// assert_eq!(&packet[..5], b"Frame");
/// # Ok::<(), nic82599::Error>(())
/// ```
impl Nic {
    /// Lends a block to the device, with this memory as its contents.
    ///
    /// # Errors
    ///
    /// [`Error::NoBlock`] or [`Error::OutOfMemory`], together with the memory.
    pub fn lend_block(&self, block: u32, memory: Block) -> Result<(), Refused<Block>> {
        if let Err(error) = self.lend(block) {
            return Err(Refused { error, value: memory });
        }
        self.exchange(block, memory).map(|_zeros| ())
    }

    /// Takes a block back from the device and returns its memory.
    ///
    /// # Errors
    ///
    /// [`Error::NotLent`] with the block's first bus address, or [`Error::OutOfMemory`].
    pub fn take_block(&self, block: u32) -> Result<Block, Error> {
        let zeros = Boxed::new(crate::kit::alloc::Global, [0; 2048]).map_err(|_| Error::OutOfMemory)?;
        let memory = self.exchange(block, zeros.into_std())?;
        self.take(block)?;
        Ok(memory)
    }

    /// Replaces the memory of a lent block and returns the previous memory.
    ///
    /// # Errors
    ///
    /// [`Error::NotLent`] with the block's first bus address, together with the memory.
    pub fn exchange(&self, block: u32, memory: Block) -> Result<Block, Refused<Block>> {
        match self.handle().with(|card| card.exchange(block, Boxed::of_std(memory))) {
            Ok(former) => Ok(former.into_std()),
            Err(memory) => {
                let error = Error::NotLent(Memory::block(block).start);
                Err(Refused { error, value: memory.into_std() })
            }
        }
    }
}
