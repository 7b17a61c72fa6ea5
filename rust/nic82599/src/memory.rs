//! Packet memory.

use std::ops::{Bound, Range, RangeBounds};

use crate::desc::Descriptor;
use crate::error::Error;
use crate::handle::Handle;
use crate::nic::Nic;

/// The size of a block in bytes.
pub(crate) const BLOCK_BYTES: u64 = 2048;

/// Packet memory by bus address, from [`Nic::memory`]. The device reads and writes the same memory.
///
/// Bus address a is byte a % 2048 of block a / 2048, so b blocks occupy the addresses below 2048 * b. Only lent blocks
/// can be read and written, by the device and by these methods.
///
/// Ranges may be of any type: `0x800..0x83C`, `..0x80`, `0x800..=0x83B`; a range with no upper bound ends at the end of
/// packet memory.
///
/// ```
/// use nic82599::{Error, Memory, Nic, Sizes};
///
/// let nic = Nic::open(Sizes { blocks: 2, ..Sizes::default() })?;
/// nic.lend(1)?;
/// let memory = nic.memory();
/// memory.write(0x800, b"frame")?;
/// assert_eq!(memory.read(0x800..0x805)?, b"frame");
/// assert_eq!(memory.read(Memory::block(1))?.len(), 2048);
/// assert_eq!(memory.read(..), Err(Error::NotLent(0))); // block 0 isn't lent
/// # Ok::<(), nic82599::Error>(())
/// ```
#[derive(Clone, Copy, Debug)]
pub struct Memory<'a> {
    pub(crate) nic: &'a Nic,
}

impl<'a> Memory<'a> {
    pub(crate) fn new(nic: &'a Nic) -> Memory<'a> {
        Memory { nic }
    }

    /// Returns the size of packet memory in bytes, lent or not: 2,048 for each block.
    pub fn size(&self) -> u64 {
        BLOCK_BYTES * u64::from(self.nic.sizes().blocks)
    }

    /// Returns the bus addresses of a block, whether or not a block with this number exists.
    pub const fn block(number: u32) -> Range<u64> {
        let first = BLOCK_BYTES * number as u64;
        first..first + BLOCK_BYTES
    }

    /// Returns the bytes of a range.
    ///
    /// # Errors
    ///
    /// [`Error::NotLent`] if one of the bytes isn't lent; [`Error::BadRange`] if the range ends before it starts.
    pub fn read(&self, range: impl RangeBounds<u64>) -> Result<Vec<u8>, Error> {
        let (first, length) = self.place(range)?;
        let mut bytes = vec![0; length];
        self.read_into(first, &mut bytes)?;
        Ok(bytes)
    }

    /// Fills `bytes` from packet memory, starting at a bus address.
    ///
    /// # Errors
    ///
    /// [`Error::NotLent`] if one of the bytes isn't lent; `bytes` is then unchanged.
    pub fn read_into(&self, bus: u64, bytes: &mut [u8]) -> Result<(), Error> {
        let (handle, length) = (self.nic.handle(), bytes.len() as u64);
        unless_lent(handle.dma_read(bus, bytes), || first_not_lent(handle, bus, length))
    }

    /// Writes bytes to packet memory, starting at a bus address.
    ///
    /// # Errors
    ///
    /// [`Error::NotLent`] if one of the bytes isn't lent; nothing is then written.
    pub fn write(&self, bus: u64, bytes: &[u8]) -> Result<(), Error> {
        let handle = self.nic.handle();
        unless_lent(handle.dma_write(bus, bytes), || first_not_lent(handle, bus, bytes.len() as u64))
    }

    /// Sets every byte of a range to one value.
    ///
    /// # Errors
    ///
    /// The errors of [`Memory::read`]; nothing is then written.
    pub fn fill(&self, range: impl RangeBounds<u64>, byte: u8) -> Result<(), Error> {
        let (first, length) = self.place(range)?;
        self.write(first, &vec![byte; length])
    }

    /// Reads a 32-bit little-endian number, as the device stores it.
    ///
    /// # Errors
    ///
    /// [`Error::NotLent`] if one of its bytes isn't lent.
    pub fn get32(&self, bus: u64) -> Result<u32, Error> {
        let mut bytes = [0; 4];
        self.read_into(bus, &mut bytes)?;
        Ok(u32::from_le_bytes(bytes))
    }

    /// Reads a 64-bit little-endian number, as the device stores it.
    ///
    /// # Errors
    ///
    /// [`Error::NotLent`] if one of its bytes isn't lent.
    pub fn get64(&self, bus: u64) -> Result<u64, Error> {
        let mut bytes = [0; 8];
        self.read_into(bus, &mut bytes)?;
        Ok(u64::from_le_bytes(bytes))
    }

    /// Writes a 64-bit number in little-endian order.
    ///
    /// # Errors
    ///
    /// [`Error::NotLent`] if one of its bytes isn't lent.
    pub fn put64(&self, bus: u64, value: u64) -> Result<(), Error> {
        self.write(bus, &value.to_le_bytes())
    }

    /// Reads the descriptor of a slot. `ring` is the bus address of the ring's first descriptor.
    ///
    /// # Errors
    ///
    /// [`Error::NotLent`] if one of its bytes isn't lent.
    pub fn descriptor(&self, ring: u64, slot: u16) -> Result<Descriptor, Error> {
        let mut bytes = [0; 16];
        self.read_into(slot_of(ring, slot), &mut bytes)?;
        Ok(Descriptor::from_bytes(bytes))
    }

    /// Writes the descriptor of a slot. `ring` is the bus address of the ring's first descriptor.
    ///
    /// # Errors
    ///
    /// [`Error::NotLent`] if one of its bytes isn't lent.
    pub fn put_descriptor(&self, ring: u64, slot: u16, descriptor: Descriptor) -> Result<(), Error> {
        self.write(slot_of(ring, slot), &descriptor.to_bytes())
    }

    /// Returns a range's start and its length in bytes. A range that extends past packet memory is refused before a
    /// buffer is allocated for it.
    fn place(&self, range: impl RangeBounds<u64>) -> Result<(u64, usize), Error> {
        let first = match range.start_bound() {
            Bound::Included(&first) => Some(first),
            Bound::Excluded(&before) => before.checked_add(1),
            Bound::Unbounded => Some(0),
        };
        let end = match range.end_bound() {
            Bound::Included(&last) => last.checked_add(1),
            Bound::Excluded(&end) => Some(end),
            Bound::Unbounded if first <= Some(self.size()) => Some(self.size()),
            Bound::Unbounded => None,
        };
        let first = first.ok_or(Error::NotLent(u64::MAX))?;
        let end = end.ok_or_else(|| Error::NotLent(first_not_lent(self.nic.handle(), first, u64::MAX - first)))?;
        match end.checked_sub(first) {
            None => Err(Error::BadRange),
            Some(length) if length > 0 && end > self.size() => {
                Err(Error::NotLent(first_not_lent(self.nic.handle(), first, length)))
            }
            Some(length) => Ok((first, length as usize)),
        }
    }
}

/// Returns `NotLent`, with the address that the closure computes, unless the access succeeded.
pub(crate) fn unless_lent(is_done: bool, bus: impl FnOnce() -> u64) -> Result<(), Error> {
    if is_done {
        Ok(())
    } else {
        Err(Error::NotLent(bus()))
    }
}

/// Returns the first address in a refused access at which no memory is lent. It probes one byte of each block.
pub(crate) fn first_not_lent(handle: &Handle, bus: u64, length: u64) -> u64 {
    let (mut at, end) = (bus, bus.saturating_add(length));
    while at < end {
        if !handle.dma_read(at, &mut [0]) {
            return at;
        }
        at = (at / BLOCK_BYTES + 1) * BLOCK_BYTES; // (a lent block ends at or below 2^27)
    }
    bus
}

/// The bus address of a slot. After the last 64-bit address it wraps to 0, which can't happen in a lent ring.
pub(crate) fn slot_of(ring: u64, slot: u16) -> u64 {
    ring.wrapping_add(Descriptor::BYTES * u64::from(slot))
}
