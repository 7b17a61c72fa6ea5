//! The controller. Each call returns its result in the crate's types.
//!
//! A call takes the controller out of its cell, and puts it back before returning. A call can panic only because of a
//! fault in the model. Such a panic leaves the cell empty, because the controller may be half changed. Later calls then
//! panic too.

use std::cell::Cell;
use std::fmt;
use std::marker::PhantomData;

use crate::answers::event_of;
use crate::card::{self, Card};
use crate::error::Error;
use crate::event::{Event, Side, Step};
use crate::kit::alloc::Global;
use crate::kit::boxed::Box as Boxed;
use crate::kit::vec::Vec as Bytes;
use crate::nic::{Arrival, Sizes};
use crate::nic_device::{self, Config, Key, Octets, Port, Reply, BLOCK_NUMBERS};
use crate::rounds::{self, Made};
use crate::vf_map::{self, Mapped, MAX_VFS};

pub(crate) use crate::rounds::Place;

/// The longest hash input, in bytes.
const INPUT_BYTES: usize = 36;

/// Returns the RSS hash, or `None` if the input is too long.
pub(crate) fn hash(key: &[u8; 40], input: &[u8]) -> Option<u32> {
    if input.len() > INPUT_BYTES {
        return None;
    }
    Some(nic_device::hash(&Key(*key), input))
}

/// Returns the address of a virtual function's register, or `None` if the function has no register at the offset.
pub(crate) fn vf_address(gcr_ext: u32, number: u8, offset: u32) -> Result<Option<u32>, Error> {
    match vf_map::map(vf_map::mode_of(gcr_ext), MAX_VFS, number, offset) {
        Mapped::Pf(address) => Ok(Some(address)),
        Mapped::Hole => Ok(None),
        Mapped::Absent => Err(Error::NoGroup),
    }
}

/// A controller.
pub(crate) struct Handle {
    card: Cell<Option<Boxed<Card>>>,
}

/// The state of a controller.
pub(crate) struct Kept {
    card: card::Kept,
    // Not `Sync`, to match the crate that links the C library: code that compiles with this crate compiles with that
    // one.
    _one: PhantomData<Cell<()>>,
}

impl fmt::Debug for Kept {
    fn fmt(&self, f: &mut fmt::Formatter<'_>) -> fmt::Result {
        f.debug_struct("Kept").finish_non_exhaustive()
    }
}

impl Handle {
    pub(crate) fn open(sizes: Sizes) -> Result<Handle, Error> {
        let Sizes { vfs, fifo, blocks } = sizes;
        if blocks == 0 || blocks > BLOCK_NUMBERS {
            return Err(Error::BadBlocks);
        }
        let card = Card::new(Global, Config { vfs, fifo }, blocks)?;
        let card = Boxed::new(Global, card).map_err(|_| Error::OutOfMemory)?;
        Ok(Handle { card: Cell::new(Some(card)) })
    }

    /// Runs a call on the controller.
    #[inline]
    pub(crate) fn with<T>(&self, call: impl FnOnce(&mut Card) -> T) -> T {
        let mut card = self.card.take().expect("a call on this controller panicked, so its state may be inconsistent");
        let answer = call(&mut card);
        self.card.set(Some(card));
        answer
    }

    pub(crate) fn snapshot(&self) -> Result<Kept, Error> {
        let card = self.with(|card| card.keep()).map_err(|_| Error::OutOfMemory)?;
        Ok(Kept { card, _one: PhantomData })
    }

    pub(crate) fn restore(&self, kept: &Kept) -> Result<(), Error> {
        self.with(|card| kept.card.restore(Global, card)).map_err(|_| Error::OutOfMemory)
    }

    // --- registers ---

    #[inline]
    fn read_at(&self, port: Port, number: u32) -> Result<u32, u32> {
        match self.with(|card| card.read(port, number)) {
            (word, false) => Ok(word),
            (stray, true) => Err(stray),
        }
    }

    #[inline]
    pub(crate) fn read32(&self, address: u32) -> Result<u32, u32> {
        self.read_at(Port::Pf, address)
    }

    pub(crate) fn peek32(&self, address: u32) -> Option<u32> {
        self.with(|card| card.peek(Port::Pf, address))
    }

    /// Writes a register. Returns false if there is no register at the address.
    #[inline]
    pub(crate) fn write32(&self, address: u32, word: u32) -> bool {
        !self.with(|card| card.write(Port::Pf, address, word))
    }

    pub(crate) fn vf_read32(&self, number: u8, offset: u32) -> Result<u32, u32> {
        self.read_at(Port::Vf(number), offset)
    }

    pub(crate) fn vf_peek32(&self, number: u8, offset: u32) -> Option<u32> {
        self.with(|card| card.peek(Port::Vf(number), offset))
    }

    pub(crate) fn vf_write32(&self, number: u8, offset: u32, word: u32) -> bool {
        !self.with(|card| card.write(Port::Vf(number), offset, word))
    }

    // --- packet memory ---

    pub(crate) fn lend(&self, block: u32) -> Result<(), Error> {
        match self.with(|card| card.lend(block)) {
            Ok(true) => Ok(()),
            Ok(false) => Err(Error::NoBlock),
            Err(_) => Err(Error::OutOfMemory),
        }
    }

    pub(crate) fn lend_all(&self) -> Result<(), Error> {
        self.with(|card| card.lend_all()).map_err(|_| Error::OutOfMemory)
    }

    /// Takes a block back. Returns false if it isn't lent.
    pub(crate) fn take(&self, block: u32) -> bool {
        self.with(|card| card.take(block))
    }

    /// Fills `bytes` from packet memory, starting at a bus address. Returns false if one of the bytes isn't lent.
    pub(crate) fn dma_read(&self, bus: u64, bytes: &mut [u8]) -> bool {
        self.with(|card| card.dma_read(bus, bytes))
    }

    pub(crate) fn dma_write(&self, bus: u64, bytes: &[u8]) -> bool {
        self.with(|card| card.dma_write(bus, bytes))
    }

    // --- the link ---

    pub(crate) fn arrive(&self, frame: &[u8]) -> Result<Arrival, Error> {
        let mut bytes = Bytes::new(Global);
        bytes.extend_from_slice(frame).map_err(|_| Error::OutOfMemory)?;
        let arrives = nic_device::Event::Arrive(Octets::of(bytes));
        let reply = self.with(|card| card.make(arrives)).map_err(|_| Error::OutOfMemory)?;
        match event_of(Side::Rx, &reply) {
            Some(Event::Dropped(why)) => Ok(Arrival::Dropped(why)),
            _ => Ok(Arrival::Waits),
        }
    }

    pub(crate) fn next_out(&self) -> usize {
        self.with(|card| card.next_out())
    }

    /// Takes the oldest transmitted frame and returns its queue.
    pub(crate) fn collect(&self, data: &mut Vec<u8>) -> Option<u16> {
        data.clear();
        data.reserve(self.next_out()); // (allocates first: running out of memory must not lose the frame)
        match self.with(|card| card.make(nic_device::Event::Collect)) {
            Ok(Reply::Frame { queue, bytes }) => {
                data.extend_from_slice(bytes.bytes());
                Some(queue)
            }
            _ => None,
        }
    }

    pub(crate) fn link(&self, up: bool) -> bool {
        matches!(self.with(|card| card.make(nic_device::Event::Link(up))), Ok(Reply::Done))
    }

    // --- steps ---

    fn step(&self, step: Step) -> Result<Option<Event>, Error> {
        match self.with(|card| rounds::make(card, step))? {
            Made::Event(event) => Ok(Some(event)),
            Made::Idle => Ok(None),
            Made::NoQueue => Err(Error::NoQueue),
            Made::NoGroup => Err(Error::NoGroup),
        }
    }

    pub(crate) fn rx_step(&self) -> Option<Event> {
        self.step(Step::Rx).expect("a receive step allocates no memory")
    }

    pub(crate) fn tx_step(&self, queue: u16) -> Result<Option<Event>, Error> {
        self.step(Step::Tx(queue))
    }

    pub(crate) fn queue_step(&self, side: Side, queue: u16) -> Result<bool, Error> {
        Ok(self.step(Step::Queue(side, queue))?.is_some())
    }

    pub(crate) fn eeprom_step(&self) -> bool {
        matches!(self.step(Step::Eeprom), Ok(Some(_)))
    }

    /// Sends the next message of an interrupt group. Group 0 is the physical function, group v + 1 is virtual function
    /// v.
    pub(crate) fn int_step(&self, group: u8) -> Result<Option<Event>, Error> {
        self.step(Step::Int(group.checked_sub(1)))
    }

    /// Runs steps until none has anything to do. A new round begins after every 256 events.
    pub(crate) fn settle(&self, queues: u16) -> Result<Vec<Event>, Error> {
        self.with(|card| rounds::settle(card, queues))
    }

    /// Runs the next step that has something to do, starting at `place`. Returns `None` if a whole round has nothing to
    /// do.
    pub(crate) fn next_step(&self, place: &mut Place) -> Result<Option<Event>, Error> {
        self.with(|card| place.next(card))
    }

    // --- the EEPROM ---

    pub(crate) fn install_image(&self, image: &[u8]) -> Result<(), Error> {
        let image = nic_device::load(Global, image)?;
        self.with(|card| card.install(image));
        Ok(())
    }

    pub(crate) fn install_text(&self, text: &str) -> Result<(), Error> {
        let image = nic_device::assemble(Global, text)?;
        self.with(|card| card.install(image));
        Ok(())
    }
}

#[cfg(test)]
mod tests {
    use std::panic::{catch_unwind, AssertUnwindSafe};

    use super::*;

    #[test]
    fn after_a_panic_no_call_is_made() {
        let handle = Handle::open(Sizes::default()).unwrap();
        assert_eq!(handle.with(|card| card.next_out()), 0);
        assert!(catch_unwind(AssertUnwindSafe(|| handle.with(|_| panic!("a fault")))).is_err());
        assert!(catch_unwind(AssertUnwindSafe(|| handle.next_out())).is_err());
    }
}
