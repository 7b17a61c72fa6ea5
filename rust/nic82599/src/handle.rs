//! A controller of the C library. Each call returns its result in the crate's types.

use crate::error::Error;
use crate::event::{Event, Side, Why};
use crate::ffi::{self, Outcome, Settling};
use crate::nic::{Arrival, Sizes};
use crate::status;

pub(crate) use crate::ffi::Kept;

/// The maximum number of events that one library call returns.
const ROOM: usize = 256;

/// A controller of the library.
pub(crate) struct Handle {
    calls: ffi::Handle,
}

/// A position in the rounds of `settle`.
#[derive(Debug)]
pub(crate) struct Place(Settling);

impl Place {
    /// The start of a round over the queues below `queues`.
    pub(crate) fn new(queues: u16) -> Place {
        Place(Settling { queues, at: 0 })
    }
}

/// Returns the RSS hash, or `None` if the input is too long.
pub(crate) fn hash(key: &[u8; 40], input: &[u8]) -> Option<u32> {
    match ffi::hash(key, input) {
        (status::DONE, word) => Some(word),
        _ => None,
    }
}

/// Returns the address of a virtual function's register, or `None` if the function has no register at the offset.
pub(crate) fn vf_address(gcr_ext: u32, number: u8, offset: u32) -> Result<Option<u32>, Error> {
    match ffi::vf_address(gcr_ext, number, offset) {
        (status::DONE, address) => Ok(Some(address)),
        (status::STRAY, _) => Ok(None),
        (refused, _) => Err(Error::of(refused)),
    }
}

/// Returns the value that was read. If there is no register, returns the value that a driver sees as the error.
fn word_or_stray((status, word): (u8, u32)) -> Result<u32, u32> {
    if status == status::DONE {
        Ok(word)
    } else {
        Err(word)
    }
}

impl Handle {
    pub(crate) fn open(sizes: Sizes) -> Result<Handle, Error> {
        match ffi::Handle::open(sizes.vfs, sizes.fifo, sizes.blocks) {
            Ok(calls) => Ok(Handle { calls }),
            Err(status) => Err(Error::of(status)),
        }
    }

    #[cfg(feature = "explore")]
    pub(crate) fn of(calls: ffi::Handle) -> Handle {
        Handle { calls }
    }

    /// The library's calls.
    pub(crate) fn calls(&self) -> &ffi::Handle {
        &self.calls
    }

    pub(crate) fn snapshot(&self) -> Result<Kept, Error> {
        self.calls.snapshot().map_err(Error::of)
    }

    pub(crate) fn restore(&self, kept: &Kept) -> Result<(), Error> {
        Error::unless_done(self.calls.restore(kept))
    }

    // --- registers ---

    pub(crate) fn read32(&self, address: u32) -> Result<u32, u32> {
        word_or_stray(self.calls.read32(address))
    }

    pub(crate) fn peek32(&self, address: u32) -> Option<u32> {
        word_or_stray(self.calls.peek32(address)).ok()
    }

    /// Writes a register. Returns false if there is no register at the address.
    pub(crate) fn write32(&self, address: u32, word: u32) -> bool {
        self.calls.write32(address, word) == status::DONE
    }

    pub(crate) fn vf_read32(&self, number: u8, offset: u32) -> Result<u32, u32> {
        word_or_stray(self.calls.vf_read32(number, offset))
    }

    pub(crate) fn vf_peek32(&self, number: u8, offset: u32) -> Option<u32> {
        word_or_stray(self.calls.vf_peek32(number, offset)).ok()
    }

    pub(crate) fn vf_write32(&self, number: u8, offset: u32, word: u32) -> bool {
        self.calls.vf_write32(number, offset, word) == status::DONE
    }

    // --- packet memory ---

    pub(crate) fn lend(&self, block: u32) -> Result<(), Error> {
        Error::unless_done(self.calls.lend(block))
    }

    pub(crate) fn lend_all(&self) -> Result<(), Error> {
        Error::unless_done(self.calls.lend_all())
    }

    /// Takes a block back. Returns false if it isn't lent.
    pub(crate) fn take(&self, block: u32) -> bool {
        self.calls.take(block) == status::DONE
    }

    /// Fills `bytes` from packet memory, starting at a bus address. Returns false if one of the bytes isn't lent.
    pub(crate) fn dma_read(&self, bus: u64, bytes: &mut [u8]) -> bool {
        self.calls.dma_read(bus, bytes) == status::DONE
    }

    pub(crate) fn dma_write(&self, bus: u64, bytes: &[u8]) -> bool {
        self.calls.dma_write(bus, bytes) == status::DONE
    }

    // --- the link ---

    pub(crate) fn arrive(&self, frame: &[u8]) -> Result<Arrival, Error> {
        match self.calls.arrive(frame) {
            (status::DONE, _) => Ok(Arrival::Waits),
            (status::DROPPED, outcome) => Ok(Arrival::Dropped(Why::of(outcome.why))),
            (status, _) => Err(Error::of(status)),
        }
    }

    pub(crate) fn next_out(&self) -> usize {
        self.calls.next_out()
    }

    /// Takes the oldest transmitted frame and returns its queue.
    pub(crate) fn collect(&self, data: &mut Vec<u8>) -> Option<u16> {
        data.clear();
        data.resize(self.next_out(), 0);
        match self.calls.collect(data) {
            (status::FRAME, outcome) => Some(outcome.queue),
            _ => None,
        }
    }

    pub(crate) fn link(&self, up: bool) -> bool {
        self.calls.link(up) == status::DONE
    }

    // --- steps ---

    pub(crate) fn rx_step(&self) -> Option<Event> {
        match self.calls.rx_step() {
            (status::IDLE, _) => None,
            (_, outcome) => Some(Event::of_step(Side::Rx, &outcome)),
        }
    }

    pub(crate) fn tx_step(&self, queue: u16) -> Result<Option<Event>, Error> {
        match self.calls.tx_step(queue) {
            (status::IDLE, _) => Ok(None),
            (status::ADVANCED..=status::FAULT, outcome) => Ok(Some(Event::of_step(Side::Tx, &outcome))),
            (status, _) => Err(Error::of(status)),
        }
    }

    pub(crate) fn queue_step(&self, side: Side, queue: u16) -> Result<bool, Error> {
        match self.calls.queue_step(side == Side::Tx, queue).0 {
            status::DONE => Ok(true),
            status::IDLE => Ok(false),
            status => Err(Error::of(status)),
        }
    }

    pub(crate) fn eeprom_step(&self) -> bool {
        self.calls.eeprom_step().0 == status::DONE
    }

    /// Sends the next message of an interrupt group. Group 0 is the physical function, group v + 1 is virtual function
    /// v.
    pub(crate) fn int_step(&self, group: u8) -> Result<Option<Event>, Error> {
        match self.calls.int_step(group) {
            (status::IDLE, _) => Ok(None),
            (status::MESSAGE, outcome) => Ok(Some(Event::of_step(Side::Rx, &outcome))),
            (status, _) => Err(Error::of(status)),
        }
    }

    /// Runs steps until none has anything to do. A new round begins after every 256 events.
    pub(crate) fn settle(&self, queues: u16) -> Result<Vec<Event>, Error> {
        let mut events = Vec::new();
        let mut room = [Outcome::default(); ROOM];
        loop {
            let (status, count) = self.calls.settle(queues, &mut room);
            events.extend(room[..count].iter().map(Event::of_settle));
            match status {
                status::DONE => return Ok(events),
                status::MORE => {}
                refused => return Err(Error::of(refused)),
            }
        }
    }

    /// Runs the next step that has something to do, starting at `place`. Returns `None` if a whole round has nothing to
    /// do.
    pub(crate) fn next_step(&self, place: &mut Place) -> Result<Option<Event>, Error> {
        match self.calls.next_step(&mut place.0) {
            (status::MORE, outcome) => Ok(Some(Event::of_settle(&outcome))),
            (status::DONE, _) => Ok(None),
            (refused, _) => Err(Error::of(refused)),
        }
    }

    // --- the EEPROM ---

    pub(crate) fn install_image(&self, image: &[u8]) -> Result<(), Error> {
        Error::unless_done(self.calls.install_image(image))
    }

    pub(crate) fn install_text(&self, text: &str) -> Result<(), Error> {
        match self.calls.install_text(text.as_bytes()) {
            (status::DONE, _) => Ok(()),
            (status, line) => Err(Error::of_text(status, line)),
        }
    }
}
