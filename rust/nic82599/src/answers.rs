//! Translates the numbers that the C library returns into the crate's types.

use crate::error::{Error, ImageFault, TextFault};
use crate::event::{Event, Fault, Side, Why};
use crate::ffi::Outcome;
use crate::status;

impl Error {
    /// Returns the refusal for a status that isn't one of the device's replies.
    pub(crate) fn of(status: u8) -> Error {
        match status {
            status::NO_QUEUE => Error::NoQueue,
            status::NO_GROUP => Error::NoGroup,
            status::OUT_OF_MEMORY => Error::OutOfMemory,
            status::NO_ROOM => Error::TooLong,
            status::TOO_MANY_VFS => Error::TooManyVfs,
            status::BAD_FIFO => Error::BadFifo,
            status::BAD_BLOCKS => Error::BadBlocks,
            status::NO_BLOCK => Error::NoBlock,
            status::BAD_MEMORY => Error::BadMemory,
            status::IMAGE_ODD_LENGTH => Error::Image(ImageFault::OddLength),
            status::IMAGE_BAD_SIZE => Error::Image(ImageFault::BadSize),
            status::IMAGE_SECTION_OUTSIDE => Error::Image(ImageFault::SectionOutside),
            status::IMAGE_BAD_CHECKSUM => Error::Image(ImageFault::BadChecksum),
            status::IMAGE_NOT_TRIPLES => Error::Image(ImageFault::NotTriples),
            other => unreachable!("the library returned status {other}, which its header doesn't define"),
        }
    }

    /// Like `of`, for an EEPROM image's source: `at` is the line or index that the call reports.
    pub(crate) fn of_text(status: u8, at: u64) -> Error {
        Error::Text(match status {
            status::TEXT_SYNTAX => TextFault::Syntax(at),
            status::TEXT_TWO_VALUES => TextFault::TwoValues(at),
            status::TEXT_RESERVED => TextFault::Reserved(at),
            status::TEXT_DOES_NOT_FIT => TextFault::DoesNotFit,
            status::TEXT_POINTER_OUTSIDE => TextFault::PointerOutside,
            _ => return Error::of(status),
        })
    }

    /// Returns an error unless a call did what was requested.
    pub(crate) fn unless_done(status: u8) -> Result<(), Error> {
        match status {
            status::DONE => Ok(()),
            refused => Err(Error::of(refused)),
        }
    }
}

impl Event {
    /// Returns an event that `nic_settle` reported.
    pub(crate) fn of_settle(outcome: &Outcome) -> Event {
        match outcome.step {
            status::RX_ENABLE if outcome.status == status::DONE => {
                Event::Switched { side: Side::Rx, queue: outcome.of }
            }
            status::TX_ENABLE if outcome.status == status::DONE => {
                Event::Switched { side: Side::Tx, queue: outcome.of }
            }
            status::EEPROM => Event::EepromAnswered,
            status::RECEIVE => Event::of_step(Side::Rx, outcome),
            _ => Event::of_step(Side::Tx, outcome),
        }
    }

    /// Returns the event of a step that was neither idle nor refused. `side` is the half of the queue to which a fault
    /// is attributed.
    pub(crate) fn of_step(side: Side, outcome: &Outcome) -> Event {
        let (queue, slot) = (outcome.queue, outcome.slot);
        let back = if outcome.back == 1 { Some(outcome.at) } else { None };
        match outcome.status {
            status::DROPPED => Event::Dropped(Why::of(outcome.why)),
            status::WROTE => {
                let (descriptor, at, length) = (outcome.desc, outcome.at, outcome.len);
                Event::Wrote { queue, slot, end: outcome.end == 1, descriptor, at, length }
            }
            status::ADVANCED => Event::Advanced { queue, slot, back },
            status::SENT => Event::Sent { queue, length: outcome.len, back },
            status::FAULT => Event::Fault { side, queue, why: Fault::of(outcome) },
            status::MESSAGE => {
                Event::Message { function: outcome.group.checked_sub(1).map(|v| v as u8), vector: outcome.vector }
            }
            other => unreachable!("the library returned status {other} for a step"),
        }
    }
}

impl Why {
    pub(crate) fn of(code: u8) -> Why {
        match code {
            status::WHY_LINK_DOWN => Why::LinkDown,
            status::WHY_OFF => Why::Off,
            status::WHY_SHORT => Why::Short,
            status::WHY_LONG => Why::Long,
            status::WHY_FILTER => Why::Filter,
            status::WHY_NO_POOL => Why::NoPool,
            status::WHY_POOL_OFF => Why::PoolOff,
            status::WHY_FULL => Why::Full,
            status::WHY_QUEUE_OFF => Why::QueueOff,
            status::WHY_NO_SLOT => Why::NoSlot,
            other => unreachable!("the library returned {other} as the reason for a dropped frame"),
        }
    }
}

impl Fault {
    fn of(outcome: &Outcome) -> Fault {
        match outcome.why {
            status::FAULT_OUTSIDE => Fault::Outside,
            status::FAULT_NOT_LENT => Fault::NotLent(outcome.bus),
            status::FAULT_TYPE => Fault::Type,
            status::FAULT_NO_BUFFER_SIZE => Fault::NoBufferSize,
            status::FAULT_OFFLOAD => Fault::Offload,
            status::FAULT_LEGACY => Fault::Legacy,
            status::FAULT_TOO_LONG => Fault::TooLong,
            status::FAULT_UNKNOWN_TYPE => Fault::UnknownType,
            other => unreachable!("the library returned {other} as the kind of a fault"),
        }
    }
}
