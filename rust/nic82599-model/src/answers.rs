//! Translates the controller's replies into the crate's types.

use crate::error::{Error, ImageFault, TextFault};
use crate::event::{Event, Fault, Side, Why};
use crate::nic_device::{self, AsmFault, Group, LoadFault, NewFault, Reply, ReplyNote, RingFault};

/// Returns the event of a step that did something. `side` is the half of the queue to which a fault is attributed.
pub(crate) fn event_of(side: Side, reply: &ReplyNote) -> Option<Event> {
    match *reply {
        Reply::Dropped(why) => Some(Event::Dropped(why.into())),
        Reply::Wrote { queue, slot, end, desc, at, len } => {
            Some(Event::Wrote { queue, slot, end, descriptor: desc, at, length: len as u64 })
        }
        Reply::Advanced { queue, slot, back } => Some(Event::Advanced { queue, slot, back }),
        Reply::Sent { queue, len, back } => Some(Event::Sent { queue, length: len as u64, back }),
        Reply::Fault { queue, fault } => Some(Event::Fault { side, queue, why: fault.into() }),
        Reply::Message { group, vector } => Some(Event::Message { function: function_of(group), vector }),
        _ => None,
    }
}

/// The virtual function of an interrupt group; `None` for the physical function's group.
fn function_of(group: Group) -> Option<u8> {
    match group {
        Group::Pf => None,
        Group::Vf(number) => Some(number),
    }
}

impl From<nic_device::Why> for Why {
    fn from(why: nic_device::Why) -> Why {
        match why {
            nic_device::Why::LinkDown => Why::LinkDown,
            nic_device::Why::Off => Why::Off,
            nic_device::Why::Short => Why::Short,
            nic_device::Why::Long => Why::Long,
            nic_device::Why::Filter => Why::Filter,
            nic_device::Why::NoPool => Why::NoPool,
            nic_device::Why::PoolOff => Why::PoolOff,
            nic_device::Why::Full => Why::Full,
            nic_device::Why::QueueOff => Why::QueueOff,
            nic_device::Why::NoSlot => Why::NoSlot,
        }
    }
}

impl From<RingFault> for Fault {
    fn from(fault: RingFault) -> Fault {
        match fault {
            RingFault::Outside => Fault::Outside,
            RingFault::NotLent(bus) => Fault::NotLent(bus),
            RingFault::DescType => Fault::Type,
            RingFault::NoBufferSize => Fault::NoBufferSize,
            RingFault::Offload => Fault::Offload,
            RingFault::Legacy => Fault::Legacy,
            RingFault::TooLong => Fault::TooLong,
            RingFault::UnknownType => Fault::UnknownType,
        }
    }
}

impl From<NewFault> for Error {
    fn from(fault: NewFault) -> Error {
        match fault {
            NewFault::TooManyVfs => Error::TooManyVfs,
            NewFault::Fifo => Error::BadFifo,
            NewFault::OutOfMemory => Error::OutOfMemory,
        }
    }
}

impl From<LoadFault> for Error {
    fn from(fault: LoadFault) -> Error {
        Error::Image(match fault {
            LoadFault::OddLength => ImageFault::OddLength,
            LoadFault::BadSize => ImageFault::BadSize,
            LoadFault::SectionOutside => ImageFault::SectionOutside,
            LoadFault::BadChecksum => ImageFault::BadChecksum,
            LoadFault::NotTriples => ImageFault::NotTriples,
            LoadFault::OutOfMemory => return Error::OutOfMemory,
        })
    }
}

impl From<AsmFault> for Error {
    fn from(fault: AsmFault) -> Error {
        Error::Text(match fault {
            AsmFault::Syntax(line) => TextFault::Syntax(line as u64),
            AsmFault::TwoValues(index) => TextFault::TwoValues(u64::from(index)),
            AsmFault::Reserved(index) => TextFault::Reserved(u64::from(index)),
            AsmFault::DoesNotFit => TextFault::DoesNotFit,
            AsmFault::PointerOutside => TextFault::PointerOutside,
            AsmFault::OutOfMemory => return Error::OutOfMemory,
        })
    }
}
