//! The device's events.

use std::fmt;

/// A side of a queue.
#[derive(Clone, Copy, Debug, PartialEq, Eq, Hash)]
pub enum Side {
    /// The receive side.
    Rx,
    /// The transmit side.
    Tx,
}

/// A step of the device. It displays as the script line that runs it.
#[derive(Clone, Copy, Debug, PartialEq, Eq, Hash)]
pub enum Step {
    /// A queue's enable step: [`Nic::queue_step`](crate::Nic::queue_step).
    Queue(Side, u16),
    /// The completion of an EEPROM read: [`Nic::eeprom_step`](crate::Nic::eeprom_step).
    Eeprom,
    /// A transmit step of a queue: [`Nic::tx_step`](crate::Nic::tx_step).
    Tx(u16),
    /// A receive step: [`Nic::rx_step`](crate::Nic::rx_step).
    Rx,
    /// An interrupt step: [`Nic::int_step`](crate::Nic::int_step), or the step of a virtual function.
    Int(Option<u8>),
}

/// What a step of the device did. It displays as the reply that `nicbench run` prints; `{:#}` adds the meaning of a
/// drop or a fault:
///
/// ```
/// use nic82599::{Event, Why};
///
/// let event = Event::Message { function: None, vector: 5 };
/// assert_eq!(event.to_string(), "message pf vector 5");
/// assert_eq!(event.step().to_string(), "int pf");
/// let dropped = Event::Dropped(Why::QueueOff);
/// assert_eq!(dropped.to_string(), "dropped queue off");
/// assert_eq!(format!("{dropped:#}"), "dropped queue off: the frame's queue isn't on: RXDCTL bit 25 reads 0");
/// ```
#[derive(Clone, Copy, Debug, PartialEq, Eq, Hash)]
pub enum Event {
    /// A side of a queue was enabled or disabled, as its RXDCTL or TXDCTL requested.
    Switched {
        /// The side.
        side: Side,
        /// The queue.
        queue: u16,
    },
    /// The EEPROM read that EERD started was completed.
    EepromAnswered,
    /// The device wrote one buffer of a frame.
    Wrote {
        /// The queue.
        queue: u16,
        /// The slot in the queue's ring.
        slot: u16,
        /// Whether the frame ends in this buffer.
        end: bool,
        /// The bus address of the descriptor written back.
        descriptor: u64,
        /// The bus address of the first byte written.
        at: u64,
        /// The number of bytes written.
        length: u64,
    },
    /// A receive step dropped the frame that had waited longest.
    Dropped(Why),
    /// A transmit slot was fetched, and no frame was sent.
    Advanced {
        /// The queue.
        queue: u16,
        /// The slot in the queue's ring.
        slot: u16,
        /// The bus address of the descriptor or head write-back; `None` if there was none.
        back: Option<u64>,
    },
    /// A frame was sent.
    Sent {
        /// The queue.
        queue: u16,
        /// The frame's length in bytes, padding included.
        length: u64,
        /// The bus address of the descriptor or head write-back; `None` if there was none.
        back: Option<u64>,
    },
    /// A slot couldn't be processed, so the device disabled that side of the queue.
    Fault {
        /// The side.
        side: Side,
        /// The queue.
        queue: u16,
        /// The fault.
        why: Fault,
    },
    /// An interrupt message was sent.
    Message {
        /// The virtual function that the message belongs to; `None` for the physical function.
        function: Option<u8>,
        /// The vector, below 16.
        vector: u8,
    },
}

/// Why a frame is dropped. `{:#}` adds an explanation.
#[derive(Clone, Copy, Debug, PartialEq, Eq, Hash)]
pub enum Why {
    /// The link is down.
    LinkDown,
    /// RXCTRL bit 0 (RXEN) is 0.
    Off,
    /// The frame is shorter than 60 bytes.
    Short,
    /// The frame is longer than the frame limit.
    Long,
    /// No filter accepts the destination address.
    Filter,
    /// No pool accepts the frame.
    NoPool,
    /// VFRE disables the frame's pool.
    PoolOff,
    /// The list of waiting frames is full: it has room for [`Sizes::fifo`](crate::Sizes::fifo) frames.
    Full,
    /// In a receive step: the queue is disabled.
    QueueOff,
    /// In a receive step: the device owns no slot, and SRRCTL.DROP_EN is set.
    NoSlot,
}

/// Why a slot can't be processed. `{:#}` adds an explanation.
#[derive(Clone, Copy, Debug, PartialEq, Eq, Hash)]
pub enum Fault {
    /// The head or the tail is outside the ring.
    Outside,
    /// The memory at this bus address isn't lent.
    NotLent(u64),
    /// SRRCTL.DESCTYPE isn't advanced with one buffer.
    Type,
    /// SRRCTL.BSIZEPACKET is 0.
    NoBufferSize,
    /// A transmit descriptor requests segmentation, VLAN insertion or a checksum.
    Offload,
    /// A legacy transmit descriptor.
    Legacy,
    /// The frame is longer than the frame limit.
    TooLong,
    /// The descriptor's type is neither data nor context.
    UnknownType,
}

impl Event {
    /// Returns the step that caused this event.
    pub const fn step(&self) -> Step {
        match *self {
            Event::Switched { side, queue } => Step::Queue(side, queue),
            Event::EepromAnswered => Step::Eeprom,
            Event::Wrote { .. } | Event::Dropped(_) | Event::Fault { side: Side::Rx, .. } => Step::Rx,
            Event::Advanced { queue, .. } | Event::Sent { queue, .. } => Step::Tx(queue),
            Event::Fault { side: Side::Tx, queue, .. } => Step::Tx(queue),
            Event::Message { function, .. } => Step::Int(function),
        }
    }

    /// Returns whether the event loses a frame: a frame was dropped, or a slot can't be processed. A program that only
    /// looks for messages misses such events.
    ///
    /// ```
    /// use nic82599::{Event, Fault, Side, Why};
    ///
    /// assert!(Event::Dropped(Why::NoSlot).is_loss());
    /// assert!(Event::Fault { side: Side::Rx, queue: 0, why: Fault::NotLent(0x800) }.is_loss());
    /// assert!(!Event::Message { function: None, vector: 0 }.is_loss());
    /// ```
    pub const fn is_loss(&self) -> bool {
        matches!(self, Event::Dropped(_) | Event::Fault { .. })
    }
}

impl fmt::Display for Step {
    fn fmt(&self, f: &mut fmt::Formatter<'_>) -> fmt::Result {
        match self {
            Step::Queue(side, queue) => write!(f, "qstep {side} {queue}"),
            Step::Eeprom => f.write_str("eestep"),
            Step::Tx(queue) => write!(f, "tx {queue}"),
            Step::Rx => f.write_str("rx"),
            Step::Int(None) => f.write_str("int pf"),
            Step::Int(Some(function)) => write!(f, "int {function}"),
        }
    }
}

impl fmt::Display for Event {
    fn fmt(&self, f: &mut fmt::Formatter<'_>) -> fmt::Result {
        match self {
            Event::Switched { .. } | Event::EepromAnswered => f.write_str("done"),
            Event::Wrote { queue, slot, end, .. } => {
                write!(f, "wrote queue {queue} slot {slot} {}", if *end { "end" } else { "more" })
            }
            Event::Dropped(why) if f.alternate() => write!(f, "dropped {why:#}"),
            Event::Dropped(why) => write!(f, "dropped {why}"),
            Event::Advanced { queue, slot, .. } => write!(f, "advanced queue {queue} slot {slot}"),
            Event::Sent { queue, length, .. } => write!(f, "sent queue {queue} len {length}"),
            Event::Fault { queue, why, .. } if f.alternate() => write!(f, "fault queue {queue} {why:#}"),
            Event::Fault { queue, why, .. } => write!(f, "fault queue {queue} {why}"),
            Event::Message { function: None, vector } => write!(f, "message pf vector {vector}"),
            Event::Message { function: Some(function), vector } => write!(f, "message vf {function} vector {vector}"),
        }
    }
}

impl fmt::Display for Why {
    fn fmt(&self, f: &mut fmt::Formatter<'_>) -> fmt::Result {
        let (word, meaning) = match self {
            Why::LinkDown => ("link down", "Nic::link set the link down"),
            Why::Off => ("off", "RXCTRL bit 0 is 0"),
            Why::Short => ("short", "the frame is shorter than 60 bytes"),
            Why::Long => ("long", "the frame is longer than the limit: 1,514 bytes, or MAXFRS with jumbo frames"),
            Why::Filter => ("filter", "no bit of FCTRL and no address (RAL, RAH, MTA) accepts the frame's destination"),
            Why::NoPool => ("no pool", "no pool is assigned to the frame, or MRQC's mode doesn't have that pool"),
            Why::PoolOff => ("pool off", "VFRE disables the frame's pool"),
            Why::Full => ("full", "as many frames are waiting as Sizes::fifo allows"),
            Why::QueueOff => ("queue off", "the frame's queue isn't on: RXDCTL bit 25 reads 0"),
            Why::NoSlot => ("no slot", "head and tail of the frame's queue meet, and SRRCTL has DROP_EN"),
        };
        f.write_str(word)?;
        meant(f, meaning)
    }
}

impl fmt::Display for Fault {
    fn fmt(&self, f: &mut fmt::Formatter<'_>) -> fmt::Result {
        let (word, meaning) = match self {
            Fault::Outside => ("outside", "head or tail is outside the ring"),
            Fault::NotLent(bus) => {
                write!(f, "not lent 0x{bus:05x}")?;
                return meant(f, "the ring, a buffer or a write-back address is there");
            }
            Fault::Type => ("type", "SRRCTL DESCTYPE isn't 1, advanced descriptors with one buffer"),
            Fault::NoBufferSize => ("no buffer size", "SRRCTL BSIZEPACKET is 0"),
            Fault::Offload => ("offload", "the descriptor requests segmentation, VLAN insertion or a checksum"),
            Fault::Legacy => ("legacy", "the descriptor has no DEXT, so it is a legacy descriptor"),
            Fault::TooLong => {
                ("too long", "the frame is longer than the limit: 1,514 bytes, or MAXFRS with jumbo frames")
            }
            Fault::UnknownType => ("unknown type", "the descriptor's DTYP is neither data nor context"),
        };
        f.write_str(word)?;
        meant(f, meaning)
    }
}

/// Writes the explanation that `{:#}` adds.
fn meant(f: &mut fmt::Formatter<'_>, meaning: &str) -> fmt::Result {
    if f.alternate() {
        write!(f, ": {meaning}")
    } else {
        Ok(())
    }
}

impl fmt::Display for Side {
    fn fmt(&self, f: &mut fmt::Formatter<'_>) -> fmt::Result {
        f.write_str(match self {
            Side::Rx => "rx",
            Side::Tx => "tx",
        })
    }
}
