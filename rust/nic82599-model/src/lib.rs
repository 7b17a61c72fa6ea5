//! A model of the Intel 82599 10 GbE controller in pure Rust, for running driver code. It puts the card's registers,
//! rings and interrupts in the driver's process, without a card, a guest, a kernel or a C library.
//!
//! [`Nic::open`] creates a controller in its power-up state. You reach registers by their names in [`regs`] or by
//! address, and packet memory by bus address ([`Nic::memory`]). [`Nic::arrive`] delivers a frame to the card;
//! [`Nic::collect`] takes a transmitted frame. Nothing happens by itself: the device acts in steps, each of which is a
//! call, so a race is an order of calls. [`Nic::settle`] runs steps until none has anything to do.
//!
//! A TCP frame arrives; its hash picks queue 3, the device writes the frame to the ring, and an interrupt reports it:
//!
//! ```
//! use nic82599::desc::Descriptor;
//! use nic82599::regs::{self, *};
//! use nic82599::{Arrival, Nic, Sizes};
//!
//! let mut frame = [0; 60];
//! frame[..14].copy_from_slice(&[2, 0, 0, 0, 0, 1, 2, 0, 0, 0, 0, 2, 8, 0]); // Ethernet: IPv4
//! frame[14..24].copy_from_slice(&[0x45, 0, 0, 40, 0, 0, 0, 0, 64, 6]); // IPv4: TCP
//!
//! let nic = Nic::open(Sizes { blocks: 2, ..Sizes::default() })?;
//! nic.lend_all()?;
//! nic.write(RXCTRL, rxctrl::RXEN);
//! nic.write(FCTRL, fctrl::UPE); // accept all unicast frames
//! nic.write(MRQC, mrqc::MRQE.is(1) | mrqc::TCPIPV4);
//! nic.write(RETA.at(0), reta::ENTRY_0.is(3)); // under a key of zeros the hash is 0
//! nic.write(RDLEN.at(3), 128); // eight descriptors, starting at bus address 0
//! nic.write(SRRCTL.at(3), srrctl::DESCTYPE.is(1) | srrctl::BSIZEPACKET.is(2));
//! nic.write(RXDCTL.at(3), rxdctl::ENABLE);
//! nic.write(GPIE, gpie::MULTIPLE_MSIX); // MSI-X mode, which the card needs here
//! nic.write(IVAR.at(1), ivar::INT_ALLOC_2.is(5) | ivar::INT_ALLOC_VAL_2); // queue 3 raises cause 5
//! nic.write(EIMS, 1 << 5);
//! nic.settle(4)?; // the device enables the queue
//! nic.memory().put_descriptor(0, 0, Descriptor::receive(0x800))?; // slot 0: its buffer is block 1
//! nic.write(RDT.at(3), 1); // the device owns slot 0
//!
//! assert_eq!(nic.arrive(&frame)?, Arrival::Waits);
//! let events: Vec<String> = nic.settle(4)?.map(|event| format!("{}: {event}", event.step())).collect();
//! assert_eq!(events, ["rx: wrote queue 3 slot 0 end", "int pf: message pf vector 5"]);
//! let written = nic.memory().descriptor(0, 0)?.received().expect("the device is done with it");
//! assert_eq!((written.end, written.length, nic.read(RDH.at(3))), (true, 60, 1));
//! # Ok::<(), nic82599::Error>(())
//! ```
//!
//! The package is called `nic82599-model`. Programs import it as `nic82599`, like the crate that links the C library,
//! so a driver written for one compiles for the other. The other crate can also explain why nothing happens, record,
//! lend memory in place, search for races and produce report cards. This crate moves memory by value instead
//! ([`Nic::exchange`]).
//!
//! The controller's sources are proved. This crate is Rust generated from those sources without their proofs. No proof
//! covers what rustc compiles from this Rust; tests do. A refused call returns an [`Error`] and changes nothing. No
//! argument makes a call panic, except an index out of range in [`Registers::at`] or [`VfRegisters::at`]. The project's
//! docs/CARD.md lists where the model differs from the card.

#![deny(missing_docs, unsafe_code, unsafe_op_in_unsafe_fn)]
#![warn(rust_2018_idioms, missing_debug_implementations, unreachable_pub)]

// The controller, generated from the proved sources.
include!(concat!(env!("OUT_DIR"), "/modules.rs"));

mod answers;
mod by_value;
#[path = "../../nic82599/src/desc/mod.rs"]
pub mod desc;
#[path = "../../nic82599/src/device.rs"]
mod device;
#[path = "../../nic82599/src/error.rs"]
mod error;
#[path = "../../nic82599/src/event.rs"]
mod event;
mod handle;
#[path = "../../nic82599/src/hash.rs"]
mod hash;
#[path = "../../nic82599/src/memory.rs"]
mod memory;
#[path = "../../nic82599/src/nic.rs"]
mod nic;
#[path = "../../nic82599/src/pcap.rs"]
pub mod pcap;
#[path = "../../nic82599/src/register.rs"]
mod register;
#[path = "../../nic82599/src/regs.rs"]
pub mod regs;
mod rounds;
#[path = "../../nic82599/src/settle.rs"]
mod settle;

pub use by_value::{Block, Refused};
pub use device::Device;
pub use error::{Absent, Error, ImageFault, TextFault};
pub use event::{Event, Fault, Side, Step, Why};
pub use hash::rss_hash;
pub use memory::Memory;
pub use nic::{vf_address, Arrival, Frame, Function, Nic, Sizes, Snapshot};
pub use register::{Field, HalfField, Register, Registers, VfRegister, VfRegisters};
pub use settle::{Settled, Steps};

/// The version of this crate.
pub const VERSION: &str = env!("CARGO_PKG_VERSION");

/// Returns whether the device was proved: always false in this crate.
pub fn is_proved() -> bool {
    false
}

/// Returns the edition of the device: always `plain`, which a Rust compiler compiled from the proved sources without
/// their proofs.
///
/// ```
/// assert_eq!(nic82599::edition(), "plain");
/// ```
pub fn edition() -> &'static str {
    "plain"
}
