//! A proved model of the Intel 82599 10 GbE controller for running driver code. It puts the card's registers, rings and
//! interrupts in the driver's process, without a card, a guest or a kernel.
//!
//! [`Nic::open`] creates a controller in its power-up state. You reach registers by their names in [`regs`] or by
//! address, and packet memory by bus address ([`Nic::memory`]). [`Nic::arrive`] delivers a frame to the card;
//! [`Nic::collect`] takes a transmitted frame. Nothing happens by itself: the device acts in steps, each of which is a
//! call, so a race is an order of calls. [`Nic::settle`] runs steps until none has anything to do.
//!
//! A TCP frame arrives; its hash picks queue 3, the device writes the frame to the ring, and an interrupt reports it:
//!
//! ```
//! use nic82599::desc::Descriptor;
//! use nic82599::regs::{self, *};
//! use nic82599::{Arrival, Nic, Sizes};
//!
//! let mut frame = [0; 60];
//! frame[..14].copy_from_slice(&[2, 0, 0, 0, 0, 1, 2, 0, 0, 0, 0, 2, 8, 0]); // Ethernet: IPv4
//! frame[14..24].copy_from_slice(&[0x45, 0, 0, 40, 0, 0, 0, 0, 64, 6]); // IPv4: TCP
//!
//! let nic = Nic::open(Sizes { blocks: 2, ..Sizes::default() })?;
//! nic.lend_all()?;
//! nic.write(RXCTRL, rxctrl::RXEN);
//! nic.write(FCTRL, fctrl::UPE); // accept all unicast frames
//! nic.write(MRQC, mrqc::MRQE.is(1) | mrqc::TCPIPV4);
//! nic.write(RETA.at(0), reta::ENTRY_0.is(3)); // under a key of zeros the hash is 0
//! nic.write(RDLEN.at(3), 128); // eight descriptors, starting at bus address 0
//! nic.write(SRRCTL.at(3), srrctl::DESCTYPE.is(1) | srrctl::BSIZEPACKET.is(2));
//! nic.write(RXDCTL.at(3), rxdctl::ENABLE);
//! nic.write(GPIE, gpie::MULTIPLE_MSIX); // MSI-X mode, which the card needs here
//! nic.write(IVAR.at(1), ivar::INT_ALLOC_2.is(5) | ivar::INT_ALLOC_VAL_2); // queue 3 raises cause 5
//! nic.write(EIMS, 1 << 5);
//! nic.settle(4)?; // the device enables the queue
//! nic.memory().put_descriptor(0, 0, Descriptor::receive(0x800))?; // slot 0: its buffer is block 1
//! nic.write(RDT.at(3), 1); // the device owns slot 0
//!
//! assert_eq!(nic.arrive(&frame)?, Arrival::Waits);
//! let events: Vec<String> = nic.settle(4)?.map(|event| format!("{}: {event}", event.step())).collect();
//! assert_eq!(events, ["rx: wrote queue 3 slot 0 end", "int pf: message pf vector 5"]);
//! let written = nic.memory().descriptor(0, 0)?.received().expect("the device is done with it");
//! assert_eq!((written.end, written.length, nic.read(RDH.at(3))), (true, 60, 1));
//! # Ok::<(), nic82599::Error>(())
//! ```
//!
//! The `explore` feature adds the search for an order of steps that breaks your driver. Code that takes a [`Device`]
//! runs on a [`Nic`] and in a search. The `drive` feature adds the report card, which runs your driver's functions in
//! ready-made scenarios.
//!
//! The device's behavior is proved; this crate is tested. A refused call returns an [`Error`] and changes nothing. No
//! argument makes a call panic, except an index out of range in [`Registers::at`] or [`VfRegisters::at`]. The project's
//! docs/CARD.md lists where the model differs from the card.

#![deny(missing_docs, unsafe_code, unsafe_op_in_unsafe_fn)]
#![deny(clippy::undocumented_unsafe_blocks)]
#![warn(rust_2018_idioms, missing_debug_implementations, unreachable_pub)]

// Empty, or the reason why there is no library to link. The documentation builds without one.
#[cfg(not(doc))]
include!(concat!(env!("OUT_DIR"), "/library.rs"));

mod answers;
pub mod desc;
mod device;
#[cfg(feature = "drive")]
pub mod drive;
mod error;
mod event;
#[cfg(feature = "explore")]
pub mod explore;
mod ffi;
mod handle;
mod hash;
mod in_place;
mod library;
mod memory;
mod nic;
pub mod pcap;
mod register;
pub mod regs;
mod settle;
mod status;

use std::ffi::CString;
use std::os::unix::ffi::OsStrExt;
use std::path::Path;

pub use device::Device;
pub use error::{Absent, Error, ImageFault, TextFault};
pub use event::{Event, Fault, Side, Step, Why};
pub use hash::rss_hash;
pub use in_place::InPlace;
pub use memory::Memory;
pub use nic::{vf_address, Arrival, Frame, Function, Nic, Sizes, Snapshot};
pub use register::{Field, HalfField, Register, Registers, VfRegister, VfRegisters};
pub use settle::{Settled, Steps};

/// The version of this crate. For the library's version, see [`library_version`].
pub const VERSION: &str = env!("CARGO_PKG_VERSION");

/// Returns the version of the linked library.
///
/// ```
/// assert_eq!(nic82599::library_version(), nic82599::VERSION);
/// ```
pub fn library_version() -> &'static str {
    ffi::version()
}

/// Returns whether the device in the library was proved. If not, it was compiled from the same sources without a proof.
pub fn is_proved() -> bool {
    ffi::is_proved()
}

/// Returns the edition of the library: `proved`, `plain` (a Rust compiler compiled the same sources without their
/// proofs) or `unproved` (Rattle's compiler did).
///
/// ```
/// assert!(["proved", "plain", "unproved"].contains(&nic82599::edition()));
/// ```
pub fn edition() -> &'static str {
    ffi::edition()
}

/// Records every controller opened after this call. The first one goes to the file `path`, later ones to PATH.2, PATH.3
/// and so on; %p in the path is replaced by the process ID. `None` ends recording for new controllers. Until the first
/// call, the environment variable NIC82599_RECORD supplies the path. `tools/niclint --trace PATH` reports why steps of
/// a recording did nothing, and `tools/nicview PATH` draws it.
///
/// # Errors
///
/// [`Error::NoRecording`] if the file can't be written; standard error shows this too, and nothing is recorded.
pub fn record(path: Option<&Path>) -> Result<(), Error> {
    let path = match path {
        Some(path) => Some(CString::new(path.as_os_str().as_bytes()).map_err(|_| Error::NoRecording)?),
        None => None,
    };
    if ffi::record(path.as_deref()) {
        Ok(())
    } else {
        Err(Error::NoRecording)
    }
}
