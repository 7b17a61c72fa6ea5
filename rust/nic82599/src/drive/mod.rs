//! A report card for a driver, like the one that docs/report-card.md describes for C: it runs the driver's functions in
//! ready-made scenarios. It is the crate's `drive` feature, and also links `libnic82599_drive.a`.
//!
//! A [`Driver`] is a type with `open` and `close`, and with constants that name its other functions. A function that
//! the driver lacks is `None`, and rows that need that function aren't applicable. The driver's `main` is one line:
//!
//! ```no_run
//! use std::cell::Cell;
//! use std::process::ExitCode;
//!
//! use nic82599::drive::{self, Driver, Frame, Platform, Receive, Setup};
//!
//! #[derive(Default)]
//! struct Mine {
//!     ring: Cell<u64>,
//! }
//!
//! impl Mine {
//!     fn receive(&self, platform: &Platform, _queue: u16) -> Option<Frame> {
//!         let _half = platform.get64(self.ring.get() + 8);
//!         None
//!     }
//! }
//!
//! impl Driver for Mine {
//!     const NAME: &'static str = "mine";
//!     const RECEIVE: Option<Receive<Mine>> = Some(Mine::receive);
//!
//!     fn new() -> Mine {
//!         Mine::default()
//!     }
//!     fn open(&self, platform: &Platform, setup: &Setup) -> bool {
//!         let ring = platform.dma_alloc(16 * usize::from(setup.slots));
//!         self.ring.set(ring.unwrap_or(0));
//!         ring.is_some()
//!     }
//!     fn close(&self, platform: &Platform) {
//!         platform.dma_free(self.ring.get());
//!     }
//! }
//!
//! fn main() -> ExitCode {
//!     drive::main::<Mine>()
//! }
//! ```
//!
//! `c/drive/nicdrive PROGRAM` produces the program's report card. A function that panics fails its row, with the
//! panic's message and location, and the other rows still run.
//!
//! Each call to a [`Platform`] is a point at which another function of the driver may run: `receive` of one queue
//! during `send` of another, a handler during both. Functions therefore take `&self`, and the driver keeps its state in
//! `Cell`s. Don't hold a guard of a `RefCell` across a call to the platform, and don't use locks from `std`: use
//! [`explore::Lock`](crate::explore::Lock). If a schedule abandons a function during a call, a panic unwinds it, as
//! [`explore`](crate::explore) describes.

mod raw;

use std::cell::Cell;
use std::env;
use std::fmt;
use std::ops::{BitOr, Deref, DerefMut};
use std::process::ExitCode;

use crate::explore::Bus;

/// The largest number of queues with which the report card opens a driver.
pub const MOST_QUEUES: u16 = 4;
/// The length of the longest frame, in bytes.
pub const MOST_FRAME: usize = 9724;
/// The number of words in a mailbox.
pub const MAILBOX_WORDS: usize = 16;

/// A driver's functions. A function given by a constant is `None` if the driver lacks it: rows that need it are
/// reported as not applicable. The driver needs `RECEIVE`, `THREADS` or `SEND`.
///
/// For each queue, the report card calls each of `RECEIVE`, `SEND` and `RECLAIM` in one thread at a time. Calls for
/// different queues run concurrently. `INTERRUPT` may run at any time between open and close, interrupting any thread
/// or concurrently with all of them, but never concurrently with itself for one vector. One thread makes the other
/// calls (close, reset, filter, rss, mtu, resize, suspend, resume), and no receive, send or reclaim runs during them.
/// `MAILBOX_SEND` and `MAILBOX_RECEIVE` are called by one thread at a time; `MAILBOX_READY` may run concurrently with
/// them.
pub trait Driver: Sized + 'static {
    /// The driver's name: 1 to 40 letters, digits, '-' and '_'.
    const NAME: &'static str;
    /// What the driver supports in addition to its functions.
    const CAN: Can = Can::NOTHING;
    /// The largest number of queues that `open` supports, 1 to [`MOST_QUEUES`].
    const QUEUES: u16 = 1;
    /// The smallest number of slots per ring that `open` supports: 8, 16, .. 64.
    const SLOTS: u16 = 8;
    /// The longest frame that the driver supports, in bytes: 1,514 to [`MOST_FRAME`].
    const FRAME: u32 = 1514;

    /// Creates the driver's state at the start of each schedule. The function must not access the device.
    fn new() -> Self;

    /// Sets up the controller, from power-up or from the state that `close` left, and returns true when frames can be
    /// received and sent. Returns false on failure, for example if an allocation fails. After a failure the driver
    /// keeps nothing that it allocated, and `open` may be called again.
    fn open(&self, platform: &Platform, setup: &Setup) -> bool;

    /// Shuts the driver down. On return the device accesses none of the driver's memory and sends no message, and the
    /// driver has freed its memory.
    fn close(&self, platform: &Platform);

    /// Receives a frame.
    const RECEIVE: Option<Receive<Self>> = None;
    /// Sends a frame.
    const SEND: Option<Send<Self>> = None;
    /// Reclaims sent frames.
    const RECLAIM: Option<Reclaim<Self>> = None;
    /// Handles a vector's message.
    const INTERRUPT: Option<Interrupt<Self>> = None;
    /// Enables a queue's interrupts again after it was polled.
    const REARM: Option<Rearm<Self>> = None;
    /// The driver's own threads, at most 4. They start when `open` has returned true, and may wait forever. Without
    /// `RECEIVE` they pass received frames to [`Platform::deliver`], and the report card always opens the driver with
    /// interrupts.
    const THREADS: &'static [fn(&Self, &Platform)] = &[];

    /// Sets which frames to accept. This function and the ones below return whether they succeeded. If one returns
    /// false, nothing has changed.
    const FILTER: Option<fn(&Self, &Platform, &Filter) -> bool> = None;
    /// Configures receive side scaling.
    const RSS: Option<fn(&Self, &Platform, &Rss) -> bool> = None;
    /// Changes the maximum frame length; frames in flight may be lost.
    const MTU: Option<fn(&Self, &Platform, u32) -> bool> = None;
    /// Changes the number of slots per ring; frames in flight may be lost.
    const RESIZE: Option<fn(&Self, &Platform, u16) -> bool> = None;
    /// Sets everything up again after a fault, with the same setup; frames in flight may be lost.
    const RESET: Option<Plain<Self>> = None;
    /// Quiesces the device: until `RESUME` no frame is written or sent, no message is sent, and only a handler that is
    /// still running accesses the device.
    const SUSPEND: Option<Plain<Self>> = None;
    /// Resumes the device.
    const RESUME: Option<Plain<Self>> = None;
    /// Returns whether the link is up, as far as the driver knows. The function must not access the device.
    const LINK: Option<fn(&Self) -> bool> = None;

    /// Returns the counts since `open`. Any thread may call it concurrently with other calls. The frames and bytes of a
    /// direction must match, no count may decrease, and no frame may go uncounted. The function must not access the
    /// device.
    const STATS: Option<fn(&Self) -> Stats> = None;

    /// Sends a mailbox message: to the PF's driver, or as the PF's driver, to a virtual function.
    const MAILBOX_SEND: Option<MailboxSend<Self>> = None;
    /// Receives a mailbox message and acknowledges it. Returns `None` if there is no message.
    const MAILBOX_RECEIVE: Option<MailboxReceive<Self>> = None;
    /// For a virtual function: returns whether the device is ready because the PF's driver has set it up (RSTD, or a PF
    /// driver that was already up).
    const MAILBOX_READY: Option<Plain<Self>> = None;
}

/// Returns a queue's next complete frame, or `None` immediately if there is none.
pub type Receive<D> = fn(&D, &Platform, u16) -> Option<Frame>;
/// Sends a frame on a queue. The frame's length is at least 60 bytes and at most the setup's `frame`. Returns true if
/// the driver accepted the frame: the caller may then reuse the frame's bytes. Returns false if the ring has no room
/// now or the frame is too long.
pub type Send<D> = fn(&D, &Platform, u16, &[u8]) -> bool;
/// Reclaims the sent frames of a queue. Returns how many of the queue's frames are still unsent, as far as the driver
/// knows.
pub type Reclaim<D> = fn(&D, &Platform, u16) -> u32;
/// Handles a vector's message. Returns the queues to poll, as bit q for queue q. For each of these queues, the report
/// card calls `RECEIVE` until it returns `None`, then `RECLAIM`, then `REARM`.
pub type Interrupt<D> = fn(&D, &Platform, u8) -> u32;
/// Enables the interrupts of a polled queue again.
pub type Rearm<D> = fn(&D, &Platform, u16);
/// A function without arguments. Returns whether it succeeded, or whether a condition holds.
pub type Plain<D> = fn(&D, &Platform) -> bool;
/// Writes 1 to [`MAILBOX_WORDS`] words to the mailbox for the other side. The PF's driver passes the virtual function's
/// number. A virtual function sends to the PF's driver and passes 0. Returns false if the mailbox isn't free now.
pub type MailboxSend<D> = fn(&D, &Platform, u8, &[u32]) -> bool;
/// Receives a message from this virtual function, or from the PF's driver.
pub type MailboxReceive<D> = fn(&D, &Platform, u8) -> Option<[u32; MAILBOX_WORDS]>;

/// The counts of a driver since `open`.
#[derive(Clone, Copy, Debug, Default, PartialEq, Eq)]
pub struct Stats {
    /// Received frames: frames that `RECEIVE` returned or that were passed to `deliver`.
    pub rx_frames: u64,
    /// Bytes in the received frames.
    pub rx_bytes: u64,
    /// Sent frames: frames that `SEND` accepted.
    pub tx_frames: u64,
    /// Bytes in the sent frames.
    pub tx_bytes: u64,
}

/// What a driver supports besides its functions: `Can::SHARED_SEND | Can::FUNCTIONS`.
#[derive(Clone, Copy, Debug, Default, PartialEq, Eq)]
pub struct Can(u32);

impl Can {
    /// Nothing besides the functions.
    pub const NOTHING: Can = Can(0);
    /// Several threads may call `SEND` for one queue concurrently.
    pub const SHARED_SEND: Can = Can(1);
    /// `open` supports the port of a virtual function.
    pub const FUNCTIONS: Can = Can(2);
    /// `open` and `close` change only what the setup assigns to them, and don't reset the device. No call changes the
    /// causes and masks of other vectors.
    pub const SHARED_DEVICE: Can = Can(4);
    /// `open` supports `functions` above 0.
    pub const HOST: Can = Can(8);
    /// By design, the driver writes no interval to EITR. This flag and the ones below make the rows that require such
    /// an action not applicable.
    pub const NO_MODERATION: Can = Can(16);
    /// By design, the driver writes neither RDH nor TDH.
    pub const NO_HEADS: Can = Can(32);
    /// By design, all queues share one vector.
    pub const ONE_VECTOR: Can = Can(64);
    /// By design, each frame has one descriptor, however long it is.
    pub const ONE_BUFFER: Can = Can(128);
    /// By design, the driver writes no receive address: it accepts all frames, or the PF's driver sets the address.
    pub const NO_ADDRESS: Can = Can(256);
    /// By design, the driver uses INTx or a single MSI message, so GPIE.MULTIPLE_MSIX stays 0.
    pub const NO_MSIX: Can = Can(512);

    /// The union of two sets, for constants, which can't use `|`.
    #[must_use]
    pub const fn and(self, other: Can) -> Can {
        Can(self.0 | other.0)
    }
}

impl BitOr for Can {
    type Output = Can;

    fn bitor(self, other: Can) -> Can {
        self.and(other)
    }
}

/// What the report card requests from `open`.
#[derive(Clone, Copy, Debug, PartialEq, Eq)]
#[non_exhaustive]
pub struct Setup {
    /// 0 for the physical function; v + 1 for virtual function v (of 64).
    pub port: u8,
    /// The number of queues: use receive and transmit queues 0 to `queues` - 1 of the port.
    pub queues: u16,
    /// The number of descriptors per ring: 8, 16, .. 64.
    pub slots: u16,
    /// The longest frame, in bytes: 1,514 to [`MOST_FRAME`].
    pub frame: u32,
    /// Whether the report card will call `INTERRUPT`. If false, the driver leaves all causes masked.
    pub interrupts: bool,
    /// The port's address, as its EEPROM or the PF's driver provides it.
    pub address: [u8; 6],
    /// For port 0: the number of virtual functions that it hosts, 0 or 2. With virtual functions, the driver configures
    /// 64 pools of queues (GCR_EXT 3) and reports to the functions that the device is ready (CTRL_EXT.PFRSTD).
    pub functions: u8,
}

/// A received frame.
#[derive(Clone, Debug, Default, PartialEq, Eq)]
pub struct Frame {
    /// The frame's bytes, 1 to [`MOST_FRAME`] of them.
    pub bytes: Vec<u8>,
    /// The RSS hash; 0 if the driver doesn't report the hash.
    pub hash: u32,
}

/// Which frames to accept, besides frames to the port's own address.
#[derive(Clone, Debug, Default, PartialEq, Eq)]
#[non_exhaustive]
pub struct Filter {
    /// Accept all unicast frames.
    pub all_unicast: bool,
    /// Accept all multicast frames.
    pub all_multicast: bool,
    /// Accept broadcast frames.
    pub broadcast: bool,
    /// Up to 4 addresses to accept, unicast or multicast, besides the port's own.
    pub addresses: Vec<[u8; 6]>,
}

/// A configuration of receive side scaling.
#[derive(Clone, Copy, Debug, PartialEq, Eq)]
#[non_exhaustive]
pub struct Rss {
    /// The key, as [`rss_hash`](crate::rss_hash) takes it.
    pub key: [u8; 40],
    /// The redirection table: the queue number for each entry.
    pub table: [u8; 128],
    /// A mask: bit t enables the hash of type t, a code of [`RssType`](crate::desc::RssType).
    pub types: u32,
}

/// The platform that a driver's functions run on: memory, and the device as a [`Bus`]. Each call to the platform is a
/// point.
pub struct Platform {
    bus: Bus,
}

impl fmt::Debug for Platform {
    fn fmt(&self, f: &mut fmt::Formatter<'_>) -> fmt::Result {
        f.debug_struct("Platform").finish_non_exhaustive()
    }
}

impl Deref for Platform {
    type Target = Bus;

    fn deref(&self) -> &Bus {
        &self.bus
    }
}

impl Platform {
    /// Returns the bus, for code that takes a [`Device`](crate::Device).
    pub fn bus(&self) -> &Bus {
        &self.bus
    }

    /// Allocates DMA memory of 1 to 524,288 zeroed bytes. Returns the bus address of its first byte, a multiple of 128.
    /// The memory after the allocation isn't lent, so any access there by the driver or the device is reported. Returns
    /// `None` if memory has run out, or if the scenario makes the allocation fail. There is room for 123 allocations of
    /// 2 KB, or for one of 503,808 bytes.
    pub fn dma_alloc(&self, bytes: usize) -> Option<u64> {
        Some(raw::dma_alloc(bytes)).filter(|it| *it != 0)
    }

    /// Frees DMA memory by its first address. The device must no longer use it.
    pub fn dma_free(&self, bus: u64) {
        raw::dma_free(bus);
    }

    /// Returns `bytes` bytes of memory from [`dma_alloc`](Platform::dma_alloc) in place, starting at a bus address, for
    /// a driver that accesses its memory directly. What the device writes is visible immediately. What the driver
    /// stores reaches the device at the driver's next platform call, barriers included: before that call, each run of
    /// changed bytes is written at its own point. Loads aren't points, so a loop that only waits for memory must call
    /// [`pause`](Bus::pause). If the first or the last byte wasn't allocated by `dma_alloc`, the schedule fails and the
    /// result is `None`. A store outside all allocations fails the schedule at the next call.
    pub fn dma(&self, bus: u64, bytes: usize) -> Option<&[Cell<u8>]> {
        raw::dma_cells(bus, bytes)
    }

    /// Allocates memory for the driver itself and moves a value into it, like `Box::try_new`. Returns `None` if a
    /// scenario makes the allocation fail. Dropping the result frees it; memory not freed when `close` returns is
    /// reported.
    pub fn own<T>(&self, value: T) -> Option<Own<T>> {
        let token = raw::Token::take(std::mem::size_of::<T>())?;
        Some(Own { value: Box::new(value), _token: token })
    }

    /// Passes a frame received on a queue to the report card. One of the driver's own threads calls it, in a driver
    /// without `RECEIVE`.
    pub fn deliver(&self, queue: u16, bytes: &[u8]) {
        raw::deliver(queue, bytes);
    }
}

/// Memory for the driver itself, from [`Platform::own`].
pub struct Own<T> {
    value: Box<T>,
    _token: raw::Token,
}

impl<T: fmt::Debug> fmt::Debug for Own<T> {
    fn fmt(&self, f: &mut fmt::Formatter<'_>) -> fmt::Result {
        self.value.fmt(f)
    }
}

impl<T> Deref for Own<T> {
    type Target = T;

    fn deref(&self) -> &T {
        &self.value
    }
}

impl<T> DerefMut for Own<T> {
    fn deref_mut(&mut self) -> &mut T {
        &mut self.value
    }
}

/// Runs a whole program, controlled by the command line: `--list` prints the scenarios; `--row NAME` runs one, and
/// accepts the options of a search after the name. Status 0: nothing was found. 1: a failure was found. 2: the driver
/// or an argument is refused. 4: the scenario isn't applicable. 5: `open` never returns. `c/drive/nicdrive` runs all
/// scenarios and prints the report card.
pub fn main<D: Driver>() -> ExitCode {
    ExitCode::from(raw::run::<D>(env::args().collect()))
}
