//! The controller and its virtual functions.

use std::cell::Cell;
use std::fmt;

use crate::error::{Absent, Error};
use crate::event::{Event, Side, Why};
use crate::handle::{self, Handle, Kept};
use crate::memory::{unless_lent, Memory};
use crate::register::{Register, VfRegister};
use crate::regs;
use crate::settle::{Settled, Steps};

/// The sizes of a controller. The default is no virtual functions, room for 64 waiting frames, and 256 blocks.
///
/// ```
/// use nic82599::Sizes;
///
/// assert_eq!(Sizes::default(), Sizes { vfs: 0, fifo: 64, blocks: 256 });
/// ```
#[derive(Clone, Copy, Debug, PartialEq, Eq, Hash)]
pub struct Sizes {
    /// The number of virtual functions, at most 63.
    pub vfs: u8,
    /// The number of received frames that may wait, 1 to 4,096.
    pub fifo: u16,
    /// The number of blocks of packet memory, 1 to 65,536. Each is 2,048 bytes long.
    pub blocks: u32,
}

impl Default for Sizes {
    /// No virtual functions, 64 frames, 256 blocks.
    fn default() -> Sizes {
        Sizes { vfs: 0, fifo: 64, blocks: 256 }
    }
}

/// What happened to an arriving frame.
#[derive(Clone, Copy, Debug, PartialEq, Eq, Hash)]
#[must_use]
pub enum Arrival {
    /// It waits for receive steps.
    Waits,
    /// It was dropped.
    Dropped(Why),
}

/// A transmitted frame.
#[derive(Clone, Debug, PartialEq, Eq, Hash)]
pub struct Frame {
    /// The transmit queue that sent the frame.
    pub queue: u16,
    /// The frame's bytes, without a frame check sequence.
    pub data: Vec<u8>,
}

/// A saved controller state, from [`Nic::snapshot`]. It is independent of the controller.
///
/// You may move it to another thread, but two threads can't use it at the same time. The same applies to a controller.
#[derive(Debug)]
pub struct Snapshot {
    kept: Kept,
    sizes: Sizes,
}

impl Snapshot {
    /// Returns the sizes of the saved controller.
    pub const fn sizes(&self) -> Sizes {
        self.sizes
    }
}

/// A controller. Dropping it frees its memory and discards its frames.
///
/// All methods take `&self`, because the parts of a driver share the device: each part may hold a reference. A `Nic` is
/// `Send` but not `Sync`: you may move it to another thread, and two threads that share one need a lock around it.
///
/// ```
/// use nic82599::{regs, Nic, Sizes};
///
/// let nic = Nic::open(Sizes::default())?;
/// nic.write(regs::RXCTRL, regs::rxctrl::RXEN);
/// assert_eq!(nic.read(regs::SRRCTL.at(3)), 0x402);
/// # Ok::<(), nic82599::Error>(())
/// ```
pub struct Nic {
    handle: Handle,
    sizes: Cell<Sizes>,
}

impl Nic {
    /// Creates a controller of these sizes, in its power-up state. No block is lent yet: most programs call
    /// [`Nic::lend_all`] next.
    ///
    /// # Errors
    ///
    /// [`Error::BadBlocks`], [`Error::TooManyVfs`] or [`Error::BadFifo`], the first of these that applies;
    /// [`Error::OutOfMemory`].
    pub fn open(sizes: Sizes) -> Result<Nic, Error> {
        Ok(Nic::of(Handle::open(sizes)?, sizes))
    }

    pub(crate) fn of(handle: Handle, sizes: Sizes) -> Nic {
        Nic { handle, sizes: Cell::new(sizes) }
    }

    /// Returns the controller's sizes, which [`Nic::restore`] may change.
    pub fn sizes(&self) -> Sizes {
        self.sizes.get()
    }

    pub(crate) fn handle(&self) -> &Handle {
        &self.handle
    }

    // --- snapshots ---

    /// Saves the controller's whole state: registers, lent blocks with their bytes, frames, the link and the EEPROM.
    /// The snapshot takes 2,048 bytes for each lent block.
    ///
    /// # Errors
    ///
    /// [`Error::OutOfMemory`].
    ///
    /// ```
    /// use nic82599::{regs::RETA, Nic, Sizes};
    ///
    /// let nic = Nic::open(Sizes::default())?;
    /// nic.write(RETA.at(3), 7);
    /// let kept = nic.snapshot()?;
    /// nic.write(RETA.at(3), 0);
    /// nic.restore(&kept)?;
    /// assert_eq!(nic.read(RETA.at(3)), 7);
    /// # Ok::<(), nic82599::Error>(())
    /// ```
    pub fn snapshot(&self) -> Result<Snapshot, Error> {
        Ok(Snapshot { kept: self.handle.snapshot()?, sizes: self.sizes() })
    }

    /// Restores a snapshot, which may come from another controller; this controller's sizes become the snapshot's
    /// sizes. You can restore the same snapshot again.
    ///
    /// # Errors
    ///
    /// [`Error::OutOfMemory`]; the controller is then unchanged.
    pub fn restore(&self, kept: &Snapshot) -> Result<(), Error> {
        self.handle.restore(&kept.kept)?;
        self.sizes.set(kept.sizes);
        Ok(())
    }

    // --- registers ---

    /// Reads a register, with all side effects of the access.
    pub fn read(&self, register: Register) -> u32 {
        word_of(self.handle.read32(register.address()))
    }

    /// Writes a register, with all side effects of the access.
    pub fn write(&self, register: Register, word: u32) {
        self.handle.write32(register.address(), word);
    }

    /// Reads a register, applies a closure to its value, and writes the result.
    pub fn modify(&self, register: Register, change: impl FnOnce(u32) -> u32) {
        self.write(register, change(self.read(register)));
    }

    /// Returns the value that a read would return, without its side effects: it clears no counter and no interrupt
    /// cause.
    pub fn peek(&self, register: Register) -> u32 {
        self.handle.peek32(register.address()).unwrap_or(0)
    }

    /// Reads the register at an address. Use [`Nic::see32`] to get a value even if there is no register.
    ///
    /// # Errors
    ///
    /// [`Error::Stray`] with the value that a driver sees, if there is no register at the address or the address isn't
    /// a multiple of 4.
    ///
    /// ```
    /// use nic82599::{Absent, Error, Nic, Sizes};
    ///
    /// let nic = Nic::open(Sizes::default())?;
    /// assert_eq!(nic.read32(0x01014), Ok(0x402));
    /// assert_eq!(nic.read32(0x01015), Err(Error::Stray { at: 0x01015, word: Some(0), why: Absent::Register }));
    /// # Ok::<(), nic82599::Error>(())
    /// ```
    pub fn read32(&self, address: u32) -> Result<u32, Error> {
        word_or_stray(self.handle.read32(address), address, || Absent::Register)
    }

    /// Writes the register at an address.
    ///
    /// # Errors
    ///
    /// [`Error::Stray`] if there is no register at the address; nothing then changes.
    pub fn write32(&self, address: u32, word: u32) -> Result<(), Error> {
        done_or_stray(self.handle.write32(address, word), address, || Absent::Register)
    }

    /// Like [`Nic::peek`], for the register at an address.
    ///
    /// # Errors
    ///
    /// [`Error::Stray`] if there is no register at the address.
    pub fn peek32(&self, address: u32) -> Result<u32, Error> {
        word_or_absent(self.handle.peek32(address), address, || Absent::Register)
    }

    /// Reads the register at an address. Returns the value that a driver sees, even if there is no register.
    pub fn see32(&self, address: u32) -> u32 {
        word_of(self.handle.read32(address))
    }

    /// Returns the virtual function with this number. If the function doesn't exist, accesses to all its registers are
    /// stray, and reads return 0xFFFFFFFF.
    pub fn vf(&self, number: u8) -> Function<'_> {
        Function { nic: self, number }
    }

    // --- packet memory ---

    /// Returns packet memory, accessed by bus address.
    pub fn memory(&self) -> Memory<'_> {
        Memory::new(self)
    }

    /// Lends a block to the device. Its bytes are 0.
    ///
    /// # Errors
    ///
    /// [`Error::NoBlock`], [`Error::OutOfMemory`].
    pub fn lend(&self, block: u32) -> Result<(), Error> {
        self.handle.lend(block)
    }

    /// Lends every block that isn't lent yet.
    ///
    /// # Errors
    ///
    /// [`Error::OutOfMemory`]; the blocks below the refused block are then lent.
    pub fn lend_all(&self) -> Result<(), Error> {
        self.handle.lend_all()
    }

    /// Takes a block back from the device. Its bytes are lost, unless the block is memory in place.
    ///
    /// # Errors
    ///
    /// [`Error::NotLent`] with the block's first bus address.
    pub fn take(&self, block: u32) -> Result<(), Error> {
        unless_lent(self.handle.take(block), || Memory::block(block).start)
    }

    // --- the link ---

    /// Delivers a frame to the card, without its frame check sequence.
    ///
    /// # Errors
    ///
    /// [`Error::OutOfMemory`].
    ///
    /// ```
    /// use nic82599::{Arrival, Nic, Sizes, Why};
    ///
    /// let nic = Nic::open(Sizes::default())?;
    /// assert_eq!(nic.arrive(&[0; 60])?, Arrival::Dropped(Why::Off));
    /// # Ok::<(), nic82599::Error>(())
    /// ```
    pub fn arrive(&self, frame: &[u8]) -> Result<Arrival, Error> {
        self.handle.arrive(frame)
    }

    /// Returns the length of the frame that [`Nic::collect`] would return; 0 if there is none.
    pub fn next_out(&self) -> usize {
        self.handle.next_out()
    }

    /// Takes the oldest transmitted frame.
    pub fn collect(&self) -> Option<Frame> {
        let mut data = Vec::new();
        let queue = self.collect_into(&mut data)?;
        Some(Frame { queue, data })
    }

    /// Takes the oldest transmitted frame like [`Nic::collect`], but replaces the contents of a vector with its bytes
    /// and returns its queue. If there is no frame, the vector is cleared.
    pub fn collect_into(&self, data: &mut Vec<u8>) -> Option<u16> {
        self.handle.collect(data)
    }

    /// Returns an iterator that takes the transmitted frames, oldest first.
    pub fn frames(&self) -> impl Iterator<Item = Frame> + '_ {
        std::iter::from_fn(move || self.collect())
    }

    /// Sets the link up or down. Returns false if the link is already in that state. The link is up initially.
    pub fn link(&self, up: bool) -> bool {
        self.handle.link(up)
    }

    // --- the steps of the device ---

    /// Writes one buffer of the frame that has waited longest. Returns `None` if there is nothing to do.
    pub fn rx_step(&self) -> Option<Event> {
        self.handle.rx_step()
    }

    /// Fetches one descriptor of a transmit queue. Returns `None` if there is nothing to do.
    ///
    /// # Errors
    ///
    /// [`Error::NoQueue`], [`Error::OutOfMemory`].
    pub fn tx_step(&self, queue: u16) -> Result<Option<Event>, Error> {
        self.handle.tx_step(queue)
    }

    /// Enables or disables a side of a queue, as bit 25 of RXDCTL or TXDCTL requests. Returns false if there is nothing
    /// to do.
    ///
    /// # Errors
    ///
    /// [`Error::NoQueue`].
    pub fn queue_step(&self, side: Side, queue: u16) -> Result<bool, Error> {
        self.handle.queue_step(side, queue)
    }

    /// Completes the EEPROM read that EERD started. Returns false if there is nothing to do.
    pub fn eeprom_step(&self) -> bool {
        self.handle.eeprom_step()
    }

    /// Sends the next message of the physical function. Returns `None` if there is nothing to do. For the messages of a
    /// virtual function, see [`Function::int_step`].
    pub fn int_step(&self) -> Option<Event> {
        self.handle.int_step(0).unwrap_or(None)
    }

    /// Runs steps until none has anything to do, and returns their events in order. It runs in rounds. A round consists
    /// of the receive and then the transmit enable step of each queue below `queues`; the EEPROM step; one transmit
    /// step for each of these queues; one receive step; one interrupt step for each function. A new round begins after
    /// every 256 events.
    ///
    /// All steps are complete when the call returns. To act between two events, use [`Nic::steps`], which runs each
    /// step on demand. Queues at or above `queues` are never enabled: a driver that polls RXDCTL or TXDCTL of one of
    /// them polls forever.
    ///
    /// # Errors
    ///
    /// [`Error::NoQueue`] if `queues` is above 128. [`Error::OutOfMemory`]; the steps taken so far aren't undone.
    ///
    /// ```
    /// use nic82599::{regs, Event, Nic, Side, Sizes};
    ///
    /// let nic = Nic::open(Sizes::default())?;
    /// nic.write(regs::RDLEN.at(3), 128);
    /// nic.write(regs::RXDCTL.at(3), regs::rxdctl::ENABLE);
    /// for event in nic.settle(4)? {
    ///     assert_eq!(event, Event::Switched { side: Side::Rx, queue: 3 });
    /// }
    /// # Ok::<(), nic82599::Error>(())
    /// ```
    pub fn settle(&self, queues: u16) -> Result<Settled, Error> {
        Settled::of(self, queues)
    }

    /// Returns an iterator that runs the steps of [`Nic::settle`] in the same order. It runs a step when its event is
    /// requested. A driver can therefore act on an event before the device continues, as an interrupt handler does on a
    /// message. The iterator ends when a whole round has nothing to do.
    ///
    /// # Errors
    ///
    /// [`Error::NoQueue`] if `queues` is above 128. The iterator yields [`Error::OutOfMemory`] if a transmit step runs
    /// out of memory.
    pub fn steps(&self, queues: u16) -> Result<Steps<'_>, Error> {
        Steps::of(self, queues)
    }

    // --- the EEPROM ---

    /// Installs an EEPROM image, such as `nicbench eeprom` produces.
    ///
    /// # Errors
    ///
    /// [`Error::Image`], [`Error::OutOfMemory`].
    pub fn install_image(&self, image: &[u8]) -> Result<(), Error> {
        self.handle.install_image(image)
    }

    /// Assembles the source of an EEPROM image and installs the image. docs/script.md describes the syntax.
    ///
    /// # Errors
    ///
    /// [`Error::Text`], [`Error::OutOfMemory`].
    ///
    /// ```
    /// use nic82599::{regs, Error, Nic, Sizes, TextFault};
    ///
    /// let nic = Nic::open(Sizes::default())?;
    /// nic.install_text("size 128\ncsr 0x05080 0x400\n")?;
    /// nic.write(regs::CTRL, regs::ctrl::RST); // a reset performs the image's register writes
    /// assert_eq!(nic.peek(regs::FCTRL), 0x400);
    /// assert_eq!(nic.install_text("size 128\nno\n"), Err(Error::Text(TextFault::Syntax(2))));
    /// # Ok::<(), nic82599::Error>(())
    /// ```
    pub fn install_text(&self, text: &str) -> Result<(), Error> {
        self.handle.install_text(text)
    }
}

impl fmt::Debug for Nic {
    fn fmt(&self, f: &mut fmt::Formatter<'_>) -> fmt::Result {
        let Sizes { vfs, fifo, blocks } = self.sizes();
        f.debug_struct("Nic").field("vfs", &vfs).field("fifo", &fifo).field("blocks", &blocks).finish_non_exhaustive()
    }
}

/// A virtual function of a controller, with its registers: [`regs::vf`](crate::regs::vf).
///
/// ```
/// use nic82599::{regs::vf, Absent, Error, Nic, Sizes};
///
/// let nic = Nic::open(Sizes { vfs: 2, ..Sizes::default() })?;
/// let stray = nic.vf(0).read(vf::VTEIMS); // no pools are on, so it has no registers
/// let why = Absent::Pool { number: 0, pools: 0 };
/// assert_eq!(stray, Err(Error::Stray { at: 0x108, word: Some(0xFFFF_FFFF), why }));
/// nic.write(nic82599::regs::GCR_EXT, 3);
/// assert_eq!(nic.vf(0).read(vf::VTEIMS), Ok(0));
/// # Ok::<(), nic82599::Error>(())
/// ```
#[derive(Clone, Copy, Debug)]
pub struct Function<'a> {
    nic: &'a Nic,
    number: u8,
}

impl Function<'_> {
    /// Returns why the function has no register at an offset. `is_some` says whether any function has a register there.
    fn why_absent(&self, is_some: bool) -> Absent {
        why_absent(self.number, self.nic.sizes().vfs, self.nic.peek(regs::GCR_EXT), is_some)
    }

    /// Returns the function's number.
    pub const fn number(&self) -> u8 {
        self.number
    }

    /// Reads a register, with all side effects of the access.
    ///
    /// # Errors
    ///
    /// [`Error::Stray`] with the value that a driver sees, if the device has no such function, the mode (GCR_EXT)
    /// provides no pool for it, or the pool has no such queue.
    pub fn read(&self, register: VfRegister) -> Result<u32, Error> {
        let offset = register.offset();
        word_or_stray(self.nic.handle.vf_read32(self.number, offset), offset, || self.why_absent(true))
    }

    /// Writes a register, with all side effects of the access.
    ///
    /// # Errors
    ///
    /// [`Error::Stray`], as for [`Function::read`].
    pub fn write(&self, register: VfRegister, word: u32) -> Result<(), Error> {
        let offset = register.offset();
        done_or_stray(self.nic.handle.vf_write32(self.number, offset, word), offset, || self.why_absent(true))
    }

    /// Returns the value that a read would return, without its side effects.
    ///
    /// # Errors
    ///
    /// [`Error::Stray`], as for [`Function::read`].
    pub fn peek(&self, register: VfRegister) -> Result<u32, Error> {
        let offset = register.offset();
        word_or_absent(self.nic.handle.vf_peek32(self.number, offset), offset, || self.why_absent(true))
    }

    /// Reads the register at an offset.
    ///
    /// # Errors
    ///
    /// [`Error::Stray`] with the value that a driver sees.
    pub fn read32(&self, offset: u32) -> Result<u32, Error> {
        word_or_stray(self.nic.handle.vf_read32(self.number, offset), offset, || self.why_absent(false))
    }

    /// Writes the register at an offset.
    ///
    /// # Errors
    ///
    /// [`Error::Stray`]; nothing then changes.
    pub fn write32(&self, offset: u32, word: u32) -> Result<(), Error> {
        done_or_stray(self.nic.handle.vf_write32(self.number, offset, word), offset, || self.why_absent(false))
    }

    /// Returns the value that a read by offset would return, without its side effects.
    ///
    /// # Errors
    ///
    /// [`Error::Stray`].
    pub fn peek32(&self, offset: u32) -> Result<u32, Error> {
        word_or_absent(self.nic.handle.vf_peek32(self.number, offset), offset, || self.why_absent(false))
    }

    /// Reads the register at an offset. Returns the value that a driver sees, even if there is no register.
    pub fn see32(&self, offset: u32) -> u32 {
        word_of(self.nic.handle.vf_read32(self.number, offset))
    }

    /// Sends the function's next message. Returns `None` if there is nothing to do.
    ///
    /// # Errors
    ///
    /// [`Error::NoGroup`] if the function doesn't exist or has no pool.
    pub fn int_step(&self) -> Result<Option<Event>, Error> {
        match self.number.checked_add(1) {
            Some(group) => self.nic.handle.int_step(group),
            None => Err(Error::NoGroup),
        }
    }
}

/// Returns the physical function's address of the register that virtual function `number` has at an offset, in the mode
/// that bits 1:0 of the GCR_EXT value select. The result doesn't depend on a controller, so your controller need not
/// have this function.
///
/// # Errors
///
/// [`Error::NoGroup`] if the mode provides no pool for the function, or its number is above 62. [`Error::Stray`] if the
/// function has no register at the offset.
///
/// ```
/// use nic82599::regs::{vf, RDT};
/// use nic82599::{vf_address, Error};
///
/// let offset = vf::VFRDT.at(1).offset();
/// assert_eq!(vf_address(3, 3, offset), Ok(RDT.at(7).address())); // 64 pools of two queues
/// assert_eq!(vf_address(0, 3, offset), Err(Error::NoGroup)); // no pools
/// ```
pub fn vf_address(gcr_ext: u32, number: u8, offset: u32) -> Result<u32, Error> {
    word_or_absent(handle::vf_address(gcr_ext, number, offset)?, offset, || Absent::Register)
}

/// The number of pools, and of queues in each pool, by GCR_EXT bits 1:0.
const POOLS: [(u8, u8); 4] = [(0, 0), (16, 8), (32, 4), (64, 2)];

/// Returns why a virtual function has no register at an offset, for a controller with `vfs` functions and this value of
/// GCR_EXT. If any function has the register (`is_some`), the reason is that the pool lacks the register's queue.
pub(crate) fn why_absent(number: u8, vfs: u8, gcr_ext: u32, is_some: bool) -> Absent {
    let (pools, queues) = POOLS[gcr_ext as usize & 3];
    if number >= vfs {
        Absent::Function { number, vfs }
    } else if number >= pools {
        Absent::Pool { number, pools }
    } else if is_some {
        Absent::Queue { number, queues }
    } else {
        Absent::Register
    }
}

/// The value that a driver reads.
fn word_of(answer: Result<u32, u32>) -> u32 {
    answer.unwrap_or_else(|stray| stray)
}

fn word_or_stray(answer: Result<u32, u32>, at: u32, why: impl FnOnce() -> Absent) -> Result<u32, Error> {
    answer.map_err(|word| Error::Stray { at, word: Some(word), why: why() })
}

fn word_or_absent(answer: Option<u32>, at: u32, why: impl FnOnce() -> Absent) -> Result<u32, Error> {
    answer.ok_or_else(|| Error::Stray { at, word: None, why: why() })
}

pub(crate) fn done_or_stray(is_done: bool, at: u32, why: impl FnOnce() -> Absent) -> Result<(), Error> {
    if is_done {
        Ok(())
    } else {
        Err(Error::Stray { at, word: None, why: why() })
    }
}
