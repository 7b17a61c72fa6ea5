//! The calls in `nic82599.h`. Controllers and snapshots are owned handles; their methods take slices and references,
//! and return the calls' results.
//!
//! This file upholds what the header requires of a caller. A handle has a device from `open` to its drop, so every call
//! gets an open controller. Pointers come from references and slices: they aren't null, they point to as many bytes as
//! the length says, and they don't overlap, because none of them points into the handle. Numbers may have any value. No
//! call calls back into Rust, so nothing else uses a handle during a call. A handle isn't `Sync`, so no other thread
//! uses it either.
#![allow(unsafe_code)]

use std::cell::UnsafeCell;
use std::ffi::CStr;
use std::marker::PhantomData;
use std::os::raw::{c_char, c_void};
use std::ptr;

use crate::status;

/// `struct nic`.
#[repr(C)]
pub(crate) struct RawNic {
    device: *mut c_void,
}

/// `struct nic_kept`.
#[repr(C)]
struct RawKept {
    kept: *mut c_void,
}

/// `struct nic_outcome`.
#[repr(C)]
#[derive(Clone, Copy, Default)]
pub(crate) struct Outcome {
    pub(crate) desc: u64,
    pub(crate) at: u64,
    pub(crate) len: u64,
    pub(crate) bus: u64,
    pub(crate) queue: u16,
    pub(crate) slot: u16,
    pub(crate) group: u16,
    pub(crate) of: u16,
    pub(crate) status: u8,
    pub(crate) step: u8,
    pub(crate) end: u8,
    pub(crate) back: u8,
    pub(crate) why: u8,
    pub(crate) vector: u8,
}

/// `struct nic_settling`.
#[repr(C)]
#[derive(Clone, Copy, Debug)]
pub(crate) struct Settling {
    pub(crate) queues: u16,
    pub(crate) at: u16,
}

extern "C" {
    fn nic_version() -> *const c_char;
    fn nic_is_proved() -> bool;
    fn nic_edition() -> *const c_char;
    fn nic_record(path: *const c_char) -> bool;
    fn nic_new(vfs: u8, fifo: u16, blocks: u32, device: *mut *mut c_void) -> u8;
    fn nic_free(n: RawNic);
    fn nic_snapshot(n: *mut RawNic, kept: *mut RawKept) -> u8;
    fn nic_restore(n: *mut RawNic, kept: *const RawKept) -> u8;
    fn nic_free_snapshot(kept: RawKept);
    fn nic_lend_memory(n: *mut RawNic, bus: u64, memory: *mut c_void, bytes: usize) -> u8;
    fn nic_dma_read(n: *mut RawNic, bus: u64, bytes: *mut u8, length: usize) -> u8;
    fn nic_dma_write(n: *mut RawNic, bus: u64, bytes: *const u8, length: usize) -> u8;
    fn nic_next_out(n: *mut RawNic) -> usize;
    fn nic_arrive(n: *mut RawNic, frame: *const u8, length: usize, outcome: *mut Outcome) -> u8;
    fn nic_collect(n: *mut RawNic, room: *mut u8, length: usize, outcome: *mut Outcome) -> u8;
    fn nic_settle(n: *mut RawNic, queues: u16, outcome: *mut Outcome, length: usize, count: *mut usize) -> u8;
    fn nic_next_step(n: *mut RawNic, place: *mut Settling, outcome: *mut Outcome) -> u8;
    fn nic_why(n: *mut RawNic, text: *mut u8, size: usize) -> usize;
    fn nic_note(n: *mut RawNic, text: *const c_char) -> u8;
    fn nic_install_image(n: *mut RawNic, bytes: *const u8, length: usize) -> u8;
    fn nic_install_text(n: *mut RawNic, text: *const u8, length: usize, line: *mut u64) -> u8;
    fn nic_hash(key: *const u8, input: *const u8, length: usize, hash: *mut u32) -> u8;
    fn nic_vf_address(gcr_ext: u32, vf: u8, offset: u32, address: *mut u32) -> u8;
}

/// Returns the status unchanged. Panics if the library's own code panicked in this call or in an earlier call on the
/// controller: the controller may then be half changed.
fn unbroken(status: u8) -> u8 {
    assert!(status != status::BROKEN, "the library had an internal fault: see standard error");
    status
}

/// Declares calls on a controller that take only numbers and return a status, and defines a method of the handle for
/// each. Calls under `answering` also have an out-parameter, returned after the status.
macro_rules! plain_calls {
    (
        plain { $($call:ident as $name:ident($($word:ident: $kind:ty),*);)+ }
        answering { $($filling:ident as $filled:ident($($part:ident: $type:ty),*) -> $place:ty;)+ }
    ) => {
        extern "C" {
            $(fn $call(n: *mut RawNic, $($word: $kind),*) -> u8;)+
            $(fn $filling(n: *mut RawNic, $($part: $type,)* place: *mut $place) -> u8;)+
        }

        impl Handle {
            $(
                pub(crate) fn $name(&self, $($word: $kind),*) -> u8 {
                    // SAFETY: the controller is open.
                    unbroken(unsafe { $call(self.n().raw, $($word),*) })
                }
            )+
            $(
                pub(crate) fn $filled(&self, $($part: $type),*) -> (u8, $place) {
                    let mut place = <$place>::default();
                    // SAFETY: the controller is open; `place` has room for the result.
                    (unbroken(unsafe { $filling(self.n().raw, $($part,)* &mut place) }), place)
                }
            )+
        }
    };
}

plain_calls! {
    plain {
        nic_write32 as write32(address: u32, word: u32);
        nic_vf_write32 as vf_write32(vf: u8, offset: u32, word: u32);
        nic_lend as lend(block: u32);
        nic_take as take(block: u32);
        nic_lend_all as lend_all();
        nic_unlend_memory as unlend_memory(bus: u64, bytes: usize);
        nic_link as link(up: bool);
    }
    answering {
        nic_read32 as read32(address: u32) -> u32;
        nic_peek32 as peek32(address: u32) -> u32;
        nic_vf_read32 as vf_read32(vf: u8, offset: u32) -> u32;
        nic_vf_peek32 as vf_peek32(vf: u8, offset: u32) -> u32;
        nic_rx_step as rx_step() -> Outcome;
        nic_tx_step as tx_step(queue: u16) -> Outcome;
        nic_int_step as int_step(group: u8) -> Outcome;
        nic_queue_step as queue_step(transmit: bool, queue: u16) -> Outcome;
        nic_eeprom_step as eeprom_step() -> Outcome;
    }
}

/// Returns the library's version.
pub(crate) fn version() -> &'static str {
    // SAFETY: the call takes no argument and returns a NUL-terminated string that the library owns and never changes.
    let text = unsafe { CStr::from_ptr(nic_version()) };
    text.to_str().unwrap_or("")
}

/// Returns whether the library was proved.
pub(crate) fn is_proved() -> bool {
    // SAFETY: the call takes no argument.
    unsafe { nic_is_proved() }
}

/// Returns the library's edition.
pub(crate) fn edition() -> &'static str {
    // SAFETY: the call takes no argument and returns a NUL-terminated string that never changes.
    let text = unsafe { CStr::from_ptr(nic_edition()) };
    text.to_str().unwrap_or("")
}

/// Records the controllers that are opened from now on; with `None`, stops recording new controllers.
pub(crate) fn record(path: Option<&CStr>) -> bool {
    // SAFETY: the pointer is null, which the call allows, or points to a NUL-terminated string, which the call copies.
    unsafe { nic_record(path.map_or(ptr::null(), CStr::as_ptr)) }
}

/// Returns the status and the RSS hash of an input.
pub(crate) fn hash(key: &[u8; 40], input: &[u8]) -> (u8, u32) {
    let mut word = 0;
    let _memory = OwnMemory::begin();
    // SAFETY: the key has the 40 bytes that the call reads, and the input's pointer is valid for its length.
    let status = unsafe { nic_hash(key.as_ptr(), input.as_ptr(), input.len(), &mut word) };
    (status, word)
}

/// Returns the status and the address of a virtual function's register.
pub(crate) fn vf_address(gcr_ext: u32, vf: u8, offset: u32) -> (u8, u32) {
    let mut address = 0;
    let _memory = OwnMemory::begin();
    // SAFETY: the call takes numbers, and room for the address, which it writes or leaves unchanged.
    let status = unsafe { nic_vf_address(gcr_ext, vf, offset, &mut address) };
    (status, address)
}

/// A snapshot.
#[derive(Debug)]
pub(crate) struct Kept {
    raw: RawKept,
}

impl std::fmt::Debug for RawKept {
    fn fmt(&self, f: &mut std::fmt::Formatter<'_>) -> std::fmt::Result {
        write!(f, "{:p}", self.kept)
    }
}

// SAFETY: a snapshot shares nothing with another snapshot or a controller, and its calls don't depend on the thread, so
// a snapshot may move to another thread. (It contains a pointer, so it isn't `Sync`.)
unsafe impl Send for Kept {}

impl Drop for Kept {
    fn drop(&mut self) {
        let _memory = OwnMemory::begin();
        // SAFETY: nic_snapshot created it, and only this drop frees it, once.
        unsafe { nic_free_snapshot(RawKept { kept: self.raw.kept }) }
    }
}

/// While this value lives, memory that the library allocates on this thread belongs to the program. A search has
/// separate memory, which is reset for each schedule (c/explore/engine/heap.h). The program's controllers and snapshots
/// must not use that memory: the reset would lose them.
struct OwnMemory {
    #[cfg(feature = "explore")]
    ends_a_pause: bool,
}

#[cfg(feature = "explore")]
extern "C" {
    fn nicxi_heap_pause() -> bool;
    fn nicxi_heap_is_mine();
}

#[cfg(feature = "explore")]
impl OwnMemory {
    fn begin() -> OwnMemory {
        // SAFETY: the call takes no pointer, and only changes the heap that this thread allocates from.
        OwnMemory { ends_a_pause: crate::explore::raw::is_running() && unsafe { nicxi_heap_pause() } }
    }
}

#[cfg(feature = "explore")]
impl Drop for OwnMemory {
    fn drop(&mut self) {
        if self.ends_a_pause {
            // SAFETY: as above. The paused search is still active, because a library call ends before the search does.
            unsafe { nicxi_heap_is_mine() }
        }
    }
}

#[cfg(not(feature = "explore"))]
impl OwnMemory {
    fn begin() -> OwnMemory {
        OwnMemory {}
    }
}

/// A controller's pointer for the duration of one call.
struct Pointer<'a> {
    raw: *mut RawNic,
    _memory: OwnMemory,
    _of: PhantomData<&'a Handle>,
}

/// A controller. The header's struct is in a cell, because calls may write it.
pub(crate) struct Handle {
    raw: UnsafeCell<RawNic>,
}

// SAFETY: controllers share only the recorder, which has a lock, and a controller's calls don't depend on the thread,
// so it may move to another thread. (It contains a cell, so it isn't `Sync`.)
unsafe impl Send for Handle {}

impl Drop for Handle {
    fn drop(&mut self) {
        let _memory = OwnMemory::begin();
        // SAFETY: nic_new created it, and only this drop frees it, once.
        unsafe { nic_free(RawNic { device: self.raw.get_mut().device }) }
    }
}

impl Handle {
    /// Creates a controller in its power-up state, or returns the status of the refusal.
    pub(crate) fn open(vfs: u8, fifo: u16, blocks: u32) -> Result<Handle, u8> {
        let mut device = ptr::null_mut();
        let _memory = OwnMemory::begin();
        // SAFETY: the pointer points to room for a device pointer.
        match unsafe { nic_new(vfs, fifo, blocks, &mut device) } {
            status::DONE => Ok(Handle { raw: UnsafeCell::new(RawNic { device }) }),
            status => Err(status),
        }
    }

    /// Creates another handle to the same controller.
    ///
    /// # Safety
    ///
    /// `n` must point to an open controller, which stays open for as long as this handle is used. Only one of the two
    /// handles may be dropped, and neither may be restored.
    #[cfg(feature = "explore")]
    pub(crate) unsafe fn another(n: *mut RawNic) -> Handle {
        // SAFETY: the pointer points to a controller's struct.
        Handle { raw: UnsafeCell::new(RawNic { device: unsafe { (*n).device } }) }
    }

    /// The pointer that the calls take.
    fn n(&self) -> Pointer<'_> {
        Pointer { raw: self.raw.get(), _memory: OwnMemory::begin(), _of: PhantomData }
    }

    /// Returns the length of the frame that would be collected next; 0 if there is none.
    pub(crate) fn next_out(&self) -> usize {
        // SAFETY: the controller is open.
        unsafe { nic_next_out(self.n().raw) }
    }

    /// Takes a snapshot, or returns the status of the refusal.
    pub(crate) fn snapshot(&self) -> Result<Kept, u8> {
        let mut raw = RawKept { kept: ptr::null_mut() };
        // SAFETY: the controller is open; `raw` has room for a snapshot.
        match unsafe { nic_snapshot(self.n().raw, &mut raw) } {
            status::DONE => Ok(Kept { raw }),
            status => Err(status),
        }
    }

    pub(crate) fn restore(&self, kept: &Kept) -> u8 {
        // SAFETY: the controller is open, and the snapshot hasn't been freed.
        unsafe { nic_restore(self.n().raw, &kept.raw) }
    }

    /// # Safety
    ///
    /// See [`Memory::lend`](crate::Memory::lend).
    pub(crate) unsafe fn lend_memory(&self, bus: u64, memory: *mut u8, bytes: usize) -> u8 {
        // SAFETY: the controller is open; the caller guarantees the memory for as long as it is lent.
        unsafe { nic_lend_memory(self.n().raw, bus, memory.cast(), bytes) }
    }

    pub(crate) fn dma_read(&self, bus: u64, bytes: &mut [u8]) -> u8 {
        // SAFETY: the controller is open; the buffer's pointer is valid for its length.
        unbroken(unsafe { nic_dma_read(self.n().raw, bus, bytes.as_mut_ptr(), bytes.len()) })
    }

    pub(crate) fn dma_write(&self, bus: u64, bytes: &[u8]) -> u8 {
        // SAFETY: the controller is open; the buffer's pointer is valid for its length.
        unbroken(unsafe { nic_dma_write(self.n().raw, bus, bytes.as_ptr(), bytes.len()) })
    }

    pub(crate) fn arrive(&self, frame: &[u8]) -> (u8, Outcome) {
        let mut outcome = Outcome::default();
        // SAFETY: the controller is open; the frame's pointer is valid for its length; `outcome` has room for an event.
        (unsafe { nic_arrive(self.n().raw, frame.as_ptr(), frame.len(), &mut outcome) }, outcome)
    }

    pub(crate) fn collect(&self, room: &mut [u8]) -> (u8, Outcome) {
        let mut outcome = Outcome::default();
        // SAFETY: the controller is open; the room's pointer is valid for its length; `outcome` has room for an event.
        (unsafe { nic_collect(self.n().raw, room.as_mut_ptr(), room.len(), &mut outcome) }, outcome)
    }

    /// Runs steps until none has anything to do or `room` is full. Returns the status and the number of events in
    /// `room`.
    pub(crate) fn settle(&self, queues: u16, room: &mut [Outcome]) -> (u8, usize) {
        let mut count = 0;
        // SAFETY: the controller is open; the room's pointer is valid for its length; `count` has room for a number.
        let status = unsafe { nic_settle(self.n().raw, queues, room.as_mut_ptr(), room.len(), &mut count) };
        (status, count)
    }

    /// Runs the next step that has something to do, starting at a position in the round.
    pub(crate) fn next_step(&self, place: &mut Settling) -> (u8, Outcome) {
        let mut outcome = Outcome::default();
        // SAFETY: the controller is open; `place` and `outcome` have room for values of their types.
        (unsafe { nic_next_step(self.n().raw, place, &mut outcome) }, outcome)
    }

    /// Writes to `room` what blocks pending work. Returns the length of the whole text, even if `room` is too small for
    /// it.
    pub(crate) fn why(&self, room: &mut [u8]) -> usize {
        // SAFETY: the controller is open; the room's pointer is valid for its length.
        unsafe { nic_why(self.n().raw, room.as_mut_ptr(), room.len()) }
    }

    /// Adds a comment to the recording.
    pub(crate) fn note(&self, text: &CStr) {
        // SAFETY: the controller is open; the text is NUL-terminated, and the call copies it.
        unsafe { nic_note(self.n().raw, text.as_ptr()) };
    }

    pub(crate) fn install_image(&self, bytes: &[u8]) -> u8 {
        // SAFETY: the controller is open; the image's pointer is valid for its length.
        unsafe { nic_install_image(self.n().raw, bytes.as_ptr(), bytes.len()) }
    }

    /// Returns the status, and the line or index that a refusal reports.
    pub(crate) fn install_text(&self, text: &[u8]) -> (u8, u64) {
        let mut line = 0;
        // SAFETY: the controller is open; the text's pointer is valid for its length; `line` has room for a number.
        (unsafe { nic_install_text(self.n().raw, text.as_ptr(), text.len(), &mut line) }, line)
    }
}
