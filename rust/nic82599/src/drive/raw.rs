//! The calls in `nic82599_drive.h`, and the functions that the report card calls: all of the report card's `unsafe`
//! code. In this file, "the card" is the report card.
//!
//! A process has one set of scenarios and one explorer, which run on the thread that called `nicd_main`. The driver's
//! functions run on separate stacks, as the explorer's tasks do (explore/raw.rs). A panic is caught in the function
//! that C called. Only this file creates a `Platform`, for functions that the card calls.
#![allow(unsafe_code)]

use std::any::Any;
use std::cell::{Cell, RefCell};
use std::ffi::CString;
use std::os::raw::{c_char, c_int, c_void};
use std::rc::Rc;
use std::slice;

use super::{Driver, Filter, Frame, Platform, Rss, Setup, Stats, MAILBOX_WORDS, MOST_FRAME};
use crate::explore::raw::{
    advise, arguments, at_point, c_words, caught, fail, plain_calls, text, unwinding, why_not, within, Driven,
};
use crate::explore::{self, hook_panics, Bus};
use crate::nic::Sizes;

/// What the first line of a card advises, because the card sees no access to the driver's own memory.
const TO_BE_SEEN: &[u8] = b"in Rust only calls and platform.point() are points\0";

/// `struct nicd_setup`.
#[repr(C)]
struct RawSetup {
    port: u8,
    queues: u16,
    slots: u16,
    frame: u32,
    interrupts: bool,
    address: [u8; 6],
    functions: u8,
}

/// `struct nicd_frame`.
#[repr(C)]
struct RawFrame {
    length: u32,
    hash: u32,
    bytes: [u8; MOST_FRAME],
}

/// `struct nicd_filter`.
#[repr(C)]
struct RawFilter {
    all_unicast: bool,
    all_multicast: bool,
    broadcast: bool,
    count: u32,
    address: [[u8; 6]; 4],
}

/// `struct nicd_rss`.
#[repr(C)]
struct RawRss {
    key: [u8; 40],
    table: [u8; 128],
    types: u32,
}

type Plain = extern "C" fn() -> bool;

/// `struct nicd_stats`.
#[repr(C)]
struct RawStats {
    rx_frames: u64,
    rx_bytes: u64,
    tx_frames: u64,
    tx_bytes: u64,
}

/// `struct nicd_driver`.
#[repr(C)]
struct RawDriver {
    name: *const c_char,
    can: u32,
    queues: u16,
    slots: u16,
    frame: u32,
    begin: extern "C" fn(),
    open: extern "C" fn(*const RawSetup) -> bool,
    close: extern "C" fn(),
    receive: Option<extern "C" fn(u16, *mut RawFrame) -> bool>,
    send: Option<extern "C" fn(u16, *const u8, u32) -> bool>,
    reclaim: Option<extern "C" fn(u16) -> u32>,
    interrupt: Option<extern "C" fn(u8) -> u32>,
    rearm: Option<extern "C" fn(u16)>,
    threads: u32,
    thread: Option<extern "C" fn(u32)>,
    filter: Option<extern "C" fn(*const RawFilter) -> bool>,
    rss: Option<extern "C" fn(*const RawRss) -> bool>,
    mtu: Option<extern "C" fn(u32) -> bool>,
    resize: Option<extern "C" fn(u16) -> bool>,
    reset: Option<Plain>,
    suspend: Option<Plain>,
    resume: Option<Plain>,
    link: Option<Plain>,
    mailbox_send: Option<extern "C" fn(u8, *const u32, u32) -> bool>,
    mailbox_receive: Option<extern "C" fn(u8, *mut u32) -> bool>,
    mailbox_ready: Option<Plain>,
    stats: Option<extern "C" fn(*mut RawStats)>,
}

extern "C" {
    fn nicd_main(argc: c_int, argv: *mut *mut c_char, driver: *const RawDriver) -> c_int;
    fn nicd_alloc(bytes: usize) -> *mut c_void;
    fn nicd_free(memory: *mut c_void);
    fn nicd_dma_pointer(bus: u64) -> *mut c_void;
    fn nicd_deliver(queue: u16, bytes: *const u8, length: u32);
    fn nicd_failed(form: *const c_char, ...);
}

thread_local! {
    /// The driver's state in this schedule.
    static DRIVER: RefCell<Option<Rc<dyn Any>>> = const { RefCell::new(None) };
    /// The number of the device's virtual functions, derived from the setup of `open`.
    static FUNCTIONS: Cell<u8> = const { Cell::new(0) };
}

/// Returns the result of one of the driver's functions. If the function panics, returns `failed`, and the row fails.
fn called<D: Driver, T>(failed: T, action: impl FnOnce(&D, &Platform) -> T) -> T {
    let done = unwinding(|| {
        caught(|| {
            let kept = DRIVER.with(|it| it.borrow().clone()).expect("the driver is created when a schedule begins");
            let driver: &D = kept.downcast_ref().expect("the process has one driver");
            action(driver, &Platform { bus: Bus::new() })
        })
    });
    done.unwrap_or_else(|words| {
        let words = c_words(words);
        // SAFETY: both arguments are strings, and `words` stays valid until the next message. In a task the call
        // doesn't return, and nothing here needs dropping. Outside a task the schedule fails at its next step.
        unsafe { nicd_failed(b"%s\0".as_ptr().cast(), words) }
        failed
    })
}

/// Unwraps a function that the driver provides; the card calls only such functions.
fn of<T: Copy>(function: Option<T>) -> T {
    function.expect("the driver has this function")
}

extern "C" fn begin<D: Driver>() {
    let made = caught(|| {
        DRIVER.with(|it| it.borrow_mut().take());
        let made: Rc<dyn Any> = Rc::new(D::new());
        DRIVER.with(|it| *it.borrow_mut() = Some(made));
    });
    if let Err(words) = made {
        fail(words);
    }
}

extern "C" fn open<D: Driver>(setup: *const RawSetup) -> bool {
    // SAFETY: the card passes a setup that stays valid while `open` runs.
    let RawSetup { port, queues, slots, frame, interrupts, address, functions } = *unsafe { &*setup };
    FUNCTIONS.with(|it| it.set(if port > 0 || functions > 0 { 2 } else { 0 }));
    let setup = Setup { port, queues, slots, frame, interrupts, address, functions };
    called::<D, _>(false, |driver, platform| driver.open(platform, &setup))
}

extern "C" fn close<D: Driver>() {
    called::<D, _>((), |driver, platform| driver.close(platform));
}

/// Copies a frame. If the frame is too long, reports its length and copies as many bytes as fit.
fn put(frame: &Frame, room: &mut RawFrame) {
    let length = frame.bytes.len().min(MOST_FRAME);
    room.bytes[..length].copy_from_slice(&frame.bytes[..length]);
    room.length = u32::try_from(frame.bytes.len()).unwrap_or(u32::MAX);
    room.hash = frame.hash;
}

extern "C" fn receive<D: Driver>(queue: u16, frame: *mut RawFrame) -> bool {
    called::<D, _>(false, |driver, platform| match of(D::RECEIVE)(driver, platform, queue) {
        Some(got) => {
            // SAFETY: the card passes room for a frame that nothing else accesses while `receive` runs.
            put(&got, unsafe { &mut *frame });
            true
        }
        None => false,
    })
}

extern "C" fn send<D: Driver>(queue: u16, bytes: *const u8, length: u32) -> bool {
    // SAFETY: the card passes this many bytes, which don't change while `send` runs.
    let bytes = unsafe { slice::from_raw_parts(bytes, length as usize) };
    called::<D, _>(false, |driver, platform| of(D::SEND)(driver, platform, queue, bytes))
}

extern "C" fn thread<D: Driver>(number: u32) {
    called::<D, _>((), |driver, platform| D::THREADS[number as usize](driver, platform));
}

extern "C" fn filter<D: Driver>(filter: *const RawFilter) -> bool {
    // SAFETY: the card passes a filter that stays valid while the function runs.
    let it = unsafe { &*filter };
    let addresses = it.address.iter().take(it.count as usize).copied().collect();
    let RawFilter { all_unicast, all_multicast, broadcast, .. } = *it;
    let filter = Filter { all_unicast, all_multicast, broadcast, addresses };
    called::<D, _>(false, |driver, platform| of(D::FILTER)(driver, platform, &filter))
}

extern "C" fn rss<D: Driver>(rss: *const RawRss) -> bool {
    // SAFETY: the card passes a configuration that stays valid while the function runs.
    let RawRss { key, table, types } = *unsafe { &*rss };
    called::<D, _>(false, |driver, platform| of(D::RSS)(driver, platform, &Rss { key, table, types }))
}

extern "C" fn link<D: Driver>() -> bool {
    called::<D, _>(false, |driver, _| of(D::LINK)(driver))
}

extern "C" fn stats<D: Driver>(room: *mut RawStats) {
    let Stats { rx_frames, rx_bytes, tx_frames, tx_bytes } =
        called::<D, _>(Stats::default(), |driver, _| of(D::STATS)(driver));
    // SAFETY: the card passes room for the counts that nothing else accesses while the function runs.
    unsafe { *room = RawStats { rx_frames, rx_bytes, tx_frames, tx_bytes } }
}

extern "C" fn mailbox_send<D: Driver>(vf: u8, words: *const u32, count: u32) -> bool {
    // SAFETY: the card passes this many words, which don't change while the function runs.
    let words = unsafe { slice::from_raw_parts(words, count as usize) };
    called::<D, _>(false, |driver, platform| of(D::MAILBOX_SEND)(driver, platform, vf, words))
}

extern "C" fn mailbox_receive<D: Driver>(vf: u8, words: *mut u32) -> bool {
    called::<D, _>(false, |driver, platform| match of(D::MAILBOX_RECEIVE)(driver, platform, vf) {
        Some(got) => {
            // SAFETY: the card passes room for a mailbox's words that nothing else accesses while the function runs.
            unsafe { *words.cast::<[u32; MAILBOX_WORDS]>() = got };
            true
        }
        None => false,
    })
}

/// Defines the functions that take only numbers.
macro_rules! plain_functions {
    ($($constant:ident as $name:ident($($word:ident: $kind:ty),*) -> $answer:ty;)+) => {
        $(
            extern "C" fn $name<D: Driver>($($word: $kind),*) -> $answer {
                let failed = <$answer>::default();
                called::<D, _>(failed, |driver, platform| of(D::$constant)(driver, platform $(, $word)*))
            }
        )+
    };
}

plain_functions! {
    RECLAIM as reclaim(queue: u16) -> u32;
    INTERRUPT as interrupt(vector: u8) -> u32;
    REARM as rearm(queue: u16) -> ();
    MTU as mtu(frame: u32) -> bool;
    RESIZE as resize(slots: u16) -> bool;
    RESET as reset() -> bool;
    SUSPEND as suspend() -> bool;
    RESUME as resume() -> bool;
    MAILBOX_READY as mailbox_ready() -> bool;
}

/// The driver as a C struct, with a pointer for each function that it provides.
fn raw_driver<D: Driver>(name: &CString) -> RawDriver {
    RawDriver {
        name: name.as_ptr(),
        can: D::CAN.0,
        queues: D::QUEUES,
        slots: D::SLOTS,
        frame: D::FRAME,
        begin: begin::<D>,
        open: open::<D>,
        close: close::<D>,
        receive: D::RECEIVE.map(|_| receive::<D> as _),
        send: D::SEND.map(|_| send::<D> as _),
        reclaim: D::RECLAIM.map(|_| reclaim::<D> as _),
        interrupt: D::INTERRUPT.map(|_| interrupt::<D> as _),
        rearm: D::REARM.map(|_| rearm::<D> as _),
        threads: D::THREADS.len() as u32,
        thread: D::THREADS.first().map(|_| thread::<D> as _),
        filter: D::FILTER.map(|_| filter::<D> as _),
        rss: D::RSS.map(|_| rss::<D> as _),
        mtu: D::MTU.map(|_| mtu::<D> as _),
        resize: D::RESIZE.map(|_| resize::<D> as _),
        reset: D::RESET.map(|_| reset::<D> as _),
        suspend: D::SUSPEND.map(|_| suspend::<D> as _),
        resume: D::RESUME.map(|_| resume::<D> as _),
        link: D::LINK.map(|_| link::<D> as _),
        mailbox_send: D::MAILBOX_SEND.map(|_| mailbox_send::<D> as _),
        mailbox_receive: D::MAILBOX_RECEIVE.map(|_| mailbox_receive::<D> as _),
        mailbox_ready: D::MAILBOX_READY.map(|_| mailbox_ready::<D> as _),
        stats: D::STATS.map(|_| stats::<D> as _),
    }
}

/// The device in the card's scenarios.
struct Device;

impl Driven for Device {
    fn sizes(&self) -> Sizes {
        Sizes { vfs: FUNCTIONS.with(Cell::get), fifo: 256, blocks: 256 }
    }
}

/// Runs the program and returns its exit status.
pub(super) fn run<D: Driver>(words: Vec<String>) -> u8 {
    const REFUSED: u8 = explore::raw::REFUSED as u8;
    if let Some(why) = why_not() {
        eprintln!("{}: {why}", D::NAME);
        return REFUSED;
    }
    hook_panics();
    let is_quiet = !words.iter().any(|it| it == "--replay");
    let name = text(D::NAME);
    let driver = raw_driver::<D>(&name);
    let words: Vec<CString> = words.iter().map(|it| text(it)).collect();
    let mut argv = arguments(&words);
    // SAFETY: the arguments are strings followed by a null; the driver and its name outlive the call; no other search
    // is active in the process, because `within` admits one at a time.
    let status = within(&Device, is_quiet, || unsafe {
        advise(TO_BE_SEEN);
        nicd_main(words.len() as c_int, argv.as_mut_ptr(), &driver)
    });
    DRIVER.with(|it| it.borrow_mut().take());
    u8::try_from(status).unwrap_or(REFUSED)
}

// --- for the driver's functions, the only ones that get a `Platform` ---

plain_calls! {
    nicd_dma_alloc as dma_alloc(bytes: usize) -> u64;
    nicd_dma_free as dma_free(bus: u64);
}

/// Returns cells of DMA memory. The card owns this memory for the process's lifetime; a freed allocation reads as
/// zeros.
pub(super) fn dma_cells<'a>(bus: u64, bytes: usize) -> Option<&'a [Cell<u8>]> {
    let last = bus.checked_add(u64::try_from(bytes).ok()?.checked_sub(1)?)?;
    // SAFETY: the call takes no pointer.
    let first = at_point(|| unsafe { nicd_dma_pointer(bus) });
    // SAFETY: the call takes no pointer.
    let end = at_point(|| unsafe { nicd_dma_pointer(last) });
    if first.is_null() || end.is_null() {
        return None;
    }
    // SAFETY: the card keeps all its memory in one array, indexed by bus address, so all bytes from the first to the
    // last exist and stay valid. The card and Rust access them on one thread, as cells.
    Some(unsafe { slice::from_raw_parts(first.cast::<Cell<u8>>(), bytes) })
}

pub(super) fn deliver(queue: u16, bytes: &[u8]) {
    // SAFETY: the frame's pointer is valid for its length.
    at_point(|| unsafe { nicd_deliver(queue, bytes.as_ptr(), u32::try_from(bytes.len()).unwrap_or(u32::MAX)) })
}

/// An allocation that the card counts. Its value is stored elsewhere, because the card reuses the allocation's memory
/// when the next schedule starts.
pub(super) struct Token {
    piece: *mut c_void,
}

impl Token {
    pub(super) fn take(bytes: usize) -> Option<Token> {
        // SAFETY: the call takes no pointer.
        let piece = unsafe { nicd_alloc(bytes.max(1)) };
        if piece.is_null() {
            None
        } else {
            Some(Token { piece })
        }
    }
}

impl Drop for Token {
    fn drop(&mut self) {
        // A driver's function that panics has already failed, and so has its schedule.
        if !std::thread::panicking() {
            // SAFETY: the card checks whether it allocated this memory, and doesn't read it if not.
            unsafe { nicd_free(self.piece) }
        }
    }
}
