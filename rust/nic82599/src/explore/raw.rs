//! The calls in `nic82599_explore.h`, and the functions that the explorer calls: all `unsafe` code of the search.
//!
//! A process has one explorer, which runs on the thread that called `nicx_main`. [`within`] admits one search at a
//! time. Only this file creates a `Bus` or a `Look`, for functions that the explorer calls. Tasks have separate stacks.
//! When a schedule ends, it unwinds each task that it abandons during a call, before the stack is reused
//! (`c/explore/engine/left.h`): the call returns, and [`at_point`] starts a panic that drops what is on the stack.
//! While a task panics its calls are no-ops, so no other task runs during a panic. No panic leaves a function that C
//! calls: each is caught where C entered, together with its payload.
#![allow(unsafe_code)]

use std::any::Any;
use std::cell::{Cell, RefCell, UnsafeCell};
use std::collections::BTreeMap;
use std::ffi::CString;
use std::mem::{self, ManuallyDrop};
use std::os::raw::{c_char, c_int, c_void};
use std::panic::{self, AssertUnwindSafe, Location};
use std::ptr;
use std::rc::Rc;
use std::sync::{Mutex, PoisonError};
use std::thread;

use crate::ffi::{self, RawNic};
use crate::handle::Handle;
use crate::nic::{Nic, Sizes};
use crate::status;

/// The exit status of a refused search.
pub(crate) const REFUSED: c_int = 2;

pub(super) const ANYWHERE: c_int = -1;
pub(super) const BESIDE: c_int = -2;

type Function = extern "C" fn(*mut c_void);

/// The result of a call that is skipped because the task is panicking: 0, false, or a status of success.
pub(crate) trait Unmade {
    const UNMADE: Self;
}

impl Unmade for () {
    const UNMADE: () = ();
}

impl Unmade for bool {
    const UNMADE: bool = false;
}

impl Unmade for u32 {
    const UNMADE: u32 = 0;
}

impl Unmade for u64 {
    const UNMADE: u64 = 0;
}

impl Unmade for c_int {
    const UNMADE: c_int = 0;
}

impl Unmade for *mut c_void {
    const UNMADE: *mut c_void = std::ptr::null_mut();
}

impl Unmade for u8 {
    const UNMADE: u8 = status::DONE;
}

/// The panic that unwinds a task abandoned by its schedule.
struct Left;

/// Performs a call at which the schedule may abandon the calling task; it then unwinds instead of returning.
pub(crate) fn at_point<T: Unmade>(call: impl FnOnce() -> T) -> T {
    if thread::panicking() {
        return T::UNMADE;
    }
    let answer = call();
    if is_left() {
        panic::resume_unwind(Box::new(Left));
    }
    answer
}

/// Declares calls that take no pointer, and defines a function for each.
macro_rules! plain_calls {
    ($($call:ident as $name:ident($($word:ident: $kind:ty),*) $(-> $answer:ty)?;)+) => {
        extern "C" {
            $(fn $call($($word: $kind),*) $(-> $answer)?;)+
        }
        $(
            pub(super) fn $name($($word: $kind),*) $(-> $answer)? {
                // SAFETY: the call takes no pointer.
                crate::explore::raw::at_point(|| unsafe { $call($($word),*) })
            }
        )+
    };
}

#[cfg(feature = "drive")]
pub(crate) use plain_calls;

/// `struct nicx_scenario`.
#[repr(C)]
struct RawScenario {
    name: *const c_char,
    vfs: u8,
    fifo: u16,
    blocks: u32,
    queues: u16,
    bring_up: Option<extern "C" fn() -> *const c_char>,
    begin: Option<extern "C" fn()>,
    always: Option<extern "C" fn() -> *const c_char>,
    end: Option<extern "C" fn() -> *const c_char>,
    points: u32,
    stack: u32,
    allowed: u32,
    memory: u32,
    race_free: bool,
}

/// `struct nicx_flow`.
#[repr(C)]
pub(super) struct RawFlow {
    pub(super) from: u32,
    pub(super) to: u32,
    pub(super) from_port: u16,
    pub(super) to_port: u16,
    pub(super) protocol: u8,
}

/// `struct nicx_mailbox`.
#[repr(C)]
pub(super) struct RawMailbox {
    pub(super) vf: u8,
    pub(super) seen: u32,
}

/// `struct nicx_mutex`.
#[repr(C)]
struct RawLock {
    name: *const c_char,
    kept: u64,
}

/// What the first line of a search advises, because it sees no access to the driver's own memory.
const TO_BE_SEEN: &[u8] = b"call Bus::point where threads share memory (docs/rust.md)\0";

extern "C" {
    static mut nicxi_to_be_seen: *const c_char;
    fn nicx_main(argc: c_int, argv: *mut *mut c_char, scenario: *const RawScenario) -> c_int;
    fn nicx_task(name: *const c_char, function: Function, argument: *mut c_void) -> c_int;
    fn nicx_service(name: *const c_char, function: Function, argument: *mut c_void) -> c_int;
    fn nicx_handler(name: *const c_char, group: u16, vector: u8, function: Function, argument: *mut c_void, at: c_int);
    fn nicx_timer(name: *const c_char, function: Function, argument: *mut c_void, within: u32) -> c_int;
    fn nicx_numbered_frame(frame: *mut u8, length: usize, number: u32) -> bool;
    fn nicx_flow_frame(frame: *mut u8, length: usize, flow: *const RawFlow, number: u32) -> bool;
    fn nicx_frame_number(frame: *const u8, length: usize) -> u32;
    fn nicx_rss_hash(flow: *const RawFlow) -> u32;
    fn nicx_rss_queue(flow: *const RawFlow) -> u16;
    fn nicx_function_sends(mailbox: *mut RawMailbox, words: *const u32, count: u32);
    fn nicx_function_receives(mailbox: *mut RawMailbox, words: *mut u32, count: u32) -> bool;
    fn nicx_function_is_acked(mailbox: *mut RawMailbox) -> bool;
    fn nicx_host_sends(vf: u8, words: *const u32, count: u32);
    fn nicx_host_receives(vf: u8, words: *mut u32, count: u32) -> bool;
    fn nicx_frame(frame: *const u8, length: usize);
    fn nicx_dma_read(bus: u64, bytes: *mut u8, length: usize) -> u8;
    fn nicx_dma_write(bus: u64, bytes: *const u8, length: usize) -> u8;
    fn nicx_wait_until(condition: extern "C" fn(*mut c_void) -> bool, argument: *mut c_void);
    fn nicx_lock(lock: *mut RawLock);
    fn nicx_unlock(lock: *mut RawLock);
    fn nicx_fail(words: *const c_char);
    fn nicx_device() -> *mut RawNic;
    fn nicx_close();
    fn nicxi_unwinds(it_does: bool) -> bool;
    fn nicxi_is_left() -> bool;
    fn nicxi_unwound() -> !;
}

// For `begin`, tasks and handlers. Only they and `bring_up` get a `Bus`.
plain_calls! {
    nicx_arm as arm(timer: c_int);
    nicx_disarm as disarm(timer: c_int) -> bool;
    nicx_choose as choose(bound: u32) -> u32;
    nicx_link_change as link_change(up: bool);
    nicx_came as came() -> u32;
    nicx_read32 as read32(address: u32) -> u32;
    nicx_write32 as write32(address: u32, word: u32) -> u8;
    nicx_vf_read32 as vf_read32(vf: u8, offset: u32) -> u32;
    nicx_vf_write32 as vf_write32(vf: u8, offset: u32, word: u32) -> u8;
    nicx_lend as lend(block: u32) -> u8;
    nicx_take as take(block: u32) -> u8;
    nicx_point as point();
    nicx_wait as wait();
    nicx_pause as pause();
    nicx_lend_all as lend_all() -> u8;
    nicx_settle as settle();
    nicx_host_is_acked as host_is_acked(vf: u8) -> bool;
    nicx_interrupts_off as interrupts_off();
    nicx_interrupts_on as interrupts_on();
    nicx_wmb as wmb();
    nicx_rmb as rmb();
    nicx_mb as mb();
}

/// A scenario as the explorer calls it. Checks return what is wrong, or `None`. The scenarios of a report card are in
/// C and use only `sizes`.
pub(crate) trait Driven {
    fn sizes(&self) -> Sizes;
    fn bring_up(&self) -> Option<String> {
        None
    }
    fn begin(&self) {}
    fn always(&self, _device: &Nic) -> Option<String> {
        None
    }
    fn end(&self, _device: &Nic) -> Option<String> {
        None
    }
}

/// The parameters of a scenario.
pub(super) struct Settings<'a> {
    pub(super) name: &'a str,
    pub(super) vfs: u8,
    pub(super) fifo: u16,
    pub(super) blocks: u32,
    pub(super) queues: u16,
    pub(super) points: u32,
    pub(super) stack: u32,
    pub(super) allowed: u32,
    pub(super) memory: u32,
    pub(super) race_free: bool,
}

/// A task or a handler, which the explorer identifies by this struct's address.
struct Thread {
    function: Box<dyn Fn()>,
}

/// The search that runs on this thread.
struct Running {
    is_quiet: bool,
    driven: *const dyn Driven,
    /// The tasks and handlers of the schedule.
    threads: RefCell<Vec<Rc<Thread>>>,
    /// The names passed to the explorer, which keeps pointers to them.
    names: RefCell<BTreeMap<String, CString>>,
    /// The last message returned to the explorer.
    words: RefCell<CString>,
}

thread_local! {
    static RUNNING: Cell<*const Running> = const { Cell::new(ptr::null()) };
    /// The location of the last panic, as file and line.
    static PLACE: RefCell<Option<String>> = const { RefCell::new(None) };
}

static ONE: Mutex<()> = Mutex::new(());

/// Converts a string for C. A question mark replaces each NUL.
pub(crate) fn text(words: &str) -> CString {
    CString::new(words.replace('\0', "?")).unwrap_or_default()
}

impl Running {
    fn name(&self, name: &str) -> *const c_char {
        let mut names = self.names.borrow_mut();
        names.entry(name.to_owned()).or_insert_with(|| text(name)).as_ptr()
    }

    /// Stores a message until the next one is returned. The message becomes one line, as a failure's files require.
    fn tell(&self, words: &str) -> *const c_char {
        *self.words.borrow_mut() = text(&words.split_whitespace().collect::<Vec<_>>().join(" "));
        self.words.borrow().as_ptr()
    }

    fn thread(&self, function: Box<dyn Fn()>) -> *mut c_void {
        let thread = Rc::new(Thread { function });
        let address = Rc::as_ptr(&thread);
        self.threads.borrow_mut().push(thread);
        address as *mut c_void
    }
}

/// Returns whether the schedule is over and the running task is an abandoned one that is unwinding its stack.
pub(crate) fn is_left() -> bool {
    // SAFETY: the call takes no argument.
    unsafe { nicxi_is_left() }
}

/// Returns whether a search is running on this thread.
pub(crate) fn is_running() -> bool {
    RUNNING.with(|it| !it.get().is_null())
}

/// Returns whether panics on this thread are failures that the search reports instead of printing.
pub(super) fn is_quiet() -> bool {
    is_running() && running(|it| it.is_quiet)
}

/// Records a panic's location, for the panic hook.
pub(super) fn panics_at(place: Option<&Location<'_>>) {
    if is_running() {
        PLACE.with(|it| *it.borrow_mut() = place.map(|it| format!("{}:{}", it.file(), it.line())));
    }
}

/// Passes the running search to a function that the explorer called. Panics outside a search.
fn running<T>(action: impl FnOnce(&Running) -> T) -> T {
    let it = RUNNING.with(Cell::get);
    assert!(!it.is_null(), "this call works only in functions that a search runs");
    // SAFETY: the pointer isn't null, so `within` is on this thread's stack and keeps the search until it resets the
    // pointer.
    action(unsafe { &*it })
}

/// Calls the scenario. A panic is reported as the failure's message.
fn driven(action: impl FnOnce(&dyn Driven) -> Option<String>) -> *const c_char {
    // SAFETY: `within` borrows the scenario for as long as the search runs.
    let result = running(|it| caught(|| action(unsafe { &*it.driven })));
    match result {
        Ok(None) => ptr::null(),
        Ok(Some(words)) | Err(words) => running(|it| it.tell(&words)),
    }
}

/// Returns the result of an action, or the message and location of its panic.
pub(crate) fn caught<T>(action: impl FnOnce() -> T) -> Result<T, String> {
    panic::catch_unwind(AssertUnwindSafe(action)).map_err(|panic| {
        let words = words_of(&*panic);
        if panic.is::<&str>() || panic.is::<String>() || panic.is::<Left>() {
            drop(panic);
        } else {
            mem::forget(panic); // (dropping it may panic)
        }
        match PLACE.with(|it| it.borrow_mut().take()) {
            Some(place) => format!("{words} ({place})"),
            None => words,
        }
    })
}

fn words_of(panic: &(dyn Any + Send)) -> String {
    let words = panic.downcast_ref::<&str>().map(|it| (*it).to_owned());
    words.or_else(|| panic.downcast_ref::<String>().cloned()).unwrap_or_else(|| "a panic".to_owned())
}

extern "C" fn bring_up() -> *const c_char {
    driven(|it| it.bring_up())
}

extern "C" fn begin() {
    // The closures of the previous schedule, whose tasks are already unwound. Dropping their captures may panic.
    let before = running(|it| mem::take(&mut *it.threads.borrow_mut()));
    let wrong = driven(|it| {
        drop(before);
        it.begin();
        None
    });
    if !wrong.is_null() {
        // SAFETY: the message is a string that stays valid until the next one.
        unsafe { nicx_fail(wrong) }
    }
}

extern "C" fn always() -> *const c_char {
    with_device(|it, device| it.always(device))
}

extern "C" fn end() -> *const c_char {
    with_device(|it, device| it.end(device))
}

fn with_device(action: impl FnOnce(&dyn Driven, &Nic) -> Option<String>) -> *const c_char {
    driven(|it| looked(|device| action(it, device)))
}

/// Passes the device to one of the scenario's checks, or to a task that finds out why its call was refused.
pub(super) fn looked<T>(action: impl FnOnce(&Nic) -> T) -> T {
    // SAFETY: the explorer's controller is open while it calls a function of the scenario and while tasks run. The copy
    // of its struct refers to the same controller and isn't dropped. The copy is only read, so the original struct
    // doesn't change.
    let device = ManuallyDrop::new(unsafe { ffi::Handle::another(nicx_device()) });
    // SAFETY: `within` borrows the scenario for as long as the search runs.
    let sizes = running(|it| unsafe { &*it.driven }.sizes());
    let device = Handle::of(ManuallyDrop::into_inner(device));
    action(&ManuallyDrop::new(Nic::of(device, sizes)))
}

extern "C" fn go(argument: *mut c_void) {
    // SAFETY: the argument is the address of a thread of this schedule, which is kept until the next schedule starts.
    let thread = unsafe { &*argument.cast::<Thread>() };
    if let Err(words) = unwinding(|| caught(|| (thread.function)())) {
        fail(words);
    }
}

/// Runs an action on the stack of a task or handler that C called. If the schedule abandons the task, the task's stack
/// is unwound, and this function doesn't return.
pub(crate) fn unwinding<T>(action: impl FnOnce() -> T) -> T {
    // SAFETY: the call takes no pointer.
    let outer = unsafe { nicxi_unwinds(true) };
    let done = action();
    if is_left() && !outer {
        drop(done);
        // SAFETY: everything on this stack since C's call was inside `action` and has been dropped; the stack belongs
        // to C.
        unsafe { nicxi_unwound() }
    }
    // SAFETY: the call takes no pointer.
    unsafe { nicxi_unwinds(outer) };
    done
}

/// Returns a message for the explorer, valid until the next one is returned.
pub(crate) fn c_words(words: String) -> *const c_char {
    running(|it| it.tell(&words))
}

/// Fails the schedule with this message. In a task it doesn't return, so the caller must hold nothing that needs
/// dropping.
pub(crate) fn fail(words: String) {
    let words = c_words(words);
    // SAFETY: the message is a string that stays valid until the next one. Nothing here needs dropping.
    unsafe { nicx_fail(words) }
}

extern "C" fn holds<F: Fn() -> bool>(argument: *mut c_void) -> bool {
    // SAFETY: the argument is the address of the condition in `wait_until`, on the stack of the waiting task.
    let condition = unsafe { &*argument.cast::<F>() };
    // A condition that panics ends the process, which the search reports as a crash. A condition that makes a call with
    // an effect is refused, and the task on whose stack it runs unwinds from there.
    caught(condition).unwrap_or_else(|_| if is_left() { false } else { std::process::abort() })
}

/// Returns a command line for C: pointers to the strings, then a null pointer.
pub(crate) fn arguments(words: &[CString]) -> Vec<*mut c_char> {
    words.iter().map(|it| it.as_ptr() as *mut c_char).chain([ptr::null_mut()]).collect()
}

/// Returns why no search may start here, or `None` if it may.
pub(crate) fn why_not() -> Option<&'static str> {
    if is_running() {
        Some("a task of a search starts another search")
    } else if thread::panicking() {
        Some("the search starts during a panic, when tasks can't make calls")
    } else if cfg!(panic = "abort") {
        Some("the profile has panic = \"abort\", but the search ends abandoned tasks with a panic")
    } else {
        None
    }
}

/// Runs a search in the process's only explorer and returns its status. `action` runs it; the explorer calls `driven`.
pub(crate) fn within(driven: &dyn Driven, is_quiet: bool, action: impl FnOnce() -> c_int) -> c_int {
    let _one = ONE.lock().unwrap_or_else(PoisonError::into_inner);
    // SAFETY: this only extends the lifetime, and `RUNNING` is reset before this function returns.
    let driven: &'static dyn Driven = unsafe { mem::transmute::<&dyn Driven, _>(driven) };
    let (threads, names, words) = (RefCell::default(), RefCell::default(), RefCell::default());
    let running = Running { is_quiet, driven, threads, names, words };
    RUNNING.with(|it| it.set(&running));
    let status = action();
    // SAFETY: no schedule is running. (A refused scenario is still open, and closing twice is a no-op.)
    unsafe { nicx_close() };
    // While this search counts as running, a search that a drop starts is refused; otherwise it would wait for `ONE`
    // forever.
    let last = mem::take(&mut *running.threads.borrow_mut());
    let dropped = caught(|| drop(last));
    RUNNING.with(|it| it.set(ptr::null()));
    match dropped {
        Err(words) if status == 0 => {
            eprintln!("dropping a value that a task's closure captured caused a panic: {words}");
            REFUSED
        }
        _ => status,
    }
}

/// Runs a search with these arguments and returns the explorer's exit status.
pub(super) fn run(driven: &dyn Driven, settings: &Settings<'_>, words: &[String], is_quiet: bool) -> c_int {
    let name = text(settings.name);
    let words: Vec<CString> = words.iter().map(|it| text(it)).collect();
    let mut argv = arguments(&words);
    let scenario = RawScenario {
        name: name.as_ptr(),
        vfs: settings.vfs,
        fifo: settings.fifo,
        blocks: settings.blocks,
        queues: settings.queues,
        bring_up: Some(bring_up),
        begin: Some(begin),
        always: Some(always),
        end: Some(end),
        points: settings.points,
        stack: settings.stack,
        allowed: settings.allowed,
        memory: settings.memory,
        race_free: settings.race_free,
    };
    // SAFETY: the arguments are strings followed by a null; the scenario and everything that it points to outlive the
    // call; no other search is active in the process, because `within` admits one at a time.
    within(driven, is_quiet, || unsafe {
        advise(TO_BE_SEEN);
        nicx_main(words.len() as c_int, argv.as_mut_ptr(), &scenario)
    })
}

/// Sets what the first line of a search advises. `words` ends with a 0. May be called only in the action of `within`.
pub(crate) fn advise(words: &'static [u8]) {
    assert_eq!(words.last(), Some(&0));
    // SAFETY: the words end with a 0 and are never freed; `within` admits one thread at a time.
    unsafe { nicxi_to_be_seen = words.as_ptr().cast() };
}

// --- in `begin` ---

pub(super) fn task(name: &str, is_service: bool, function: Box<dyn Fn()>) -> c_int {
    let (name, argument) = running(|it| (it.name(name), it.thread(function)));
    // SAFETY: the name and the argument stay valid until the next schedule starts.
    unsafe {
        match is_service {
            true => nicx_service(name, go, argument),
            false => nicx_task(name, go, argument),
        }
    }
}

pub(super) fn handler(name: &str, group: u16, vector: u8, at: c_int, function: Box<dyn Fn()>) {
    let (name, argument) = running(|it| (it.name(name), it.thread(function)));
    // SAFETY: the name and the argument stay valid until the next schedule starts.
    unsafe { nicx_handler(name, group, vector, go, argument, at) }
}

pub(super) fn timer(name: &str, within: u32, function: Box<dyn Fn()>) -> c_int {
    let (name, argument) = running(|it| (it.name(name), it.thread(function)));
    // SAFETY: the name and the argument stay valid until the next schedule starts.
    unsafe { nicx_timer(name, go, argument, within) }
}

pub(super) fn frame(frame: &[u8]) {
    // SAFETY: the frame's pointer is valid for its length, and the call copies the bytes.
    unsafe { nicx_frame(frame.as_ptr(), frame.len()) }
}

// --- in tasks and handlers; only they and `bring_up` get a `Bus` ---

pub(super) fn dma_read(bus: u64, bytes: &mut [u8]) -> u8 {
    // SAFETY: the buffer's pointer is valid for its length.
    at_point(|| unsafe { nicx_dma_read(bus, bytes.as_mut_ptr(), bytes.len()) })
}

pub(super) fn dma_write(bus: u64, bytes: &[u8]) -> u8 {
    // SAFETY: the buffer's pointer is valid for its length.
    at_point(|| unsafe { nicx_dma_write(bus, bytes.as_ptr(), bytes.len()) })
}

pub(super) fn wait_until<F: Fn() -> bool>(condition: &F) {
    // SAFETY: the condition stays on this stack while the task waits, and `holds` casts it back to its type.
    at_point(|| unsafe { nicx_wait_until(holds::<F>, condition as *const F as *mut c_void) })
}

// --- the kit ---

pub(super) fn numbered_frame(frame: &mut [u8], number: u32) -> bool {
    // SAFETY: the frame's pointer is valid for its length.
    unsafe { nicx_numbered_frame(frame.as_mut_ptr(), frame.len(), number) }
}

pub(super) fn flow_frame(frame: &mut [u8], flow: &RawFlow, number: u32) -> bool {
    // SAFETY: the frame's pointer is valid for its length, and the flow is borrowed.
    unsafe { nicx_flow_frame(frame.as_mut_ptr(), frame.len(), flow, number) }
}

pub(super) fn frame_number(frame: &[u8]) -> u32 {
    // SAFETY: the frame's pointer is valid for its length.
    unsafe { nicx_frame_number(frame.as_ptr(), frame.len()) }
}

pub(super) fn rss(flow: &RawFlow) -> (u32, u16) {
    // SAFETY: the flow is borrowed; the caller has a `Bus` or a `Look`, so the explorer's controller is open.
    unsafe { (nicx_rss_hash(flow), nicx_rss_queue(flow)) }
}

pub(super) fn function_sends(mailbox: &mut RawMailbox, words: &[u32]) {
    // SAFETY: the mailbox is borrowed, and there are as many words as the length says.
    at_point(|| unsafe { nicx_function_sends(mailbox, words.as_ptr(), words.len() as u32) })
}

pub(super) fn function_receives(mailbox: &mut RawMailbox, words: &mut [u32]) -> bool {
    // SAFETY: as above.
    at_point(|| unsafe { nicx_function_receives(mailbox, words.as_mut_ptr(), words.len() as u32) })
}

pub(super) fn function_is_acked(mailbox: &mut RawMailbox) -> bool {
    // SAFETY: the mailbox is borrowed.
    at_point(|| unsafe { nicx_function_is_acked(mailbox) })
}

pub(super) fn host_sends(vf: u8, words: &[u32]) {
    // SAFETY: there are as many words as the length says.
    at_point(|| unsafe { nicx_host_sends(vf, words.as_ptr(), words.len() as u32) })
}

pub(super) fn host_receives(vf: u8, words: &mut [u32]) -> bool {
    // SAFETY: as above.
    at_point(|| unsafe { nicx_host_receives(vf, words.as_mut_ptr(), words.len() as u32) })
}

/// A lock, with its name for reports. It contains a cell, so it isn't `Sync`. The explorer identifies a held lock by
/// its address, so it is boxed; the box is leaked if a guard was forgotten.
pub(super) struct Lock {
    parts: ManuallyDrop<Box<LockParts>>,
}

struct LockParts {
    raw: UnsafeCell<RawLock>,
    _name: CString,
}

impl Lock {
    pub(super) fn new(name: &str) -> Lock {
        let name = text(name);
        let raw = UnsafeCell::new(RawLock { name: name.as_ptr(), kept: 0 });
        Lock { parts: ManuallyDrop::new(Box::new(LockParts { raw, _name: name })) }
    }

    pub(super) fn lock(&self) {
        // SAFETY: the explorer's lock and its name live at least as long as this `Lock`, which is borrowed, and longer
        // if it is held. Only the explorer changes it.
        at_point(|| unsafe { nicx_lock(self.parts.raw.get()) });
    }

    /// Releases the lock, unless the task is panicking: such a task has failed. A lock that is still held when a
    /// schedule ends is free in the next schedule.
    pub(super) fn unlock(&self) {
        // SAFETY: as above.
        at_point(|| unsafe { nicx_unlock(self.parts.raw.get()) });
        if is_left() {
            // SAFETY: the schedule is over, so the explorer no longer reads its locks.
            unsafe { (*self.parts.raw.get()).kept = 0 };
        }
    }
}

impl Drop for Lock {
    fn drop(&mut self) {
        // SAFETY: the explorer isn't running while this code runs.
        if unsafe { (*self.parts.raw.get()).kept } == 0 {
            // SAFETY: nothing holds the lock, so nothing else has its address, and it isn't used afterwards.
            unsafe { ManuallyDrop::drop(&mut self.parts) }
        }
    }
}
