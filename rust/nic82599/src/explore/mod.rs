//! The search for an order of steps that breaks a driver, like the one that docs/explore.md describes for C. It is the
//! crate's `explore` feature, and links `libnic82599_explore.a`.
//!
//! A [`Scenario`] brings the device up. For each schedule it names the driver's tasks and handlers, and the frames that
//! will arrive. Tasks are closures. Each call to their [`Bus`] is a point at which any actor may run: another task, a
//! handler, a step of the device, the next frame. The search chooses the actor.
//!
//! ```
//! use std::cell::Cell;
//!
//! use nic82599::explore::{search, Begin, Bus, Look, Outcome, Scenario};
//! use nic82599::regs::*;
//!
//! struct Sender;
//!
//! impl Scenario for Sender {
//!     type State = Cell<u32>;
//!
//!     fn name(&self) -> &str {
//!         "sender"
//!     }
//!     fn state(&self) -> Cell<u32> {
//!         Cell::new(0)
//!     }
//!     fn bring_up(&self, bus: &Bus) -> Result<(), String> {
//!         bus.write(EIMS, 1);
//!         Ok(())
//!     }
//!     fn begin(&self, begin: &Begin<Cell<u32>>) {
//!         begin.task("first", |bus, count| {
//!             bus.write(EIMC, 1);
//!             count.set(count.get() + 1);
//!         });
//!     }
//!     fn end(&self, count: &Cell<u32>, _device: &Look<'_>) -> Result<(), String> {
//!         if count.get() == 1 { Ok(()) } else { Err("it didn't act".into()) }
//!     }
//! }
//!
//! assert_eq!(search(Sender, &["--runs", "100", "--quiet", "--out", "/tmp"]), Outcome::Nothing);
//! ```
//!
//! To run searches as a whole program, call [`main`], which reads the command line.
//!
//! Searches fork processes. Don't hold a guard of a `RefCell` across a call to a task's `Bus`: another task would find
//! the cell borrowed. Don't use locks from `std`; use [`Lock`]. If a schedule abandons a task during a call, a panic
//! unwinds the task. That panic calls no hook, drops the values on the task's stack, and waits for the task's scoped
//! threads. While a task panics, its calls are no-ops that return 0, false or `Ok`. A drop that then panics ends the
//! process, which the search reports as a crash. With `panic = "abort"` this unwinding is impossible, so searches are
//! refused.
//!
//! Like any other value, a [`Nic`] or a snapshot that your program opens isn't part of the search. A scenario's
//! functions may open and use such a value. No schedule resets it, and you may keep it after the search.

mod kit;
pub(crate) mod raw;

pub use kit::{frame_number, numbered_frame, Flow, Mailbox, Protocol};

use std::cell::RefCell;
use std::env;
use std::fmt;
use std::marker::PhantomData;
use std::num::NonZeroU32;
use std::ops::RangeBounds;
use std::panic;
use std::process::ExitCode;
use std::rc::Rc;
use std::sync::Once;

use crate::desc::Descriptor;
use crate::device::Device;
use crate::error::{Absent, Error};
use crate::memory::{first_not_lent, slot_of, unless_lent, Memory};
use crate::nic::{done_or_stray, why_absent, Nic, Sizes};
use crate::register::{Register, VfRegister};
use crate::regs::GCR_EXT;
use crate::status;

/// A driver's code, as tasks and interrupt handlers that share one controller.
pub trait Scenario: 'static {
    /// The driver's own state, which its tasks share.
    type State: 'static;

    /// The base name of the files that a search writes: letters, digits, '-' and '_', at most 63.
    fn name(&self) -> &str;

    /// The sizes of the device. A search writes no script for a device with more than 256 blocks, because a script
    /// supports at most 256.
    fn sizes(&self) -> Sizes {
        Sizes { blocks: 2, ..Sizes::default() }
    }

    /// The number of queues (1 to 128): queues 0 to `queues` - 1 have enable and transmit steps.
    fn queues(&self) -> u16 {
        1
    }

    /// The limit on a schedule's points; a longer schedule fails as endless. The default is 2,000.
    fn points(&self) -> u32 {
        2_000
    }

    /// The size of a task's stack in bytes. The default is 262,144.
    fn stack(&self) -> u32 {
        262_144
    }

    /// Returns whether a queue fault is allowed; by default it is a failure.
    fn allows_faults(&self) -> bool {
        false
    }

    /// Returns whether the driver may access memory that isn't lent; by default that is a failure.
    fn allows_not_lent(&self) -> bool {
        false
    }

    /// How the driver's stores to lent memory and its loads from it may be reordered. Memory is strong unless this
    /// value or `--memory weak` makes it weak.
    fn memory(&self) -> MemoryOrder {
        MemoryOrder::default()
    }

    /// Returns whether the scenario promises that tasks and handlers touch the driver's shared memory only under a
    /// common [`Lock`], and that no condition touches this memory. If so, the exhaustive search leaves out orders of
    /// steps that touch different parts of the device. If the promise doesn't hold, the search may miss a failure.
    fn is_race_free(&self) -> bool {
        false
    }

    /// Creates the driver's state for a schedule.
    fn state(&self) -> Self::State;

    /// Sets the device up, once in each process. The calls that it makes aren't points.
    ///
    /// # Errors
    ///
    /// The reason for the failure. The `?` operator converts an [`Error`] to its message.
    fn bring_up(&self, bus: &Bus) -> Result<(), String>;

    /// Names the tasks, the handlers, and the frames and link changes of a schedule. Runs before each schedule.
    fn begin(&self, begin: &Begin<Self::State>);

    /// Checks the state after each step.
    ///
    /// # Errors
    ///
    /// A description of what is wrong.
    fn always(&self, _state: &Self::State, _device: &Look<'_>) -> Result<(), String> {
        Ok(())
    }

    /// Checks the state at rest: no task, handler or step of the device can continue.
    ///
    /// # Errors
    ///
    /// A description of what is wrong.
    fn end(&self, state: &Self::State, device: &Look<'_>) -> Result<(), String>;
}

/// How lent memory behaves, and which register accesses order it (docs/explore.md, "Missing barriers").
#[derive(Clone, Copy, Debug, Default, PartialEq, Eq)]
pub struct MemoryOrder {
    /// Until a barrier, stores may reach memory late and loads may return old values. If this field is false, the other
    /// fields apply only with `--memory weak`.
    pub is_weak: bool,
    /// A register write comes after all earlier stores, as with Linux's `writel()`.
    pub writes_order: bool,
    /// No load after a register read returns a value from before that read, as after Linux's `readl()`.
    pub reads_order: bool,
}

/// The outcome of a search.
#[derive(Clone, Copy, Debug, PartialEq, Eq)]
pub enum Outcome {
    /// No failure was found.
    Nothing,
    /// A failure was found, and its schedule was written.
    Failure,
    /// An argument, the scenario or a schedule's file was refused; standard error says why.
    Refused,
}

/// Runs searches as a whole program, controlled by the command line (docs/explore.md, or `--help`). The exit status is
/// 0 if nothing was found, 1 if a failure was found, and 2 if something is refused.
pub fn main(scenario: impl Scenario) -> ExitCode {
    match run(scenario, env::args().collect()) {
        Outcome::Nothing => ExitCode::SUCCESS,
        Outcome::Failure => ExitCode::from(1),
        Outcome::Refused => ExitCode::from(2),
    }
}

/// Runs a search for a test: `search(Race, &["--runs", "500", "--out", "target"])`. A process runs one search at a
/// time; a search started by a task or during a panic is refused. A task's panic is reported with its file and line,
/// but printed only by `--replay`: the first search installs a panic hook in front of the existing one.
pub fn search(scenario: impl Scenario, words: &[&str]) -> Outcome {
    let program = env::args().next().unwrap_or_default();
    run(scenario, std::iter::once(program).chain(words.iter().map(|&it| it.to_owned())).collect())
}

/// Ensures that the panic hook is installed only once. A search may cause thousands of task panics, and reports each as
/// a failure, so only a replay also prints them.
static HOOK: Once = Once::new();

pub(crate) fn hook_panics() {
    HOOK.call_once(|| {
        let before = panic::take_hook();
        panic::set_hook(Box::new(move |info| {
            raw::panics_at(info.location());
            if !raw::is_quiet() {
                before(info)
            }
        }));
    });
}

fn run(scenario: impl Scenario, words: Vec<String>) -> Outcome {
    if let Some(why) = raw::why_not() {
        eprintln!("{}: {why}", scenario.name());
        return Outcome::Refused;
    }
    let Sizes { vfs, fifo, blocks } = scenario.sizes();
    let allowed = u32::from(scenario.allows_faults()) | u32::from(scenario.allows_not_lent()) << 1;
    let (queues, points, stack, name) =
        (scenario.queues(), scenario.points(), scenario.stack(), scenario.name().to_owned());
    let order = scenario.memory();
    let memory = u32::from(order.is_weak) | u32::from(order.writes_order) << 1 | u32::from(order.reads_order) << 2;
    let race_free = scenario.is_race_free();
    let settings = raw::Settings { name: &name, vfs, fifo, blocks, queues, points, stack, allowed, memory, race_free };
    let driven = Driven { state: RefCell::new(Rc::new(scenario.state())), scenario };
    hook_panics();
    let is_quiet = !words.iter().any(|it| it == "--replay");
    match raw::run(&driven, &settings, &words, is_quiet) {
        0 => Outcome::Nothing,
        1 => Outcome::Failure,
        _ => Outcome::Refused,
    }
}

struct Driven<S: Scenario> {
    scenario: S,
    state: RefCell<Rc<S::State>>,
}

impl<S: Scenario> raw::Driven for Driven<S> {
    fn sizes(&self) -> Sizes {
        self.scenario.sizes()
    }

    fn bring_up(&self) -> Option<String> {
        self.scenario.bring_up(&Bus::new()).err()
    }

    fn begin(&self) {
        let state = Rc::new(self.scenario.state());
        *self.state.borrow_mut() = Rc::clone(&state);
        self.scenario.begin(&Begin { state });
    }

    fn always(&self, nic: &Nic) -> Option<String> {
        self.scenario.always(&self.state.borrow(), &Look { nic }).err()
    }

    fn end(&self, nic: &Nic) -> Option<String> {
        self.scenario.end(&self.state.borrow(), &Look { nic }).err()
    }
}

// --- in `begin` ---

/// Where a handler runs.
#[derive(Clone, Copy, Debug, PartialEq, Eq)]
pub enum Where {
    /// It interrupts any task, or runs concurrently with all of them.
    Anywhere,
    /// It runs concurrently with all tasks, as its own thread.
    Beside,
    /// It interrupts this task, which continues only after the handler has returned.
    On(Task),
}

/// When an armed timer fires.
#[derive(Clone, Copy, Debug, PartialEq, Eq)]
pub enum When {
    /// When no other actor can run.
    AtRest,
    /// At any of this many points after the timer was armed; at the last of these points it fires before any other
    /// actor runs.
    Within(NonZeroU32),
}

/// A named timer.
#[derive(Clone, Copy, Debug, PartialEq, Eq)]
pub struct Timer(i32);

/// A named task.
#[derive(Clone, Copy, Debug, PartialEq, Eq)]
pub struct Task(i32);

/// Names the actors of a schedule: at most 16 tasks, 32 handlers, 256 frames and 256 link changes.
pub struct Begin<S> {
    state: Rc<S>,
}

impl<S> fmt::Debug for Begin<S> {
    fn fmt(&self, f: &mut fmt::Formatter<'_>) -> fmt::Result {
        f.debug_struct("Begin").finish_non_exhaustive()
    }
}

impl<S: 'static> Begin<S> {
    /// Wraps a thread's function so that it gets a bus and the state of the schedule.
    fn thread(&self, function: impl Fn(&Bus, &S) + 'static) -> Box<dyn Fn()> {
        let state = Rc::clone(&self.state);
        Box::new(move || function(&Bus::new(), &state))
    }

    /// Names a task: a thread of the driver, or a processor.
    pub fn task(&self, name: &str, function: impl Fn(&Bus, &S) + 'static) -> Task {
        Task(raw::task(name, false, self.thread(function)))
    }

    /// Names a task that may wait forever, as a loop that serves interrupts does. A service that still waits at the end
    /// of the schedule isn't a deadlock.
    pub fn service(&self, name: &str, function: impl Fn(&Bus, &S) + 'static) -> Task {
        Task(raw::task(name, true, self.thread(function)))
    }

    /// Names the handler that a message of a vector starts, for the physical function (`None`) or a virtual one.
    /// Several messages that are sent before the handler starts cause only one run. A message sent during the run
    /// causes another one afterwards.
    pub fn handler(
        &self,
        name: &str,
        (of, vector): (Option<u8>, u8),
        place: Where,
        function: impl Fn(&Bus, &S) + 'static,
    ) {
        let at = match place {
            Where::Anywhere => raw::ANYWHERE,
            Where::Beside => raw::BESIDE,
            Where::On(Task(number)) => number,
        };
        raw::handler(name, of.map_or(0, |it| u16::from(it) + 1), vector, at, self.thread(function));
    }

    /// Names a timer. When it fires, it starts the function concurrently with all tasks, as a message starts a handler.
    /// It fires once each time it is armed.
    pub fn timer(&self, name: &str, when: When, function: impl Fn(&Bus, &S) + 'static) -> Timer {
        let within = match when {
            When::AtRest => 0,
            When::Within(points) => points.get(),
        };
        Timer(raw::timer(name, within, self.thread(function)))
    }

    /// Arms a timer at the start of the schedule.
    pub fn arm(&self, timer: Timer) {
        raw::arm(timer.0);
    }

    /// Returns a value below the bound (1 to 256). The search chooses it as part of the schedule: for example, which
    /// input arrives.
    pub fn choose(&self, bound: u32) -> u32 {
        raw::choose(bound)
    }

    /// Names a frame of at most 16,384 bytes, which arrives after the frames already named.
    pub fn frame(&self, frame: &[u8]) {
        raw::frame(frame);
    }

    /// Names a link change, down or up. Link changes happen in the order of these calls, independently of frames.
    pub fn link_change(&self, up: bool) {
        raw::link_change(up);
    }
}

// --- in tasks and handlers ---

/// How tasks and handlers reach the device. Each call is a point at which other actors may run first; in
/// [`Scenario::bring_up`] calls happen immediately. Code that takes `&impl` [`Device`] also runs on a [`Nic`].
#[derive(Debug)]
pub struct Bus {
    /// (a bus stays on the search's thread)
    here: PhantomData<*const ()>,
}

impl Bus {
    pub(crate) fn new() -> Bus {
        Bus { here: PhantomData }
    }

    /// Reads a register.
    pub fn read(&self, register: Register) -> u32 {
        raw::read32(register.address())
    }

    /// Writes a register.
    pub fn write(&self, register: Register, word: u32) {
        raw::write32(register.address(), word);
    }

    /// Reads the register at an address. Returns the value that a driver sees.
    pub fn read32(&self, address: u32) -> u32 {
        raw::read32(address)
    }

    /// Writes the register at an address. Returns false if there is no register.
    pub fn write32(&self, address: u32, word: u32) -> bool {
        raw::write32(address, word) == status::DONE
    }

    /// Reads a register of a virtual function. Returns the value that a driver sees, even if there is no register.
    pub fn vf_read(&self, number: u8, register: VfRegister) -> u32 {
        raw::vf_read32(number, register.offset())
    }

    /// Writes a register of a virtual function. Returns false if there is none.
    pub fn vf_write(&self, number: u8, register: VfRegister, word: u32) -> bool {
        raw::vf_write32(number, register.offset(), word) == status::DONE
    }

    /// Fills `bytes` from packet memory, starting at a bus address. Returns false if one of the bytes isn't lent, which
    /// is a failure unless the scenario allows it.
    pub fn read_into(&self, bus: u64, bytes: &mut [u8]) -> bool {
        raw::dma_read(bus, bytes) == status::DONE
    }

    /// Writes bytes to packet memory, starting at a bus address. Returns false if one of the bytes isn't lent.
    pub fn write_bytes(&self, bus: u64, bytes: &[u8]) -> bool {
        raw::dma_write(bus, bytes) == status::DONE
    }

    /// Reads a 64-bit number. Returns 0 if the memory isn't lent.
    pub fn get64(&self, bus: u64) -> u64 {
        let mut bytes = [0; 8];
        self.read_into(bus, &mut bytes);
        u64::from_le_bytes(bytes)
    }

    /// Writes a 64-bit number. Returns false if the memory isn't lent.
    pub fn put64(&self, bus: u64, value: u64) -> bool {
        self.write_bytes(bus, &value.to_le_bytes())
    }

    /// Reads the descriptor of a slot in one access; [`Bus::get64`] reads a half.
    pub fn descriptor(&self, ring: u64, slot: u16) -> Descriptor {
        let mut bytes = [0; 16];
        self.read_into(slot_of(ring, slot), &mut bytes);
        Descriptor::from_bytes(bytes)
    }

    /// Writes the descriptor of a slot in one access. Returns false if the memory isn't lent.
    pub fn put_descriptor(&self, ring: u64, slot: u16, descriptor: Descriptor) -> bool {
        self.write_bytes(slot_of(ring, slot), &descriptor.to_bytes())
    }

    /// Lends a block to the device.
    ///
    /// # Errors
    ///
    /// The errors of [`Nic::lend`].
    pub fn lend(&self, block: u32) -> Result<(), Error> {
        Error::unless_done(raw::lend(block))
    }

    /// Takes a block back from the device.
    ///
    /// # Errors
    ///
    /// The errors of [`Nic::take`]; an error is a failure unless the scenario allows it.
    pub fn take(&self, block: u32) -> Result<(), Error> {
        unless_lent(raw::take(block) == status::DONE, || Memory::block(block).start)
    }

    /// A point without an access, to put between two accesses to the driver's own memory.
    pub fn point(&self) {
        raw::point();
    }

    /// Waits until another actor has run: `while !ready() { bus.wait() }`.
    pub fn wait(&self) {
        raw::wait();
    }

    /// Waits until a condition on the driver's own memory holds. The call is one point, but a loop that calls
    /// [`Bus::wait`] has a point after each step of another actor.
    pub fn wait_until(&self, condition: impl Fn() -> bool) {
        raw::wait_until(&condition);
    }

    /// Lets other actors run before this task continues; if none can, it continues immediately. For loops that poll a
    /// bounded number of times.
    pub fn pause(&self) {
        raw::pause();
    }

    /// Takes a lock and returns a guard; dropping it releases the lock. If its holder takes the lock again, the call
    /// never returns.
    pub fn lock<'a>(&self, lock: &'a Lock) -> Guard<'a> {
        lock.raw.lock();
        Guard { lock }
    }

    /// A store barrier, for weak memory: when it returns, all earlier stores of the task's processor have reached
    /// memory. With strong memory, all barriers are no-ops and aren't points.
    pub fn wmb(&self) {
        raw::wmb();
    }

    /// A load barrier: no later load returns a value from before the barrier.
    pub fn rmb(&self) {
        raw::rmb();
    }

    /// A full barrier: both a store barrier and a load barrier.
    pub fn mb(&self) {
        raw::mb();
    }

    /// Returns a value below the bound (1 to 256). The search chooses it as part of the schedule: for example, whether
    /// an allocation fails or which input arrives. All strategies explore these values, and shrinking tries lower ones.
    /// In [`Scenario::bring_up`] the call fails.
    pub fn choose(&self, bound: u32) -> u32 {
        raw::choose(bound)
    }

    /// Arms a timer, or arms it again.
    pub fn arm(&self, timer: Timer) {
        raw::arm(timer.0);
    }

    /// Disarms a timer, and returns whether it was armed. Doesn't wait for a function that has already started.
    pub fn disarm(&self, timer: Timer) -> bool {
        raw::disarm(timer.0)
    }

    /// Runs a closure during which no handler starts on this task.
    pub fn without_interrupts<T>(&self, action: impl FnOnce() -> T) -> T {
        raw::interrupts_off();
        let done = action();
        raw::interrupts_on();
        done
    }

    /// Fails the schedule with this message. A panic of a task has the same effect.
    #[track_caller]
    pub fn fail(&self, words: &str) -> ! {
        panic!("{words}")
    }

    /// Fails the schedule with this message unless the condition holds.
    #[track_caller]
    pub fn check(&self, holds: bool, words: &str) {
        if !holds {
            self.fail(words);
        }
    }

    /// Lends all blocks that aren't lent. For [`Scenario::bring_up`].
    ///
    /// # Errors
    ///
    /// [`Error::OutOfMemory`].
    pub fn lend_all(&self) -> Result<(), Error> {
        Error::unless_done(raw::lend_all())
    }

    /// Runs steps of the device until none has anything to do. For [`Scenario::bring_up`]; elsewhere it fails.
    pub fn settle(&self) {
        raw::settle();
    }
}

impl Device for Bus {
    fn read(&self, register: Register) -> u32 {
        self.read(register)
    }

    fn write(&self, register: Register, word: u32) {
        self.write(register, word);
    }

    fn see32(&self, address: u32) -> u32 {
        self.read32(address)
    }

    fn write32(&self, address: u32, word: u32) -> Result<(), Error> {
        done_or_stray(self.write32(address, word), address, || Absent::Register)
    }

    fn vf_read(&self, number: u8, register: VfRegister) -> u32 {
        self.vf_read(number, register)
    }

    fn vf_write(&self, number: u8, register: VfRegister, word: u32) -> Result<(), Error> {
        let offset = register.offset();
        done_or_stray(raw::vf_write32(number, offset, word) == status::DONE, offset, || {
            raw::looked(|nic| why_absent(number, nic.sizes().vfs, nic.peek(GCR_EXT), true))
        })
    }

    fn read_into(&self, bus: u64, bytes: &mut [u8]) -> Result<(), Error> {
        let length = bytes.len() as u64;
        unless_lent(self.read_into(bus, bytes), || raw::looked(|nic| first_not_lent(nic.handle(), bus, length)))
    }

    fn write_bytes(&self, bus: u64, bytes: &[u8]) -> Result<(), Error> {
        let length = bytes.len() as u64;
        unless_lent(self.write_bytes(bus, bytes), || raw::looked(|nic| first_not_lent(nic.handle(), bus, length)))
    }
}

/// A lock in the driver's memory.
pub struct Lock {
    raw: raw::Lock,
}

impl Lock {
    /// Creates a free lock. The name appears in reports.
    pub fn new(name: &str) -> Lock {
        Lock { raw: raw::Lock::new(name) }
    }
}

impl fmt::Debug for Lock {
    fn fmt(&self, f: &mut fmt::Formatter<'_>) -> fmt::Result {
        f.debug_struct("Lock").finish_non_exhaustive()
    }
}

/// A held lock.
#[derive(Debug)]
pub struct Guard<'a> {
    lock: &'a Lock,
}

impl Drop for Guard<'_> {
    fn drop(&mut self) {
        self.lock.raw.unlock();
    }
}

// --- in `always` and `end` ---

/// Access to the device without side effects.
#[derive(Debug)]
pub struct Look<'a> {
    nic: &'a Nic,
}

impl Look<'_> {
    /// Returns the number of frames that have arrived so far, including dropped ones. Shrinking removes frames from a
    /// failing schedule, so `end` should compare with this number instead of the number of frames named.
    pub fn came(&self) -> u32 {
        raw::came()
    }

    /// Returns the value that a read would return.
    pub fn peek(&self, register: Register) -> u32 {
        self.nic.peek(register)
    }

    /// Returns the value that reading a virtual function's register would return.
    ///
    /// # Errors
    ///
    /// [`Error::Stray`].
    pub fn vf_peek(&self, number: u8, register: VfRegister) -> Result<u32, Error> {
        self.nic.vf(number).peek(register)
    }

    /// Returns the bytes of a range of packet memory.
    ///
    /// # Errors
    ///
    /// The errors of [`Memory::read`].
    pub fn read(&self, range: impl RangeBounds<u64>) -> Result<Vec<u8>, Error> {
        self.nic.memory().read(range)
    }

    /// Returns the descriptor of a slot.
    ///
    /// # Errors
    ///
    /// [`Error::NotLent`].
    pub fn descriptor(&self, ring: u64, slot: u16) -> Result<Descriptor, Error> {
        self.nic.memory().descriptor(ring, slot)
    }

    /// Returns the length of the oldest transmitted frame; 0 if there is none.
    pub fn next_out(&self) -> usize {
        self.nic.next_out()
    }

    /// Explains what keeps pending work from proceeding, as [`Nic::why`] does.
    pub fn why(&self) -> String {
        self.nic.why()
    }
}
