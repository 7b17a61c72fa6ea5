//! Safe code reaches no memory that was freed or that something else uses. Tests controllers during a search, what a
//! schedule leaves on the stacks of its tasks, and drops that panic.
#![forbid(unsafe_code)]

use std::cell::{Cell, RefCell};
use std::panic::{self, AssertUnwindSafe};
use std::path::PathBuf;
use std::sync::atomic::{AtomicBool, AtomicU32, AtomicU64, Ordering};
use std::sync::mpsc;
use std::time::Duration;
use std::{env, fs, mem, process, thread};

use nic82599::explore::{search, Begin, Bus, Lock, Look, Outcome, Scenario};
use nic82599::regs::{rxctrl, EIMS, FCTRL, RETA, RXCTRL};
use nic82599::{Nic, Sizes, Snapshot};

/// A scenario that consists of plain functions.
#[derive(Clone, Copy)]
struct Tried {
    name: &'static str,
    bring_up: fn(),
    begin: fn(&Begin<State>),
    end: fn(&State) -> Result<(), String>,
}

#[derive(Default)]
struct State {
    count: Cell<u32>,
    cell: RefCell<u32>,
}

impl Scenario for Tried {
    type State = State;

    fn name(&self) -> &str {
        self.name
    }

    fn state(&self) -> State {
        State::default()
    }

    fn bring_up(&self, _bus: &Bus) -> Result<(), String> {
        (self.bring_up)();
        Ok(())
    }

    fn begin(&self, begin: &Begin<State>) {
        (self.begin)(begin);
    }

    fn end(&self, state: &State, _device: &Look<'_>) -> Result<(), String> {
        (self.end)(state)
    }
}

const TRIED: Tried = Tried { name: "tried", bring_up: || {}, begin: |_| {}, end: |_| Ok(()) };

/// A directory for the files of one search, removed when this value is dropped.
struct Folder(PathBuf);

impl Folder {
    fn new(name: &str) -> Folder {
        let folder = env::temp_dir().join(format!("nic82599-sound-{}-{name}", process::id()));
        fs::create_dir_all(&folder).unwrap();
        Folder(folder)
    }
}

impl Drop for Folder {
    fn drop(&mut self) {
        let _ = fs::remove_dir_all(&self.0);
    }
}

/// Returns the outcome of a search of 50 schedules, and the header of the schedule that it wrote.
fn searched(tried: Tried) -> (Outcome, String) {
    let folder = Folder::new(tried.name);
    let outcome = search(tried, &["--runs", "50", "--quiet", "--jobs", "1", "--out", folder.0.to_str().unwrap()]);
    let text = fs::read_to_string(folder.0.join(format!("{}.schedule", tried.name))).unwrap_or_default();
    (outcome, text.lines().take_while(|it| it.starts_with('#')).collect())
}

fn passes(tried: Tried) {
    let (outcome, head) = searched(tried);
    assert_eq!(outcome, Outcome::Nothing, "{}: {head}", tried.name);
}

fn fails(tried: Tried, words: &str) {
    let (outcome, head) = searched(tried);
    assert_eq!(outcome, Outcome::Failure, "{}", tried.name);
    assert!(head.contains(words), "{}: {head}", tried.name);
}

/// Names a service that a schedule leaves waiting, and another task.
fn left(begin: &Begin<State>, service: impl Fn(&Bus, &State) + 'static) {
    begin.service("left", service);
    begin.task("beside", |bus, state| {
        (0..3).for_each(|word| bus.write(EIMS, word));
        state.count.set(1);
    });
}

// --- controllers during a search ---

/// Uses all of a controller's memory.
fn use_it(nic: &Nic, byte: u8) {
    nic.write(RXCTRL, rxctrl::RXEN);
    nic.write(FCTRL, 0x700);
    nic.lend_all().unwrap();
    nic.memory().write(0x800, &[byte; 2048]).unwrap();
    for _ in 0..40 {
        let _ = nic.arrive(&[byte; 1000]).unwrap();
    }
    let kept = nic.snapshot().unwrap();
    nic.memory().write(0x800, &[!byte; 2048]).unwrap();
    nic.restore(&kept).unwrap();
    assert_eq!(nic.memory().read(0x800..0x1000).unwrap(), [byte; 2048]);
}

thread_local! {
    static NIC: RefCell<Option<Nic>> = const { RefCell::new(None) };
    static SNAPSHOTS: RefCell<Vec<Snapshot>> = const { RefCell::new(Vec::new()) };
}

/// Passes the thread's controller to `action`, opening it first if necessary.
fn with_nic<T>(action: impl FnOnce(&Nic) -> T) -> T {
    NIC.with(|it| action(it.borrow_mut().get_or_insert_with(|| Nic::open(Sizes::default()).unwrap())))
}

/// Checks that the controller is unchanged after a search, and can be used and dropped.
fn ends_well(word: u32) {
    let nic = NIC.with(|it| it.borrow_mut().take()).expect("it was opened");
    assert_eq!(nic.read(RETA.at(7)), word);
    use_it(&nic, 3);
    for kept in SNAPSHOTS.with(|it| mem::take(&mut *it.borrow_mut())) {
        nic.restore(&kept).unwrap();
        assert_eq!(nic.memory().read(0x800..0x801).unwrap(), [1]);
    }
}

/// Uses the controller in bring-up and `begin`, which also run in this process, and in tasks.
const USED: Tried = Tried {
    name: "used",
    bring_up: || {
        with_nic(|nic| {
            use_it(nic, 1);
            nic.write(RETA.at(7), 0x0102_0304);
            SNAPSHOTS.with(|it| it.borrow_mut().push(nic.snapshot().unwrap()));
        });
    },
    begin: |begin| {
        with_nic(|nic| use_it(nic, 2));
        left(begin, |bus, _| loop {
            with_nic(|nic| use_it(nic, 4));
            bus.wait();
            with_nic(|nic| assert_eq!(nic.memory().read(0x800..0x801).unwrap(), [4]));
        });
    },
    ..TRIED
};

#[test]
fn a_controller_that_a_scenario_opens_outlives_the_search() {
    passes(Tried { name: "opened-inside", ..USED });
    ends_well(0x0102_0304);
}

#[test]
fn a_controller_that_was_opened_before_is_used_inside() {
    with_nic(|nic| use_it(nic, 9));
    passes(Tried { name: "opened-before", ..USED });
    ends_well(0x0102_0304);
}

#[test]
fn controllers_and_snapshots_go_from_one_schedule_to_the_next() {
    passes(Tried {
        name: "between",
        begin: |begin| {
            with_nic(|nic| {
                use_it(nic, 8);
                SNAPSHOTS.with(|it| it.borrow_mut().push(nic.snapshot().unwrap()));
            });
            left(begin, |bus, _| loop {
                let kept = SNAPSHOTS.with(|it| it.borrow_mut().pop());
                with_nic(|nic| kept.iter().for_each(|it| nic.restore(it).unwrap()));
                bus.wait();
                with_nic(|nic| assert_eq!(nic.memory().read(0x800..0x801).unwrap(), [8]));
            });
        },
        ..TRIED
    });
}

#[test]
fn a_controller_goes_to_another_thread_during_a_search() {
    passes(Tried {
        name: "sent",
        begin: |begin| {
            let nic = Nic::open(Sizes::default()).unwrap();
            use_it(&nic, 5);
            thread::spawn(move || use_it(&nic, 6)).join().unwrap();
            left(begin, |bus, _| loop {
                let nic = Nic::open(Sizes::default()).unwrap();
                bus.wait();
                thread::spawn(move || use_it(&nic, 7)).join().unwrap();
            });
        },
        ..TRIED
    });
}

// --- what a schedule leaves on the stacks of its tasks ---

#[test]
fn a_scoped_thread_ends_before_its_stack_is_used_again() {
    static ALIVE: AtomicU32 = AtomicU32::new(0);
    static ENDS: AtomicBool = AtomicBool::new(false);
    struct Ends;
    impl Drop for Ends {
        fn drop(&mut self) {
            ENDS.store(true, Ordering::SeqCst);
        }
    }
    passes(Tried {
        name: "scope",
        begin: |begin| {
            assert_eq!(ALIVE.load(Ordering::SeqCst), 0, "a thread of an earlier schedule borrows from a stack");
            ENDS.store(false, Ordering::SeqCst);
            left(begin, |bus, _| {
                let mine: [_; 64] = std::array::from_fn(|_| AtomicU64::new(0));
                thread::scope(|scope| {
                    let _ends = Ends;
                    ALIVE.fetch_add(1, Ordering::SeqCst);
                    scope.spawn(|| {
                        while !ENDS.load(Ordering::SeqCst) {
                            mine.iter().for_each(|it| it.store(0x4141_4141_4141_4141, Ordering::Relaxed));
                            thread::yield_now();
                        }
                        ALIVE.fetch_sub(1, Ordering::SeqCst);
                    });
                    loop {
                        bus.wait();
                    }
                });
            });
        },
        ..TRIED
    });
}

#[test]
#[ignore = "it waits for seconds"]
fn a_scoped_thread_that_never_ends_is_a_failure() {
    let endless = Tried {
        name: "endless",
        begin: |begin| {
            left(begin, |bus, _| {
                thread::scope(|scope| {
                    scope.spawn(|| loop {
                        thread::park();
                    });
                    loop {
                        bus.wait();
                    }
                });
            });
        },
        ..TRIED
    };
    let folder = Folder::new(endless.name);
    let path = folder.0.to_str().unwrap();
    let words = ["--runs", "2", "--hang", "4", "--quiet", "--jobs", "1", "--no-shrink", "--out", path];
    assert_eq!(search(endless, &words), Outcome::Failure);
    let text = fs::read_to_string(folder.0.join("endless.schedule")).unwrap();
    assert!(text.contains("the stack of left isn't unwound"), "{text}");
}

thread_local! {
    /// The number of values created on tasks' stacks, and how many of them were dropped.
    static MADE: Cell<(u32, u32)> = const { Cell::new((0, 0)) };
}

/// A value whose creation and drop are counted.
struct Counted;

impl Counted {
    fn new() -> Counted {
        MADE.with(|it| it.set((it.get().0 + 1, it.get().1)));
        Counted
    }
}

impl Drop for Counted {
    fn drop(&mut self) {
        MADE.with(|it| it.set((it.get().0, it.get().1 + 1)));
    }
}

#[test]
fn what_is_left_on_a_stack_is_dropped_once() {
    passes(Tried {
        name: "dropped",
        begin: |begin| {
            let (made, dropped) = MADE.with(Cell::get);
            assert_eq!(made, dropped, "an earlier schedule left a value that wasn't dropped");
            left(begin, |bus, state| {
                let _counted = (Counted::new(), Counted::new());
                let _held = state.cell.borrow_mut();
                bus.wait_until(|| false);
            });
            begin.service("caught", |bus, _| {
                let _counted = Counted::new();
                let waited = panic::catch_unwind(AssertUnwindSafe(|| loop {
                    let _counted = Counted::new();
                    bus.wait();
                }));
                assert!(waited.is_err());
                let _counted = Counted::new();
                bus.write(EIMS, 1); // (it unwinds here)
                unreachable!("a call by an abandoned task returned");
            });
        },
        end: |state| match state.cell.try_borrow() {
            Ok(_) => Err("the abandoned task no longer borrows the cell".to_owned()),
            Err(_) => Ok(()),
        },
        ..TRIED
    });
}

/// A value whose drop accesses a register.
struct Acts<'a>(&'a Bus);

impl Drop for Acts<'_> {
    fn drop(&mut self) {
        self.0.write(EIMS, 1);
        self.0.wait();
    }
}

#[test]
fn accesses_of_drops_do_nothing_once_a_task_is_left_or_panics() {
    let acts = Tried {
        name: "acts",
        begin: |begin| {
            left(begin, |bus, _| {
                let _acts = Acts(bus);
                loop {
                    bus.wait();
                }
            });
        },
        ..TRIED
    };
    passes(acts);
    let panics = |begin: &Begin<State>| {
        begin.task("fails", |bus, _| {
            let _acts = Acts(bus);
            bus.fail("the real reason");
        });
        begin.task("beside", |bus, _| {
            bus.point();
            bus.point();
            panic!("another one");
        });
    };
    let (outcome, head) = searched(Tried { name: "panics", begin: panics, ..TRIED });
    assert_eq!(outcome, Outcome::Failure);
    assert!(head.contains("the real reason") != head.contains("another one"), "{head}");
}

#[test]
fn a_lock_that_is_forgotten_held_can_be_dropped() {
    fails(
        Tried {
            name: "forgotten",
            begin: |begin| {
                begin.task("forgets", |bus, _| {
                    let lock = Lock::new("a-lock-of-the-stack");
                    mem::forget(bus.lock(&lock));
                    drop(lock);
                    let _room: Vec<_> = (0..64).map(|_| vec![0x41_u8; 20]).collect();
                });
            },
            ..TRIED
        },
        "forgets ends while it holds a-lock-of-the-stack",
    );
    passes(Tried {
        name: "held",
        begin: |begin| {
            left(begin, |bus, _| {
                let lock = Lock::new("of the stack");
                let _guard = bus.lock(&lock);
                loop {
                    bus.wait();
                }
            });
        },
        ..TRIED
    });
}

#[test]
fn a_condition_that_makes_a_call_is_refused() {
    fails(
        Tried {
            name: "condition",
            begin: |begin| {
                left(begin, |bus, _| {
                    let _counted = Counted::new();
                    bus.wait_until(|| bus.read(EIMS) == 7);
                });
            },
            ..TRIED
        },
        "it may only read",
    );
}

// --- drops that panic ---

struct Bomb;

impl Drop for Bomb {
    fn drop(&mut self) {
        panic!("dropped");
    }
}

#[test]
fn a_captured_value_whose_drop_panics_is_a_failure() {
    fails(
        Tried {
            name: "bomb",
            begin: |begin| {
                let bomb = Bomb;
                begin.task("captures", move |bus, _| {
                    let _bomb = &bomb;
                    bus.point();
                });
            },
            ..TRIED
        },
        "dropped",
    );
}

#[test]
fn a_panic_with_a_value_whose_drop_panics_is_a_failure() {
    fails(
        Tried {
            name: "payload",
            begin: |begin| {
                begin.task("panics", |_, _| panic::panic_any(Bomb));
            },
            ..TRIED
        },
        "a panic",
    );
}

// --- refusals ---

#[test]
fn no_search_begins_in_one_or_during_a_panic() {
    passes(Tried {
        name: "within",
        begin: |begin| {
            left(begin, |bus, _| {
                assert_eq!(search(TRIED, &["--quiet"]), Outcome::Refused);
                loop {
                    bus.wait();
                }
            });
        },
        ..TRIED
    });
    struct Searches<'a>(&'a Cell<Option<Outcome>>);
    impl Drop for Searches<'_> {
        fn drop(&mut self) {
            self.0.set(Some(search(TRIED, &["--quiet"])));
        }
    }
    let outcome = Cell::new(None);
    let panicked = panic::catch_unwind(AssertUnwindSafe(|| {
        let _searches = Searches(&outcome);
        panic::resume_unwind(Box::new(()));
    }));
    assert!(panicked.is_err());
    assert_eq!(outcome.get(), Some(Outcome::Refused));
}

/// A captured value is dropped when the next schedule starts, the last one at the end of the search.
#[test]
fn no_search_begins_where_a_captured_value_is_dropped() {
    struct Searches;
    impl Drop for Searches {
        fn drop(&mut self) {
            assert_eq!(search(TRIED, &["--quiet"]), Outcome::Refused);
        }
    }
    let (done, end) = mpsc::channel();
    thread::spawn(move || {
        passes(Tried {
            name: "drops",
            begin: |begin| {
                let searches = Searches;
                begin.task("captures", move |bus, _| {
                    let _searches = &searches;
                    bus.point();
                });
            },
            ..TRIED
        });
        done.send(()).unwrap();
    });
    assert!(end.recv_timeout(Duration::from_secs(600)).is_ok(), "the search waits for itself, or it failed");
}
