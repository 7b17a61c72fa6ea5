//! The search finds and reports each kind of failure, and passes correct drivers.

#[path = "common/device.rs"]
mod device;

use std::cell::Cell;
use std::collections::VecDeque;
use std::path::PathBuf;
use std::sync::atomic::{AtomicBool, AtomicU32, Ordering};
use std::{env, fs, process, thread};

use device::{start, take};
use nic82599::explore::{search, Begin, Bus, Look, Outcome, Scenario, Where};
use nic82599::regs::{vf, *};
use nic82599::{explore, Device, Nic, Sizes};

/// A driver of one or two identical tasks.
#[derive(Clone, Copy)]
struct Simple {
    name: &'static str,
    tasks: u8,
    act: fn(&Bus, &State),
    begin: fn(&Begin<State>),
    always: fn(&State, &Look<'_>) -> Result<(), String>,
    end: fn(&State, &Look<'_>) -> Result<(), String>,
    bring_up: fn(&Bus) -> Result<(), String>,
}

struct State {
    count: Cell<u32>,
    first: explore::Lock,
    second: explore::Lock,
}

const SIMPLE: Simple = Simple {
    name: "simple",
    tasks: 2,
    act: |_, _| {},
    begin: |_| {},
    always: |_, _| Ok(()),
    end: |_, _| Ok(()),
    bring_up: |bus| Ok(bus.lend(0)?),
};

impl Scenario for Simple {
    type State = State;

    fn name(&self) -> &str {
        self.name
    }

    fn sizes(&self) -> Sizes {
        Sizes { blocks: 2, vfs: 1, ..Sizes::default() }
    }

    fn points(&self) -> u32 {
        200
    }

    fn state(&self) -> State {
        State { count: Cell::new(0), first: explore::Lock::new("first"), second: explore::Lock::new("second") }
    }

    fn bring_up(&self, bus: &Bus) -> Result<(), String> {
        (self.bring_up)(bus)
    }

    fn begin(&self, begin: &Begin<State>) {
        for number in 0..self.tasks {
            begin.task(["one", "two"][usize::from(number)], self.act);
        }
        (self.begin)(begin);
    }

    fn always(&self, state: &State, device: &Look<'_>) -> Result<(), String> {
        (self.always)(state, device)
    }

    fn end(&self, state: &State, device: &Look<'_>) -> Result<(), String> {
        (self.end)(state, device)
    }
}

/// A directory for the files of a search.
fn folder(name: &str) -> PathBuf {
    let folder = env::temp_dir().join(format!("nic82599-explore-{}-{name}", process::id()));
    fs::create_dir_all(&folder).unwrap();
    folder
}

/// Returns the outcome of a search and the schedule that it wrote.
fn searched(scenario: Simple, words: &[&str]) -> (Outcome, String) {
    let folder = folder(&scenario.name.replace('\0', "_"));
    let mut all = vec!["--quiet", "--jobs", "1", "--out", folder.to_str().unwrap()];
    all.extend(words);
    let outcome = search(scenario, &all);
    let text = fs::read_to_string(folder.join(format!("{}.schedule", scenario.name))).unwrap_or_default();
    fs::remove_dir_all(&folder).unwrap();
    (outcome, text)
}

/// Checks that a search fails with this kind, and that its message contains `words`.
fn fails(scenario: Simple, kind: &str, words: &str) -> String {
    let (outcome, schedule) = searched(scenario, &["--runs", "300"]);
    assert_eq!(outcome, Outcome::Failure, "{}", scenario.name);
    let head: String = schedule.lines().take_while(|it| it.starts_with('#')).collect();
    assert!(head.contains(kind) && head.contains(words), "{}: {head}", scenario.name);
    schedule
}

#[test]
fn what_is_right_passes() {
    let right = Simple {
        name: "right",
        act: |bus, state| {
            let held = bus.lock(&state.first);
            let count = state.count.get();
            bus.point();
            state.count.set(count + 1);
            drop(held);
            bus.check(state.count.get() > 0, "nothing was counted");
        },
        always: |state, device| match (state.count.get(), device.peek(RXCTRL)) {
            (0..=2, 0) => Ok(()),
            other => Err(format!("{other:?}")),
        },
        end: |state, _| if state.count.get() == 2 { Ok(()) } else { Err("a count is lost".to_owned()) },
        ..SIMPLE
    };
    assert_eq!(searched(right, &["--runs", "500"]).0, Outcome::Nothing);
    assert_eq!(searched(right, &["--strategy", "exhaustive"]).0, Outcome::Nothing);
}

#[test]
fn a_lost_count_is_found() {
    let wrong = Simple {
        name: "lost",
        act: |bus, state| {
            let count = state.count.get();
            bus.point();
            state.count.set(count + 1);
        },
        end: |state, _| if state.count.get() == 2 { Ok(()) } else { Err("a count is lost".to_owned()) },
        ..SIMPLE
    };
    fails(wrong, "end", "a count is lost");
    assert_eq!(searched(wrong, &["--strategy", "exhaustive"]).0, Outcome::Failure);
}

#[test]
fn each_kind_of_failure() {
    let always = |state: &State, _: &Look<'_>| if state.count.get() < 3 { Ok(()) } else { Err("three".to_owned()) };
    let counts = |bus: &Bus, state: &State| {
        bus.point();
        state.count.set(state.count.get() + 2);
        bus.point();
    };
    fails(Simple { name: "always", act: counts, always, ..SIMPLE }, "always", "three");
    let check = |bus: &Bus, _: &State| bus.check(false, "it can't be");
    let place = format!("it can't be ({}:{})", file!(), line!() - 1);
    fails(Simple { name: "check", act: check, ..SIMPLE }, "check", &place);
    let panics = |_: &Bus, state: &State| assert!(state.count.get() == 1, "as by assert");
    let place = format!("as by assert ({}:{})", file!(), line!() - 1);
    fails(Simple { name: "panics", act: panics, ..SIMPLE }, "check", &place);
    let waits = |bus: &Bus, state: &State| bus.wait_until(|| state.count.get() == 9);
    fails(Simple { name: "waits", act: waits, ..SIMPLE }, "deadlock", "waits, and no actor can act");
    let goes_on = |bus: &Bus, _: &State| (0..1_000).for_each(|it| bus.write(RETA.at(0), it));
    fails(Simple { name: "goes_on", tasks: 1, act: goes_on, ..SIMPLE }, "endless", "200 points");
    let not_lent = |bus: &Bus, _: &State| _ = bus.get64(0x800);
    fails(Simple { name: "not_lent", act: not_lent, ..SIMPLE }, "memory", "0x800");
    let crashes = |bus: &Bus, _: &State| bus.wait_until(|| panic!("in a condition"));
    fails(Simple { name: "crashes", act: crashes, ..SIMPLE }, "crash", "signal");
}

#[test]
fn locks_in_two_orders() {
    let begin = |begin: &Begin<State>| {
        begin.task("forwards", |bus, state| {
            let _first = bus.lock(&state.first);
            let _second = bus.lock(&state.second);
        });
        begin.task("backwards", |bus, state| {
            let _second = bus.lock(&state.second);
            let _first = bus.lock(&state.first);
        });
    };
    fails(Simple { name: "locks", tasks: 0, begin, ..SIMPLE }, "deadlock", "waits for");
}

/// A handler for a virtual function's message that interrupts a task, but not while the task keeps interrupts off.
#[test]
fn handlers() {
    let begin = |begin: &Begin<State>| {
        let task = begin.task("task", |bus, state| {
            bus.write(GCR_EXT, 3);
            bus.vf_write(0, vf::VTIVAR_MISC, 0x82);
            bus.vf_write(0, vf::VTEIMS, 4);
            bus.without_interrupts(|| {
                bus.vf_write(0, vf::VTEICS, 4);
                bus.point();
                bus.check(state.count.get() == 0, "interrupted");
            });
            bus.wait_until(|| state.count.get() == 1);
        });
        begin.handler("isr", (Some(0), 2), Where::On(task), |bus, state| {
            bus.check(bus.vf_read(0, vf::VTEICR) == 4, "another cause");
            state.count.set(state.count.get() + 1);
        });
    };
    let scenario = Simple { name: "handlers", tasks: 0, begin, ..SIMPLE };
    assert_eq!(searched(scenario, &["--strategy", "exhaustive", "--preemptions", "any"]).0, Outcome::Nothing);
}

#[test]
fn memory_and_numbers() {
    let act = |bus: &Bus, _: &State| {
        bus.put64(16, 7);
        let it = bus.descriptor(0, 1);
        bus.check((it.first, it.second) == (7, 0) && bus.get64(16) == 7, "another number");
        bus.check(bus.put_descriptor(0, 2, it) && bus.read32(0xC) == 0 && !bus.write32(0xC, 1), "a stray");
        bus.check(bus.lend(0).is_err() && bus.lend(1).is_ok() && bus.take(1).is_ok(), "a block");
        (0..3).for_each(|_| bus.pause());
    };
    let end = |_: &State, device: &Look<'_>| {
        let lent = device.read(0..2048)?;
        let is_right = lent[16] == 7 && lent[32] == 7 && device.read(2048..2049).is_err() && device.next_out() == 0;
        let nothing_waits = device.why().is_empty();
        if is_right && nothing_waits && device.descriptor(0, 2).is_ok() && device.vf_peek(0, vf::VTEIMS).is_err() {
            Ok(())
        } else {
            Err("another memory".to_owned())
        }
    };
    assert_eq!(
        searched(Simple { name: "memory", tasks: 1, act, end, ..SIMPLE }, &["--runs", "20"]).0,
        Outcome::Nothing
    );
}

/// The code that tests/calls.rs runs on a controller also runs as a task of a search. (This test opens no `Nic`: during
/// a search, all memory belongs to the search.)
#[test]
fn a_bus_is_a_device() {
    let bring_up = |bus: &Bus| {
        bus.lend_all()?;
        start(bus)?;
        bus.settle();
        Ok(())
    };
    let begin = |begin: &Begin<State>| {
        begin.task("taker", |bus, state| {
            while state.count.get() < 2 {
                match take(bus, state.count.get() as u16).unwrap() {
                    true => state.count.set(state.count.get() + 1),
                    false => bus.wait(),
                }
            }
        });
        let frame = [&[2][..], &[0; 59]].concat();
        (0..2).for_each(|_| begin.frame(&frame));
    };
    let right = Simple { name: "device", tasks: 0, bring_up, begin, ..SIMPLE };
    assert_eq!(searched(right, &["--runs", "100"]).0, Outcome::Nothing);
    let begin = |begin: &Begin<State>| _ = begin.task("reader", |bus, _| _ = Device::descriptor(bus, 0x1000, 0));
    fails(Simple { name: "beyond", tasks: 0, bring_up, begin, ..SIMPLE }, "memory", "0x1000");
}

#[test]
fn what_is_refused() {
    let refused = |scenario: Simple, words: &[&str]| assert_eq!(searched(scenario, words).0, Outcome::Refused);
    refused(Simple { name: "no name", ..SIMPLE }, &[]);
    refused(Simple { name: "zero\0", ..SIMPLE }, &[]);
    refused(SIMPLE, &["--nonsense"]);
    refused(SIMPLE, &["--replay", "/nowhere"]);
    refused(Simple { name: "up", bring_up: |_| Err("it is broken".to_owned()), ..SIMPLE }, &[]);
    refused(Simple { name: "panics_up", bring_up: |_| panic!("it is broken"), ..SIMPLE }, &[]);
    refused(Simple { name: "panics_begin", begin: |_| panic!("it is broken"), ..SIMPLE }, &[]);
    refused(Simple { name: "no_tasks", tasks: 0, ..SIMPLE }, &[]);
    let twice = |begin: &Begin<State>| (0..20).for_each(|_| _ = begin.task("more", |_, _| {}));
    refused(Simple { name: "too_many", begin: twice, ..SIMPLE }, &[]);
    let nested = |bus: &Bus, _: &State| {
        bus.check(search(SIMPLE, &["--runs", "1"]) == Outcome::Refused, "a search in a search");
    };
    assert_eq!(searched(Simple { name: "nested", act: nested, ..SIMPLE }, &["--runs", "5"]).0, Outcome::Nothing);
}

static LIVE: AtomicU32 = AtomicU32::new(0);

/// A value that a task's closure captures. It counts the values not dropped yet.
struct Counted;

impl Counted {
    fn new() -> Counted {
        LIVE.fetch_add(1, Ordering::Relaxed);
        Counted
    }
}

impl Drop for Counted {
    fn drop(&mut self) {
        LIVE.fetch_sub(1, Ordering::Relaxed);
    }
}

/// Values that schedules abandon don't accumulate: the closure of a service that never ends is dropped when the next
/// schedule starts.
#[test]
fn what_is_left_is_given_back() {
    let begin = |begin: &Begin<State>| {
        let kept = Counted::new();
        begin.service("service", move |bus, state| loop {
            let _kept = &kept;
            bus.wait_until(|| state.count.get() == 9);
        });
    };
    let end = |_: &State, _: &Look<'_>| match LIVE.load(Ordering::Relaxed) {
        1 => Ok(()),
        other => Err(format!("{other} are left")),
    };
    let right = Simple { name: "left", tasks: 1, begin, end, ..SIMPLE };
    assert_eq!(searched(right, &["--runs", "100"]).0, Outcome::Nothing);
}

/// Opens devices one after another until the search is over; some of them outlive later ones. `count` counts them.
fn make_devices(is_over: &AtomicBool, count: &AtomicU32) {
    let (mut kept, mut made) = (VecDeque::new(), 0);
    while !is_over.load(Ordering::Acquire) {
        let nic = Nic::open(Sizes { blocks: 4, ..Sizes::default() }).unwrap();
        nic.lend_all().unwrap();
        nic.write(RETA.at(0), made);
        nic.memory().put64(0x800, u64::from(made)).unwrap();
        kept.push_back((nic, made));
        made += 1;
        if kept.len() > 4 {
            let (nic, number) = kept.pop_front().unwrap();
            assert_eq!((nic.read(RETA.at(0)), nic.memory().get64(0x800)), (number, Ok(u64::from(number))));
        }
        count.store(made, Ordering::Release);
    }
}

#[test]
fn other_threads_have_devices_beside_a_search() {
    static IS_OVER: AtomicBool = AtomicBool::new(false);
    static MADE: AtomicU32 = AtomicU32::new(0);
    let other = thread::spawn(|| make_devices(&IS_OVER, &MADE));
    let beside = Simple { name: "beside", ..SIMPLE };
    let mut searches = Vec::new();
    // (on a busy machine, the other thread may start late)
    while searches.len() < 100 || (MADE.load(Ordering::Acquire) <= 4 && !other.is_finished()) {
        searches.push(searched(beside, &["--runs", "5"]).0);
    }
    IS_OVER.store(true, Ordering::Release);
    other.join().unwrap();
    assert!(searches.iter().all(|it| *it == Outcome::Nothing));
}
