//! The search's weak memory, choices, timers and kit. The C tests cover these in full; these tests call them from Rust.

use std::cell::{Cell, RefCell};
use std::num::NonZeroU32;
use std::path::PathBuf;
use std::{env, fs, process};

use nic82599::explore::{
    frame_number, numbered_frame, search, Begin, Bus, Flow, Look, Mailbox, MemoryOrder, Outcome, Protocol, Scenario,
    Timer, When,
};
use nic82599::regs::*;
use nic82599::{rss_hash, Sizes};

#[derive(Clone, Copy)]
struct Case {
    name: &'static str,
    memory: MemoryOrder,
    bring_up: fn(&Bus),
    begin: fn(&Begin<State>),
    end: fn(&State, &Look<'_>) -> Result<(), String>,
}

#[derive(Default)]
struct State {
    count: Cell<u32>,
    is_busy: Cell<bool>,
    words: RefCell<Vec<u32>>,
    timer: Cell<Option<Timer>>,
}

const CASE: Case = Case {
    name: "case",
    memory: MemoryOrder { is_weak: false, writes_order: false, reads_order: false },
    bring_up: |_| {},
    begin: |_| {},
    end: |_, _| Ok(()),
};

impl Scenario for Case {
    type State = State;

    fn name(&self) -> &str {
        self.name
    }

    fn sizes(&self) -> Sizes {
        Sizes { blocks: 4, vfs: 1, ..Sizes::default() }
    }

    fn memory(&self) -> MemoryOrder {
        self.memory
    }

    fn state(&self) -> State {
        State::default()
    }

    fn bring_up(&self, bus: &Bus) -> Result<(), String> {
        bus.lend_all()?;
        (self.bring_up)(bus);
        Ok(())
    }

    fn begin(&self, begin: &Begin<State>) {
        (self.begin)(begin);
    }

    fn end(&self, state: &State, device: &Look<'_>) -> Result<(), String> {
        (self.end)(state, device)
    }
}

/// Returns the outcome of a search and its schedule; the schedule is empty if there is none.
fn searched(case: Case, words: &[&str]) -> (Outcome, String) {
    let folder: PathBuf = env::temp_dir().join(format!("nic82599-weak-{}-{}", process::id(), case.name));
    fs::create_dir_all(&folder).unwrap();
    let mut all = vec!["--quiet", "--jobs", "1", "--runs", "500", "--out", folder.to_str().unwrap()];
    all.extend(words);
    let outcome = search(case, &all);
    let text = fs::read_to_string(folder.join(format!("{}.schedule", case.name))).unwrap_or_default();
    fs::remove_dir_all(&folder).unwrap();
    (outcome, text)
}

/// Two related values: with a barrier on each side they are seen together.
fn message(has_barriers: bool) -> Case {
    let begin = |begin: &Begin<State>| {
        begin.task("write", |bus, _| {
            bus.put64(0, 1);
            bus.put64(64, 1);
        });
        begin.task("read", |bus, _| bus.check(bus.get64(64) == 0 || bus.get64(0) == 1, "the second without the first"));
    };
    let begin_right = |begin: &Begin<State>| {
        begin.task("write", |bus, _| {
            bus.put64(0, 1);
            bus.wmb();
            bus.put64(64, 1);
            bus.mb();
        });
        begin.task("read", |bus, _| {
            if bus.get64(64) == 1 {
                bus.rmb();
                bus.check(bus.get64(0) == 1, "the second without the first");
            }
        });
    };
    Case { name: "message", begin: if has_barriers { begin_right } else { begin }, ..CASE }
}

#[test]
fn missing_barriers() {
    let weak = MemoryOrder { is_weak: true, ..MemoryOrder::default() };
    assert_eq!(searched(message(false), &[]).0, Outcome::Nothing);
    let (outcome, schedule) = searched(Case { memory: weak, ..message(false) }, &[]);
    assert_eq!(outcome, Outcome::Failure);
    assert!(schedule.contains("\nmemory weak\n") && schedule.contains("on its way"), "{schedule}");
    assert_eq!(searched(message(false), &["--memory", "weak"]).0, Outcome::Failure);
    assert_eq!(searched(Case { memory: weak, ..message(true) }, &["--strategy", "exhaustive"]).0, Outcome::Nothing);
}

#[test]
fn values() {
    let begin = |begin: &Begin<State>| {
        let input = begin.choose(3);
        begin.task("chooses", move |bus, _| {
            let other = bus.choose(7);
            bus.check(input != 1 || other < 4, "the values that fail");
        });
    };
    let (outcome, schedule) = searched(Case { name: "values", begin, ..CASE }, &[]);
    let values: Vec<_> = schedule.lines().filter(|it| it.starts_with("value ")).map(|it| it[..7].to_owned()).collect();
    assert_eq!((outcome, values), (Outcome::Failure, vec!["value 1".to_owned(), "value 4".to_owned()]));
}

#[test]
fn timers() {
    fn named(begin: &Begin<State>, when: When) {
        let timer = begin.timer("timer", when, |bus, state| {
            bus.check(!state.is_busy.get(), "it fires while the task is busy");
            state.count.set(state.count.get() + 1);
        });
        begin.task("arms", move |bus, state| {
            state.timer.set(Some(timer));
            bus.arm(timer);
            bus.check(bus.disarm(timer) || state.count.get() == 1, "it wasn't armed");
            state.is_busy.set(true);
            bus.arm(timer);
            bus.point();
            state.is_busy.set(false);
            bus.point();
        });
    }
    let end = |state: &State, _: &Look<'_>| match (state.count.get(), state.timer.get()) {
        (1, Some(_)) => Ok(()),
        other => Err(format!("it fired not once but {other:?}")),
    };
    let at_rest = Case { name: "at_rest", begin: |it| named(it, When::AtRest), end, ..CASE };
    assert_eq!(searched(at_rest, &[]).0, Outcome::Nothing);
    let within = |it: &Begin<State>| named(it, When::Within(NonZeroU32::new(4).unwrap()));
    assert_eq!(searched(Case { name: "within", begin: within, ..CASE }, &[]).0, Outcome::Failure);
}

#[test]
fn frames_of_flows() {
    let flow = Flow { from: 1, to: 2, from_port: 3, to_port: 4, protocol: Protocol::Tcp };
    let mut frame = numbered_frame(1000, 7).unwrap();
    assert_eq!(frame_number(&frame), Some(7));
    frame[500] ^= 1;
    assert_eq!((frame_number(&frame), numbered_frame(59, 7)), (None, None));
    assert_eq!(frame_number(&flow.frame(60, 9).unwrap()), Some(9));
    assert_eq!(flow.frame(1519, 9), None);
    let bring_up = |bus: &Bus| {
        bus.write(MRQC, 0x0001_0001);
        (0..10).for_each(|it| bus.write(RSSRK.at(it), 0x0101_0101));
        (0..32).for_each(|it| bus.write(RETA.at(it), 0x0302_0100));
    };
    let begin = |begin: &Begin<State>| {
        assert!(begin.frames(2, 60) && !begin.frames(1, 10));
        begin.task("looks", |bus, state| {
            let flow = Flow { from: 1, to: 2, from_port: 3, to_port: 4, protocol: Protocol::Tcp };
            let (hash, queue) = bus.rss(&flow);
            state.count.set(hash);
            bus.check(u32::from(queue) == hash & 3, "another queue");
            bus.check(bus.rss(&Flow { protocol: Protocol::Udp, ..flow }) == (0, 0), "a hash of none");
        });
    };
    let end = |state: &State, _: &Look<'_>| {
        let wanted = rss_hash(&[1; 40], &[0, 0, 0, 1, 0, 0, 0, 2, 0, 3, 0, 4]).unwrap();
        if state.count.get() == wanted {
            Ok(())
        } else {
            Err("another hash".into())
        }
    };
    assert_eq!(searched(Case { name: "flows", bring_up, begin, end, ..CASE }, &["--runs", "20"]).0, Outcome::Nothing);
}

#[test]
fn both_sides_of_a_mailbox() {
    let bring_up = |bus: &Bus| {
        bus.write(GCR_EXT, 3);
        bus.write(CTRL_EXT, 0x4000);
        bus.vf_read(0, vf::VFMAILBOX);
    };
    let begin = |begin: &Begin<State>| {
        begin.task("function", |bus, state| {
            let (mut mailbox, mut answer) = (Mailbox::new(0), [0; 2]);
            mailbox.send(bus, &[1, 2]);
            while !mailbox.is_acked(bus) {
                bus.wait();
            }
            while !mailbox.receive(bus, &mut answer) {
                bus.wait();
            }
            state.words.borrow_mut().extend(answer);
        });
        begin.task("host", |bus, _| {
            let mut words = [0; 2];
            while !bus.host_receives(0, &mut words) {
                bus.wait();
            }
            bus.host_sends(0, &words.map(|it| 10 * it));
            while !bus.host_is_acked(0) {
                bus.wait();
            }
        });
    };
    let end = |state: &State, _: &Look<'_>| match &state.words.borrow()[..] {
        [10, 20] => Ok(()),
        other => Err(format!("{other:?}")),
    };
    assert_eq!(searched(Case { name: "mailbox", bring_up, begin, end, ..CASE }, &[]).0, Outcome::Nothing);
}
