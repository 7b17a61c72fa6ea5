//! The report card: a correct driver passes the rows that apply, a faulty driver fails in the row that names the fault,
//! and a forbidden action fails its row while other rows pass.
//!
//! The report card also runs this program: with `--row`, `--list`, `--name` or `--accesses` it is the driver that the
//! environment variable NIC82599_DRIVER names.

use std::cell::{Cell, RefCell};
use std::env;
use std::path::{Path, PathBuf};
use std::process::{self, Command, ExitCode};

use nic82599::desc::{rxwb, txd, Descriptor};
use nic82599::drive::{self, *};
use nic82599::regs::*;
use nic82599::Register;

const BUFFER: usize = 2048;
const CAUSE: u32 = 1;
const ALL_CAUSES: u32 = 0x7FFF_FFFF;

// The faults that a driver can have.
const NOTHING: u8 = 0;
const SLOT_WITHOUT_DD: u8 = 1;
const STOP_THAT_DOES_NOT_WAIT: u8 = 2;
const IDLE_REPORTED_EARLY: u8 = 3;
const LENGTH_BEFORE_DD: u8 = 4;
const PANIC_IN_RECEIVE: u8 = 5;
const PANIC_IN_OPEN: u8 = 6;
const HANG_IN_RECEIVE: u8 = 7;
const FRAME_TOO_LONG: u8 = 8;
const ABORT_IN_CLOSE: u8 = 9;
const EXIT_IN_RECEIVE: u8 = 10;
const OWN_LEFT: u8 = 11;
const GUARD_OVER_A_CALL: u8 = 12;

#[derive(Default)]
struct Ring {
    bus: Cell<u64>,
    buffers: RefCell<Vec<u64>>,
    next: Cell<u16>,
    clean: Cell<u16>,
    used: Cell<u16>,
}

impl Ring {
    fn take(&self, platform: &Platform, slots: u16) -> Option<()> {
        self.bus.set(platform.dma_alloc(16 * usize::from(slots))?);
        for _ in 0..slots {
            let buffer = platform.dma_alloc(BUFFER)?;
            self.buffers.borrow_mut().push(buffer);
        }
        Some(())
    }

    fn give(&self, platform: &Platform) {
        for buffer in self.buffers.take() {
            platform.dma_free(buffer);
        }
        if self.bus.get() != 0 {
            platform.dma_free(self.bus.take());
        }
    }

    fn slots(&self) -> u16 {
        self.buffers.borrow().len() as u16
    }

    fn buffer(&self, slot: u16) -> u64 {
        self.buffers.borrow()[usize::from(slot)]
    }

    fn after(&self, slot: u16) -> u16 {
        (slot + 1) % self.slots()
    }

    fn post(&self, platform: &Platform, slot: u16) {
        platform.put_descriptor(self.bus.get(), slot, Descriptor::receive(self.buffer(slot)));
    }

    fn begin(&self) {
        for it in [&self.next, &self.clean, &self.used] {
            it.set(0);
        }
    }
}

/// A driver with one queue in each direction, with interrupts or polled.
#[derive(Default)]
struct Both<const FAULT: u8> {
    rx: Ring,
    tx: Ring,
    interrupts: Cell<bool>,
    counts: RefCell<u32>,
    own: RefCell<Option<Own<u64>>>,
}

fn set_enable(platform: &Platform, control: Register, enable: u32, waits: bool) {
    platform.write(control, enable);
    while waits && platform.read(control) & rxdctl::ENABLE != enable & rxdctl::ENABLE {
        platform.wait();
    }
}

fn set_up_device(platform: &Platform) {
    platform.write(EIMC, ALL_CAUSES);
    platform.write(CTRL, ctrl::RST);
    platform.write(EIMC, ALL_CAUSES);
    platform.write(CTRL_EXT, ctrl_ext::DRV_LOAD);
    platform.write(FCTRL, fctrl::BAM | fctrl::UPE);
    let word = platform.read(HLREG0) | hlreg0::RXCRCSTRP | hlreg0::TXCRCEN | hlreg0::TXPADEN;
    platform.write(HLREG0, word);
    let word = platform.read(RDRXCTL) | rdrxctl::CRCSTRIP | rdrxctl::RSCACKC | rdrxctl::FCOE_WRFIX;
    platform.write(RDRXCTL, word);
    platform.write(DMATXCTL, platform.read(DMATXCTL) | dmatxctl::TE);
}

fn start_interrupts(platform: &Platform) {
    platform.write(GPIE, gpie::MULTIPLE_MSIX | gpie::PBA_SUPPORT | gpie::OCD | gpie::EIAME);
    platform.write(IVAR.at(0), 0x8080);
    platform.write(EIAC, CAUSE);
    platform.write(EIAM, CAUSE);
    platform.write(EIMS, CAUSE);
}

impl<const FAULT: u8> Both<FAULT> {
    fn start_receive(&self, platform: &Platform) {
        let (ring, slots) = (self.rx.bus.get(), self.rx.slots());
        self.rx.begin();
        (0..slots).for_each(|slot| self.rx.post(platform, slot));
        platform.write(RDBAL.at(0), ring as u32);
        platform.write(RDBAH.at(0), (ring >> 32) as u32);
        platform.write(RDLEN.at(0), 16 * u32::from(slots));
        platform.write(RDH.at(0), 0);
        platform.write(SRRCTL.at(0), srrctl::DESCTYPE.is(1) | srrctl::BSIZEPACKET.is(2));
        set_enable(platform, RXDCTL.at(0), rxdctl::ENABLE, true);
        platform.wmb();
        platform.write(RDT.at(0), u32::from(slots) - 1);
    }

    fn start_transmit(&self, platform: &Platform) {
        let ring = self.tx.bus.get();
        self.tx.begin();
        platform.write(TDBAL.at(0), ring as u32);
        platform.write(TDBAH.at(0), (ring >> 32) as u32);
        platform.write(TDLEN.at(0), 16 * u32::from(self.tx.slots()));
        platform.write(TDH.at(0), 0);
        platform.write(TDT.at(0), 0);
        set_enable(platform, TXDCTL.at(0), txdctl::ENABLE, true);
    }

    fn start(&self, platform: &Platform) {
        set_up_device(platform);
        self.start_receive(platform);
        self.start_transmit(platform);
        if self.interrupts.get() {
            start_interrupts(platform);
        }
        platform.write(RXCTRL, rxctrl::RXEN);
    }

    fn look(&self, platform: &Platform, second: u64) -> (bool, usize) {
        if FAULT == LENGTH_BEFORE_DD {
            let (mut length, mut state) = ([0; 2], [0; 1]);
            platform.read_into(second + 4, &mut length);
            platform.read_into(second, &mut state);
            return (state[0] & 1 == 1, usize::from(u16::from_le_bytes(length)));
        }
        let word = platform.get64(second);
        (word & rxwb::DD != 0 || FAULT == SLOT_WITHOUT_DD, rxwb::PKT_LEN.of(word) as usize)
    }

    fn do_wrong(&self, platform: &Platform) {
        match FAULT {
            PANIC_IN_RECEIVE => panic!("the ring has no slot {}", self.rx.slots()),
            HANG_IN_RECEIVE => loop {
                std::hint::spin_loop();
            },
            EXIT_IN_RECEIVE => process::exit(0),
            GUARD_OVER_A_CALL => {
                let mut counts = self.counts.borrow_mut();
                platform.point();
                *counts += 1;
            }
            _ => {}
        }
    }

    fn receive(&self, platform: &Platform, _queue: u16) -> Option<Frame> {
        let slot = self.rx.next.get();
        let (is_done, length) = self.look(platform, self.rx.bus.get() + 16 * u64::from(slot) + 8);
        self.do_wrong(platform);
        if !is_done {
            return None;
        }
        platform.rmb();
        let mut frame = Frame { bytes: vec![0; length], hash: 0 };
        platform.read_into(self.rx.buffer(slot), &mut frame.bytes);
        self.rx.post(platform, slot);
        platform.wmb();
        platform.write(RDT.at(0), u32::from(slot));
        self.rx.next.set(self.rx.after(slot));
        if FAULT == FRAME_TOO_LONG {
            frame.bytes.resize(MOST_FRAME + 1, 0);
        }
        Some(frame)
    }

    fn send(&self, platform: &Platform, _queue: u16, bytes: &[u8]) -> bool {
        let (slot, used) = (self.tx.next.get(), self.tx.used.get());
        if FAULT == GUARD_OVER_A_CALL {
            self.do_wrong(platform);
        }
        if used + 1 == self.tx.slots() || bytes.len() > 1514 {
            return false;
        }
        let length = bytes.len();
        platform.write_bytes(self.tx.buffer(slot), bytes);
        let given = Descriptor::transmit(self.tx.buffer(slot), length as u16, length as u32, txd::EOP | txd::RS);
        platform.put_descriptor(self.tx.bus.get(), slot, given);
        self.tx.next.set(self.tx.after(slot));
        self.tx.used.set(used + 1);
        platform.wmb();
        platform.write(TDT.at(0), u32::from(self.tx.next.get()));
        true
    }

    fn reclaim(&self, platform: &Platform, _queue: u16) -> u32 {
        let mut is_one_sent = false;
        while self.tx.used.get() > 0 {
            let slot = self.tx.clean.get();
            if !platform.descriptor(self.tx.bus.get(), slot).is_sent() {
                break;
            }
            is_one_sent = true;
            self.tx.clean.set(self.tx.after(slot));
            self.tx.used.set(self.tx.used.get() - 1);
        }
        match FAULT == IDLE_REPORTED_EARLY && is_one_sent {
            true => 0,
            false => u32::from(self.tx.used.get()),
        }
    }

    fn interrupt(&self, _platform: &Platform, _vector: u8) -> u32 {
        1
    }

    fn rearm(&self, platform: &Platform, _queue: u16) {
        platform.write(EIMS, CAUSE);
    }

    fn reset(&self, platform: &Platform) -> bool {
        self.start(platform);
        true
    }
}

impl<const FAULT: u8> Driver for Both<FAULT> {
    const NAME: &'static str = "both";
    const RECEIVE: Option<Receive<Self>> = Some(Self::receive);
    const SEND: Option<Send<Self>> = Some(Self::send);
    const RECLAIM: Option<Reclaim<Self>> = Some(Self::reclaim);
    const INTERRUPT: Option<Interrupt<Self>> = Some(Self::interrupt);
    const REARM: Option<Rearm<Self>> = Some(Self::rearm);
    const RESET: Option<Plain<Self>> = Some(Self::reset);

    fn new() -> Self {
        Both::default()
    }

    fn open(&self, platform: &Platform, setup: &Setup) -> bool {
        assert!(FAULT != PANIC_IN_OPEN, "the EEPROM has no address");
        self.interrupts.set(setup.interrupts);
        let own = platform.own(7u64);
        let is_there = own.is_some();
        *self.own.borrow_mut() = own;
        if !is_there || self.rx.take(platform, setup.slots).and(self.tx.take(platform, setup.slots)).is_none() {
            self.rx.give(platform);
            self.tx.give(platform);
            self.own.take();
            return false;
        }
        self.start(platform);
        true
    }

    fn close(&self, platform: &Platform) {
        if FAULT == ABORT_IN_CLOSE {
            process::abort();
        }
        let waits = FAULT != STOP_THAT_DOES_NOT_WAIT;
        platform.write(EIMC, ALL_CAUSES);
        set_enable(platform, RXDCTL.at(0), 0, waits);
        set_enable(platform, TXDCTL.at(0), 0, waits);
        platform.write(RXCTRL, 0);
        platform.write(CTRL_EXT, 0);
        platform.write(EICR, ALL_CAUSES);
        self.rx.give(platform);
        self.tx.give(platform);
        if FAULT != OWN_LEFT {
            self.own.take();
        }
    }
}

/// A driver that does nothing. It provides each function except one.
struct Without<const LEFT_OUT: u8>;

const fn unless<T: Copy>(left_out: bool, function: T) -> Option<T> {
    match left_out {
        true => None,
        false => Some(function),
    }
}

/// One more than the last function's number: a driver with this number lacks no function, but declares what it never
/// does.
const NEVER: usize = 18;
const NEVER_WRITES: Can = Can::NO_MODERATION.and(Can::NO_HEADS).and(Can::NO_ADDRESS).and(Can::NO_MSIX);
const NEVER_DOES: Can = NEVER_WRITES.and(Can::ONE_VECTOR).and(Can::ONE_BUFFER);
const ALL_CAN: Can = Can::SHARED_SEND.and(Can::FUNCTIONS).and(Can::SHARED_DEVICE).and(Can::HOST);
const NO_RESET: &str = "no device reset (NICD_SHARED_DEVICE)";

/// The report card's text for each function that can be left out. It is empty for `rearm`, because no row is skipped
/// for lack of `rearm` alone.
const LACKS: [&str; 18] = [
    "no receive",
    "no send",
    "no reclaim",
    "no interrupt",
    "",
    "no filter",
    "no rss",
    "no mtu",
    "no resize",
    "no reset",
    "no suspend or no resume",
    "no suspend or no resume",
    "no link",
    "no mailbox_send or no mailbox_receive",
    "no mailbox_send or no mailbox_receive",
    "no mailbox_ready",
    "no stats",
    "",
];

impl<const LEFT_OUT: u8> Driver for Without<LEFT_OUT> {
    const NAME: &'static str = "without";
    const CAN: Can = if LEFT_OUT == NEVER as u8 { ALL_CAN.and(NEVER_DOES) } else { ALL_CAN };
    const QUEUES: u16 = MOST_QUEUES;
    const FRAME: u32 = MOST_FRAME as u32;
    const RECEIVE: Option<Receive<Self>> = unless(LEFT_OUT == 0, |_, _, _| None);
    const SEND: Option<Send<Self>> = unless(LEFT_OUT == 1, |_, _, _, _| false);
    const RECLAIM: Option<Reclaim<Self>> = unless(LEFT_OUT == 2, |_, _, _| 0);
    const INTERRUPT: Option<Interrupt<Self>> = unless(LEFT_OUT == 3, |_, _, _| 0);
    const REARM: Option<Rearm<Self>> = unless(LEFT_OUT == 4, |_, _, _| ());
    const FILTER: Option<fn(&Self, &Platform, &Filter) -> bool> = unless(LEFT_OUT == 5, |_, _, _| false);
    const RSS: Option<fn(&Self, &Platform, &Rss) -> bool> = unless(LEFT_OUT == 6, |_, _, _| false);
    const MTU: Option<fn(&Self, &Platform, u32) -> bool> = unless(LEFT_OUT == 7, |_, _, _| false);
    const RESIZE: Option<fn(&Self, &Platform, u16) -> bool> = unless(LEFT_OUT == 8, |_, _, _| false);
    const RESET: Option<Plain<Self>> = unless(LEFT_OUT == 9, |_, _| false);
    const SUSPEND: Option<Plain<Self>> = unless(LEFT_OUT == 10, |_, _| false);
    const RESUME: Option<Plain<Self>> = unless(LEFT_OUT == 11, |_, _| false);
    const LINK: Option<fn(&Self) -> bool> = unless(LEFT_OUT == 12, |_| false);
    const MAILBOX_SEND: Option<MailboxSend<Self>> = unless(LEFT_OUT == 13, |_, _, _, _| false);
    const MAILBOX_RECEIVE: Option<MailboxReceive<Self>> = unless(LEFT_OUT == 14, |_, _, _| None);
    const MAILBOX_READY: Option<Plain<Self>> = unless(LEFT_OUT == 15, |_, _| false);
    const STATS: Option<fn(&Self) -> Stats> = unless(LEFT_OUT == 16, |_| Stats::default());

    fn new() -> Self {
        Without
    }

    fn open(&self, _platform: &Platform, _setup: &Setup) -> bool {
        true
    }

    fn close(&self, _platform: &Platform) {}
}

// --- the programs ---

/// Defines a program for each value of a constant.
macro_rules! programs {
    ($driver:ident: $($number:literal)*) => { [$(drive::main::<$driver<$number>>),*] };
}

const FAULTY: [fn() -> ExitCode; 13] = programs!(Both: 0 1 2 3 4 5 6 7 8 9 10 11 12);
const LACKING: [fn() -> ExitCode; NEVER + 1] = programs!(Without: 0 1 2 3 4 5 6 7 8 9 10 11 12 13 14 15 16 17 18);

fn program(name: &str) -> ExitCode {
    let number = |from: &str| name.strip_prefix(from).and_then(|it| it.parse::<usize>().ok());
    match (number("both-"), number("without-")) {
        (Some(number), _) => FAULTY[number](),
        (_, Some(number)) => LACKING[number](),
        _ => panic!("NIC82599_DRIVER: there is no driver {name}"),
    }
}

// --- the tests ---

/// Runs a program as the report card does. Returns its status and its output.
fn ran(driver: &str, words: &[&str]) -> (Option<i32>, String) {
    let program = env::current_exe().expect("the program has a path");
    let made = Command::new(program).args(words).env("NIC82599_DRIVER", driver).output().expect("it can be run");
    let output = [made.stdout, made.stderr].concat();
    (made.status.code(), String::from_utf8_lossy(&output).into_owned())
}

/// Runs a row. Only a driver that hangs has a short limit for hanging: on a busy machine, others may be slow.
fn row(folder: &Path, fault: u8, row: &str, runs: &str) -> (Option<i32>, String) {
    let out = folder.to_str().expect("its name is text");
    let hang = if fault == HANG_IN_RECEIVE { "2" } else { "600" };
    let words = ["--row", row, "--quiet", "--jobs", "1", "--runs", runs, "--hang", hang, "--no-shrink", "--out", out];
    ran(&format!("both-{fault}"), &words)
}

fn lines_of(list: &str) -> Vec<Vec<&str>> {
    list.lines().map(|it| it.split('\t').collect()).collect()
}

/// A correct driver passes each row that applies to it.
fn a_right_driver_passes(folder: &Path) {
    let (status, list) = ran("both-0", &["--list"]);
    assert_eq!(status, Some(0), "{list}");
    let rows = lines_of(&list);
    assert!(rows.len() > 100, "{list}");
    for it in rows {
        let (status, output) = row(folder, NOTHING, it[0], "60");
        assert_eq!(status, Some(if it[2] == "-" { 0 } else { 4 }), "{output}");
    }
}

/// A driver that lacks one function is reported to lack only that one: the C struct has pointers to all the others.
fn what_is_left_out_is_reported(_folder: &Path) {
    for (number, lack) in LACKS.iter().enumerate() {
        let (status, list) = ran(&format!("without-{number}"), &["--list"]);
        assert_eq!(status, Some(0), "{list}");
        let mut lacks: Vec<&str> = lines_of(&list).into_iter().map(|it| it[2]).filter(|it| *it != "-").collect();
        lacks.sort_unstable();
        lacks.dedup();
        lacks.retain(|it| *it != NO_RESET);
        let wanted: Vec<&str> = Some(*lack).filter(|it| !it.is_empty()).into_iter().collect();
        assert_eq!(lacks, wanted, "without function {number}");
    }
}

/// The card's advice fits Rust: no compiler option makes plain accesses visible.
fn what_it_cannot_see_is_reported(_folder: &Path) {
    let (status, words) = ran(&format!("without-{NEVER}"), &["--accesses"]);
    assert_eq!((status, words.trim()), (Some(0), "not seen: in Rust only calls and platform.point() are points"));
}

/// Rows that need what a driver never does by design aren't on its report card.
fn what_it_never_does_is_reported(_folder: &Path) {
    let (status, list) = ran(&format!("without-{NEVER}"), &["--list"]);
    assert_eq!(status, Some(0), "{list}");
    for name in ["NO_MODERATION", "NO_HEADS", "ONE_VECTOR", "ONE_BUFFER", "NO_ADDRESS", "NO_MSIX"] {
        assert!(lines_of(&list).iter().any(|it| it[2].ends_with(&format!(" (NICD_{name})"))), "{name}: {list}");
    }
}

/// A faulty driver fails in the row that names its fault. A forbidden action is reported, and another row passes.
fn what_is_wrong_is_reported(folder: &Path) {
    let faults = [
        (SLOT_WITHOUT_DD, "receive-empty", "check: receive returned true, but no frame arrived"),
        (STOP_THAT_DOES_NOT_WAIT, "close-during-frames", "queue 0 is on although the driver is closed"),
        (IDLE_REPORTED_EARLY, "send-wrap", "check: reclaim reports all of queue 0 as transmitted, but "),
        (LENGTH_BEFORE_DD, "receive-one", "check: a 0-byte frame is delivered from queue 0"),
        (PANIC_IN_RECEIVE, "receive-one", "check: the ring has no slot 8 (tests/drive.rs:"),
        (PANIC_IN_OPEN, "receive-one", "always: the EEPROM has no address (tests/drive.rs:"),
        (PANIC_IN_OPEN, "open-close", "check: the EEPROM has no address (tests/drive.rs:"),
        (HANG_IN_RECEIVE, "receive-one", "hang: task receive0 reached no further point"),
        (FRAME_TOO_LONG, "receive-one", "check: a 9725-byte frame is delivered from queue 0"),
        (ABORT_IN_CLOSE, "open-close", "crash: the process was killed by signal 6"),
        (EXIT_IN_RECEIVE, "receive-one", "crash: the process exited with status 0"),
        (OWN_LEFT, "open-close", "1 nicd_alloc allocation wasn't freed"),
        (GUARD_OVER_A_CALL, "both-ways", "already borrowed"),
    ];
    for (fault, name, words) in faults {
        let (status, output) = row(folder, fault, name, "300");
        let output = output.replace("already mutably borrowed", "already borrowed").replace("RefCell ", "");
        assert!(status == Some(1) && output.contains(words), "fault {fault}: {name} tells: {output}");
        let schedule = std::fs::read_to_string(folder.join(format!("{name}.schedule"))).unwrap_or_default();
        assert!(schedule.starts_with('#'), "fault {fault}: {name} writes no schedule");
        if fault != PANIC_IN_OPEN {
            let (status, output) = row(folder, fault, "setup-ring-values", "60");
            assert_eq!(status, Some(0), "fault {fault}: {output}");
        }
    }
}

fn main() -> ExitCode {
    if env::args().any(|it| ["--row", "--list", "--name", "--accesses"].contains(&it.as_str())) {
        return program(&env::var("NIC82599_DRIVER").unwrap_or_default());
    }
    let folder: PathBuf = env::temp_dir().join(format!("nic82599-drive-{}", process::id()));
    std::fs::create_dir_all(&folder).expect("there is room");
    let tests: [fn(&Path); 5] = [
        a_right_driver_passes,
        what_it_cannot_see_is_reported,
        what_is_left_out_is_reported,
        what_it_never_does_is_reported,
        what_is_wrong_is_reported,
    ];
    for test in tests {
        test(&folder);
    }
    std::fs::remove_dir_all(&folder).expect("it can be removed");
    println!("test result: ok. {} passed", tests.len());
    ExitCode::SUCCESS
}
