//! Random calls, and the script of the same events with its answers. From the same seed, c/tests/differential.c makes
//! the same calls, so both programs write the same bytes. What a script doesn't show is checked here.

use std::fmt::Write;

use nic82599::regs::{self, vf, *};
use nic82599::{Arrival, Error, Event, Nic, Register, Registers, Side, Sizes, Step};

use super::Chance;

const QUEUES: u16 = 4;
const BLOCKS: u32 = 256;
const USED: u32 = 8;
const FIFO: u16 = 8;
const MOST_LINES: u32 = 3800;
const MOST_DATA: u32 = 1000;
const ENABLE: u32 = regs::rxdctl::ENABLE;

const WORDS: [u32; 13] = [0, 1, 2, 3, 8, 128, 256, 0x200, 0x2000, 0x0200_0000, 0x0200_0002, 0x1200_0001, 0x85];
const OFFSETS: [u32; 27] = [
    0, 8, 0x10, 0x100, 0x104, 0x108, 0x10C, 0x110, 0x114, 0x120, 0x124, 0x140, 0x200, 0x23C, 0x2FC, 0x300, 0x101C,
    0x201C, 0x1000, 0x1008, 0x1010, 0x1014, 0x1018, 0x1028, 0x2008, 0x2018, 0x2028,
];
const COMMANDS: [u32; 6] = [0x2230_0000, 0x2330_0000, 0x2A30_0000, 0x2B20_0000, 0x0B30_0000, 0x6B30_0000];
const BEGINNING: [u8; 24] = [2, 0, 0, 0, 0, 1, 2, 0, 0, 0, 0, 2, 8, 0, 0x45, 0, 0, 40, 0, 0, 0, 0, 64, 6];

/// The result of a seed.
pub struct Transcript {
    pub calls: u32,
    pub lines: u32,
    pub script: String,
    pub answers: String,
}

/// Makes a seed's calls.
pub fn transcript(seed: u64, vfs: u8) -> Transcript {
    let nic = Nic::open(Sizes { vfs, fifo: FIFO, blocks: BLOCKS }).unwrap();
    let other = Nic::open(Sizes { blocks: 1, ..Sizes::default() }).unwrap();
    let (script, answers) = (String::new(), String::new());
    let addresses = super::addresses();
    let mut run = Run { nic, other, chance: Chance::new(seed), addresses, script, answers, line: 0, strings: 0 };
    run.set_up();
    run.repair();
    let mut calls = 0;
    while run.line < MOST_LINES - 200 && run.strings < MOST_DATA - 120 {
        run.call_by_chance();
        calls += 1;
    }
    writeln!(run.answers, "ok {}", run.line).unwrap();
    Transcript { calls, lines: run.line, script: run.script, answers: run.answers }
}

fn hex(bytes: &[u8]) -> String {
    bytes.iter().fold(String::new(), |mut text, byte| {
        write!(text, "{byte:02x}").unwrap();
        text
    })
}

/// A controller, the script so far, and the answers. `other` repeats what settle does, step by step.
struct Run {
    nic: Nic,
    other: Nic,
    chance: Chance,
    addresses: Vec<u32>,
    script: String,
    answers: String,
    line: u32,
    strings: u32,
}

impl Run {
    fn say(&mut self, line: &str) {
        self.script.push_str(line);
        self.script.push('\n');
    }

    fn answer(&mut self, text: &str) {
        writeln!(self.answers, "{} {text}", self.line).unwrap();
        self.line += 1;
    }

    /// Names some bytes for the next line of the script.
    fn data(&mut self, bytes: &[u8]) -> u32 {
        let name = self.strings;
        self.say(&format!("data d{name} {}", hex(bytes)));
        self.strings += 1;
        name
    }

    // --- registers ---

    fn answer_word(&mut self, result: Result<u32, Error>) {
        match result {
            Ok(word) => self.answer(&format!("word 0x{word:08x}")),
            Err(Error::Stray { word: Some(word), .. }) => self.answer(&format!("stray 0x{word:08x}")),
            other => panic!("{other:?}"),
        }
    }

    fn answer_write(&mut self, result: Result<(), Error>) {
        match result {
            Ok(()) => self.answer("done"),
            Err(Error::Stray { word: None, .. }) => self.answer("stray 0x00000000"),
            other => panic!("{other:?}"),
        }
    }

    fn write(&mut self, register: Register, word: u32) {
        self.write_at(register.address(), word);
    }

    fn write_at(&mut self, address: u32, word: u32) {
        self.say(&format!("w {address} {word}"));
        let result = self.nic.write32(address, word);
        self.answer_write(result);
    }

    fn read_at(&mut self, address: u32) {
        let (look, result) = (self.nic.peek32(address), self.nic.read32(address));
        assert_eq!(look.ok(), result.ok());
        self.say(&format!("r {address}"));
        self.answer_word(result);
    }

    fn some_word(&mut self) -> u32 {
        match self.chance.below(4) {
            0 => self.chance.word(),
            1 => 1 << self.chance.below(32),
            _ => self.chance.of(&WORDS),
        }
    }

    fn some_address(&mut self) -> u32 {
        match self.chance.below(8) {
            0 => self.chance.word(),
            1 => self.chance.below(0x20000),
            _ => self.chance.of(&self.addresses),
        }
    }

    fn access_by_chance(&mut self) {
        let mut address = self.some_address();
        if (address == CTRL.address() || address == 4) && self.chance.below(16) > 0 {
            address = STATUS.address();
        }
        if self.chance.below(2) > 0 {
            let word = self.some_word();
            self.write_at(address, word);
        } else {
            self.read_at(address);
        }
    }

    fn access_of_a_function(&mut self) {
        let most = if self.chance.below(4) > 0 { 4 } else { 63 };
        let number = self.chance.below(most) as u8;
        let mut offset = self.chance.word() % 0x3000;
        if self.chance.below(6) > 0 {
            offset = self.chance.of(&OFFSETS);
            offset += 0x40 * self.chance.below(5);
        }
        if self.chance.below(3) > 0 && (offset > 0 || self.chance.below(8) == 0) {
            let word = self.some_word();
            self.say(&format!("vw {number} {offset} {word}"));
            let result = self.nic.vf(number).write32(offset, word);
            self.answer_write(result);
        } else {
            let function = self.nic.vf(number);
            let (look, result) = (function.peek32(offset), function.read32(offset));
            assert_eq!(look.ok(), result.ok());
            self.say(&format!("vr {number} {offset}"));
            self.answer_word(result);
        }
    }

    // --- memory ---

    fn lend(&mut self, block: u32) {
        let result = self.nic.lend(block);
        self.say(&format!("lend {block}"));
        match result {
            Ok(()) => self.answer("done"),
            Err(error) => {
                assert_eq!(error, Error::NoBlock);
                self.answer("no block");
            }
        }
    }

    fn take(&mut self, block: u32) {
        let result = self.nic.take(block);
        self.say(&format!("unlend {block}"));
        match result {
            Ok(()) => self.answer(&format!("taken {block}")),
            Err(error) => {
                assert_eq!(error, Error::NotLent(2048 * u64::from(block)));
                self.answer("not lent");
            }
        }
    }

    /// Returns sixteen bytes at a multiple of 16; `None` if they aren't lent.
    fn peek(&mut self, bus: u64) -> Option<Vec<u8>> {
        let result = self.nic.memory().read(bus..bus + 16);
        self.say(&format!("peek {bus} 0"));
        match result {
            Ok(bytes) => {
                self.answer(&format!("bytes {}", hex(&bytes)));
                Some(bytes)
            }
            Err(error) => {
                assert_eq!(error, Error::NotLent(bus));
                self.answer("not lent");
                None
            }
        }
    }

    fn poke(&mut self, bus: u64, bytes: &[u8]) {
        let name = self.data(bytes);
        self.say(&format!("poke {bus} d{name}"));
        self.answer("done");
    }

    /// Reads a range, and compares it with each 16-byte unit that it touches.
    fn read_range(&mut self, bus: u64, length: usize) {
        let (first, end) = (bus & !15, bus + length as u64);
        let (mut whole, mut lent, mut first_missing) = (Vec::new(), true, None::<u64>);
        for at in (first..end).step_by(16) {
            match self.peek(at) {
                Some(bytes) => whole.extend(bytes),
                None => {
                    lent = false;
                    first_missing = first_missing.or(Some(at));
                }
            }
        }
        let mut got = vec![0xA5; length];
        let result = self.nic.memory().read_into(bus, &mut got);
        let refused = first_missing.map_or(Ok(()), |at| Err(Error::NotLent(at.max(bus))));
        assert_eq!(result, if length == 0 { Ok(()) } else { refused });
        let begin = (bus - first) as usize;
        let want = if lent { whole[begin.min(whole.len())..][..length].to_vec() } else { vec![0xA5; length] };
        assert_eq!(got, want);
    }

    /// Writes a range, and compares each 16-byte unit that it touches before and after: bytes outside the range don't
    /// change.
    fn write_range(&mut self, bus: u64, bytes: &[u8]) {
        let (first, end) = (bus & !15, bus + bytes.len() as u64);
        let parts: Vec<_> = (first..end).step_by(16).map(|at| self.nic.memory().read(at..at + 16)).collect();
        let whole: Result<Vec<_>, _> = parts.into_iter().collect();
        let result = self.nic.memory().write(bus, bytes);
        assert_eq!(result.is_ok(), whole.is_ok() || bytes.is_empty());
        let mut want = whole.map(|it| it.concat()).ok();
        if let Some(want) = want.as_mut().filter(|_| !bytes.is_empty()) {
            want[(bus - first) as usize..][..bytes.len()].copy_from_slice(bytes);
        }
        for at in (first..end).step_by(16) {
            let part = want.as_ref().map(|it| it[(at - first) as usize..][..16].to_vec());
            if let Some(part) = &part {
                self.poke(at, part);
            }
            let now = self.peek(at);
            assert!(part.is_none() || now == part);
        }
    }

    fn memory_by_chance(&mut self) {
        let bus = if self.chance.below(8) > 0 {
            self.chance.below(USED * 2048)
        } else {
            self.chance.word() % (BLOCKS * 2048 * 2)
        };
        let (bus, length) = (u64::from(bus), self.chance.below(200) as usize);
        match self.chance.below(6) {
            0 => {
                let block = self.some_block();
                self.lend(block);
            }
            1 => {
                if self.chance.below(12) == 0 {
                    let block = self.some_block();
                    self.take(block);
                }
            }
            2 | 3 => self.read_range(bus, length),
            _ => {
                let bytes: Vec<u8> = (0..length).map(|_| self.chance.next() as u8).collect();
                self.write_range(bus, &bytes);
            }
        }
    }

    fn some_block(&mut self) -> u32 {
        let most = if self.chance.below(8) > 0 { USED } else { 65_536 };
        self.chance.below(most)
    }

    // --- events ---

    /// Checks the parts of an event that a script's answer doesn't show.
    fn check(&self, event: &Event) {
        let memory = self.nic.memory();
        match *event {
            Event::Wrote { queue, slot, end, descriptor, length, .. } => {
                let (low, high) = (self.nic.peek(RDBAL.at(queue)), self.nic.peek(RDBAH.at(queue)));
                assert_eq!(descriptor, (u64::from(high) << 32 | u64::from(low)) + 16 * u64::from(slot));
                let written = memory.descriptor(descriptor, 0).unwrap().received().unwrap();
                assert_eq!((written.end, u64::from(written.length)), (end, length));
            }
            Event::Advanced { back: Some(at), .. } | Event::Sent { back: Some(at), .. } => {
                memory.get64(at & !15).unwrap();
            }
            _ => {}
        }
    }

    fn tell(&mut self, event: Option<Event>) {
        match event {
            Some(event) => {
                self.check(&event);
                self.answer(&event.to_string());
            }
            None => self.answer("idle"),
        }
    }

    fn tell_or_refused(&mut self, result: Result<Option<Event>, Error>) {
        match result {
            Ok(event) => self.tell(event),
            Err(Error::NoQueue) => self.answer("no queue"),
            Err(Error::NoGroup) => self.answer("no group"),
            Err(other) => panic!("{other}"),
        }
    }

    // --- frames ---

    fn some_frame(&mut self) -> Vec<u8> {
        const LENGTHS: [usize; 8] = [60, 60, 61, 64, 100, 300, 1514, 1515];
        let length =
            if self.chance.below(12) > 0 { self.chance.of(&LENGTHS) } else { 1 + self.chance.below(70) as usize };
        let mut frame = vec![self.chance.below(256) as u8; length];
        if length >= 60 {
            frame[..24].copy_from_slice(&BEGINNING);
            frame[0] = if self.chance.below(6) > 0 { 2 } else { 0xFF };
            frame[5] = 1 + (self.chance.below(20) / 19) as u8;
            frame[13] = if self.chance.below(8) > 0 { 0 } else { 0xDD };
            frame[23] = if self.chance.below(3) > 0 { 6 } else { 17 };
            frame[29] = self.chance.below(256) as u8;
        }
        frame
    }

    fn arrive(&mut self) {
        let frame = self.some_frame();
        let result = self.nic.arrive(&frame).unwrap();
        let name = self.data(&frame);
        self.say(&format!("arrive d{name}"));
        match result {
            Arrival::Waits => self.answer("done"),
            Arrival::Dropped(why) => self.answer(&format!("dropped {why}")),
        }
    }

    fn collect(&mut self) {
        let length = self.nic.next_out();
        self.say("collect");
        match self.nic.collect() {
            None => {
                assert_eq!(length, 0);
                self.answer("idle");
            }
            Some(frame) => {
                assert!(length > 0 && frame.data.len() == length);
                self.answer(&format!("frame queue {} {}", frame.queue, hex(&frame.data)));
            }
        }
    }

    // --- steps ---

    fn queue_step(&mut self, side: Side, queue: u16) {
        self.say(&Step::Queue(side, queue).to_string());
        match self.nic.queue_step(side, queue) {
            Ok(is_done) => self.answer(if is_done { "done" } else { "idle" }),
            Err(error) => {
                assert_eq!(error, Error::NoQueue);
                self.answer("no queue");
            }
        }
    }

    fn step_by_chance(&mut self) {
        let most = if self.chance.below(20) > 0 { u32::from(QUEUES) } else { 65_536 };
        let queue = self.chance.below(most) as u16;
        let most = if self.chance.below(4) > 0 { 2 } else { 64 };
        let group = self.chance.below(most) as u8;
        match self.chance.below(8) {
            0..=2 => {
                self.say("rx");
                let result = self.nic.rx_step();
                self.tell(result);
            }
            3 | 6 => {
                self.say(&format!("tx {queue}"));
                let result = self.nic.tx_step(queue);
                self.tell_or_refused(result);
            }
            4 => {
                self.say(&Step::Int(group.checked_sub(1)).to_string());
                let result = match group.checked_sub(1) {
                    None => Ok(self.nic.int_step()),
                    Some(function) => self.nic.vf(function).int_step(),
                };
                self.tell_or_refused(result);
            }
            5 => {
                if self.chance.below(2) > 0 {
                    let side = if self.chance.below(2) > 0 { Side::Tx } else { Side::Rx };
                    self.queue_step(side, queue);
                }
            }
            _ => {
                self.say("eestep");
                let is_done = self.nic.eeprom_step();
                self.answer(if is_done { "done" } else { "idle" });
            }
        }
    }

    /// The steps of a round.
    fn round(&self) -> Vec<Step> {
        let enables = (0..QUEUES).flat_map(|queue| [Step::Queue(Side::Rx, queue), Step::Queue(Side::Tx, queue)]);
        let groups = (0..=self.nic.sizes().vfs).map(|group| Step::Int(group.checked_sub(1)));
        let sends = (0..QUEUES).map(Step::Tx);
        enables.chain([Step::Eeprom]).chain(sends).chain([Step::Rx]).chain(groups).collect()
    }

    /// Runs one round of settle step by step. Returns how many of the events occurred in it.
    fn round_of(&mut self, events: &[Event]) -> usize {
        let mut at = 0;
        for step in self.round() {
            self.say(&step.to_string());
            match (events.get(at).filter(|event| event.step() == step), step) {
                (Some(event), _) => {
                    self.answer(&event.to_string());
                    at += 1;
                }
                (None, Step::Int(Some(function))) if self.nic.vf(function).peek(vf::VTEIMS).is_err() => {
                    self.answer("no group");
                }
                (None, _) => self.answer("idle"),
            }
        }
        at
    }

    fn settle(&mut self) {
        self.other.restore(&self.nic.snapshot().unwrap()).unwrap();
        let events = self.nic.settle(QUEUES).unwrap();
        let steps: Result<Vec<_>, _> = self.other.steps(QUEUES).unwrap().collect();
        assert_eq!(steps.unwrap(), events.as_slice());
        let mut rest = events.as_slice();
        loop {
            let made = self.round_of(rest);
            rest = &rest[made..];
            if made == 0 {
                break;
            }
        }
        assert_eq!(rest, []);
    }

    // --- setting up queues, so that not every call is refused ---

    fn set_up(&mut self) {
        let (is_on, filter) = (self.chance.below(16) > 0, [0x200, 0x300, 0x700, 0x700, 0]);
        self.write(RXCTRL, u32::from(is_on));
        let word = self.chance.of(&filter);
        self.write(FCTRL, word);
        let is_on = self.chance.below(16) > 0;
        self.write(DMATXCTL, u32::from(is_on));
        let word = self.chance.of(&[0, 1, 0x10001, 0x0003_0001, 0x8, 0x1000A, 0x3000B]);
        self.write(MRQC, word);
        let four = self.chance.below(32) as u16;
        let entries = (0..3).fold(0, |word, k| word | self.chance.below(u32::from(QUEUES)) << (8 * k));
        self.write(RETA.at(four), entries);
        let has_hash = self.chance.below(2);
        self.write(RXCSUM, has_hash << 13);
        self.set_up_pools();
        self.set_up_interrupts();
    }

    fn set_up_pools(&mut self) {
        let has_vfs = self.nic.sizes().vfs > 0;
        let word = if has_vfs { self.chance.below(4) } else { 0 };
        self.write(GCR_EXT, word);
        let word = if has_vfs { self.chance.below(2) } else { 0 };
        self.write(VT_CTL, word);
        for register in [VFRE.at(0), VFTE.at(0)] {
            let word = self.some_word() | 3;
            self.write(register, word);
        }
        self.write(RAL.at(0), 2);
        self.write(RAH.at(0), 0x8000_0100);
        let word = 1 + self.chance.below(3);
        self.write(MPSAR.at(0), word);
    }

    fn set_up_interrupts(&mut self) {
        for (register, all, some) in [
            (IVAR.at(0), 0x8080_8080, 0x0F07_0707),
            (IVAR.at(1), 0x8080_8080, 0x3F07_0707),
            (IVAR_MISC, 0x8080, 0x1F0F),
        ] {
            let word = all | self.chance.word() & some;
            self.write(register, word);
        }
        let word = self.some_word() | 0x0010_00FF;
        self.write(EIMS, word);
        for register in [EIAM, EIAC] {
            let word = self.some_word();
            self.write(register, word);
        }
    }

    /// Writes a descriptor to a slot; most are valid.
    fn post(&mut self, side: Side, queue: u16, slot: u32) {
        let (block, length) = (block_of(side, queue), 20 + self.chance.below(200));
        let mut first = u64::from(block * 2048 + 1024 + self.chance.below(64));
        let mut second = 0;
        if side == Side::Tx {
            let command = if self.chance.below(5) > 0 { 0x2B30_0000 } else { self.chance.of(&COMMANDS) };
            second = u64::from(command | length) | u64::from(length) << 46;
        }
        if self.chance.below(30) == 0 {
            let is_wild = self.chance.below(2) > 0;
            first = if is_wild { self.chance.next() } else { u64::from(self.chance.below(USED * 2048)) };
        }
        let bytes = [first.to_le_bytes(), second.to_le_bytes()].concat();
        self.write_range(u64::from(block * 2048 + 16 * slot), &bytes);
    }

    /// Writes descriptors to slots, starting at the tail, then writes the tail.
    fn refill(&mut self, side: Side, queue: u16) {
        let (_, lengths, _, tails, _) = names(side);
        let count = 1 + self.chance.below(4);
        let (mut tail, mut slots) = (self.nic.read(tails.at(queue)), self.nic.read(lengths.at(queue)) / 16);
        if slots == 0 || slots > 16 || tail >= slots || self.chance.below(30) == 0 {
            (tail, slots) = (0, 8);
        }
        for k in 0..count {
            self.post(side, queue, (tail + k) % slots);
        }
        let is_good = self.chance.below(40) > 0;
        let word = if is_good { (tail + count) % slots } else { self.chance.below(70_000) };
        self.write(tails.at(queue), word);
    }

    fn set_up_queue(&mut self, side: Side, queue: u16) {
        let (bases, lengths, heads, tails, controls) = names(side);
        let block = block_of(side, queue);
        self.lend(block);
        self.write(bases.at(queue), block * 2048);
        let word = 128 + 128 * self.chance.below(2);
        self.write(lengths.at(queue), word);
        let word = self.chance.below(2);
        self.write(heads.at(queue), word);
        self.write(tails.at(queue), 1);
        if side == Side::Tx {
            let word = if self.chance.below(4) > 0 { 0 } else { block * 2048 + 0x401 };
            self.write(TDWBAL.at(queue), word);
        } else {
            let mut word = if self.chance.below(30) > 0 { 0x0200_0000 } else { 0 };
            word |= u32::from(self.chance.below(30) > 0);
            word |= self.chance.below(2) << 28;
            self.write(SRRCTL.at(queue), word);
        }
        let word = if self.chance.below(20) > 0 { ENABLE } else { 0 };
        self.write(controls.at(queue), word);
        self.queue_step(side, queue);
        self.refill(side, queue);
    }

    /// Sets up a disabled side again, half of the time.
    fn repair(&mut self) {
        for queue in 0..QUEUES {
            for side in [Side::Rx, Side::Tx] {
                let (.., controls) = names(side);
                if self.nic.peek(controls.at(queue)) & ENABLE == 0 && self.chance.below(2) > 0 {
                    self.set_up_queue(side, queue);
                }
            }
        }
    }

    fn link_by_chance(&mut self) {
        let up = self.chance.below(3) > 0 || self.nic.read(LINKS) == 0;
        if self.chance.below(4) > 0 {
            return;
        }
        self.say(if up { "link up" } else { "link down" });
        let is_done = self.nic.link(up);
        self.answer(if is_done { "done" } else { "idle" });
    }

    fn call_by_chance(&mut self) {
        match self.chance.below(24) {
            0 if self.chance.below(4) > 0 => {}
            0 => self.set_up(),
            1 => self.repair(),
            2..=4 => {
                let side = if self.chance.below(2) > 0 { Side::Tx } else { Side::Rx };
                let queue = self.chance.below(u32::from(QUEUES)) as u16;
                self.refill(side, queue);
            }
            5..=8 => self.arrive(),
            9 if self.nic.sizes().vfs == 0 && self.chance.below(4) > 0 => {}
            9 => self.access_of_a_function(),
            10 => self.memory_by_chance(),
            11 | 12 => self.collect(),
            13 if self.chance.below(3) > 0 => {}
            13 => self.settle(),
            14 => self.link_by_chance(),
            15 => self.access_by_chance(),
            16 if self.chance.below(4) > 0 => {}
            16 => {
                let word = self.chance.below(70) << 2 | 1;
                self.write(EERD, word);
            }
            _ => self.step_by_chance(),
        }
    }
}

fn block_of(side: Side, queue: u16) -> u32 {
    2 * u32::from(queue) + u32::from(side == Side::Tx)
}

/// The base, length, head, tail and control registers of a side.
fn names(side: Side) -> (Registers, Registers, Registers, Registers, Registers) {
    match side {
        Side::Rx => (RDBAL, RDLEN, RDH, RDT, RXDCTL),
        Side::Tx => (TDBAL, TDLEN, TDH, TDT, TXDCTL),
    }
}
