//! A driver with four queues: it receives by RSS, and sends each frame back from the queue that received it. The frames
//! come from a capture, or are generated:
//!
//!     cargo run --example echo [CAPTURE.pcap [SENT.pcap]]
//!
//! Each queue has an interrupt whose handler polls the queue, as in a driver for the card.

use std::env;
use std::error::Error;
use std::fs::File;
use std::io::{BufReader, BufWriter};

use nic82599::desc::{txd, Descriptor};
use nic82599::pcap::{Reader, Writer};
use nic82599::regs::*;
use nic82599::{rss_hash, Arrival, Event, Frame, Nic, Sizes};

type Answer<T> = Result<T, Box<dyn Error>>;

const QUEUES: u16 = 4;
const SLOTS: u16 = 32;
/// Each queue takes one block for its two rings, and one for each of their slots.
const BLOCKS: u32 = 1 + 2 * SLOTS as u32;
const BLOCK: u64 = 2048;
const KEY: [u8; 40] = [
    0x6D, 0x5A, 0x56, 0xDA, 0x25, 0x5B, 0x0E, 0xC2, 0x41, 0x67, 0x25, 0x3D, 0x43, 0xA3, 0x8F, 0xB0, 0xD0, 0xCA, 0x2B,
    0xCB, 0xAE, 0x7B, 0x30, 0xB4, 0x77, 0xCB, 0x2D, 0xA3, 0x80, 0x30, 0xF2, 0x0C, 0x6A, 0x42, 0xB7, 0x3B, 0xBE, 0xAC,
    0x01, 0xFA,
];

/// A ring of descriptors, with a buffer for each slot.
struct Ring {
    base: u64,
    buffers: u64,
    /// The next slot to look at.
    next: u16,
}

impl Ring {
    fn buffer(&self, slot: u16) -> u64 {
        self.buffers + BLOCK * u64::from(slot)
    }

    fn advance(&mut self) {
        self.next = (self.next + 1) % SLOTS;
    }
}

struct Queue {
    number: u16,
    rx: Ring,
    tx: Ring,
    /// The number of transmit slots posted to the device and not yet known to be done.
    sending: u16,
    received: u32,
}

impl Queue {
    fn new(number: u16) -> Queue {
        let first = BLOCK * u64::from(BLOCKS) * u64::from(number);
        let rx = Ring { base: first, buffers: first + BLOCK, next: 0 };
        let buffers = rx.buffer(SLOTS);
        Queue { number, rx, tx: Ring { base: first + BLOCK / 2, buffers, next: 0 }, sending: 0, received: 0 }
    }

    /// Sets up both sides, and waits until the device has enabled them.
    fn start(&mut self, nic: &Nic) -> Answer<()> {
        let q = self.number;
        for (base, low, high, length) in [(self.rx.base, RDBAL, RDBAH, RDLEN), (self.tx.base, TDBAL, TDBAH, TDLEN)] {
            nic.write(low.at(q), base as u32);
            nic.write(high.at(q), (base >> 32) as u32);
            nic.write(length.at(q), u32::from(SLOTS) * 16);
        }
        nic.write(SRRCTL.at(q), srrctl::DESCTYPE.is(1) | srrctl::BSIZEPACKET.is(2));
        for control in [RXDCTL, TXDCTL] {
            nic.write(control.at(q), rxdctl::ENABLE); // TXDCTL uses the same bit
            while nic.read(control.at(q)) & rxdctl::ENABLE == 0 {
                nic.settle(QUEUES)?; // the device doesn't act while a driver only polls
            }
        }
        for slot in 0..SLOTS {
            nic.memory().put_descriptor(self.rx.base, slot, Descriptor::receive(self.rx.buffer(slot)))?;
        }
        nic.write(RDT.at(q), u32::from(SLOTS) - 1); // the driver keeps one slot
        Ok(())
    }

    /// Returns the next frame that the device wrote, and returns its slot to the device.
    fn receive(&mut self, nic: &Nic) -> Answer<Option<Vec<u8>>> {
        let slot = self.rx.next;
        let written = match nic.memory().descriptor(self.rx.base, slot)?.received() {
            Some(written) => written,
            None => return Ok(None),
        };
        let buffer = self.rx.buffer(slot);
        let frame = nic.memory().read(buffer..buffer + u64::from(written.length))?;
        // The tail is set to this slot, so the device gets only the slot before it. Otherwise a full ring would look
        // empty.
        nic.memory().put_descriptor(self.rx.base, slot, Descriptor::receive(buffer))?;
        nic.write(RDT.at(self.number), u32::from(slot));
        self.rx.advance();
        self.received += 1;
        Ok(Some(frame))
    }

    /// Sends a frame. Returns false if the device owns all slots.
    fn send(&mut self, nic: &Nic, frame: &[u8]) -> Answer<bool> {
        self.clean(nic)?;
        if self.sending == SLOTS - 1 {
            return Ok(false);
        }
        let (slot, length) = (self.tx.next, frame.len() as u16);
        nic.memory().write(self.tx.buffer(slot), frame)?;
        let given = Descriptor::transmit(self.tx.buffer(slot), length, u32::from(length), txd::EOP | txd::RS);
        nic.memory().put_descriptor(self.tx.base, slot, given)?;
        self.tx.advance();
        self.sending += 1;
        nic.write(TDT.at(self.number), u32::from(self.tx.next));
        Ok(true)
    }

    /// Reclaims the transmit slots that the device has reported as done.
    fn clean(&mut self, nic: &Nic) -> Answer<()> {
        while self.sending > 0 {
            let oldest = (self.tx.next + SLOTS - self.sending) % SLOTS;
            if !nic.memory().descriptor(self.tx.base, oldest)?.is_sent() {
                break;
            }
            self.sending -= 1;
        }
        Ok(())
    }

    /// The interrupt handler: masks its cause, and unmasks it when nothing is left to do.
    fn interrupt(&mut self, nic: &Nic) -> Answer<()> {
        nic.write(EIMC, 1 << self.number);
        while let Some(mut frame) = self.receive(nic)? {
            let (to, from) = frame.split_at_mut(6);
            to.swap_with_slice(&mut from[..6]);
            while !self.send(nic, &frame)? {
                nic.tx_step(self.number)?;
            }
        }
        nic.write(EIMS, 1 << self.number);
        Ok(())
    }
}

/// Sets up what the queues share: the filter, RSS over the four queues, and a vector for each.
fn start(nic: &Nic) -> Answer<Vec<Queue>> {
    nic.lend_all()?;
    nic.write(FCTRL, fctrl::UPE | fctrl::BAM | fctrl::MPE);
    for (word, four) in KEY.chunks_exact(4).enumerate() {
        nic.write(RSSRK.at(word as u16), u32::from_le_bytes([four[0], four[1], four[2], four[3]]));
    }
    for four in 0..RETA.count() {
        nic.write(RETA.at(four), 0x0302_0100);
    }
    nic.write(MRQC, mrqc::MRQE.is(1) | mrqc::TCPIPV4 | mrqc::UDPIPV4 | mrqc::IPV4);
    nic.write(RXCSUM, rxcsum::PCSD);
    nic.write(DMATXCTL, dmatxctl::TE);
    nic.write(GPIE, gpie::MULTIPLE_MSIX); // MSI-X mode, which the card needs here
    for pair in 0..QUEUES / 2 {
        let (first, second) = (u32::from(2 * pair), u32::from(2 * pair + 1));
        let on = ivar::INT_ALLOC_VAL_0 | ivar::INT_ALLOC_VAL_2; // receive sides
        nic.write(IVAR.at(pair), ivar::INT_ALLOC_0.is(first) | ivar::INT_ALLOC_2.is(second) | on);
    }
    nic.write(EIAC, 0xF); // a message clears its cause
    let mut queues: Vec<Queue> = (0..QUEUES).map(Queue::new).collect();
    for queue in &mut queues {
        queue.start(nic)?;
    }
    nic.write(RXCTRL, rxctrl::RXEN);
    nic.write(EIMS, 0xF);
    Ok(queues)
}

/// A hundred UDP frames, each from a different flow.
fn frames() -> Vec<Vec<u8>> {
    let frame = |number: u8| {
        let mut frame = vec![number; 60 + 7 * usize::from(number)];
        frame[..14].copy_from_slice(&[2, 0, 0, 0, 0, 1, 2, 0, 0, 0, 0, 2, 8, 0]);
        frame[14..26].copy_from_slice(&[0x45, 0, 0, 46, 0, 0, 0, 0, 64, 17, 0, 0]);
        frame[26..38].copy_from_slice(&[10, 0, 0, number, 10, 0, 1, 1, 0x10, number, 0, 53]);
        frame
    };
    (0..100).map(frame).collect()
}

fn main() -> Answer<()> {
    let mut words = env::args().skip(1);
    let given = match words.next() {
        Some(name) => Reader::new(BufReader::new(File::open(name)?))?.collect::<Result<_, _>>()?,
        None => frames(),
    };
    let nic = Nic::open(Sizes { blocks: BLOCKS * u32::from(QUEUES), ..Sizes::default() })?;
    let mut queues = start(&nic)?;
    let mut sent: Vec<Frame> = Vec::new();
    let mut taken = Vec::new();
    for frame in given {
        match nic.arrive(&frame)? {
            Arrival::Dropped(why) => println!("dropped {why:#}"),
            Arrival::Waits => taken.push(frame),
        }
        // Runs the device until nothing is left to do. Each message is handled before the device's next step.
        for event in nic.steps(QUEUES)? {
            match event? {
                Event::Message { vector, .. } => queues[usize::from(vector)].interrupt(&nic)?,
                event if event.is_loss() => return Err(format!("{}: {event:#}", event.step()).into()),
                _ => {}
            }
        }
        sent.extend(nic.frames());
    }
    for queue in &queues {
        let out = sent.iter().filter(|it| it.queue == queue.number).count();
        println!("queue {}: {} received, {out} sent", queue.number, queue.received);
    }
    if let Some(name) = words.next() {
        let mut capture = Writer::new(BufWriter::new(File::create(name)?))?;
        for (time, frame) in (0..).zip(&sent) {
            capture.put(time, &frame.data)?;
        }
    }
    check(&taken, &sent)
}

/// Checks that each frame comes back with its addresses swapped, and a UDP frame from the queue that its hash selects.
fn check(given: &[Vec<u8>], sent: &[Frame]) -> Answer<()> {
    for (frame, back) in given.iter().zip(sent) {
        let swapped = back.data[..6] == frame[6..12] && back.data[6..12] == frame[..6];
        let is_whole = frame[20] & 0x3F == 0 && frame[21] == 0; // not a fragment
        let is_udp = frame[12..14] == [8, 0] && frame[14] == 0x45 && frame[23] == 17 && is_whole;
        let queue = if is_udp { rss_hash(&KEY, &frame[26..38])? % 4 } else { u32::from(back.queue) };
        if !swapped || back.data[12..] != frame[12..] || queue != u32::from(back.queue) {
            return Err("a frame came back with wrong contents".into());
        }
    }
    println!("{} in, {} out", given.len(), sent.len());
    if given.len() != sent.len() {
        return Err("a frame is missing".into());
    }
    Ok(())
}
