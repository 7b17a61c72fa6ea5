//! A driver for the 82599 in six milestones. README.md explains how to work on it.
//!
//! Registers have the datasheet's names, `CTRL` or `RDT.at(0)`, and their bits are `ctrl::RST` and so on
//! (nic82599::regs, in rust/nic82599/src/regs.rs). docs/DESCRIPTORS.md lists the fields of descriptors. During each
//! `platform` call, other functions of the driver may run, so mutable state is in `Cell`s.

#![allow(dead_code, unused_assignments, unused_imports, unused_mut, unused_variables)] // until the last hole is filled

use std::cell::{Cell, RefCell};
use std::process::ExitCode;

use nic82599::desc::{txd, Descriptor};
use nic82599::drive::{self, *};
use nic82599::regs::*;
use nic82599::Register;

const BUFFER: usize = 2048;
const ALL_CAUSES: u32 = 0x7FFF_FFFF;

/// A ring of descriptors, and a buffer for each. In transmit rings, `used` slots starting at `oldest` are in flight.
#[derive(Default)]
struct Ring {
    bus: Cell<u64>,
    buffers: RefCell<Vec<u64>>,
    next: Cell<u16>,
    oldest: Cell<u16>,
    used: Cell<u16>,
}

/// The driver's state, new for each run.
#[derive(Default)]
struct Course {
    setup: Cell<Option<Setup>>,
    wanted: Cell<Option<Rss>>,
    rx: [Ring; MOST_QUEUES as usize],
    tx: [Ring; MOST_QUEUES as usize],
}

// --- given: memory ---

impl Ring {
    fn buffer(&self, slot: u16) -> u64 {
        self.buffers.borrow()[usize::from(slot)]
    }

    fn take(&self, platform: &Platform, slots: u16) -> Option<()> {
        self.bus.set(platform.dma_alloc(16 * usize::from(slots))?);
        for _ in 0..slots {
            let buffer = platform.dma_alloc(BUFFER)?;
            self.buffers.borrow_mut().push(buffer);
        }
        Some(())
    }

    fn give(&self, platform: &Platform) {
        for buffer in self.buffers.take() {
            platform.dma_free(buffer);
        }
        if self.bus.get() != 0 {
            platform.dma_free(self.bus.take());
        }
    }
}

impl Course {
    /// Returns `None` if an allocation fails, and keeps what was allocated before.
    fn take_memory(&self, platform: &Platform) -> Option<()> {
        for queue in 0..self.queues() {
            self.rx[queue].take(platform, self.slots())?;
            self.tx[queue].take(platform, self.slots())?;
        }
        Some(())
    }

    fn give_memory(&self, platform: &Platform) {
        for ring in self.rx.iter().chain(&self.tx) {
            ring.give(platform);
        }
    }

    // --- given: helpers ---

    fn setup(&self) -> Setup {
        self.setup.get().expect("the driver is open")
    }

    fn queues(&self) -> usize {
        usize::from(self.setup().queues)
    }

    fn slots(&self) -> u16 {
        self.setup().slots
    }

    fn after(&self, slot: u16) -> u16 {
        (slot + 1) % self.slots()
    }
}

/// Returns four bytes as a register's value.
fn word_of(bytes: &[u8]) -> u32 {
    u32::from_le_bytes([bytes[0], bytes[1], bytes[2], bytes[3]])
}

fn mask_all(platform: &Platform) {
    platform.write(EIMC, ALL_CAUSES);
}

/// Sets bits of a register and leaves the others unchanged.
fn set_bits(platform: &Platform, register: Register, bits: u32) {
    platform.write(register, platform.read(register) | bits);
}

/// Writes a queue's RXDCTL or TXDCTL. The queue is on or off only when its ENABLE (the same bit in both) reads
/// accordingly.
fn switch_queue(platform: &Platform, control: Register, word: u32) {
    platform.write(control, word);
    // TODO 2: wait until ENABLE reads as written. A loop that waits for the device must call platform.wait.
    while platform.read(control) & rxdctl::ENABLE != word & rxdctl::ENABLE {
        platform.wait();
    }
    // END
}

impl Course {
    // --- milestone 1: the device ---

    fn set_up_device(&self, platform: &Platform) {
        let setup = self.setup();
        mask_all(platform);
        // TODO 1: reset the device (ctrl::RST), then mask all causes again.
        platform.write(CTRL, ctrl::RST);
        mask_all(platform);
        // END
        // TODO 1: write the driver's address, setup.address, to RAL.at(0) and RAH.at(0), and set rah::AV. Accept
        // broadcast frames (fctrl::BAM). word_of turns four bytes into a register's value; the last two bytes go into
        // RAH.
        let it = setup.address;
        platform.write(RAL.at(0), word_of(&it));
        platform.write(RAH.at(0), word_of(&[it[4], it[5], 0, 0]) | rah::AV);
        platform.write(FCTRL, fctrl::BAM);
        // END
        // TODO 1: set RXCRCSTRP, TXCRCEN and TXPADEN in HLREG0, and CRCSTRIP, RSCACKC and FCOE_WRFIX in RDRXCTL. Leave
        // the other bits of both registers unchanged (set_bits).
        set_bits(platform, HLREG0, hlreg0::RXCRCSTRP | hlreg0::TXCRCEN | hlreg0::TXPADEN);
        set_bits(platform, RDRXCTL, rdrxctl::CRCSTRIP | rdrxctl::RSCACKC | rdrxctl::FCOE_WRFIX);
        // END
        let mut loaded = 0;
        // TODO 1: set ctrl_ext::DRV_LOAD in the value for CTRL_EXT. It tells the firmware that a driver is loaded.
        loaded = ctrl_ext::DRV_LOAD;
        // END
        // TODO 6: if there are virtual functions (setup.functions above 0), select 64 pools (gcr_ext::VT_MODE 3). Also
        // set ctrl_ext::PFRSTD, which tells the virtual functions that the device is ready.
        if setup.functions > 0 {
            platform.write(GCR_EXT, gcr_ext::VT_MODE.is(3));
            loaded |= ctrl_ext::PFRSTD;
        }
        // END
        platform.write(CTRL_EXT, loaded);
    }

    fn leave_device(&self, platform: &Platform) {
        mask_all(platform);
        // TODO 1: disable reception (RXCTRL), clear DRV_LOAD, and clear all causes in EICR by writing 1 to each.
        platform.write(RXCTRL, 0);
        platform.write(CTRL_EXT, 0);
        platform.write(EICR, ALL_CAUSES);
        // END
    }

    // --- milestone 2: receiving frames ---

    /// Prepares a slot of a receive ring for the device.
    fn post(&self, platform: &Platform, ring: &Ring, slot: u16) {
        platform.put_descriptor(ring.bus.get(), slot, Descriptor::receive(ring.buffer(slot)));
    }

    /// Returns the value of SRRCTL, which describes the buffers.
    fn kind_of_buffers(&self) -> u32 {
        let mut kind = 0;
        // TODO 2: set srrctl::DESCTYPE to 1, and BSIZEPACKET to BUFFER in KB.
        kind = srrctl::DESCTYPE.is(1) | srrctl::BSIZEPACKET.is(BUFFER as u32 / 1024);
        // END
        // TODO 3: with several queues, set srrctl::DROP_EN: a full queue then drops its frames instead of blocking the
        // others.
        if self.queues() > 1 {
            kind |= srrctl::DROP_EN;
        }
        // END
        kind
    }

    fn start_receive(&self, platform: &Platform, queue: usize) {
        let ring = &self.rx[queue];
        ring.next.set(0);
        for slot in 0..self.slots() {
            self.post(platform, ring, slot);
        }
        let queue = queue as u16;
        platform.write(SRRCTL.at(queue), self.kind_of_buffers());
        // TODO 2: write the ring's address and its length in bytes (RDBAL, RDBAH, RDLEN), and set head and tail to 0.
        // Enable the queue through RXDCTL (switch_queue). Only then move the tail, so that the device owns all slots
        // but one. Call platform.wmb before you move the tail: it orders earlier writes before later ones.
        platform.write(RDBAL.at(queue), ring.bus.get() as u32);
        platform.write(RDBAH.at(queue), (ring.bus.get() >> 32) as u32);
        platform.write(RDLEN.at(queue), 16 * u32::from(self.slots()));
        platform.write(RDH.at(queue), 0);
        platform.write(RDT.at(queue), 0);
        switch_queue(platform, RXDCTL.at(queue), rxdctl::ENABLE);
        platform.wmb();
        platform.write(RDT.at(queue), u32::from(self.slots()) - 1);
        // END
    }

    /// Returns the next frame, or `None` if there is none.
    fn receive(&self, platform: &Platform, queue: u16) -> Option<Frame> {
        let ring = &self.rx[usize::from(queue)];
        let slot = ring.next.get();
        // TODO 2: read the slot's descriptor once (platform.descriptor). Its `received` returns None if no frame has
        // arrived. Otherwise call platform.rmb and read `length` bytes from the buffer (platform.read_into). Return the
        // slot to the device: call self.post and platform.wmb, and move the tail to it. The next slot is
        // self.after(slot).
        let written = platform.descriptor(ring.bus.get(), slot).received()?;
        platform.rmb();
        let mut frame = Frame { bytes: vec![0; usize::from(written.length)], ..Frame::default() };
        platform.read_into(ring.buffer(slot), &mut frame.bytes);
        self.post(platform, ring, slot);
        platform.wmb();
        platform.write(RDT.at(queue), u32::from(slot));
        ring.next.set(self.after(slot));
        Some(frame)
        // END: None
    }

    // --- milestone 3: several queues ---

    /// Spreads flows over the queues according to self.wanted: key, table and types.
    fn set_rss(&self, platform: &Platform) {
        // MRQC's bit for each type (docs/DESCRIPTORS.md lists the types)
        let bits = [
            (1, mrqc::TCPIPV4),
            (2, mrqc::IPV4),
            (3, mrqc::TCPIPV6),
            (5, mrqc::IPV6),
            (7, mrqc::UDPIPV4),
            (8, mrqc::UDPIPV6),
        ];
        let wanted = match self.wanted.get() {
            Some(wanted) => wanted,
            None => return,
        };
        let asked = bits.iter().filter(|(kind, _)| wanted.types >> kind & 1 == 1);
        let mode = asked.fold(mrqc::MRQE.is(1), |mode, (_, bit)| mode | bit);
        // TODO 3: write the key to RSSRK.at(0) to RSSRK.at(9) and the table to RETA.at(0) to RETA.at(31), four bytes
        // per register. Set rxcsum::PCSD, so that the descriptor contains the hash. Write `mode` to MRQC.
        for (number, bytes) in (0..).zip(wanted.key.chunks(4)) {
            platform.write(RSSRK.at(number), word_of(bytes));
        }
        for (number, bytes) in (0..).zip(wanted.table.chunks(4)) {
            platform.write(RETA.at(number), word_of(bytes));
        }
        platform.write(RXCSUM, rxcsum::PCSD);
        platform.write(MRQC, mode);
        // END
    }

    fn rss(&self, platform: &Platform, wanted: &Rss) -> bool {
        self.wanted.set(Some(*wanted));
        self.set_rss(platform);
        true
    }

    // --- milestone 4: interrupts ---

    fn set_interrupts(&self, platform: &Platform) {
        // TODO 4: assign vector q to both sides of queue q. IVAR.at(q / 2) has a receive byte and a transmit byte for
        // the even queue, then both for the odd one; set 0x80 in each valid byte. In GPIE set MULTIPLE_MSIX,
        // PBA_SUPPORT, OCD and EIAME. In EIAC and EIAM set the causes of the queues, bit q for queue q: a message then
        // clears its cause and masks it. Enable the causes in EIMS last.
        let queues = self.setup().queues;
        let causes = (1 << queues) - 1;
        for queue in (0..queues).step_by(2) {
            let even = 0x80 | u32::from(queue);
            let odd = if queue + 1 < queues { even + 1 } else { 0 };
            platform.write(IVAR.at(queue / 2), even | even << 8 | odd << 16 | odd << 24);
        }
        platform.write(GPIE, gpie::MULTIPLE_MSIX | gpie::PBA_SUPPORT | gpie::OCD | gpie::EIAME);
        platform.write(EIAC, causes);
        platform.write(EIAM, causes);
        platform.write(EIMS, causes);
        // END
    }

    /// Handles a vector's message. Returns the queues to poll, bit q for queue q.
    fn interrupt(&self, _platform: &Platform, vector: u8) -> u32 {
        // TODO 4: return the bit of this vector's queue.
        1 << vector
        // END: 0
    }

    /// Called after a queue has been polled until it was empty.
    fn rearm(&self, platform: &Platform, queue: u16) {
        // TODO 4: enable the queue's cause again, and no other cause.
        platform.write(EIMS, 1 << queue);
        // END
    }

    // --- milestone 5: sending frames ---

    fn start_transmit(&self, platform: &Platform, queue: usize) {
        let ring = &self.tx[queue];
        for number in [&ring.next, &ring.oldest, &ring.used] {
            number.set(0);
        }
        // TODO 5: set dmatxctl::TE. Set up the ring as on the receive side (TDBAL, TDBAH, TDLEN, TDH, TDT), and enable
        // the queue through TXDCTL. The tail stays 0, because the device owns no slot yet.
        let queue = queue as u16;
        set_bits(platform, DMATXCTL, dmatxctl::TE);
        platform.write(TDBAL.at(queue), ring.bus.get() as u32);
        platform.write(TDBAH.at(queue), (ring.bus.get() >> 32) as u32);
        platform.write(TDLEN.at(queue), 16 * u32::from(self.slots()));
        platform.write(TDH.at(queue), 0);
        platform.write(TDT.at(queue), 0);
        switch_queue(platform, TXDCTL.at(queue), txdctl::ENABLE);
        // END
    }

    /// Reclaims the slots of sent frames. Returns how many frames are still unsent.
    fn reclaim(&self, platform: &Platform, queue: u16) -> u32 {
        let ring = &self.tx[usize::from(queue)];
        // TODO 5: when the oldest slot's frame is sent, the device sets DD in its descriptor (platform.descriptor,
        // `is_sent`). Free each such slot; the next slot is then the oldest.
        while ring.used.get() > 0 && platform.descriptor(ring.bus.get(), ring.oldest.get()).is_sent() {
            ring.oldest.set(self.after(ring.oldest.get()));
            ring.used.set(ring.used.get() - 1);
        }
        // END
        u32::from(ring.used.get())
    }

    /// Returns false if the ring is full, or the frame is longer than the setup allows.
    fn send(&self, platform: &Platform, queue: u16, frame: &[u8]) -> bool {
        let ring = &self.tx[usize::from(queue)];
        let (slot, length) = (ring.next.get(), frame.len() as u32);
        // TODO 5: keep one slot free, otherwise head and tail would meet. Write the bytes to the slot's buffer
        // (platform.write_bytes), build a descriptor with txd::EOP and txd::RS (Descriptor::transmit), and write it
        // (platform.put_descriptor). Then call platform.wmb and move the tail.
        if length > self.setup().frame || ring.used.get() + 1 == self.slots() {
            return false;
        }
        platform.write_bytes(ring.buffer(slot), frame);
        let given = Descriptor::transmit(ring.buffer(slot), length as u16, length, txd::EOP | txd::RS);
        platform.put_descriptor(ring.bus.get(), slot, given);
        ring.next.set(self.after(slot));
        ring.used.set(ring.used.get() + 1);
        platform.wmb();
        platform.write(TDT.at(queue), u32::from(ring.next.get()));
        true
        // END: false
    }

    // --- open and close ---

    fn start(&self, platform: &Platform) {
        self.set_up_device(platform);
        self.set_rss(platform);
        // before reception is enabled, so that early frames raise a message
        if self.setup().interrupts {
            self.set_interrupts(platform);
        }
        for queue in 0..self.queues() {
            self.start_receive(platform, queue);
            self.start_transmit(platform, queue);
        }
        // TODO 2: enable reception (rxctrl::RXEN), as the last step.
        platform.write(RXCTRL, rxctrl::RXEN);
        // END
    }

    fn stop_queues(&self, platform: &Platform) {
        for queue in 0..self.setup().queues {
            // TODO 2: disable the receive queue. Until it is disabled, the device may write to its memory.
            switch_queue(platform, RXDCTL.at(queue), 0);
            // END
            // TODO 5: disable the transmit queue.
            switch_queue(platform, TXDCTL.at(queue), 0);
            // END
        }
    }

    // --- milestone 6: a reset during traffic, and the virtual functions' mailboxes ---

    /// Called after a fault or a hang. Sets everything up again with the same memory. Frames may be lost.
    fn reset(&self, platform: &Platform) -> bool {
        // TODO 6: restore the state after open: the rings start at slot 0 again. Keep the setup and the RSS settings.
        mask_all(platform);
        self.stop_queues(platform);
        self.start(platform);
        true
        // END: false
    }

    fn is_asked(&self, platform: &Platform, vf: u16) -> bool {
        platform.read(PFMBICR.at(vf / 16)) >> (vf % 16) & 1 == 1
    }

    /// Takes virtual function vf's mailbox. Returns false if the virtual function owns it.
    fn take_mailbox(&self, platform: &Platform, vf: u16) -> bool {
        platform.write(PFMAILBOX.at(vf), pfmailbox::PFU);
        platform.read(PFMAILBOX.at(vf)) & pfmailbox::PFU != 0
    }

    /// Sends a message to virtual function vf. Returns false if its mailbox isn't free now.
    fn mailbox_send(&self, platform: &Platform, vf: u8, words: &[u32]) -> bool {
        let vf = u16::from(vf);
        // TODO 6: take the mailbox. If it contains a request from the virtual function (is_asked), release it (write 0)
        // and return false. Otherwise write the words, starting at PFMBMEM.at(16 * vf). pfmailbox::STS announces them
        // and releases the mailbox.
        if !self.take_mailbox(platform, vf) {
            return false;
        }
        if self.is_asked(platform, vf) {
            platform.write(PFMAILBOX.at(vf), 0);
            return false;
        }
        for (number, word) in (16 * vf..).zip(words) {
            platform.write(PFMBMEM.at(number), *word);
        }
        platform.write(PFMAILBOX.at(vf), pfmailbox::STS);
        true
        // END: false
    }

    /// Receives a message from virtual function vf. Returns `None` if there is none.
    fn mailbox_receive(&self, platform: &Platform, vf: u8) -> Option<[u32; MAILBOX_WORDS]> {
        let vf = u16::from(vf);
        // TODO 6: if there is a request, take the mailbox, so that the virtual function can't overwrite it. Clear the
        // virtual function's bit in PFMBICR by writing 1, read the 16 words, and acknowledge (pfmailbox::ACK).
        if !self.is_asked(platform, vf) || !self.take_mailbox(platform, vf) {
            return None;
        }
        platform.write(PFMBICR.at(vf / 16), 1 << (vf % 16));
        let mut words = [0; MAILBOX_WORDS];
        for (number, word) in (16 * vf..).zip(&mut words) {
            *word = platform.read(PFMBMEM.at(number));
        }
        platform.write(PFMAILBOX.at(vf), pfmailbox::ACK);
        Some(words)
        // END: None
    }
}

// --- given: the adapter ---

impl Driver for Course {
    const NAME: &'static str = "course";
    const CAN: Can = Can::HOST.and(Can::NO_MODERATION).and(Can::ONE_BUFFER);
    const QUEUES: u16 = MOST_QUEUES;
    const RECEIVE: Option<Receive<Course>> = Some(Course::receive);
    const SEND: Option<Send<Course>> = Some(Course::send);
    const RECLAIM: Option<Reclaim<Course>> = Some(Course::reclaim);
    const INTERRUPT: Option<Interrupt<Course>> = Some(Course::interrupt);
    const REARM: Option<Rearm<Course>> = Some(Course::rearm);
    const RSS: Option<fn(&Course, &Platform, &Rss) -> bool> = Some(Course::rss);
    const RESET: Option<Plain<Course>> = Some(Course::reset);
    const MAILBOX_SEND: Option<MailboxSend<Course>> = Some(Course::mailbox_send);
    const MAILBOX_RECEIVE: Option<MailboxReceive<Course>> = Some(Course::mailbox_receive);

    fn new() -> Course {
        Course::default()
    }

    fn open(&self, platform: &Platform, setup: &Setup) -> bool {
        self.setup.set(Some(*setup));
        if self.take_memory(platform).is_none() {
            // TODO 2: if an allocation fails, free what was allocated and return false.
            self.give_memory(platform);
            return false;
            // END
        }
        self.start(platform);
        true
    }

    fn close(&self, platform: &Platform) {
        mask_all(platform);
        self.stop_queues(platform);
        self.leave_device(platform);
        self.give_memory(platform);
    }
}

fn main() -> ExitCode {
    drive::main::<Course>()
}
