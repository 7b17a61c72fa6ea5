//! The smallest driver that the report card can run: it receives on one queue, with interrupts or polled.
//!
//!     cargo build --features drive --example small
//!     ../../c/drive/nicdrive target/debug/examples/small -o /tmp/card

use std::cell::{Cell, RefCell};
use std::process::ExitCode;

use nic82599::desc::Descriptor;
use nic82599::drive::{self, Can, Driver, Frame, Interrupt, Platform, Rearm, Receive, Setup};
use nic82599::regs::*;

const BUFFER: usize = 2048;
const CAUSE: u32 = 1;
const ALL_CAUSES: u32 = 0x7FFF_FFFF;

#[derive(Default)]
struct Small {
    ring: Cell<u64>,
    buffers: RefCell<Vec<u64>>,
    next: Cell<u16>,
}

impl Small {
    fn slots(&self) -> u16 {
        self.buffers.borrow().len() as u16
    }

    fn buffer(&self, slot: u16) -> u64 {
        self.buffers.borrow()[usize::from(slot)]
    }

    fn give_memory_back(&self, platform: &Platform) {
        for buffer in self.buffers.take() {
            platform.dma_free(buffer);
        }
        if self.ring.get() != 0 {
            platform.dma_free(self.ring.take());
        }
    }

    /// Returns `None` if an allocation fails; what was allocated before stays until `give_memory_back`.
    fn take_memory(&self, platform: &Platform, slots: u16) -> Option<()> {
        self.ring.set(platform.dma_alloc(16 * usize::from(slots))?);
        for _ in 0..slots {
            let buffer = platform.dma_alloc(BUFFER)?;
            self.buffers.borrow_mut().push(buffer);
        }
        Some(())
    }

    fn start_queue(&self, platform: &Platform) {
        for slot in 0..self.slots() {
            platform.put_descriptor(self.ring.get(), slot, Descriptor::receive(self.buffer(slot)));
        }
        platform.write(RDBAL.at(0), self.ring.get() as u32);
        platform.write(RDBAH.at(0), (self.ring.get() >> 32) as u32);
        platform.write(RDLEN.at(0), 16 * u32::from(self.slots()));
        platform.write(SRRCTL.at(0), srrctl::DESCTYPE.is(1) | srrctl::BSIZEPACKET.is(BUFFER as u32 / 1024));
        set_enable(platform, rxdctl::ENABLE);
        platform.wmb();
        platform.write(RDT.at(0), u32::from(self.slots()) - 1);
    }

    // --- what the card calls ---

    fn receive(&self, platform: &Platform, _queue: u16) -> Option<Frame> {
        let (ring, slot) = (self.ring.get(), self.next.get());
        let written = platform.descriptor(ring, slot).received()?;
        platform.rmb();
        let mut frame = Frame { bytes: vec![0; usize::from(written.length)], ..Frame::default() };
        platform.read_into(self.buffer(slot), &mut frame.bytes);
        platform.put_descriptor(ring, slot, Descriptor::receive(self.buffer(slot)));
        platform.wmb();
        platform.write(RDT.at(0), u32::from(slot));
        self.next.set((slot + 1) % self.slots());
        Some(frame)
    }

    /// Requests a poll of queue 0. The device masked its cause when it sent the message (EIAM).
    fn interrupt(&self, _platform: &Platform, _vector: u8) -> u32 {
        1
    }

    fn rearm(&self, platform: &Platform, _queue: u16) {
        platform.write(EIMS, CAUSE);
    }
}

/// Enables or disables the queue, and waits until RXDCTL reads accordingly.
fn set_enable(platform: &Platform, enable: u32) {
    platform.write(RXDCTL.at(0), enable);
    while platform.read(RXDCTL.at(0)) & rxdctl::ENABLE != enable {
        platform.wait();
    }
}

fn set_up_device(platform: &Platform) {
    platform.write(EIMC, ALL_CAUSES);
    platform.write(CTRL, ctrl::RST);
    platform.write(EIMC, ALL_CAUSES);
    platform.write(CTRL_EXT, ctrl_ext::DRV_LOAD);
    platform.write(FCTRL, fctrl::BAM | fctrl::UPE);
    platform.write(HLREG0, platform.read(HLREG0) | hlreg0::RXCRCSTRP);
    let word = platform.read(RDRXCTL) | rdrxctl::CRCSTRIP | rdrxctl::RSCACKC | rdrxctl::FCOE_WRFIX;
    platform.write(RDRXCTL, word);
}

fn start_interrupts(platform: &Platform) {
    platform.write(GPIE, gpie::MULTIPLE_MSIX | gpie::PBA_SUPPORT | gpie::OCD | gpie::EIAME);
    platform.write(IVAR.at(0), ivar::INT_ALLOC_0.is(0) | ivar::INT_ALLOC_VAL_0);
    platform.write(EIAC, CAUSE);
    platform.write(EIAM, CAUSE);
    platform.write(EIMS, CAUSE);
}

impl Driver for Small {
    const NAME: &'static str = "small";
    const CAN: Can = Can::NO_ADDRESS.and(Can::NO_HEADS).and(Can::NO_MODERATION);
    const RECEIVE: Option<Receive<Small>> = Some(Small::receive);
    const INTERRUPT: Option<Interrupt<Small>> = Some(Small::interrupt);
    const REARM: Option<Rearm<Small>> = Some(Small::rearm);

    fn new() -> Small {
        Small::default()
    }

    fn open(&self, platform: &Platform, setup: &Setup) -> bool {
        self.next.set(0);
        if self.take_memory(platform, setup.slots).is_none() {
            self.give_memory_back(platform);
            return false;
        }
        set_up_device(platform);
        self.start_queue(platform);
        if setup.interrupts {
            start_interrupts(platform);
        }
        platform.write(RXCTRL, rxctrl::RXEN);
        true
    }

    fn close(&self, platform: &Platform) {
        platform.write(EIMC, ALL_CAUSES);
        set_enable(platform, 0);
        platform.write(RXCTRL, 0);
        platform.write(CTRL_EXT, 0);
        platform.write(EICR, ALL_CAUSES);
        self.give_memory_back(platform);
    }
}

fn main() -> ExitCode {
    drive::main::<Small>()
}
