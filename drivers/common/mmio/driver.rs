//! The driver of driver.c in Rust, without the standard library: volatile accesses at `bar + offset`, and DMA memory
//! with the address that the card sees. It contains no reference to the bench.
#![no_std]

use core::cell::UnsafeCell;
use core::panic::PanicInfo;
use core::ptr::{null_mut, read_volatile, write_volatile};
use core::sync::atomic::{fence, Ordering};

const SLOTS: usize = 8;
const BUFFER: usize = 2048;
const TX_RING: usize = 0x400;
const BUFFERS: usize = 0x1000;

const CTRL: usize = 0x0000;
const RDBAL: usize = 0x1000;
const RDBAH: usize = 0x1004;
const RDLEN: usize = 0x1008;
const SRRCTL: usize = 0x1014;
const RDT: usize = 0x1018;
const RXDCTL: usize = 0x1028;
const RXCTRL: usize = 0x3000;
const DMATXCTL: usize = 0x4A80;
const FCTRL: usize = 0x5080;
const TDBAL: usize = 0x6000;
const TDBAH: usize = 0x6004;
const TDLEN: usize = 0x6008;
const TDT: usize = 0x6018;
const TXDCTL: usize = 0x6028;

const RESET: u32 = 1 << 26; // CTRL
const ENABLE: u32 = 1 << 25; // RXDCTL, TXDCTL
const BROADCAST: u32 = 1 << 10; // FCTRL
const ONE_BUFFER: u32 = 1 << 25; // SRRCTL.DESCTYPE
const DONE: u64 = 1;
const WHOLE_FRAME: u64 = 1 << 24 | 1 << 25 | 1 << 27 | 1 << 29 | 3 << 20; // EOP, IFCS, RS, DEXT, data

/// The card's registers.
struct Bar(*mut u8);

impl Bar {
    fn read(&self, offset: usize) -> u32 {
        unsafe { read_volatile(self.0.add(offset).cast()) }
    }
    fn write(&self, offset: usize, word: u32) {
        unsafe { write_volatile(self.0.add(offset).cast(), word) }
    }
    fn set(&self, offset: usize, bits: u32) {
        self.write(offset, self.read(offset) | bits);
    }
    fn wait(&self, offset: usize, bits: u32, wanted: u32) {
        while self.read(offset) & bits != wanted {}
    }
}

/// The memory that the card also accesses: two rings, and a buffer for each slot.
struct Dma {
    memory: *mut u8,
    bus: u64,
    buffers: [u64; SLOTS], // bus addresses
}

impl Dma {
    fn new(memory: *mut u8, bus: u64) -> Self {
        Dma { memory, bus, buffers: core::array::from_fn(|slot| bus + (BUFFERS + slot * BUFFER) as u64) }
    }
    fn store(&self, ring: usize, slot: usize, address: u64, rest: u64) {
        let at: *mut u64 = unsafe { self.memory.add(ring + 16 * slot).cast() };
        unsafe { write_volatile(at, address) };
        unsafe { write_volatile(at.add(1), rest) };
        fence(Ordering::Release);
    }
    fn rest(&self, ring: usize, slot: usize) -> u64 {
        let rest = unsafe { read_volatile(self.memory.add(ring + 16 * slot + 8).cast()) };
        fence(Ordering::Acquire);
        rest
    }
    fn buffer(&self, slot: usize) -> u64 {
        self.buffers[slot]
    }
}

struct Driver {
    bar: Bar,
    dma: Dma,
    received: usize, // the next slot to receive from
    sent: usize,     // the next slot to give back
}

impl Driver {
    fn set_up_receiving(&self) {
        self.bar.write(RDBAL, self.dma.bus as u32);
        self.bar.write(RDBAH, (self.dma.bus >> 32) as u32);
        self.bar.write(RDLEN, 16 * SLOTS as u32);
        self.bar.write(SRRCTL, BUFFER as u32 / 1024 | ONE_BUFFER);
        self.bar.set(RXDCTL, ENABLE);
        self.bar.wait(RXDCTL, ENABLE, ENABLE);
        for slot in 0..SLOTS {
            self.dma.store(0, slot, self.dma.buffer(slot), 0);
        }
        self.bar.set(FCTRL, BROADCAST);
        self.bar.set(RXCTRL, 1);
        self.bar.write(RDT, SLOTS as u32 - 1);
    }

    fn set_up_sending(&self) {
        let ring = self.dma.bus + TX_RING as u64;
        self.bar.set(DMATXCTL, 1);
        self.bar.write(TDBAL, ring as u32);
        self.bar.write(TDBAH, (ring >> 32) as u32);
        self.bar.write(TDLEN, 16 * SLOTS as u32);
        self.bar.set(TXDCTL, ENABLE);
        self.bar.wait(TXDCTL, ENABLE, ENABLE);
    }

    /// Gives the slots of all frames that are sent back to the card.
    fn give_back(&mut self) {
        while self.sent != self.received && self.dma.rest(TX_RING, self.sent) >> 32 & DONE != 0 {
            self.dma.store(0, self.sent, self.dma.buffer(self.sent), 0);
            self.bar.write(RDT, self.sent as u32);
            self.sent = (self.sent + 1) % SLOTS;
        }
    }

    /// Sends each received frame back.
    fn poll(&mut self) {
        self.give_back();
        loop {
            let (rest, slot) = (self.dma.rest(0, self.received), self.received);
            if rest & DONE == 0 {
                return;
            }
            let length = rest >> 32 & 0xFFFF;
            self.dma.store(TX_RING, slot, self.dma.buffer(slot), length << 46 | WHOLE_FRAME | length);
            self.received = (slot + 1) % SLOTS;
            self.bar.write(TDT, self.received as u32);
            self.give_back();
        }
    }
}

/// The only driver. One thread calls it.
struct Only(UnsafeCell<Driver>);

unsafe impl Sync for Only {}

static DRIVER: Only = Only(UnsafeCell::new(Driver {
    bar: Bar(null_mut()),
    dma: Dma { memory: null_mut(), bus: 0, buffers: [0; SLOTS] },
    received: 0,
    sent: 0,
}));

/// Does what driver.h says.
#[no_mangle]
pub extern "C" fn driver_open(bar: *mut u8, memory: *mut u8, bus: u64) {
    let driver = unsafe { &mut *DRIVER.0.get() };
    *driver = Driver { bar: Bar(bar), dma: Dma::new(memory, bus), received: 0, sent: 0 };
    driver.bar.set(CTRL, RESET);
    driver.bar.wait(CTRL, RESET, 0);
    driver.set_up_receiving();
    driver.set_up_sending();
}

/// Does what driver.h says.
#[no_mangle]
pub extern "C" fn driver_poll() {
    unsafe { &mut *DRIVER.0.get() }.poll();
}

#[panic_handler]
fn on_panic(_: &PanicInfo) -> ! {
    extern "C" {
        fn abort() -> !;
    }
    unsafe { abort() }
}
