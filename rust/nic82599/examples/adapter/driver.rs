//! A small driver for the 82599 that uses a trait to reach the machine: one queue in each direction, polled or with one
//! interrupt. It doesn't depend on the bench.

use std::cell::Cell;

/// What the driver needs from the machine that it runs on.
pub trait Machine {
    /// Reads a register by its offset in BAR 0.
    fn read(&self, offset: u32) -> u32;
    fn write(&self, offset: u32, word: u32);
    /// Allocates zeroed memory that the device can also access. Returns its bus address.
    fn dma_alloc(&self, bytes: usize) -> Option<u64>;
    fn dma_free(&self, bus: u64, bytes: usize);
    /// Returns the bytes of allocated memory.
    fn dma(&self, bus: u64, bytes: usize) -> &[Cell<u8>];
    /// A barrier: earlier stores reach the device before later ones.
    fn wmb(&self);
    /// A barrier: a later load returns no older value than an earlier one.
    fn rmb(&self);
}

const BUFFER: usize = 2048;
const DESCRIPTOR: usize = 16;
const LONGEST: usize = 1514;
const CAUSE: u32 = 1;

mod register {
    pub const CTRL: u32 = 0x00000;
    pub const CTRL_EXT: u32 = 0x00018;
    pub const EICR: u32 = 0x00800;
    pub const EIAC: u32 = 0x00810;
    pub const EIMS: u32 = 0x00880;
    pub const EIMC: u32 = 0x00888;
    pub const EIAM: u32 = 0x00890;
    pub const GPIE: u32 = 0x00898;
    pub const IVAR0: u32 = 0x00900;
    pub const SRRCTL0: u32 = 0x01014;
    pub const RDRXCTL: u32 = 0x02F00;
    pub const RXCTRL: u32 = 0x03000;
    pub const HLREG0: u32 = 0x04240;
    pub const DMATXCTL: u32 = 0x04A80;
    pub const FCTRL: u32 = 0x05080;
    pub const RAL0: u32 = 0x0A200;
    pub const RAH0: u32 = 0x0A204;
    // The first register of queue 0's receive side and transmit side; then each register's offset from the first one.
    pub const RECEIVE: u32 = 0x01000;
    pub const TRANSMIT: u32 = 0x06000;
    pub const BAL: u32 = 0x00;
    pub const BAH: u32 = 0x04;
    pub const LEN: u32 = 0x08;
    pub const HEAD: u32 = 0x10;
    pub const TAIL: u32 = 0x18;
    pub const CONTROL: u32 = 0x28;
}
use register::*;

const ENABLE: u32 = 1 << 25;
const DONE: u32 = 1;
const TX_DATA: u32 = 3 << 20 | 1 << 29;
const TX_WHOLE: u32 = 1 << 24 | 1 << 25 | 1 << 27; // EOP, IFCS, RS

/// A ring of descriptors, with a buffer for each slot.
#[derive(Default)]
struct Ring {
    bus: Cell<u64>,
    buffers: Cell<u64>,
    next: Cell<usize>,
    oldest: Cell<usize>,
    used: Cell<usize>,
}

impl Ring {
    fn open(&self, machine: &impl Machine, slots: usize) -> Option<()> {
        self.bus.set(machine.dma_alloc(DESCRIPTOR * slots)?);
        self.buffers.set(machine.dma_alloc(BUFFER * slots)?);
        Some(())
    }

    fn close(&self, machine: &impl Machine, slots: usize) {
        for (bus, each) in [(&self.bus, DESCRIPTOR), (&self.buffers, BUFFER)] {
            if bus.get() != 0 {
                machine.dma_free(bus.take(), each * slots);
            }
        }
        for number in [&self.next, &self.oldest, &self.used] {
            number.set(0);
        }
    }

    fn buffer(&self, slot: usize) -> u64 {
        self.buffers.get() + (BUFFER * slot) as u64
    }

    /// Returns word 2 or 3 of a descriptor: command, status and lengths.
    fn word(&self, machine: &impl Machine, slot: usize, word: usize) -> u32 {
        let cells = machine.dma(self.bus.get() + (DESCRIPTOR * slot + 4 * word) as u64, 4);
        u32::from_le_bytes([cells[0].get(), cells[1].get(), cells[2].get(), cells[3].get()])
    }

    fn put(&self, machine: &impl Machine, slot: usize, command: u32, status: u32) {
        let cells = machine.dma(self.bus.get() + (DESCRIPTOR * slot) as u64, DESCRIPTOR);
        let bytes =
            self.buffer(slot).to_le_bytes().into_iter().chain(command.to_le_bytes()).chain(status.to_le_bytes());
        for (cell, byte) in cells.iter().zip(bytes) {
            cell.set(byte);
        }
    }

    /// Sets up the registers of one side, and enables it.
    fn start(&self, machine: &impl Machine, side: u32, slots: usize, control: u32) {
        machine.write(side + BAL, self.bus.get() as u32);
        machine.write(side + BAH, (self.bus.get() >> 32) as u32);
        machine.write(side + LEN, (DESCRIPTOR * slots) as u32);
        machine.write(side + HEAD, 0);
        machine.write(side + TAIL, 0);
        switch(machine, side, control);
    }
}

/// Enables or disables a side of the queue, and waits until its control register reads accordingly.
fn switch(machine: &impl Machine, side: u32, control: u32) {
    machine.write(side + CONTROL, control);
    while machine.read(side + CONTROL) & ENABLE != control & ENABLE {}
}

fn mask_all(machine: &impl Machine) {
    machine.write(EIMC, 0x7FFF_FFFF);
}

fn set_up_device(machine: &impl Machine, address: [u8; 6]) {
    mask_all(machine);
    machine.write(CTRL, 1 << 26);
    while machine.read(CTRL) & 1 << 26 != 0 {}
    mask_all(machine);
    machine.write(CTRL_EXT, 1 << 28); // DRV_LOAD
    machine.write(RAL0, u32::from_le_bytes([address[0], address[1], address[2], address[3]]));
    machine.write(RAH0, u32::from_le_bytes([address[4], address[5], 0, 0x80]));
    machine.write(FCTRL, 1 << 10); // BAM
    machine.write(HLREG0, machine.read(HLREG0) | 1 | 1 << 1 | 1 << 10); // TXCRCEN, RXCRCSTRP, TXPADEN
    machine.write(RDRXCTL, machine.read(RDRXCTL) | 1 << 1 | 1 << 25 | 1 << 26); // CRCSTRIP, RSCACKC, FCOE_WRFIX
    machine.write(DMATXCTL, machine.read(DMATXCTL) | 1);
}

fn start_interrupts(machine: &impl Machine) {
    machine.write(GPIE, 1 << 4 | 1 << 5 | 1 << 30 | 1 << 31); // MSI-X, OCD, EIAME, PBA
    machine.write(IVAR0, 0x8080); // both sides of queue 0 use vector 0
    machine.write(EIAC, CAUSE);
    machine.write(EIAM, CAUSE);
    machine.write(EIMS, CAUSE);
}

#[derive(Default)]
pub struct Driver {
    rx: Ring,
    tx: Ring,
    slots: Cell<usize>,
}

impl Driver {
    /// Returns false if memory runs out; everything is then freed.
    pub fn open(&self, machine: &impl Machine, address: [u8; 6], slots: usize, interrupts: bool) -> bool {
        self.slots.set(slots);
        if self.rx.open(machine, slots).and_then(|()| self.tx.open(machine, slots)).is_none() {
            self.give_back(machine);
            return false;
        }
        set_up_device(machine, address);
        for slot in 0..slots {
            self.rx.put(machine, slot, 0, 0);
        }
        machine.write(SRRCTL0, 1 << 25 | (BUFFER / 1024) as u32); // advanced descriptors
        self.rx.start(machine, RECEIVE, slots, ENABLE);
        machine.wmb();
        machine.write(RECEIVE + TAIL, slots as u32 - 1);
        self.tx.start(machine, TRANSMIT, slots, ENABLE | 1 << 8 | 32);
        if interrupts {
            start_interrupts(machine); // must precede reception, so that an early frame has its vector
        }
        machine.write(RXCTRL, 1);
        true
    }

    /// Disables the device, and frees all memory.
    pub fn close(&self, machine: &impl Machine) {
        mask_all(machine);
        switch(machine, RECEIVE, 0);
        switch(machine, TRANSMIT, 0);
        machine.write(RXCTRL, 0);
        machine.write(CTRL_EXT, 0);
        machine.write(EICR, 0x7FFF_FFFF);
        self.give_back(machine);
    }

    fn give_back(&self, machine: &impl Machine) {
        self.rx.close(machine, self.slots.get());
        self.tx.close(machine, self.slots.get());
    }

    fn after(&self, slot: usize) -> usize {
        (slot + 1) % self.slots.get()
    }

    /// Receives the next frame.
    pub fn receive(&self, machine: &impl Machine) -> Option<Vec<u8>> {
        let slot = self.rx.next.get();
        if self.rx.word(machine, slot, 2) & DONE == 0 {
            return None;
        }
        machine.rmb();
        let length = self.rx.word(machine, slot, 3) & 0xFFFF;
        let frame = machine.dma(self.rx.buffer(slot), length as usize).iter().map(Cell::get).collect();
        self.rx.put(machine, slot, 0, 0);
        machine.wmb();
        machine.write(RECEIVE + TAIL, slot as u32);
        self.rx.next.set(self.after(slot));
        Some(frame)
    }

    /// Returns false if the ring is full or the frame is too long.
    pub fn send(&self, machine: &impl Machine, frame: &[u8]) -> bool {
        if frame.len() > LONGEST || self.reclaim(machine) == self.slots.get() - 1 {
            return false;
        }
        let (slot, length) = (self.tx.next.get(), frame.len() as u32);
        for (cell, byte) in machine.dma(self.tx.buffer(slot), frame.len()).iter().zip(frame) {
            cell.set(*byte);
        }
        self.tx.put(machine, slot, length | TX_DATA | TX_WHOLE, length << 14);
        self.tx.used.set(self.tx.used.get() + 1);
        self.tx.next.set(self.after(slot));
        machine.wmb();
        machine.write(TRANSMIT + TAIL, self.tx.next.get() as u32);
        true
    }

    /// Reclaims sent frames. Returns the number of frames still in flight.
    pub fn reclaim(&self, machine: &impl Machine) -> usize {
        while self.tx.used.get() > 0 && self.tx.word(machine, self.tx.oldest.get(), 3) & DONE != 0 {
            self.tx.oldest.set(self.after(self.tx.oldest.get()));
            self.tx.used.set(self.tx.used.get() - 1);
        }
        self.tx.used.get()
    }

    /// Enables interrupts again: the device masks its cause when it sends the message.
    pub fn rearm(&self, machine: &impl Machine) {
        machine.write(EIMS, CAUSE);
    }
}
