//! The only file between driver.rs and the bench. Run by itself, the program exercises the driver: it receives 10,000
//! frames, or as many as its argument says, sends them back, and compares each byte. Run by nicdrive, it passes the
//! driver to the report card. Either way, both the driver and the device work in the driver's own memory.
//!
//!     cargo build --features drive --example adapter
//!     target/debug/examples/adapter
//!     ../../c/drive/nicdrive target/debug/examples/adapter -o /tmp/card

mod driver;

use std::cell::Cell;
use std::env;
use std::error::Error;
use std::process::ExitCode;

use driver::{Driver, Machine};
use nic82599::drive::{self, Can, Frame, Interrupt, Platform, Rearm, Receive, Reclaim, Send, Setup};
use nic82599::{Arrival, Event, InPlace, Nic, Sizes};

const ADDRESS: [u8; 6] = [2, 0, 0, 0, 0, 1];
const BLOCK: usize = 2048;
const BLOCKS: usize = 1024;

// --- a run ---

/// A controller, and the memory that the driver allocates from. An offset in this memory is a bus address.
struct Bench<'a> {
    nic: InPlace<'a>,
    memory: &'a [Cell<u8>],
    used: Cell<usize>,
    last: Cell<u32>,
    was_raised: Cell<bool>,
}

impl Bench<'_> {
    fn let_device_act(&self) {
        for event in self.nic.steps(1).into_iter().flatten().flatten() {
            match event {
                Event::Message { .. } => self.was_raised.set(true),
                event if event.is_loss() => println!("{}: {event:#}", event.step()),
                _ => {}
            }
        }
    }
}

impl Machine for Bench<'_> {
    /// Reads a register. A repeated read of one register means polling, so the device acts before the read.
    fn read(&self, offset: u32) -> u32 {
        if self.last.replace(offset) == offset {
            self.let_device_act();
        }
        self.nic.read32(offset).unwrap_or(0)
    }

    fn write(&self, offset: u32, word: u32) {
        if let Err(stray) = self.nic.write32(offset, word) {
            println!("{stray}");
        }
    }

    /// Allocates whole blocks. The first one stays free, so that no address is 0.
    fn dma_alloc(&self, bytes: usize) -> Option<u64> {
        let (from, end) = (self.used.get(), self.used.get() + (bytes + BLOCK - 1) / BLOCK * BLOCK);
        self.nic.lend_memory(from as u64, self.memory.get(from..end)?).ok()?;
        self.used.set(end);
        Some(from as u64)
    }

    fn dma_free(&self, bus: u64, bytes: usize) {
        let _ = self.nic.memory().unlend(bus, (bytes + BLOCK - 1) / BLOCK * BLOCK);
    }

    fn dma(&self, bus: u64, bytes: usize) -> &[Cell<u8>] {
        &self.memory[bus as usize..][..bytes]
    }

    /// Does nothing: the device sees every store at its next step.
    fn wmb(&self) {}
    fn rmb(&self) {}
}

/// Generates a 60- to 1,514-byte frame from a number.
fn made(number: usize) -> Vec<u8> {
    let mut frame: Vec<u8> = (0..60 + number * 37 % 1455).map(|k| (number * 31 + k * 7) as u8).collect();
    frame[..6].copy_from_slice(&ADDRESS);
    frame
}

/// Sends every received frame back.
fn poll(driver: &Driver, bench: &Bench<'_>, received: &mut usize) -> Result<(), Box<dyn Error>> {
    while let Some(frame) = driver.receive(bench) {
        if frame != made(*received) {
            return Err(format!("frame {received}: the received bytes differ from those that arrived").into());
        }
        *received += 1;
        driver.send(bench, &frame);
    }
    driver.reclaim(bench);
    driver.rearm(bench);
    Ok(())
}

fn run(frames: usize) -> Result<(), Box<dyn Error>> {
    let mut room = vec![0; BLOCKS * BLOCK];
    let memory = Cell::from_mut(&mut room[..]).as_slice_of_cells();
    let nic = Nic::open(Sizes { blocks: BLOCKS as u32, ..Sizes::default() })?.in_place();
    let bench = Bench { nic, memory, used: Cell::new(BLOCK), last: Cell::new(u32::MAX), was_raised: Cell::new(false) };
    let (driver, mut given, mut received, mut returned) = (Driver::default(), 0, 0, 0);
    if !driver.open(&bench, ADDRESS, 64, true) {
        return Err("the driver's open failed: out of memory".into());
    }
    while given < frames && returned == given {
        for _ in 0..(1 + given % 7).min(frames - given) {
            if let Arrival::Dropped(why) = bench.nic.arrive(&made(given))? {
                println!("frame {given} is dropped: {why:#}");
            }
            given += 1;
        }
        bench.let_device_act();
        while bench.was_raised.take() {
            poll(&driver, &bench, &mut received)?;
            bench.let_device_act();
        }
        for frame in bench.nic.frames() {
            if frame.data != made(returned) {
                return Err(format!("frame {returned}: the sent bytes differ from those that arrived").into());
            }
            returned += 1;
        }
    }
    println!("{received} of {given} frames received, {returned} sent back");
    let why = bench.nic.why();
    driver.close(&bench);
    if returned == given {
        Ok(())
    } else {
        Err(why.into())
    }
}

// --- the card ---

impl Machine for Platform {
    fn read(&self, offset: u32) -> u32 {
        self.read32(offset)
    }
    fn write(&self, offset: u32, word: u32) {
        self.write32(offset, word);
    }
    fn dma_alloc(&self, bytes: usize) -> Option<u64> {
        Platform::dma_alloc(self, bytes)
    }
    fn dma_free(&self, bus: u64, _bytes: usize) {
        Platform::dma_free(self, bus);
    }
    fn dma(&self, bus: u64, bytes: usize) -> &[Cell<u8>] {
        Platform::dma(self, bus, bytes).unwrap_or(&[])
    }
    fn wmb(&self) {
        self.bus().wmb();
    }
    fn rmb(&self) {
        self.bus().rmb();
    }
}

impl drive::Driver for Driver {
    const NAME: &'static str = "adapter";
    const CAN: Can = Can::NO_MODERATION;
    const RECEIVE: Option<Receive<Driver>> =
        Some(|driver, platform, _| driver.receive(platform).map(|bytes| Frame { bytes, ..Frame::default() }));
    const SEND: Option<Send<Driver>> = Some(|driver, platform, _, frame| driver.send(platform, frame));
    const RECLAIM: Option<Reclaim<Driver>> = Some(|driver, platform, _| driver.reclaim(platform) as u32);
    const INTERRUPT: Option<Interrupt<Driver>> = Some(|_, _, _| 1); // poll queue 0
    const REARM: Option<Rearm<Driver>> = Some(|driver, platform, _| driver.rearm(platform));

    fn new() -> Driver {
        Driver::default()
    }
    fn open(&self, platform: &Platform, setup: &Setup) -> bool {
        Driver::open(self, platform, setup.address, usize::from(setup.slots), setup.interrupts)
    }
    fn close(&self, platform: &Platform) {
        Driver::close(self, platform);
    }
}

fn main() -> ExitCode {
    let frames = match env::args().nth(1) {
        None => 10_000,
        Some(word) => match word.parse() {
            Ok(frames) => frames,
            Err(_) => return drive::main::<Driver>(),
        },
    };
    match run(frames) {
        Ok(()) => ExitCode::SUCCESS,
        Err(fault) => {
            println!("{fault}");
            ExitCode::FAILURE
        }
    }
}
