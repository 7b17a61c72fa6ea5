//! The poll loop of c/examples/race.c as a driver would write it, with no hint where the race is. The search finds it.
//!
//!     cargo run --features explore --example race
//!     cargo run --features explore --example race fixed     without the line that loses a frame

use std::cell::Cell;
use std::env;
use std::process::ExitCode;

use nic82599::explore::{search, Begin, Bus, Look, Outcome, Scenario, Where};
use nic82599::regs::*;

const CAUSE: u32 = 1 << 5;
const FRAMES: u64 = 2;
const FRAME: [u8; 14] = [2, 0, 0, 0, 0, 1, 2, 0, 0, 0, 0, 2, 0x88, 0xB5];

/// The driver's state.
#[derive(Default)]
struct Driver {
    is_scheduled: Cell<bool>,
    /// The slot that the poll looks at next; equal to the number of frames received.
    next: Cell<u64>,
}

struct Race {
    is_fixed: bool,
}

fn isr(bus: &Bus, driver: &Driver) {
    bus.write(EIMC, CAUSE);
    driver.is_scheduled.set(true);
}

fn poll(bus: &Bus, driver: &Driver, is_fixed: bool) {
    loop {
        bus.wait_until(|| driver.is_scheduled.get());
        driver.is_scheduled.set(false);
        bus.write(EICR, CAUSE);
        while bus.get64(16 * driver.next.get() + 8) & 1 == 1 {
            driver.next.set(driver.next.get() + 1);
        }
        if !is_fixed {
            bus.write(EICR, CAUSE); // old causes must not interrupt
        }
        bus.write(EIMS, CAUSE);
    }
}

impl Scenario for Race {
    type State = Driver;

    fn name(&self) -> &str {
        "race"
    }

    fn state(&self) -> Driver {
        Driver::default()
    }

    fn bring_up(&self, bus: &Bus) -> Result<(), String> {
        bus.lend_all()?;
        bus.write(RXCTRL, rxctrl::RXEN);
        bus.write(FCTRL, fctrl::UPE);
        bus.write(RDLEN.at(0), 128);
        bus.write(SRRCTL.at(0), srrctl::DESCTYPE.is(1) | srrctl::BSIZEPACKET.is(2));
        bus.write(RXDCTL.at(0), rxdctl::ENABLE);
        bus.settle();
        for slot in 0..7 {
            bus.put64(16 * slot, 2048);
        }
        bus.write(RDT.at(0), 7);
        // MSI-X: writing EICR clears a queue's cause, but reading it doesn't
        bus.write(GPIE, gpie::MULTIPLE_MSIX | gpie::OCD | gpie::PBA_SUPPORT);
        bus.write(IVAR.at(0), ivar::INT_ALLOC_0.is(5) | ivar::INT_ALLOC_VAL_0);
        bus.write(EIAC, 0);
        bus.write(EIMS, CAUSE);
        Ok(())
    }

    fn begin(&self, begin: &Begin<Driver>) {
        let (is_fixed, mut frame) = (self.is_fixed, FRAME.to_vec());
        begin.service("poll", move |bus, driver| poll(bus, driver, is_fixed));
        begin.handler("isr", (None, 5), Where::Anywhere, isr);
        frame.resize(60, 0);
        (0..FRAMES).for_each(|_| begin.frame(&frame));
    }

    fn end(&self, driver: &Driver, _device: &Look<'_>) -> Result<(), String> {
        match driver.next.get() {
            FRAMES => Ok(()),
            _ => Err("a frame is in the ring, but nothing will poll it".to_owned()),
        }
    }
}

fn main() -> ExitCode {
    let mut words: Vec<String> = env::args().skip(1).collect();
    let is_fixed = words.first().map_or(false, |it| it == "fixed");
    if is_fixed {
        words.remove(0);
    }
    let words: Vec<&str> = words.iter().map(String::as_str).collect();
    match search(Race { is_fixed }, &words) {
        Outcome::Nothing => ExitCode::SUCCESS,
        Outcome::Failure => ExitCode::from(1),
        Outcome::Refused => ExitCode::from(2),
    }
}
