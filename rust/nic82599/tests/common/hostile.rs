//! Random calls with arbitrary arguments that no driver should make. None ends the program, and each returns what its
//! documentation says.

use std::mem::discriminant;

use nic82599::desc::Descriptor;
use nic82599::{rss_hash, vf_address, Error, Nic, Side, Sizes, Snapshot};

use super::Chance;

const CALLS: u32 = 20_000;

pub fn some32(chance: &mut Chance) -> u32 {
    match chance.below(4) {
        0 => chance.word(),
        1 => chance.below(0x14000) & !3,
        2 => u32::MAX - chance.below(8),
        _ => chance.below(300),
    }
}

pub fn some64(chance: &mut Chance) -> u64 {
    if chance.below(3) > 0 {
        u64::from(chance.below(40_000))
    } else {
        chance.next() << chance.below(30)
    }
}

/// Checks that an error is one of these kinds.
pub fn may<T>(result: Result<T, Error>, errors: &[Error]) {
    if let Err(error) = result {
        let is_stray = matches!(error, Error::Stray { .. }) && errors.is_empty();
        let is_one = errors.iter().any(|it| discriminant(it) == discriminant(&error));
        assert!(is_stray || is_one, "{error}");
    }
}

fn registers(nic: &Nic, chance: &mut Chance) {
    let (at, word, number) = (some32(chance), some32(chance), chance.next() as u8);
    match chance.below(6) {
        0 => may(nic.read32(at), &[]),
        1 => may(nic.write32(at, word), &[]),
        2 => may(nic.peek32(at), &[]),
        3 => may(nic.vf(number).read32(at), &[]),
        4 => may(nic.vf(number).write32(at, word), &[]),
        _ => may(nic.vf(number).peek32(at), &[]),
    }
}

/// In any mode, the address for an offset is the address of a device register.
fn address_of(nic: &Nic, chance: &mut Chance) {
    let (mode, number) = (some32(chance), chance.below(70) as u8);
    match vf_address(mode, number, some32(chance)) {
        Ok(address) => assert!(nic.peek32(address).is_ok(), "0x{address:05x}"),
        Err(Error::NoGroup) => assert!(mode & 3 == 0 || number > 15),
        Err(error) => may::<()>(Err(error), &[]),
    }
}

fn memory(nic: &Nic, chance: &mut Chance) {
    let (bus, end, block) = (some64(chance), some64(chance), some32(chance));
    let mut bytes = vec![chance.next() as u8; chance.below(5000) as usize];
    match chance.below(9) {
        0 => may(nic.lend(block % 40), &[Error::NoBlock]),
        1 => may(nic.lend(block), &[Error::NoBlock]),
        2 => may(nic.take(block), &[Error::NotLent(0)]),
        3 => may(nic.memory().read(bus..end), &[Error::NotLent(0), Error::BadRange]),
        4 => may(nic.memory().read_into(bus, &mut bytes), &[Error::NotLent(0)]),
        5 => may(nic.memory().write(bus, &bytes), &[Error::NotLent(0)]),
        6 => may(nic.memory().fill(bus..=end, 7), &[Error::NotLent(0), Error::BadRange]),
        7 => may(nic.memory().put_descriptor(bus, block as u16, Descriptor::receive(end)), &[Error::NotLent(0)]),
        _ => may(nic.memory().descriptor(bus, block as u16), &[Error::NotLent(0)]),
    }
}

fn steps(nic: &Nic, chance: &mut Chance) {
    let (queue, number) = (some32(chance) as u16, chance.below(70) as u8);
    match chance.below(8) {
        0 => drop(nic.rx_step()),
        1 => may(nic.tx_step(queue), &[Error::NoQueue]),
        2 => may(nic.queue_step(Side::Rx, queue), &[Error::NoQueue]),
        3 => may(nic.queue_step(Side::Tx, queue), &[Error::NoQueue]),
        4 => drop(nic.eeprom_step()),
        5 => may(nic.vf(number).int_step(), &[Error::NoGroup]),
        6 => may(nic.settle(queue % 140), &[Error::NoQueue]),
        _ => match nic.steps(queue % 140) {
            Ok(steps) => assert!(steps.take(3).all(|it| it.is_ok())),
            Err(error) => assert_eq!(error, Error::NoQueue),
        },
    }
}

fn the_rest(nic: &Nic, chance: &mut Chance, kept: &mut Option<Snapshot>) {
    let mut bytes = vec![0; chance.below(2000) as usize];
    bytes.iter_mut().for_each(|it| *it = chance.next() as u8);
    match chance.below(8) {
        0 => may(nic.arrive(&bytes), &[Error::OutOfMemory]),
        2 => drop(nic.link(chance.below(8) > 0)),
        3 => assert!(nic.install_image(&bytes).is_err()),
        4 => assert!(nic.install_text(&String::from_utf8_lossy(&bytes)).is_err()),
        5 => assert_eq!(rss_hash(&[3; 40], &bytes).is_err(), bytes.len() > 36),
        1 => drop(nic.collect()),
        6 if chance.below(20) == 0 => *kept = Some(nic.snapshot().unwrap()),
        7 if chance.below(20) == 0 => {
            if let Some(kept) = kept {
                nic.restore(kept).unwrap();
            }
        }
        _ => {}
    }
}

/// Makes 20,000 random calls. `of_the_crate` makes some that only the crate under test supports.
pub fn by_chance(of_the_crate: impl Fn(&Nic, &mut Chance)) {
    for vfs in [0, 2, 63] {
        let nic = Nic::open(Sizes { vfs, fifo: 4, blocks: 16 }).unwrap();
        let (mut chance, mut kept) = (Chance::new(u64::from(vfs) + 7), None);
        for _ in 0..CALLS {
            match chance.below(34) {
                0 => of_the_crate(&nic, &mut chance),
                33 => address_of(&nic, &mut chance),
                1..=8 => registers(&nic, &mut chance),
                9..=16 => memory(&nic, &mut chance),
                17..=24 => steps(&nic, &mut chance),
                _ => the_rest(&nic, &mut chance, &mut kept),
            }
        }
    }
}
