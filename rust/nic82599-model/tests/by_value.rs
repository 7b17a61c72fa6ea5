//! Tests of memory by value, which only this crate supports.

#[path = "../../nic82599/tests/common/mod.rs"]
mod common;

use common::hostile::{by_chance, some32};
use nic82599::desc::Descriptor;
use nic82599::regs::{self, *};
use nic82599::{Block, Error, Nic, Refused, Sizes};

fn opened(blocks: u32) -> Nic {
    Nic::open(Sizes { blocks, ..Sizes::default() }).unwrap()
}

fn filled(byte: u8) -> Block {
    Box::new([byte; 2048])
}

#[test]
fn goes_in_and_comes_back() {
    let (nic, memory) = (opened(3), filled(5));
    let place = memory.as_ptr();
    nic.lend_block(1, memory).unwrap();
    nic.memory().write(2050, b"card").unwrap();
    let memory = nic.take_block(1).unwrap();
    assert_eq!((memory.as_ptr(), &memory[..7]), (place, &[5, 5, b'c', b'a', b'r', b'd', 5][..]));
    assert_eq!(nic.memory().read(2048..2049), Err(Error::NotLent(2048)));
    nic.lend(1).unwrap();
    assert_eq!(nic.memory().read(2048..4096).unwrap(), [0; 2048]);
}

#[test]
fn is_exchanged() {
    let nic = opened(2);
    nic.lend(0).unwrap();
    nic.memory().write(7, &[7]).unwrap();
    let former = nic.exchange(0, filled(8)).unwrap();
    assert_eq!((former[6], former[7], nic.memory().get32(0)), (0, 7, Ok(0x0808_0808)));
}

#[test]
fn comes_back_from_a_refusal() {
    let nic = opened(2);
    nic.lend_block(0, filled(1)).unwrap();
    let twice = nic.lend_block(0, filled(2)).unwrap_err();
    assert_eq!((twice.error, twice.value), (Error::NoBlock, filled(2)));
    let beyond = nic.lend_block(2, filled(3)).unwrap_err();
    assert_eq!((beyond.error, beyond.value), (Error::NoBlock, filled(3)));
    let other = nic.exchange(1, filled(4)).unwrap_err();
    assert_eq!(
        format!("{other:?}, {other}"),
        "bus address 0x00800: block 1 isn't lent, bus address 0x00800: block 1 isn't lent"
    );
    assert_eq!(other, Refused { error: Error::NotLent(2048), value: filled(4) });
    assert_eq!(nic.take_block(1), Err(Error::NotLent(2048)));
    assert_eq!(nic.take_block(0).unwrap(), filled(1));
}

#[test]
fn the_device_writes_there() {
    let nic = opened(2);
    nic.lend_block(0, filled(0)).unwrap();
    nic.lend_block(1, filled(0)).unwrap();
    nic.write(RXCTRL, rxctrl::RXEN);
    nic.write(FCTRL, fctrl::UPE);
    nic.write(RDLEN.at(0), 128);
    nic.write(SRRCTL.at(0), srrctl::DESCTYPE.is(1) | srrctl::BSIZEPACKET.is(2));
    nic.write(RXDCTL.at(0), regs::rxdctl::ENABLE);
    nic.settle(1).unwrap();
    nic.memory().put_descriptor(0, 0, Descriptor::receive(0x800)).unwrap();
    nic.write(RDT.at(0), 1);
    let mut frame = [9; 60];
    frame[..6].copy_from_slice(&[2, 0, 0, 0, 0, 1]);
    assert_eq!(nic.arrive(&frame).unwrap(), nic82599::Arrival::Waits);
    nic.settle(1).unwrap();
    let buffer = nic.take_block(1).unwrap();
    assert_eq!((&buffer[..60], buffer[60]), (&frame[..], 0));
}

#[test]
fn a_snapshot_has_its_bytes() {
    let nic = opened(2);
    nic.lend_block(1, filled(6)).unwrap();
    let kept = nic.snapshot().unwrap();
    let former = nic.exchange(1, filled(7)).unwrap();
    nic.restore(&kept).unwrap();
    assert_eq!((nic.take_block(1).unwrap(), former), (filled(6), filled(6)));
    nic.restore(&kept).unwrap();
    assert_eq!(nic.take_block(1).unwrap(), filled(6));
}

#[test]
fn no_call_ends_the_program() {
    by_chance(|nic, chance| {
        let (block, other) = (some32(chance) % 40, some32(chance) % 40);
        if let Ok(memory) = nic.take_block(block) {
            if let Err(refused) = nic.lend_block(other, memory) {
                nic.lend_block(block, refused.value).unwrap();
            }
        }
    });
}
