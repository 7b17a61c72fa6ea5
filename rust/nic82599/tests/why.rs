//! What `Nic::why` reports for the setups in why.cases, which describes their format.

use nic82599::desc::Descriptor;
use nic82599::regs::*;
use nic82599::{Arrival, Error, Nic, Sizes};

const CASES: &str = include_str!("why.cases");

fn number(word: &str) -> u64 {
    let parsed = match word.strip_prefix("0x") {
        Some(digits) => u64::from_str_radix(digits, 16),
        None => word.parse(),
    };
    parsed.unwrap_or_else(|_| panic!("why.cases: {word} isn't a number"))
}

/// Runs a line of a setup.
fn make(nic: &Nic, line: &str) {
    let words: Vec<&str> = line.split_whitespace().collect();
    let given: Vec<u64> = words[1..].iter().map(|it| number(it)).collect();
    match (words[0], given.as_slice()) {
        ("w", &[address, word]) => nic.write32(address as u32, word as u32).unwrap(),
        ("vw", &[vf, offset, word]) => nic.vf(vf as u8).write32(offset as u32, word as u32).unwrap(),
        ("lend", &[from, to]) => (from..to).for_each(|block| nic.lend(block as u32).unwrap()),
        ("put", &[at, first, second]) => {
            let _ = nic.memory().put_descriptor(at, 0, Descriptor { first, second });
        }
        ("arrive", &[last, ..]) => {
            let mut frame = vec![0; given.get(1).map_or(60, |it| *it as usize)];
            frame[..15].copy_from_slice(&[2, 0, 0, 0, 0, last as u8, 2, 0, 0, 0, 0, 9, 8, 0, 0x45]);
            if let Some(&first) = given.get(2) {
                frame[..5].fill(first as u8);
            }
            let _ = nic.arrive(&frame).unwrap();
        }
        ("link", &[up]) => assert!(nic.link(up == 1)),
        ("settle", &[queues]) => drop(nic.settle(queues as u16).unwrap()),
        ("rx", []) => drop(nic.rx_step()),
        ("int", &[0]) => assert!(nic.int_step().is_some()),
        ("int", &[group]) => assert!(nic.vf(group as u8 - 1).int_step().unwrap().is_some()),
        _ => panic!("why.cases: unknown instruction: {line}"),
    }
}

/// Returns a line without its comment and its optional label.
fn bare(line: &str) -> &str {
    line.split('#').next().unwrap_or("").trim()
}

/// Returns the lines of a case: the base's lines with the case's changes, then the case's own lines.
fn set_up<'a>(base: &[(&'a str, &'a str)], lines: &[&'a str]) -> Vec<&'a str> {
    let mut made = if lines.contains(&"alone") { Vec::new() } else { base.to_vec() };
    let mut more = Vec::new();
    for line in lines.iter().filter(|it| **it != "alone") {
        let (label, instead) = match line.strip_prefix("without ") {
            Some(label) => (label, "rx"),
            None => line.split_once(": ").unwrap_or(("", line)),
        };
        match made.iter_mut().find(|it| it.0 == label) {
            Some(it) => it.1 = instead,
            None => more.push(*line),
        }
    }
    made.iter().map(|it| it.1).chain(more).collect()
}

#[test]
fn cases() {
    let mut parts = CASES.split("\ncase ");
    let base: Vec<(&str, &str)> =
        parts.next().unwrap().lines().map(bare).filter_map(|line| line.split_once(": ")).collect();
    let mut count = 0;
    for part in parts {
        let (name, rest) = part.split_once('\n').unwrap();
        let wanted: Vec<&str> = rest.lines().filter_map(|line| line.strip_prefix("> ")).collect();
        let lines: Vec<&str> =
            rest.lines().filter(|it| !it.starts_with('>')).map(bare).filter(|it| !it.is_empty()).collect();
        let nic = Nic::open(Sizes { vfs: 2, fifo: 8, blocks: 8 }).unwrap();
        set_up(&base, &lines).into_iter().for_each(|line| make(&nic, line));
        assert_eq!(nic.why(), wanted.join("\n"), "{name}");
        count += 1;
    }
    assert!(count > 45);
}

/// An explanation longer than the first buffer is returned whole.
#[test]
fn a_long_text() {
    let nic = Nic::open(Sizes { vfs: 0, fifo: 1, blocks: 1 }).unwrap();
    for queue in 0..128 {
        nic.write(RDLEN.at(queue), 128);
    }
    let reasons = nic.why();
    assert_eq!(reasons.lines().filter(|line| line.ends_with("the queue is off")).count(), 128);
    assert!(reasons.ends_with("rx 127: SRRCTL[127].DESCTYPE 0: the bench supports only 1"));
}

/// A controller with a frame for queue 3; `tail` is the tail that the driver writes.
fn received(tail: u32) -> Result<Nic, Error> {
    let mut frame = [0; 60];
    frame[..15].copy_from_slice(&[2, 0, 0, 0, 0, 1, 2, 0, 0, 0, 0, 2, 8, 0, 0x45]);
    let nic = Nic::open(Sizes::default())?;
    nic.lend_all()?;
    nic.memory().put_descriptor(0, 0, Descriptor::receive(0x800))?;
    nic.write(RXCTRL, rxctrl::RXEN);
    nic.write(FCTRL, fctrl::UPE);
    nic.write(MRQC, mrqc::MRQE.is(1) | mrqc::IPV4);
    nic.write(RETA.at(0), reta::ENTRY_0.is(3));
    nic.write(RDLEN.at(3), 128);
    nic.write(SRRCTL.at(3), srrctl::DESCTYPE.is(1) | srrctl::BSIZEPACKET.is(2));
    nic.write(RXDCTL.at(3), rxdctl::ENABLE);
    nic.settle(4)?;
    nic.write(RDT.at(3), tail);
    assert_eq!(nic.arrive(&frame)?, Arrival::Waits);
    Ok(nic)
}

/// The example of docs/rust.md.
#[test]
fn an_assertion() -> Result<(), Error> {
    let nic = received(1)?;
    let _ = nic.settle(4)?;
    assert_eq!(nic.read(RDH.at(3)), 1, "{}", nic.why());
    let nic = received(0)?;
    let _ = nic.settle(4)?;
    let reasons = nic.why();
    assert!(reasons.contains("rx 3: RDH[3] 0, RDT[3] 0: head and tail meet, so the device owns no slot"), "{reasons}");
    Ok(())
}
