//! Checks the result and the refusals of every call.

#[path = "common/device.rs"]
mod device;

use std::ops::Bound;

use device::{start, take};
use nic82599::desc::{txd, Descriptor, RssType};
use nic82599::regs::{self, vf, *};
use nic82599::{
    rss_hash, vf_address, Absent, Arrival, Device, Error, Event, Fault, Frame, ImageFault, Memory, Nic, Side, Sizes,
    TextFault, Why,
};

const TYPE: u32 = 0x0200_0002;
const ENABLE: u32 = regs::rxdctl::ENABLE;
const KEY: [u8; 40] = [
    0x6D, 0x5A, 0x56, 0xDA, 0x25, 0x5B, 0x0E, 0xC2, 0x41, 0x67, 0x25, 0x3D, 0x43, 0xA3, 0x8F, 0xB0, 0xD0, 0xCA, 0x2B,
    0xCB, 0xAE, 0x7B, 0x30, 0xB4, 0x77, 0xCB, 0x2D, 0xA3, 0x80, 0x30, 0xF2, 0x0C, 0x6A, 0x42, 0xB7, 0x3B, 0xBE, 0xAC,
    0x01, 0xFA,
];

/// A TCP frame over IPv4. The Microsoft verification suite lists its hash under `KEY`.
fn frame() -> [u8; 60] {
    let mut frame = [0; 60];
    frame[..14].copy_from_slice(&[2, 0, 0, 0, 0, 1, 2, 0, 0, 0, 0, 2, 8, 0]);
    frame[14..26].copy_from_slice(&[0x45, 0, 0, 40, 0, 0, 0, 0, 64, 6, 0, 0]);
    frame[26..38].copy_from_slice(&[66, 9, 149, 187, 161, 142, 100, 80, 10, 234, 6, 230]);
    frame
}

fn nic(blocks: u32) -> Nic {
    Nic::open(Sizes { blocks, ..Sizes::default() }).unwrap()
}

/// A controller with both sides of queue 0 set up but disabled. Vector 5 belongs to its receive side.
fn with_queues() -> Nic {
    let nic = Nic::open(Sizes { fifo: 2, blocks: 4, vfs: 0 }).unwrap();
    nic.lend_all().unwrap();
    for (register, word) in [(RXCTRL, 1), (DMATXCTL, 1), (FCTRL, 0x200), (EIMS, 0x20), (IVAR.at(0), 0x8085)] {
        nic.write(register, word);
    }
    for (register, word) in [(RDLEN, 128), (SRRCTL, TYPE), (RXDCTL, ENABLE), (TDBAL, 0x1000), (TDLEN, 128)] {
        nic.write(register.at(0), word);
    }
    nic.write(TXDCTL.at(0), ENABLE);
    nic
}

// --- lifetime ---

#[test]
fn sizes() {
    let refused = |vfs, fifo, blocks| Nic::open(Sizes { vfs, fifo, blocks }).err();
    for vfs in [64, 128, 255] {
        assert_eq!(refused(vfs, 64, 1), Some(Error::TooManyVfs));
    }
    for fifo in [0, 4097, u16::MAX] {
        assert_eq!(refused(0, fifo, 1), Some(Error::BadFifo));
    }
    for blocks in [0, 65_537, u32::MAX] {
        assert_eq!(refused(64, 0, blocks), Some(Error::BadBlocks));
    }
    assert_eq!(refused(63, 4096, 65_536), None);
    let shown = format!("{:?}", nic(3));
    assert_eq!(shown, "Nic { vfs: 0, fifo: 64, blocks: 3, .. }");
}

#[test]
fn snapshots() {
    let nic = Nic::open(Sizes { vfs: 2, blocks: 4, fifo: 7 }).unwrap();
    nic.lend(0).unwrap();
    nic.lend(2).unwrap();
    nic.write(RETA.at(3), 0x0302_0100);
    nic.memory().write(0x1000, b"kept").unwrap();
    let kept = nic.snapshot().unwrap();
    for _ in 0..2 {
        nic.write(RETA.at(3), 7);
        nic.take(2).unwrap();
        nic.lend(3).unwrap();
        nic.restore(&kept).unwrap();
        assert_eq!(nic.read(RETA.at(3)), 0x0302_0100);
        assert_eq!(nic.memory().read(0x1000..0x1004).unwrap(), b"kept");
        assert_eq!(nic.take(3), Err(Error::NotLent(0x1800)));
    }
    drop(nic);
    let other = Nic::open(Sizes { blocks: 1, ..Sizes::default() }).unwrap();
    other.restore(&kept).unwrap();
    assert_eq!((other.sizes(), kept.sizes().vfs), (Sizes { vfs: 2, blocks: 4, fifo: 7 }, 2));
    drop(kept);
    assert_eq!(other.memory().read(0x1000..0x1004).unwrap(), b"kept");
    assert_eq!(other.lend(2), Err(Error::NoBlock));
}

#[test]
fn a_restored_one_goes_on_alike() {
    let nic = with_queues();
    nic.settle(1).unwrap();
    nic.memory().put64(0, 0x800).unwrap();
    assert_eq!(nic.arrive(&frame()), Ok(Arrival::Waits));
    let kept = nic.snapshot().unwrap();
    let goes_on = |nic: &Nic| {
        nic.write(RDT.at(0), 1);
        let events: Vec<Event> = nic.settle(1).unwrap().collect();
        (events, nic.memory().read(0x800..0x83C).unwrap(), nic.read(GPRC))
    };
    let first = goes_on(&nic);
    assert_eq!((&first.1[..], first.2), (&frame()[..], 1));
    nic.restore(&kept).unwrap();
    assert_eq!(goes_on(&nic), first);
}

// --- registers ---

#[test]
fn registers() {
    let nic = nic(4);
    nic.write(RETA.at(3), 0x0302_0100);
    assert_eq!(
        (nic.read32(0x05C0C), nic.read32(0x0EB0C), nic.peek(RETA.at(3))),
        (Ok(0x0302_0100), Ok(0x0302_0100), 0x0302_0100)
    );
    nic.write(MAXFRS, u32::MAX);
    assert_eq!(nic.read(MAXFRS), 0xFFFF_0000);
    nic.write(SRRCTL.at(3), srrctl::DESCTYPE.is(1) | srrctl::BSIZEPACKET.is(2));
    let kind = srrctl::DESCTYPE.of(nic.read(SRRCTL.at(3)));
    nic.modify(MAXFRS, |word| maxfrs::MFS.put(word, 9000));
    assert_eq!((kind, maxfrs::MFS.of(nic.read(MAXFRS)), nic.read(MAXFRS) & 0xFFFF), (1, 9000, 0));
    nic.write(EICS, 5);
    assert_eq!([nic.peek(EICR), nic.peek(EICR), nic.read(EICR), nic.read(EICR)], [5, 5, 5, 0]);
}

#[test]
fn strays() {
    let nic = nic(1);
    for at in [0xC, 1, 2, 3, 0x1001, 0x1FFFC, 0x20000, 1 << 31, u32::MAX, u32::MAX - 3] {
        assert_eq!(nic.read32(at), Err(Error::Stray { at, word: Some(0), why: Absent::Register }));
        assert_eq!(nic.write32(at, u32::MAX), Err(Error::Stray { at, word: None, why: Absent::Register }));
        assert_eq!(nic.peek32(at), Err(Error::Stray { at, word: None, why: Absent::Register }));
        assert_eq!(nic.see32(at), 0);
    }
    for number in 0..=u8::MAX {
        let function = nic.vf(number);
        let vfs = nic.sizes().vfs;
        let why = if number < vfs { Absent::Pool { number, pools: 0 } } else { Absent::Function { number, vfs } };
        assert_eq!(function.read(vf::VTEIMS), Err(Error::Stray { at: 0x108, word: Some(u32::MAX), why }));
        assert_eq!(function.write(vf::VTEIMS, 1), Err(Error::Stray { at: 0x108, word: None, why }));
        assert_eq!(function.peek(vf::VTEIMS), Err(Error::Stray { at: 0x108, word: None, why }));
        assert_eq!((function.see32(0x108), function.number()), (u32::MAX, number));
        assert_eq!(function.int_step(), Err(Error::NoGroup));
    }
}

#[test]
fn a_function() {
    let nic = Nic::open(Sizes { vfs: 2, ..Sizes::default() }).unwrap();
    nic.write(GCR_EXT, gcr_ext::VT_MODE.is(3));
    let (zero, one) = (nic.vf(0), nic.vf(1));
    one.write(vf::VTEIMS, 3).unwrap();
    one.write(vf::VFRDLEN.at(1), 128).unwrap();
    assert_eq!((one.read(vf::VTEIMS), nic.read(PVTEIMS.at(1))), (Ok(3), 3));
    assert_eq!((nic.read(RDLEN.at(3)), one.peek(vf::VFRDLEN.at(1))), (128, Ok(128)));
    assert_eq!(zero.read(vf::VTEIMS), Ok(0));
    assert!(one.write(vf::VFRDT.at(3), 1).is_err());
    nic.write(GCR_EXT, gcr_ext::VT_MODE.is(1));
    one.write(vf::VFRDT.at(7), 9).unwrap();
    assert_eq!((one.read(vf::VFRDT.at(7)), nic.read(RDT.at(15))), (Ok(9), 9));
}

#[test]
fn messages_of_a_function() {
    let nic = Nic::open(Sizes { vfs: 2, ..Sizes::default() }).unwrap();
    nic.write(GCR_EXT, 3);
    for number in 0..2 {
        let function = nic.vf(number);
        function.write(vf::VTIVAR_MISC, 0x82).unwrap();
        function.write(vf::VTEIMS, 4).unwrap();
        function.write(vf::VTEICS, 4).unwrap();
    }
    let first = nic.vf(0).int_step().unwrap();
    assert_eq!(first, Some(Event::Message { function: Some(0), vector: 2 }));
    let rest: Vec<Event> = nic.settle(0).unwrap().collect();
    assert_eq!(rest, [Event::Message { function: Some(1), vector: 2 }]);
    assert_eq!(nic.vf(1).int_step(), Ok(None));
}

// --- memory ---

#[test]
fn ranges() {
    let nic = nic(3);
    let memory = nic.memory();
    assert_eq!(memory.read(0..1), Err(Error::NotLent(0)));
    nic.lend(0).unwrap();
    nic.lend(1).unwrap();
    let data: Vec<u8> = (0..2560).map(|it| it as u8).collect();
    memory.write(1000, &data).unwrap();
    assert_eq!(memory.read(1000..3560).unwrap(), data);
    assert_eq!(memory.read(1000..=3559).unwrap(), data);
    assert_eq!(memory.read(..1002).unwrap()[999..], [0, 0, 1]);
    assert_eq!((memory.read(5..5), memory.read(1 << 60..1 << 60)), (Ok(vec![]), Ok(vec![])));
    assert_eq!(memory.write(4090, &[1; 10]), Err(Error::NotLent(4096)));
    assert_eq!(memory.read(4090..4096).unwrap(), [0; 6]);
    let (begin, end) = (4, 0);
    assert_eq!(memory.read(begin..end), Err(Error::BadRange));
    assert_eq!((memory.read(..), memory.read(0..u64::MAX)), (Err(Error::NotLent(4096)), Err(Error::NotLent(4096))));
    assert_eq!((memory.read(4095..4097), memory.read(7000..)), (Err(Error::NotLent(4096)), Err(Error::NotLent(7000))));
    assert_eq!(
        (memory.read(0..=u64::MAX), memory.read(0..200_000)),
        (Err(Error::NotLent(4096)), Err(Error::NotLent(4096)))
    );
    nic.take(0).unwrap();
    assert_eq!((memory.read(0..200_000), memory.fill(7.., 0)), (Err(Error::NotLent(0)), Err(Error::NotLent(7))));
    nic.lend(0).unwrap();
    let beyond = (Bound::Excluded(u64::MAX), Bound::Unbounded);
    assert_eq!(memory.read(beyond), Err(Error::NotLent(u64::MAX)));
    nic.lend(2).unwrap();
    assert_eq!((memory.read(..).unwrap().len(), memory.size()), (6144, 6144));
    assert_eq!((memory.read(6144..), memory.read(6145..)), (Ok(vec![]), Err(Error::NotLent(6145))));
}

#[test]
fn addresses_of_any_size() {
    let nic = nic(3);
    nic.lend_all().unwrap();
    let memory = nic.memory();
    for bus in [6144, 1 << 27, 1 << 32, 1 << 63, u64::MAX, u64::MAX - 2047] {
        let mut byte = [7];
        let refused = Error::NotLent(bus);
        assert_eq!(memory.read_into(bus, &mut byte), Err(refused));
        assert_eq!((byte, memory.write(bus, &[0; 32])), ([7], Err(refused)));
        assert_eq!((memory.get64(bus), memory.get32(bus)), (Err(refused), Err(refused)));
        assert_eq!(memory.put64(bus, 1), Err(refused));
        assert_eq!(memory.descriptor(bus, 0), Err(refused));
        assert_eq!(memory.fill(bus..=bus, 1), Err(refused));
        assert_eq!((memory.read_into(bus, &mut []), memory.write(bus, &[])), (Ok(()), Ok(())));
    }
    assert_eq!(memory.put_descriptor(u64::MAX - 15, 1, Descriptor::default()), Ok(())); // wraps to 0
    let refused = Err(Error::NotLent(0xF_FFE0));
    assert_eq!(memory.put_descriptor(u64::MAX - 15, u16::MAX, Descriptor::default()), refused);
    assert_eq!(memory.write(6144 - 32, &[1; 32]), Ok(()));
    assert_eq!(memory.write(6144 - 31, &[1; 32]), Err(Error::NotLent(6144)));
    assert_eq!(Memory::block(u32::MAX).end, 1 << 43);
}

#[test]
fn numbers_in_memory() {
    let nic = nic(1);
    nic.lend(0).unwrap();
    let memory = nic.memory();
    memory.put64(3, 0x0102_0304_0506_0708).unwrap();
    assert_eq!((memory.get64(3), memory.get32(3)), (Ok(0x0102_0304_0506_0708), Ok(0x0506_0708)));
    memory.fill(4..=6, 0xEE).unwrap();
    assert_eq!(memory.read(3..8).unwrap(), [8, 0xEE, 0xEE, 0xEE, 4]);
    let it = Descriptor { first: 1, second: 2 };
    memory.put_descriptor(0x100, 3, it).unwrap();
    assert_eq!((memory.get64(0x130), memory.get64(0x138), memory.descriptor(0x100, 3)), (Ok(1), Ok(2), Ok(it)));
}

#[test]
fn blocks() {
    let nic = nic(3);
    nic.lend(1).unwrap();
    for block in [1, 3, u32::MAX] {
        assert_eq!(nic.lend(block), Err(Error::NoBlock));
    }
    nic.memory().write(2048, b"ab").unwrap();
    nic.take(1).unwrap();
    for block in [0, 1, 3, u32::MAX] {
        assert_eq!(nic.take(block), Err(Error::NotLent(2048 * u64::from(block))));
    }
    nic.lend_all().unwrap();
    assert_eq!(nic.memory().read(Memory::block(1)).unwrap(), [0; 2048]);
    nic.lend_all().unwrap();
}

// --- steps ---

#[test]
fn receives() {
    let nic = with_queues();
    assert_eq!((nic.queue_step(Side::Rx, 0), nic.queue_step(Side::Rx, 0)), (Ok(true), Ok(false)));
    nic.memory().put_descriptor(0, 0, Descriptor::receive(0x801)).unwrap();
    nic.write(RDT.at(0), 1);
    assert_eq!((nic.rx_step(), nic.arrive(&frame())), (None, Ok(Arrival::Waits)));
    let wrote = Event::Wrote { queue: 0, slot: 0, end: true, descriptor: 0, at: 0x800, length: 60 };
    assert_eq!(nic.rx_step(), Some(wrote));
    assert_eq!((nic.int_step(), nic.int_step()), (Some(Event::Message { function: None, vector: 5 }), None));
    assert_eq!(nic.memory().read(0x800..0x83C).unwrap(), frame());
    let written = nic.memory().descriptor(0, 0).unwrap().received().unwrap();
    assert_eq!((written.end, written.length, written.rss_type, written.rss_hash), (true, 60, RssType::None, 0));
    assert_eq!((written.ipv4, written.tcp, written.ipv6, written.udp), (true, true, false, false));
}

#[test]
fn receives_by_the_hash() {
    let nic = with_queues();
    nic.settle(1).unwrap();
    for (word, four) in KEY.chunks(4).enumerate() {
        let [a, b, c, d] = [four[0], four[1], four[2], four[3]].map(u32::from);
        let word = RSSRK.at(word as u16);
        nic.write(word, rssrk::K_0.is(a) | rssrk::K_1.is(b) | rssrk::K_2.is(c) | rssrk::K_3.is(d));
    }
    nic.write(MRQC, mrqc::MRQE.is(1) | mrqc::TCPIPV4);
    nic.write(RXCSUM, rxcsum::PCSD);
    nic.memory().put_descriptor(0, 0, Descriptor::receive(0x800)).unwrap();
    nic.write(RDT.at(0), 1);
    assert_eq!(nic.arrive(&frame()), Ok(Arrival::Waits));
    assert!(nic.rx_step().is_some());
    let written = nic.memory().descriptor(0, 0).unwrap().received().unwrap();
    assert_eq!((written.rss_type, written.rss_hash), (RssType::TcpIpv4, 0x51CC_C178));
    assert_eq!(rss_hash(&KEY, &frame()[26..38]), Ok(0x51CC_C178));
}

#[test]
fn sends() {
    let nic = with_queues();
    let memory = nic.memory();
    memory.write(0x1800, &frame()[..32]).unwrap();
    memory.put_descriptor(0x1000, 0, Descriptor::transmit(0x1800, 16, 32, 0)).unwrap();
    memory.put_descriptor(0x1000, 1, Descriptor::transmit(0x1810, 16, 32, txd::EOP | txd::RS)).unwrap();
    nic.write(TDT.at(0), 2);
    let events: Vec<Event> = nic.settle(1).unwrap().filter(|it| matches!(it.step(), nic82599::Step::Tx(0))).collect();
    let advanced = Event::Advanced { queue: 0, slot: 0, back: None };
    assert_eq!(events, [advanced, Event::Sent { queue: 0, length: 60, back: Some(0x1010) }]);
    assert!(memory.descriptor(0x1000, 1).unwrap().is_sent() && !memory.descriptor(0x1000, 0).unwrap().is_sent());
    assert_eq!(nic.next_out(), 60);
    let mut want = frame()[..32].to_vec();
    want.resize(60, 0);
    assert_eq!(nic.collect(), Some(Frame { queue: 0, data: want }));
    let mut data = vec![1, 2, 3];
    assert_eq!((nic.collect(), nic.collect_into(&mut data), data.len(), nic.frames().count()), (None, None, 0, 0));
}

#[test]
fn a_slot_without_a_frame_is_written_back() {
    let nic = with_queues();
    nic.memory().put_descriptor(0x1000, 0, Descriptor::transmit(0x1800, 16, 32, txd::RS)).unwrap();
    nic.write(TDT.at(0), 1);
    let advanced = nic.settle(1).unwrap().find(|it| matches!(it, Event::Advanced { .. }));
    assert_eq!(advanced, Some(Event::Advanced { queue: 0, slot: 0, back: Some(0x1000) }));
    assert!(nic.memory().descriptor(0x1000, 0).unwrap().is_sent());
}

#[test]
fn the_head_is_written_back() {
    let nic = with_queues();
    let memory = nic.memory();
    nic.write(TDWBAL.at(0), 0xC00 | tdwbal::HEAD_WB_EN);
    memory.put_descriptor(0x1000, 0, Descriptor::transmit(0x1800, 60, 60, txd::EOP | txd::RS)).unwrap();
    nic.write(TDT.at(0), 1);
    let sent = nic.settle(1).unwrap().find(|it| matches!(it, Event::Sent { .. }));
    assert_eq!(sent, Some(Event::Sent { queue: 0, length: 60, back: Some(0xC00) }));
    assert_eq!((memory.get32(0xC00), memory.descriptor(0x1000, 0).unwrap().is_sent()), (Ok(1), false));
}

#[test]
fn refuses() {
    let nic = with_queues();
    for queue in [128, 129, 60_000, u16::MAX] {
        assert_eq!(nic.tx_step(queue), Err(Error::NoQueue));
        assert_eq!(nic.queue_step(Side::Rx, queue), Err(Error::NoQueue));
        assert_eq!(nic.queue_step(Side::Tx, queue), Err(Error::NoQueue));
        assert_eq!(nic.settle(queue.saturating_add(1)).err(), Some(Error::NoQueue));
        assert_eq!(nic.steps(queue.saturating_add(1)).err(), Some(Error::NoQueue));
    }
    assert!(nic.settle(128).is_ok() && nic.steps(128).is_ok() && nic.settle(0).is_ok());
}

#[test]
fn drops_and_faults() {
    let nic = with_queues();
    let dropped = |frame: &[u8]| match nic.arrive(frame).unwrap() {
        Arrival::Dropped(why) => Some(why),
        Arrival::Waits => None,
    };
    assert_eq!(
        (dropped(&frame()[..59]), dropped(&[]), dropped(&[0; 60_000])),
        (Some(Why::Short), Some(Why::Short), Some(Why::Long))
    );
    assert_eq!(dropped(&[0xFF; 60]), Some(Why::Filter));
    assert_eq!((nic.link(false), nic.link(false), dropped(&frame())), (true, false, Some(Why::LinkDown)));
    nic.link(true);
    assert_eq!([(); 3].map(|()| dropped(&frame())), [None, None, Some(Why::Full)]);
    assert_eq!(nic.rx_step(), Some(Event::Dropped(Why::QueueOff)));
    nic.queue_step(Side::Rx, 0).unwrap();
    nic.memory().put64(0, 0x9000).unwrap();
    nic.write(RDT.at(0), 1);
    let fault = Event::Fault { side: Side::Rx, queue: 0, why: Fault::NotLent(0x9000) };
    assert_eq!((nic.rx_step(), fault.to_string().as_str()), (Some(fault), "fault queue 0 not lent 0x09000"));
    nic.write(TDT.at(0), 100);
    nic.queue_step(Side::Tx, 0).unwrap();
    let fault = Event::Fault { side: Side::Tx, queue: 0, why: Fault::Outside };
    assert_eq!((nic.tx_step(0), fault.step()), (Ok(Some(fault)), nic82599::Step::Tx(0)));
    nic.write(RXCTRL, 0);
    assert_eq!(dropped(&frame()), Some(Why::Off));
}

/// Each kind of step has something to do, for two queues and two functions.
#[test]
fn steps_are_those_of_settle() {
    let nic = Nic::open(Sizes { vfs: 1, blocks: 4, ..Sizes::default() }).unwrap();
    nic.lend_all().unwrap();
    for queue in 0..2 {
        for (register, word) in [(RDBAL, 0x100), (RDLEN, 128), (SRRCTL, TYPE), (RXDCTL, ENABLE), (TXDCTL, ENABLE)] {
            nic.write(register.at(queue), word);
        }
        nic.write(TDBAL.at(queue), 0x1000);
        nic.write(TDLEN.at(queue), 128);
        nic.write(TDT.at(queue), 2);
    }
    let sent = Descriptor::transmit(0x1800, 60, 60, txd::EOP | txd::RS);
    nic.memory().write(0x1000, &sent.to_bytes().repeat(2)).unwrap();
    nic.memory().put_descriptor(0x100, 0, Descriptor::receive(0x800)).unwrap();
    for (register, word) in [(RXCTRL, 1), (DMATXCTL, 1), (FCTRL, 0x200), (IVAR_MISC, 0x8100), (RDT.at(0), 1)] {
        nic.write(register, word);
    }
    for (register, word) in [(EIMS, u32::MAX), (EICS, 1 << 1), (EERD, eerd::START), (GCR_EXT, 3)] {
        nic.write(register, word);
    }
    nic.vf(0).write(vf::VTEIMS, 1).unwrap();
    nic.vf(0).write(vf::VTEICS, 1).unwrap();
    assert_eq!(nic.arrive(&frame()), Ok(Arrival::Waits));
    let kept = nic.snapshot().unwrap();
    let settled: Vec<Event> = nic.settle(2).unwrap().collect();
    nic.restore(&kept).unwrap();
    let steps: Result<Vec<Event>, Error> = nic.steps(2).unwrap().collect();
    assert_eq!(steps, Ok(settled.clone()));
    let first: Vec<String> = settled.iter().take(10).map(|it| it.step().to_string()).collect();
    let enables = ["qstep rx 0", "qstep tx 0", "qstep rx 1", "qstep tx 1"];
    assert_eq!(first, [&enables[..], &["eestep", "tx 0", "tx 1", "rx", "int pf", "int 0"]].concat());
    assert!(settled.len() > 10);
}

/// A driver acts on events while the device continues. It sends the ring's 255 descriptors, and gets more events than
/// one library call returns.
#[test]
fn a_long_settle() {
    let nic = with_queues();
    nic.write(TDLEN.at(0), 4096);
    nic.memory()
        .write(0x1000, &Descriptor::transmit(0x800, 32, 32, txd::EOP | txd::RS).to_bytes().repeat(255))
        .unwrap();
    nic.write(TDT.at(0), 255);
    nic.write(EICR, u32::MAX);
    let kept = nic.snapshot().unwrap();
    let mut events = nic.settle(1).unwrap();
    let count = events.len();
    assert!(count > 256);
    assert_eq!(events.next(), Some(Event::Switched { side: Side::Rx, queue: 0 }));
    assert_eq!(events.as_slice().len(), count - 1);
    assert_eq!(events.next_back().map(|it| it.step()), Some(nic82599::Step::Tx(0)));
    assert_eq!(events.filter(|it| matches!(it, Event::Sent { .. })).count(), 254);
    assert_eq!(nic.frames().filter(|it| it.data.len() == 60).count(), 255);
    nic.restore(&kept).unwrap();
    assert_eq!(nic.steps(1).unwrap().filter(|it| matches!(it, Ok(Event::Sent { .. }))).count(), 255);
    assert!(nic.steps(1).unwrap().next().is_none());
}

// --- everything else ---

#[test]
fn addresses_of_offsets() {
    let stray = |at| Err(Error::Stray { at, word: None, why: Absent::Register });
    for (gcr_ext, number, offset, answer) in [
        (3, 3, 0x1058, Ok(0x011D8)),
        (2, 3, 0x1058, Ok(0x01358)),
        (3, 32, 0x1018, Ok(0x0D018)),
        (1, 15, 0x11D8, Ok(0x0DFD8)),
        (1, 0, 0x012C, Ok(0x1250C)),
        (u32::MAX, 62, 0x02FC, Ok(0x04CF8)),
        (1, 15, 0x1200, stray(0x1200)),
        (3, 0, 0x0820, stray(0x0820)),
        (3, 0, u32::MAX, stray(u32::MAX)),
        (0, 0, 0x1018, Err(Error::NoGroup)),
        (1, 16, 0x1018, Err(Error::NoGroup)),
        (3, 63, 0x0820, Err(Error::NoGroup)),
    ] {
        assert_eq!(vf_address(gcr_ext, number, offset), answer);
    }
}

#[test]
fn hashes() {
    assert_eq!((rss_hash(&KEY, &[]), rss_hash(&KEY, &[1; 36]).is_ok()), (Ok(0), true));
    assert_eq!((rss_hash(&KEY, &[1; 37]), rss_hash(&KEY, &[1; 5000])), (Err(Error::TooLong), Err(Error::TooLong)));
}

#[test]
fn images() {
    let nic = nic(1);
    nic.install_text("size 64\nword 0 0x1234\n").unwrap();
    nic.write(EERD, eerd::START);
    assert_eq!((nic.eeprom_step(), nic.eeprom_step()), (true, false));
    assert_eq!(eerd::DATA.of(nic.read(EERD)), 0x1234);
    for (text, fault) in [
        ("size 64\n\nwurd 0 1\n", TextFault::Syntax(3)),
        ("", TextFault::Syntax(1)),
        ("size 64\nword 1 2\nword 1 3\n", TextFault::TwoValues(1)),
        ("size 64\nword 0x3f 2\n", TextFault::Reserved(0x3F)),
        ("size 64\nword 99 1\n", TextFault::DoesNotFit),
        ("size 64\nword 3 0x10\n", TextFault::PointerOutside),
    ] {
        assert_eq!(nic.install_text(text), Err(Error::Text(fault)), "{text}");
    }
    for (bytes, fault) in [
        (0, ImageFault::BadSize),
        (1, ImageFault::OddLength),
        (2, ImageFault::BadSize),
        (65_536, ImageFault::BadSize),
        (128, ImageFault::BadChecksum),
    ] {
        assert_eq!(nic.install_image(&vec![0; bytes]), Err(Error::Image(fault)), "{bytes}");
    }
    nic.write(EERD, eerd::START);
    assert!(nic.eeprom_step() && nic.read(EERD) >> 16 == 0x1234);
}

#[test]
fn errors_are_reported() {
    let messages: Vec<String> = [
        Error::NotLent(0xC840),
        Error::Stray { at: 0xC, word: None, why: Absent::Register },
        Error::Stray { at: 0x108, word: Some(u32::MAX), why: Absent::Pool { number: 0, pools: 0 } },
        Error::Text(TextFault::Syntax(3)),
        Error::Image(ImageFault::BadChecksum),
    ]
    .map(|it| Box::<dyn std::error::Error + Send + Sync>::from(it).to_string())
    .to_vec();
    assert_eq!(messages[0], "bus address 0x0c840: block 25 isn't lent");
    assert_eq!(messages[1], "no register is at 0x0000c");
    let pool = "virtual function 0 has no pool: GCR_EXT bits 1:0 select no pools";
    assert_eq!(messages[2], format!("no register is at 0x00108, which reads as 0xffffffff: {pool}"));
    assert_eq!(messages[3], "invalid source of an EEPROM image: line 3 has a syntax error");
    assert_eq!(messages[4], "invalid EEPROM image: the checksum is wrong");
}

/// The error names what is missing, in the Python module's words: the register, the function, its pool, or the pool's
/// queue.
#[test]
fn why_a_register_is_absent() {
    let nic = Nic::open(Sizes { vfs: 40, ..Sizes::default() }).unwrap();
    for (mode, pools, queues) in [(0, 0, 0), (1, 16, 8), (2, 32, 4), (3, 64, 2)] {
        nic.write(GCR_EXT, mode);
        for number in 0..64 {
            let function = nic.vf(number);
            let word = if number < pools.min(40) { 0 } else { u32::MAX };
            let why = if number >= 40 {
                Absent::Function { number, vfs: 40 }
            } else if number >= pools {
                Absent::Pool { number, pools }
            } else {
                let why = Absent::Queue { number, queues };
                let result = function.write(vf::VFTDT.at(7), 1);
                assert_eq!(
                    result,
                    if queues == 8 { Ok(()) } else { Err(Error::Stray { at: 0x21D8, word: None, why }) }
                );
                Absent::Register
            };
            assert_eq!(function.read32(4), Err(Error::Stray { at: 4, word: Some(word), why }));
            assert_eq!(function.write32(4, 1), Err(Error::Stray { at: 4, word: None, why }));
            assert_eq!(function.peek32(4), Err(Error::Stray { at: 4, word: None, why }));
        }
    }
    for (why, result) in [
        (Absent::Register, "no such register"),
        (Absent::Function { number: 0, vfs: 0 }, "no virtual function 0: the controller has none"),
        (Absent::Function { number: 1, vfs: 1 }, "no virtual function 1: the controller has 1, numbered from 0"),
        (Absent::Pool { number: 16, pools: 16 }, "virtual function 16 has no pool: GCR_EXT bits 1:0 select 16 pools"),
        (Absent::Queue { number: 3, queues: 2 }, "the pool of virtual function 3 has 2 queues"),
    ] {
        assert_eq!(why.to_string(), result);
    }
}

/// `{:#}` extends the text of `{}` for each drop and each fault.
#[test]
fn what_words_mean() {
    let mut both = Vec::new();
    for why in [
        Why::LinkDown,
        Why::Off,
        Why::Short,
        Why::Long,
        Why::Filter,
        Why::NoPool,
        Why::PoolOff,
        Why::Full,
        Why::QueueOff,
        Why::NoSlot,
    ] {
        both.push((Event::Dropped(why).to_string(), format!("{:#}", Event::Dropped(why)), format!("dropped {why:#}")));
    }
    for why in [
        Fault::Outside,
        Fault::NotLent(0x800),
        Fault::Type,
        Fault::NoBufferSize,
        Fault::Offload,
        Fault::Legacy,
        Fault::TooLong,
        Fault::UnknownType,
    ] {
        let fault = Event::Fault { side: Side::Rx, queue: 3, why };
        both.push((fault.to_string(), format!("{fault:#}"), format!("fault queue 3 {why:#}")));
    }
    for (short, long, parts) in both {
        assert!(long.starts_with(&format!("{short}: ")) && long == parts, "{short}, {long}, {parts}");
    }
    let written = Event::Wrote { queue: 3, slot: 0, end: true, descriptor: 0, at: 0x800, length: 60 };
    assert_eq!(written.to_string(), format!("{written:#}"));
}

/// The code that tests/explore.rs runs as a task of a search.
#[test]
fn a_nic_is_a_device() {
    let nic = Nic::open(Sizes { blocks: 2, vfs: 1, ..Sizes::default() }).unwrap();
    nic.lend_all().unwrap();
    start(&nic).unwrap();
    assert_eq!(nic.settle(1).map(|it| it.len()), Ok(1));
    assert_eq!((take(&nic, 0), nic.arrive(&frame())), (Ok(false), Ok(Arrival::Waits)));
    assert_eq!((nic.settle(1).map(|it| it.len()), take(&nic, 0), take(&nic, 0)), (Ok(1), Ok(true), Ok(false)));
    assert_eq!(nic.read_into(0x1000, &mut [0]), Err(Error::NotLent(0x1000)));
}
