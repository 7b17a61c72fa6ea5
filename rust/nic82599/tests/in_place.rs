//! Tests of program memory that the device works in.

use std::cell::Cell;
use std::ptr::NonNull;

use nic82599::{Error, InPlace, Nic, Sizes};

fn opened<'a>(blocks: u32) -> InPlace<'a> {
    Nic::open(Sizes { blocks, ..Sizes::default() }).unwrap().in_place()
}

fn cells(bytes: &mut [u8]) -> &[Cell<u8>] {
    Cell::from_mut(bytes).as_slice_of_cells()
}

#[test]
fn both_see_what_the_other_wrote() {
    let mut room = vec![0x5A; 3 * 2048 + 1];
    let memory = &cells(&mut room)[1..]; // at an unaligned address
    let nic = opened(8);
    nic.lend_memory(2048, memory).unwrap();
    assert_eq!(nic.memory().read(2048..2050).unwrap(), [0x5A, 0x5A]);
    memory[2047].set(7);
    assert_eq!(nic.memory().read(4095..4097).unwrap(), [7, 0x5A]);
    nic.memory().write(4095, b"card").unwrap();
    assert_eq!([memory[2047].get(), memory[2048].get()], *b"ca");
    drop(nic);
    assert_eq!((room[2048], room[2049], room[2052]), (b'c', b'a', 0x5A));
}

#[test]
fn what_is_taken_back_is_the_programs_alone() {
    let mut room = vec![1; 4 * 2048];
    let memory = cells(&mut room);
    let nic = opened(8);
    nic.lend_memory(0, memory).unwrap();
    nic.memory().unlend(2048, 2048).unwrap();
    assert_eq!(nic.memory().read(2048..2049), Err(Error::NotLent(2048)));
    nic.lend(1).unwrap();
    assert_eq!(nic.memory().read(2047..2050).unwrap(), [1, 0, 0]);
    nic.take(0).unwrap();
    nic.memory().fill(4096..8192, 3).unwrap();
    drop(nic);
    assert!(room[..4096].iter().all(|&it| it == 1) && room[4096..].iter().all(|&it| it == 3));
}

#[test]
fn refusals_change_nothing() {
    let (mut room, mut other) = (vec![1; 4096], vec![2; 2048]);
    let (memory, other) = (cells(&mut room), cells(&mut other));
    let nic = opened(4);
    assert_eq!(nic.lend_memory(1, memory), Err(Error::BadMemory));
    assert_eq!(nic.lend_memory(0, &memory[1..]), Err(Error::BadMemory));
    assert_eq!(nic.lend_memory(3 * 2048, memory), Err(Error::NoBlock));
    assert_eq!(nic.lend_memory(u64::MAX - 2047, memory), Err(Error::NoBlock));
    assert_eq!(nic.memory().unlend(0, 2048), Err(Error::NotLent(0)));
    nic.lend_memory(0, memory).unwrap();
    assert_eq!(nic.lend_memory(4096, &memory[100..2148]), Err(Error::BadMemory));
    assert_eq!(nic.lend_memory(2048, other), Err(Error::NoBlock));
    assert_eq!(nic.memory().unlend(0, 3 * 2048), Err(Error::NotLent(0)));
    assert_eq!(nic.memory().unlend(0, 1), Err(Error::BadMemory));
    assert_eq!(nic.memory().unlend(u64::MAX - 2047, 2048), Err(Error::NotLent(u64::MAX - 2047)));
    assert_eq!(nic.memory().read(..4096).unwrap(), vec![1; 4096]);
    drop(nic);
    assert!(other.iter().all(|it| it.get() == 2));
}

#[test]
fn a_snapshot_is_restored_in_place() {
    let mut room = vec![1; 2048];
    let memory = cells(&mut room);
    let nic = opened(4);
    let empty = nic.snapshot().unwrap();
    nic.lend_memory(2048, memory).unwrap();
    let kept = nic.snapshot().unwrap();
    memory[5].set(9);
    nic.restore(&kept).unwrap();
    assert_eq!(memory[5].get(), 1);
    memory[5].set(8);
    assert_eq!(nic.memory().read(2053..2054).unwrap(), [8]);
    nic.restore(&empty).unwrap();
    assert_eq!((memory[5].get(), nic.memory().unlend(2048, 2048)), (8, Err(Error::NotLent(2048))));
}

#[test]
fn by_a_pointer() {
    let nic = Nic::open(Sizes { blocks: 2, ..Sizes::default() }).unwrap();
    let first: *mut u8 = Box::into_raw(Box::new([4u8; 2048])).cast();
    // SAFETY: the memory is 2,048 bytes long, with no reference to it until it is taken back.
    unsafe { nic.memory().lend(2048, NonNull::new(first).unwrap(), 2048).unwrap() };
    nic.memory().write(2049, &[5]).unwrap();
    // SAFETY: no call is in progress.
    assert_eq!(unsafe { (first.read(), first.add(1).read()) }, (4, 5));
    nic.memory().unlend(2048, 2048).unwrap();
    // SAFETY: the pointer came from a box, and nothing else uses it now.
    drop(unsafe { Box::from_raw(first.cast::<[u8; 2048]>()) });
}

#[test]
fn two_controllers_have_one_memory() {
    let mut room = vec![0; 2048];
    let memory = cells(&mut room);
    let (one, two) = (opened(1), opened(1));
    one.lend_memory(0, memory).unwrap();
    two.lend_memory(0, memory).unwrap();
    one.memory().write(3, &[3]).unwrap();
    drop(one);
    assert_eq!(two.memory().read(3..4).unwrap(), [3]);
}
