//! Checks what may move to another thread, and what can't be shared.

use std::thread;

use nic82599::{regs::RETA, Error, Event, Field, Function, Memory, Nic, Register, Settled, Sizes, Snapshot, Steps};

fn is_send<T: Send>() {}
fn is_sync<T: Sync>() {}

/// Compiles only if a type doesn't implement the trait; otherwise the method is ambiguous.
macro_rules! isnt {
    ($what:ident: $($kind:ty),+) => {$(
        const _: fn() = || {
            trait Ambiguous<Which> {
                fn answer() {}
            }
            struct OfIt;
            impl<T: ?Sized> Ambiguous<()> for T {}
            impl<T: ?Sized + $what> Ambiguous<OfIt> for T {}
            <$kind as Ambiguous<_>>::answer()
        };
    )+};
}

isnt!(Sync: Nic, Snapshot, Function<'_>, Memory<'_>, Steps<'_>);
isnt!(Send: &Nic, Function<'_>, Memory<'_>, Steps<'_>);

#[test]
fn kinds() {
    is_send::<Nic>();
    is_send::<Snapshot>();
    is_send::<Settled>();
    is_send::<Event>();
    is_sync::<Event>();
    is_send::<Error>();
    is_sync::<Error>();
    is_sync::<Register>();
    is_sync::<Field>();
}

#[test]
fn each_thread_has_its_own() {
    let made: Vec<_> = (0..4)
        .map(|number| {
            thread::spawn(move || {
                let nic = Nic::open(Sizes { vfs: number, ..Sizes::default() }).unwrap();
                nic.lend_all().unwrap();
                for word in 0..20_000 {
                    nic.write(RETA.at(u16::from(number)), word);
                    assert_eq!(nic.read(RETA.at(u16::from(number))), word);
                }
                nic
            })
        })
        .collect();
    for (number, thread) in made.into_iter().enumerate() {
        let nic = thread.join().unwrap(); // created on the other thread, used on this one
        assert_eq!(nic.peek(RETA.at(number as u16)), 19_999);
        assert_eq!(nic.sizes().vfs, number as u8);
    }
}

#[test]
fn a_snapshot_goes_to_another_thread() {
    let nic = Nic::open(Sizes { blocks: 2, ..Sizes::default() }).unwrap();
    nic.write(RETA.at(0), 5);
    let kept = nic.snapshot().unwrap();
    let other = thread::spawn(move || {
        let other = Nic::open(Sizes::default()).unwrap();
        other.restore(&kept).unwrap();
        (other.read(RETA.at(0)), other.sizes().blocks)
    });
    nic.write(RETA.at(0), 6);
    assert_eq!(other.join().unwrap(), (5, 2));
    assert_eq!(nic.read(RETA.at(0)), 6);
}
