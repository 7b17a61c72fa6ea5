//! Tests of values with several owners, of locks, and of threads.

use super::super::host::HostRuntime;
use super::super::sync::{Arc, Condvar, Mutex, Wait};
use super::super::thread::{beside, join_mut, scope, scope_env};
use super::*;
use std::rc::Rc;

const RT: HostRuntime = HostRuntime;

#[test]
fn owners_share_one_value() {
    let value = Rc::new(5);
    let one = Arc::new(Global, Rc::clone(&value)).unwrap();
    let other = Arc::try_clone(&one).unwrap();
    assert_eq!((&**one as *const i32, Arc::strong_count(&one)), (&**other as *const i32, 2));
    assert_eq!(format!("{one:?}"), "5");
    drop(one);
    assert_eq!((Rc::strong_count(&value), Arc::strong_count(&other)), (2, 1));
    drop(other);
    assert_eq!(Rc::strong_count(&value), 1);
}

#[test]
fn a_lock_has_one_holder() {
    let mut lock = Mutex::new(5);
    let mut held = lock.lock(&RT);
    *held += 1;
    assert!(lock.try_lock().is_none());
    std::thread::scope(|all| drop(all.spawn(|| assert!(lock.try_lock().is_none())).join()));
    drop(held);
    assert_eq!(lock.try_lock().map(|it| *it), Some(6));
    assert!(panics(|| {
        let _held = lock.lock(&RT);
        panic!("a fault while the lock is held");
    }));
    assert_eq!(*lock.lock(&RT), 6);
    *lock.get_mut() = 7;
    assert_eq!(lock.into_inner(), 7);
}

/// Each thread waits for its turn, so the sum is correct only if each thread was woken and held the lock.
#[test]
fn a_thread_waits_for_its_turn() {
    let (turn, changed) = (Mutex::new((0, 1)), Condvar::new());
    std::thread::scope(|all| {
        for own in 0..4 {
            let (turn, changed) = (&turn, &changed);
            all.spawn(move || {
                for round in 0..50 {
                    let mut held = changed.wait_while(&RT, turn.lock(&RT), |it| it.0 != 4 * round + own);
                    assert!(turn.try_lock().is_none());
                    *held = (held.0 + 1, (held.1 * 5 + own) % 1_000_003);
                    drop(held);
                    changed.notify_all();
                }
            });
        }
    });
    let sum = (0..200).fold(1, |sum, k| (sum * 5 + k % 4) % 1_000_003);
    assert_eq!(turn.into_inner(), (200, sum));
}

#[test]
fn one_of_two_is_woken() {
    let (turn, changed) = (Mutex::new(0), Condvar::new());
    std::thread::scope(|all| {
        all.spawn(|| drop(changed.wait_while(&RT, turn.lock(&RT), |it| *it == 0)));
        *turn.lock(&RT) = 1;
        changed.notify_one();
    });
    assert!(RT.forever().take(3).eq([(); 3]));
}

#[test]
fn work_is_split() {
    let (mut one, mut other) = (None, None);
    join_mut(&RT, &mut || one = Some(std::thread::current().id()), &mut || other = Some(std::thread::current().id()));
    assert!(one.is_some() && one != other && other == Some(std::thread::current().id()));
    let here = std::thread::current().id();
    let made = beside(&mut || one = Some(std::thread::current().id()), &mut || other = None);
    assert_eq!((made, one != Some(here), other), (true, true, None));
    let sum = Mutex::new(0);
    scope(scope_env(), &RT, |all| (0..5).for_each(|k| all.spawn(move || ()).map(|()| *sum.lock(&RT) += k).unwrap()));
    assert_eq!(sum.into_inner(), 10);
}
