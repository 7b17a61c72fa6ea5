//! Tests of double-ended queues, and of rings between threads.

use super::super::collections::VecDeque as Queue;
use super::super::rtrb::{PopError, PushError, RingBuffer};
use super::super::vec::Vec as Items;
use super::*;
use std::collections::VecDeque;
use std::rc::Rc;

/// Makes the same random calls to a queue and to Rust's own.
#[test]
fn a_queue_is_rusts() {
    let (mut one, mut other, mut chance) = (Queue::new(Global), VecDeque::new(), Chance(4));
    for step in 0..20_000 {
        match chance.below(11) {
            0..=2 => assert_eq!(one.push_back(step), Ok(other.push_back(step))),
            3 => assert_eq!(one.push_front(step), Ok(other.push_front(step))),
            4 => assert_eq!(one.pop_front(), other.pop_front()),
            5 => assert_eq!(one.pop_back(), other.pop_back()),
            6 => one = Queue::from_vec(one.into_vec()),
            7 if other.len() > 40 => {
                one.clear();
                other.clear();
            }
            _ => at_a_place(&mut one, &mut other, &mut chance),
        }
        same(&mut one, &mut other);
    }
}

/// Makes a call with an index, which may be past the end.
fn at_a_place(one: &mut Queue<usize>, other: &mut VecDeque<usize>, chance: &mut Chance) {
    let at = chance.below(other.len() + 2);
    match chance.below(4) {
        0 => assert_eq!(one.remove(at), other.remove(at)),
        1 => {
            one.retain(|it| it % 5 != at % 5);
            other.retain(|it| it % 5 != at % 5);
        }
        2 => {
            one.truncate(at);
            other.truncate(at);
        }
        _ => {
            let room = one.capacity() - one.len();
            one.reserve(at).unwrap();
            assert!(one.capacity() - one.len() >= at && (at > room || one.capacity() - one.len() == room));
        }
    }
}

/// Checks that two queues have the same contents.
fn same(one: &mut Queue<usize>, other: &mut VecDeque<usize>) {
    assert!(one.iter().eq(other.iter()) && (&*one).into_iter().eq(other.iter()));
    assert_eq!((one.len(), one.is_empty()), (other.len(), other.is_empty()));
    assert_eq!((one.front(), one.back()), (other.front(), other.back()));
    assert_eq!(one.front_mut(), other.front_mut());
    assert_eq!(one.back_mut(), other.back_mut());
    for at in 0..other.len() {
        assert_eq!(
            (one[at], one.get_mut(at).copied(), one.get(at)),
            (other[at], other.get(at).copied(), other.get(at))
        );
        assert!(one.contains(&other[at]));
    }
    assert!(one.get(other.len()).is_none() && one.get_mut(other.len()).is_none());
    assert!(!one.contains(&usize::MAX));
}

#[test]
fn a_queue_compares_its_elements() {
    let of = |items: &[u8]| Queue::from_vec(Items::from_slice(Global, items).unwrap());
    assert!(of(&[1, 2]) == of(&[1, 2]) && of(&[1, 2]) != of(&[1, 3]) && of(&[1]) != of(&[1, 2]));
    let mut rotated = of(&[2, 1]);
    let last = rotated.pop_back().unwrap();
    rotated.push_front(last).unwrap();
    assert_eq!((rotated == of(&[1, 2]), format!("{rotated:?}")), (true, "[1, 2]".into()));
    rotated[1] = 7;
    assert_eq!(rotated.into_iter().collect::<Vec<_>>(), [1, 7]);
    assert!(panics(|| drop(of(&[1])[1])) && panics(|| of(&[1])[1] = 2));
    Queue::<u8>::new(Global).destroy_empty();
}

#[test]
fn a_queue_takes_what_it_has_room_for() {
    let mut queue = Queue::with_capacity(Global, 2).unwrap();
    queue.push_back_reserved(1);
    queue.push_front_reserved(0);
    assert!(panics(|| queue.push_back_reserved(2)) && panics(|| queue.push_front_reserved(2)));
    assert_eq!((queue.as_slices().0.len() + queue.as_slices().1.len(), queue.capacity()), (2, 2));
    assert!(queue.into_iter().eq([0, 1]));
}

#[test]
fn a_ring_is_full_and_empty() {
    for room in 1..5 {
        let (mut producer, mut consumer) = RingBuffer::new(Global, room).unwrap();
        for round in 0..3 * room {
            for count in 0..room {
                assert_eq!((consumer.slots(), consumer.slots_beside(&mut producer)), (count, count));
                assert_eq!(producer.push(round + count), Ok(()));
            }
            assert_eq!(producer.push(99), Err(PushError::Full(99)));
            for count in 0..room {
                let item = if count % 2 == 0 { consumer.pop_known() } else { consumer.pop().unwrap() };
                assert_eq!(item, round + count);
            }
            assert_eq!(consumer.pop(), Err(PopError::Empty));
            // (The next round starts at the next place.)
            producer.push_reserved(0);
            assert_eq!(consumer.pop(), Ok(0));
        }
    }
    let (mut producer, mut consumer) = RingBuffer::new(Global, 0).unwrap();
    assert_eq!((producer.push(1), consumer.pop()), (Err(PushError::Full(1)), Err(PopError::Empty)));
}

#[test]
fn a_ring_drops_what_nobody_took() {
    let item = Rc::new(());
    let (mut producer, consumer) = RingBuffer::new(Global, 3).unwrap();
    producer.push_reserved(Rc::clone(&item));
    producer.push_reserved(Rc::clone(&item));
    drop(producer);
    assert_eq!(Rc::strong_count(&item), 3);
    drop(consumer);
    assert_eq!(Rc::strong_count(&item), 1);
}
