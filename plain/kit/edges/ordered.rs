//! Tests of maps and sets.

use super::super::collections::{BTreeMap as Map, BTreeSet as Set};
use super::super::raw::counted;
use super::*;
use std::collections::BTreeMap;
use std::rc::Rc;

/// Returns `count` keys in an order: rising, falling, from both ends, or random.
fn keys(order: usize, count: usize) -> Vec<usize> {
    let mut chance = Chance(5);
    let from_both = |k: usize| if k % 2 == 0 { k } else { usize::MAX - k };
    match order {
        0 => (0..count).collect(),
        1 => (0..count).rev().collect(),
        2 => (0..count).map(from_both).collect(),
        _ => (0..count).map(|_| chance.below(count)).collect(),
    }
}

/// Inserts the same pairs in the same order into a map and into Rust's own.
#[test]
fn a_map_is_rusts() {
    for order in 0..4 {
        let (mut one, mut other) = (Map::new(Global), BTreeMap::new());
        assert!(one.is_empty() && one.get(&0).is_none());
        for (value, key) in keys(order, 900).into_iter().enumerate() {
            assert_eq!(one.insert(key, value), Ok(other.insert(key, value)));
            assert_eq!((one.len(), one.is_empty(), one.get(&key)), (other.len(), false, Some(&value)));
        }
        for key in keys(order, 900) {
            for near in [key.wrapping_sub(1), key, key.wrapping_add(1)] {
                assert_eq!((one.get(&near), one.contains_key(&near)), (other.get(&near), other.contains_key(&near)));
            }
        }
    }
}

/// A node has room for 15 pairs. A full node on the path of a new pair is split: at the sixteenth pair, its upper half
/// moves to a new node below a new root.
#[test]
fn a_map_takes_a_node_where_one_is_full() {
    let mut map = Map::new(Global);
    let asked: Vec<u64> = (0..40).map(|key| counted(|| map.insert(key, ()).unwrap()).1).collect();
    let wanted = |key| [(0, 1), (15, 2), (23, 1), (31, 1), (39, 1)].iter().find(|it| it.0 == key).map_or(0, |it| it.1);
    assert_eq!(asked, (0..40).map(wanted).collect::<Vec<_>>());
    assert!((0..40).all(|key| counted(|| map.insert(key, ())) == (Ok(Some(())), 0)));
}

#[test]
fn a_map_drops_its_pairs() {
    let (key, value) = (Rc::new(1), Rc::new(2));
    let mut map = Map::new(Global);
    for k in 0..100 {
        map.insert((k, Rc::clone(&key)), Rc::clone(&value)).unwrap();
        map.insert((k, Rc::clone(&key)), Rc::clone(&value)).unwrap();
    }
    assert_eq!((Rc::strong_count(&key), Rc::strong_count(&value)), (101, 101));
    drop(map);
    assert_eq!((Rc::strong_count(&key), Rc::strong_count(&value)), (1, 1));
}

#[test]
fn a_set_says_what_is_new() {
    let (mut one, mut other, mut chance) = (Set::new(Global), std::collections::BTreeSet::new(), Chance(6));
    for _ in 0..2_000 {
        let value = chance.below(700);
        assert_eq!(one.contains(&value), other.contains(&value));
        assert_eq!(one.insert(value), Ok(other.insert(value)));
        assert_eq!((one.len(), one.is_empty(), one.contains(&value)), (other.len(), false, true));
    }
}
