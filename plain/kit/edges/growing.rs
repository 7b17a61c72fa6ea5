//! Tests of vectors and boxes.

use super::super::boxed::Box as KitBox;
use super::super::raw::counted;
use super::super::vec::{CollectIn, ToVec, Vec as Items};
use super::*;
use crate::vec_in;
use std::rc::Rc;

/// Makes the same random calls to a vector and to Rust's own.
#[test]
fn a_vector_is_rusts() {
    let (mut one, mut other, mut chance) = (Items::new(Global), vec![], Chance(3));
    for step in 0..20_000 {
        match (chance.below(2), other.len()) {
            (_, 61..) => {
                one.clear();
                other.clear();
            }
            (0, _) => more(&mut one, &mut other, &mut chance, step),
            _ => less(&mut one, &mut other, &mut chance),
        }
        assert_eq!(one.as_slice(), other);
    }
}

/// Makes a call that adds elements.
fn more(one: &mut Items<usize>, other: &mut Vec<usize>, chance: &mut Chance, step: usize) {
    let (len, few) = (other.len(), chance.below(4));
    match chance.below(5) {
        0 => assert_eq!(one.push(step), Ok(other.push(step))),
        1 => {
            let at = chance.below(len + 1);
            assert_eq!(one.insert(at, step), Ok(other.insert(at, step)));
        }
        2 => assert_eq!(one.extend_from_slice(&[step; 3][..few.min(3)]), Ok(other.extend(vec![step; few.min(3)]))),
        3 => {
            let count = (len + few).saturating_sub(2);
            assert_eq!(one.resize(count, step), Ok(other.resize(count, step)));
        }
        _ => {
            let mut more = Items::from_slice(Global, &[step, step + 1]).unwrap();
            assert_eq!(one.append(&mut more), Ok(other.extend([step, step + 1])));
            assert!(more.is_empty());
        }
    }
}

/// Makes a call that removes elements or capacity.
fn less(one: &mut Items<usize>, other: &mut Vec<usize>, chance: &mut Chance) {
    let (len, few) = (other.len(), chance.below(4));
    match chance.below(6) {
        0 if len > 0 => {
            let at = chance.below(len);
            assert_eq!(one.remove(at), other.remove(at));
        }
        1 if len > 0 => {
            let at = chance.below(len);
            assert_eq!(one.swap_remove(at), other.swap_remove(at));
        }
        2 => {
            one.retain(|it| it % 7 != few);
            other.retain(|it| it % 7 != few);
        }
        3 => {
            one.truncate(len.saturating_sub(few));
            other.truncate(len.saturating_sub(few));
        }
        4 => {
            one.shrink_to_fit();
            assert_eq!(one.capacity(), len);
        }
        _ => assert_eq!(one.pop(), other.pop()),
    }
}

#[test]
fn a_vector_has_the_room_that_was_asked_for() {
    let mut items = Items::<u32>::with_capacity(Global, 3).unwrap();
    assert_eq!((items.capacity(), items.len()), (3, 0));
    items.reserve_exact(5).unwrap();
    assert_eq!(items.capacity(), 5);
    let ((), asked) = counted(|| (0..5).for_each(|k| items.push_reserved(k)));
    assert_eq!((asked, items.as_mut_slice()), (0, &mut [0, 1, 2, 3, 4][..]));
    items.reserve(1).unwrap();
    assert_eq!(items.capacity(), 10);
    let mut bytes = Items::new(Global);
    bytes.push(1u8).unwrap();
    assert_eq!(bytes.capacity(), 8);
    assert_eq!(Items::<u8>::new(Global).capacity(), 0);
}

#[test]
fn a_vector_is_made_of_others() {
    let none: Items<u8> = vec_in![in Global;].unwrap();
    assert_eq!((none.len(), none.capacity()), (0, 1));
    let (two, asked) = counted(|| vec_in![in Global; 5, 6].unwrap());
    assert_eq!((two.as_slice(), two.capacity(), asked), (&[5, 6][..], 2, 1));
    assert_eq!(vec_in![in Global; 9; 3].unwrap().as_slice(), [9, 9, 9]);
    assert_eq!(vec_in![in Global; 9; 0].unwrap().as_slice(), []);
    let copy = two[1..].to_vec_in(Global).unwrap();
    assert_eq!((copy.as_slice(), copy.capacity()), (&[6][..], 1));
    assert!(two < copy && copy > two && two != copy && two <= two);
    assert_eq!(two.into_iter().rev().collect::<Vec<_>>(), [6, 5]);
    let mut three = Items::from_array(Global, [1, 2, 3]).unwrap();
    for it in &mut three {
        *it *= 2;
    }
    assert_eq!((&three).into_iter().sum::<i32>(), 12);
    Items::<u8>::new(Global).destroy_empty();
}

/// An iterator whose size hint may be wrong.
struct Hinted(std::ops::Range<u32>, usize);

impl Iterator for Hinted {
    type Item = u32;

    fn next(&mut self) -> Option<u32> {
        self.0.next()
    }

    fn size_hint(&self) -> (usize, Option<usize>) {
        (self.1, None)
    }
}

#[test]
fn all_that_an_iterator_gives_is_collected() {
    for count in [0, 1, 2, 5, 100] {
        for hint in [0, 1, 7, usize::MAX] {
            let all = Hinted(0..count, hint).collect_in(Global).unwrap();
            assert!(all.into_iter().eq(0..count), "{count} of {hint}");
        }
    }
}

#[test]
fn a_box_owns_its_value() {
    let value = Rc::new(5);
    let mut boxed = KitBox::new(Global, Rc::clone(&value)).unwrap();
    assert_eq!((Rc::strong_count(&value), **boxed), (2, 5));
    *boxed = Rc::new(6);
    assert_eq!((Rc::strong_count(&value), *KitBox::into_inner(boxed)), (1, 6));
    drop(KitBox::new(Global, Rc::clone(&value)));
    assert_eq!(Rc::strong_count(&value), 1);
    assert!(KitBox::new(Global, 1) == KitBox::new(Global, 1) && KitBox::new(Global, 1) != KitBox::new(Global, 2));
    assert!(KitBox::new(Global, ()).is_ok());
    assert_eq!(core::mem::size_of::<Option<KitBox<u8>>>(), core::mem::size_of::<*mut u8>());
}
