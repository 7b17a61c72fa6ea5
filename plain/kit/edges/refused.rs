//! Tests the results of calls whose allocations fail, and that these calls change nothing.

use super::super::alloc::{AllocError, AllocFailed};
use super::super::boxed::Box as KitBox;
use super::super::collections::{BTreeMap, BTreeSet, VecDeque};
use super::super::hex::{decode, FromHexError};
use super::super::io::{BufWriter, Error, ErrorKind, Write};
use super::super::raw::{counted, granted};
use super::super::rtrb::RingBuffer;
use super::super::string::{ReplaceIn, String as Text};
use super::super::sync::Arc;
use super::super::vec::{CollectIn, ToVec, Vec as Items};
use super::*;
use crate::{format_in, vec_in};
use core::fmt;

/// Makes a call without memory, then with one request granted, then with two and so on, until the call isn't refused.
/// Returns how often it was refused.
fn refusals<R, E>(mut call: impl FnMut() -> Result<R, E>) -> u64 {
    (0..).find(|&requests| granted(requests, &mut call).is_ok()).unwrap()
}

fn failed<R>(value: u8) -> Result<R, AllocFailed<u8>> {
    Err(AllocFailed { value })
}

#[test]
fn a_value_comes_back() {
    assert_eq!(granted(0, || KitBox::new(Global, 7)), failed(7));
    assert_eq!(granted(0, || Arc::new(Global, 7).map(|it| *it)), failed(7));
    assert_eq!(granted(0, || Items::from_array(Global, [7])), Err(AllocFailed { value: [7] }));
    let (mut items, mut queue) = (Items::from_array(Global, [1, 2]).unwrap(), VecDeque::new(Global));
    assert_eq!((granted(0, || items.push(7)), granted(0, || items.insert(0, 7))), (failed(7), failed(7)));
    assert_eq!(items.as_slice(), [1, 2]);
    assert_eq!((granted(0, || queue.push_back(7)), granted(0, || queue.push_front(7))), (failed(7), failed(7)));
    assert!(queue.is_empty());
    queue.push_back(1).unwrap();
    assert!((2..9).all(|k| granted(0, || queue.push_front(k)).is_ok()) && granted(0, || queue.push_front(9)).is_err());
    assert!(queue.iter().eq(&[8, 7, 6, 5, 4, 3, 2, 1]));
}

#[test]
fn a_growth_changes_nothing() {
    let mut items = Items::from_array(Global, [1, 2, 3]).unwrap();
    let mut more = Items::from_array(Global, [4]).unwrap();
    assert!(granted(0, || items.reserve(1)).is_err() && granted(0, || items.reserve_exact(1)).is_err());
    assert!(granted(0, || items.append(&mut more)).is_err() && granted(0, || items.extend_from_slice(&[5])).is_err());
    assert!(granted(0, || items.resize(4, 0)).is_err());
    assert_eq!((items.as_slice(), items.capacity(), more.as_slice()), (&[1, 2, 3][..], 3, &[4][..]));
    items.truncate(2);
    granted(0, || items.shrink_to_fit());
    assert_eq!((items.as_slice(), items.capacity()), (&[1, 2][..], 3));
    let mut queue = VecDeque::from_vec(items);
    assert_eq!((granted(0, || queue.reserve(1)), granted(0, || queue.reserve(2))), (Ok(()), Err(AllocError)));
    assert!(granted(0, || queue.iter().eq(&[1, 2])));
    let mut text = Text::from_str(Global, "é").unwrap();
    assert!(granted(0, || text.push_str("x")).is_err() && granted(0, || text.push('x')).is_err());
    assert!(granted(0, || text.write_fmt(format_args!("{}", 5))).is_err());
    assert_eq!(text.as_str(), "é");
}

#[test]
fn what_is_made_is_refused() {
    assert_eq!(refusals(|| Items::<u8>::with_capacity(Global, 1)), 1);
    assert_eq!(refusals(|| Items::<u8>::with_capacity(Global, 0)), 0);
    assert_eq!(refusals(|| Items::from_slice(Global, &[1])), 1);
    assert_eq!(refusals(|| [1].to_vec_in(Global)), 1);
    assert_eq!(refusals(|| vec_in![in Global; 1; 2]), 1);
    assert_eq!(refusals(|| (0..9).collect_in(Global)), 1);
    assert_eq!(refusals(|| (0..9).filter(|it| it % 2 == 0).collect_in(Global)), 2);
    assert_eq!(refusals(|| VecDeque::<u8>::with_capacity(Global, 1)), 1);
    assert_eq!(refusals(|| Text::with_capacity(Global, 1)), 1);
    assert_eq!(refusals(|| Text::from_str(Global, "a")), 1);
    assert_eq!(refusals(|| format_in!(in Global; "{}", 5)), 1);
    assert_eq!(refusals(|| "a.b".replace_in(Global, ".", "and so on")), 2);
    assert_eq!(refusals(|| BufWriter::new(Global, Items::new(Global))), 1);
    assert_eq!(refusals(|| RingBuffer::new::<u8>(Global, 1)), 2);
    assert_eq!(refusals(|| decode(Global, "00")), 1);
    assert_eq!(granted(0, || decode(Global, "00")), Err(FromHexError::OutOfMemory));
    assert_eq!(refusals(|| (&mut Items::new(Global)).write_all(b"a")), 1);
    // A hint that is too high doesn't cause a refusal, because the second request is for one element.
    assert!(granted(2, || (0..9).chain(0..usize::MAX).take_while(|it| *it < 4).collect_in(Global)).is_ok());
}

#[test]
fn a_map_is_as_it_was() {
    let (mut map, mut set, mut refused) = (BTreeMap::new(Global), BTreeSet::new(Global), 0);
    for k in 0..600 {
        let key = k * 331 % 601;
        for requests in 0.. {
            let ended = granted(requests, || map.insert(key, k));
            assert_eq!(granted(0, || map.contains_key(&key)), ended.is_ok());
            assert!((0..k).all(|it| map.get(&(it * 331 % 601)) == Some(&it)));
            if ended == Ok(None) {
                break;
            }
            assert_eq!((ended, map.len()), (Err(AllocFailed { value: (key, k) }), k));
            refused += 1;
        }
        let (first, asked) = counted(|| granted(0, || set.insert(key)));
        assert_eq!(first.is_err(), asked > 0);
        assert_eq!((first.is_ok() || set.insert(key) == Ok(true), set.len()), (true, k + 1));
    }
    assert!(refused > 60, "{refused}");
}

#[test]
fn a_refusal_has_its_name() {
    assert_eq!(AllocError::from(AllocFailed { value: 1 }), AllocError);
    assert_eq!(fmt::Error::from(AllocError), fmt::Error);
    assert_eq!((AllocError.to_string(), format!("{:>26}", AllocError)), of_width("memory allocation failed"));
    assert_eq!(Error::from(AllocError).kind(), ErrorKind::OutOfMemory);
    assert_eq!(Error::from(AllocFailed { value: 1 }).kind(), ErrorKind::OutOfMemory);
    assert_eq!(granted(0, || Items::new(Global).write(b"a")), Err(Error::from(ErrorKind::OutOfMemory)));
}

fn of_width(text: &str) -> (String, String) {
    (text.to_string(), format!("  {text}"))
}
