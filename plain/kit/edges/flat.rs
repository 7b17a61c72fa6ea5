//! Tests of types that allocate no memory: inline vectors, bits, numbers in bytes, and 64-byte vectors.

use super::super::arrayvec::{ArrayVec, CapacityError};
use super::super::bitflags::Flags;
use super::super::byteorder::{ByteOrder, LittleEndian};
use super::super::simd::prelude::u8x64;
use super::super::{convert::AsStr, mem, string};
use super::*;

#[test]
fn a_vector_in_place_is_a_vector() {
    let (mut one, mut other, mut chance) = (ArrayVec::<usize, 7>::new(), vec![], Chance(1));
    for step in 0..5_000 {
        match chance.below(5) {
            0 | 1 => {
                let pushed = one.try_push(step);
                assert_eq!(pushed, if other.len() == 7 { Err(CapacityError(step)) } else { Ok(other.push(step)) });
            }
            2 => assert_eq!(one.pop(), other.pop()),
            3 if !other.is_empty() => {
                let at = chance.below(other.len());
                assert_eq!(one.remove(at), other.remove(at));
            }
            _ => {
                let odd = chance.below(9);
                one.retain(|it| it % 9 != odd);
                other.retain(|it| it % 9 != odd);
            }
        }
        assert_eq!((one.as_slice(), format!("{one:?}")), (&other[..], format!("{other:?}")));
    }
    one.retain(|_| false);
    assert!(panics(|| drop(one.remove(0))));
}

#[test]
fn a_copy_in_place_is_another() {
    let mut one = ArrayVec::<u8, 2>::new();
    one.push(1);
    let mut other = one.clone();
    other[0] = 2;
    other.push(3);
    assert_eq!((one.as_slice(), other.as_slice()), (&[1][..], &[2, 3][..]));
    assert!(panics(|| other.push(4)));
    assert_eq!(ArrayVec::<u8, 0>::new().try_push(1), Err(CapacityError(1)));
}

#[derive(Clone, Copy, PartialEq, Eq, Debug)]
struct Bits(u8);

crate::bitflag_items! {
    impl Bits: u8 {
        const LOW = 1;
        const HIGH = 0x80;
        const BOTH = 0x81;
    }
}

impl Flags for Bits {
    type Bits = u8;

    fn flags<'a>() -> &'a [super::super::bitflags::Flag<Self>] {
        Bits::FLAGS
    }

    fn bits(&self) -> u8 {
        self.0
    }

    fn from_bits_retain(bits: u8) -> Self {
        Bits(bits)
    }
}

#[test]
fn bits_are_sets() {
    let names: Vec<_> = Bits::flags().iter().map(|it| (it.name, it.value)).collect();
    assert_eq!(names, [("LOW", Bits(1)), ("HIGH", Bits(0x80)), ("BOTH", Bits(0x81))]);
    for one in 0..=255 {
        for other in 0..=255 {
            let (left, right) = (Bits(one), Bits(other));
            let all = (0..8).all(|k| other >> k & 1 == 0 || one >> k & 1 == 1);
            assert_eq!(left.contains(right), all);
            assert_eq!((left.union(right), left | right), (Bits(one | other), Bits(one | other)));
            assert_eq!((left.difference(right), left.intersection(right)), (Bits(one & !other), Bits(one & other)));
        }
    }
}

#[test]
fn the_low_byte_is_first() {
    let bytes = [1, 2, 3, 4, 5, 6, 7, 0xf8, 9];
    assert_eq!(LittleEndian::read_u16(&bytes), 0x0201);
    assert_eq!(LittleEndian::read_u32(&bytes), 0x0403_0201);
    assert_eq!(LittleEndian::read_u64(&bytes), 0xf807_0605_0403_0201);
    let mut written = [0xee; 9];
    LittleEndian::write_u16(&mut written, 0xf102);
    assert_eq!(written, [2, 0xf1, 0xee, 0xee, 0xee, 0xee, 0xee, 0xee, 0xee]);
    LittleEndian::write_u32(&mut written, 0xf1020304);
    assert_eq!(written, [4, 3, 2, 0xf1, 0xee, 0xee, 0xee, 0xee, 0xee]);
    LittleEndian::write_u64(&mut written, 0xf807_0605_0403_0201);
    assert_eq!(written, [1, 2, 3, 4, 5, 6, 7, 0xf8, 0xee]);
    let mut words = [0; 3];
    LittleEndian::read_u16_into(&bytes[..6], &mut words);
    assert_eq!(words, [0x0201, 0x0403, 0x0605]);
    LittleEndian::write_u16_into(&[0xf102, 0x0304], &mut written[5..]);
    assert_eq!(written, [1, 2, 3, 4, 5, 2, 0xf1, 4, 3]);
}

#[test]
fn a_number_cut_short_panics() {
    let mut four = [0; 4];
    assert!(panics(|| drop(LittleEndian::read_u16(&[1]))));
    assert!(panics(|| drop(LittleEndian::read_u32(&[1; 3]))));
    assert!(panics(|| drop(LittleEndian::read_u64(&[1; 7]))));
    assert!(panics(|| LittleEndian::write_u64(&mut four, 1)));
    assert!(panics(|| LittleEndian::read_u16_into(&[1; 5], &mut [0; 2])));
    assert!(panics(|| LittleEndian::read_u16_into(&[1; 3], &mut [0; 2])));
    assert!(panics(|| LittleEndian::write_u16_into(&[1; 3], &mut four)));
    assert!(panics(|| drop(u8x64::from_slice(&[0; 63]))));
}

#[test]
fn bytes_that_differ_have_their_bits() {
    let mut chance = Chance(2);
    for round in 0..2_000 {
        let one: [u8; 64] = core::array::from_fn(|_| chance.below(256) as u8);
        let mut other = one;
        for byte in &mut other {
            if chance.below(round % 9 + 1) == 0 {
                *byte = chance.below(256) as u8;
            }
        }
        let bits = (0..64).fold(0, |bits, k| bits | u64::from(one[k] != other[k]) << k);
        assert_eq!(u8x64::from_slice(&one).simd_ne(u8x64::from_slice(&other)).to_bitmask(), bits);
    }
}

#[test]
fn values_change_places() {
    let (mut one, mut other) = (1, 2);
    assert_eq!(mem::replace(&mut one, 3), 1);
    mem::swap(&mut one, &mut other);
    assert_eq!((one, other), (2, 3));
    assert_eq!((AsStr::as_str(&"é"), AsStr::as_str(&string::String::from_str(Global, "é").unwrap())), ("é", "é"));
}
