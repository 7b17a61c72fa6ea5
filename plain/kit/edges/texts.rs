//! Tests of strings, and of bytes as digits.

use super::super::hex::{decode, encode_to_slice, FromHexError};
use super::super::string::{ReplaceIn, String as Text};
use super::super::vec::Vec as Items;
use super::*;
use crate::format_in;

fn text(of: &str) -> Text {
    Text::from_str(Global, of).unwrap()
}

#[test]
fn a_text_grows() {
    let mut all = Text::new(Global);
    all.push('é').unwrap();
    all.push_str("").unwrap();
    all.push_str("a😀").unwrap();
    all.write_fmt(format_args!("{:>3}", 7)).unwrap();
    assert_eq!((all.as_str(), all.len(), all.as_ref()), ("éa😀  7", 10, "éa😀  7"));
    assert_eq!(format!("[{all:^9}|{all:.2}|{all:?}]"), "[ éa😀  7  |éa|String(\"éa😀  7\")]");
    let room = all.capacity();
    all.clear();
    assert_eq!((all.as_str(), all.capacity()), ("", room));
    assert_eq!((Text::with_capacity(Global, 9).unwrap().capacity(), text("abc").capacity()), (9, 3));
    assert_eq!(format_in!(in Global; "{}-{:02x}", "a", 10).unwrap().as_str(), "a-0a");
}

#[test]
fn texts_are_in_order() {
    let sorted = ["", "a", "a\0", "aa", "b", "é"].map(text);
    for (place, one) in sorted.iter().enumerate() {
        for (other_place, other) in sorted.iter().enumerate() {
            assert_eq!((one.cmp(other), one == other), (place.cmp(&other_place), place == other_place));
        }
    }
}

#[test]
fn bytes_are_a_text_or_come_back() {
    let good = Items::from_slice(Global, "né".as_bytes()).unwrap();
    assert_eq!(Text::from_utf8(good).unwrap().into_bytes().as_slice(), "né".as_bytes());
    let refused = Text::from_utf8(Items::from_slice(Global, b"ab\xffc").unwrap()).unwrap_err();
    assert_eq!((refused.utf8_error().valid_up_to(), refused.utf8_error().error_len()), (2, Some(1)));
    assert_eq!(refused.into_bytes().as_slice(), b"ab\xffc");
}

#[test]
fn each_part_is_replaced() {
    for from in ["a", "aa", "ab", "é", "", "x"] {
        for to in ["", "b", "aab"] {
            for of in ["", "a", "aaa", "abab", "xéa", "éé"] {
                assert_eq!(of.replace_in(Global, from, to).unwrap().as_str(), of.replace(from, to));
            }
        }
    }
}

#[test]
fn each_byte_has_two_digits() {
    for byte in 0..=255u8 {
        let (small, mut digits) = (format!("{byte:02x}"), [0; 6]);
        assert_eq!(encode_to_slice(&[byte, !byte, 1], &mut digits), Ok(()));
        assert_eq!(core::str::from_utf8(&digits), Ok(&*format!("{small}{:02x}01", !byte)));
        for digits in [small.clone(), small.to_uppercase()] {
            assert_eq!(decode(Global, &format!("{digits}7f")).unwrap().as_slice(), [byte, 0x7f]);
        }
        let is_digit = byte.is_ascii_hexdigit();
        if let (true, false) = (byte.is_ascii(), is_digit) {
            let wrong = |index| Err(FromHexError::InvalidHexCharacter { c: char::from(byte), index });
            assert_eq!(decode(Global, &format!("0{}", char::from(byte))), wrong(1));
            assert_eq!(decode(Global, &format!("00{}!", char::from(byte))), wrong(2));
        }
    }
}

#[test]
fn digits_are_whole_bytes() {
    assert_eq!(decode(Global, "").unwrap().as_slice(), []);
    assert_eq!(
        (decode(Global, "0"), decode(Global, "00x")),
        (Err(FromHexError::OddLength), Err(FromHexError::OddLength))
    );
    assert_eq!(decode(Global, "é"), Err(FromHexError::InvalidHexCharacter { c: 'Ã', index: 0 }));
    assert_eq!(encode_to_slice(&[1], &mut [0; 3]), Err(FromHexError::InvalidStringLength));
    assert_eq!(encode_to_slice(&[1], &mut [0; 1]), Err(FromHexError::InvalidStringLength));
    assert_eq!(encode_to_slice(&[], &mut []), Ok(()));
}
