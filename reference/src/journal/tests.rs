use super::read::{Bytes, Entry, Form, Reads};
use super::*;

struct Reader;

impl Reads for Reader {}

/// What reading the bytes of one number gives, and how many of them it takes.
fn number_in(bytes: &[u8]) -> (Result<u32, u32>, u64) {
    let mut bytes = Bytes::new(bytes);
    let number = Reader.number(&mut bytes);
    (number, bytes.taken)
}

#[test]
fn numbers_by_hand() {
    for (number, bytes) in [
        (0, &[0][..]),
        (127, &[0x7F]),
        (128, &[0x80, 0x01]),
        (300, &[0xAC, 0x02]),
        (16_383, &[0xFF, 0x7F]),
        (16_384, &[0x80, 0x80, 0x01]),
        (u32::MAX, &[0xFF, 0xFF, 0xFF, 0xFF, 0x0F]),
    ] {
        assert_eq!(groups(number), bytes);
        assert_eq!(number_in(bytes), (Ok(number), bytes.len() as u64));
    }
}

#[test]
fn refused_numbers_by_hand() {
    for (bytes, number, taken) in [
        (&[][..], number::CUT, 0),
        (&[0x80], number::CUT, 1),
        (&[0x80, 0], number::GROUPS, 2),
        (&[0xFF, 0xFF, 0xFF, 0xFF], number::CUT, 4),
        (&[0xFF, 0xFF, 0xFF, 0xFF, 0x10], number::GROUPS, 5),
        (&[0xFF, 0xFF, 0xFF, 0xFF, 0x80], number::GROUPS, 5),
        (&[0xFF, 0xFF, 0xFF, 0xFF, 0x00], number::GROUPS, 5),
        (&[0xFF, 0xFF, 0xFF, 0xFF, 0x8F, 0x00], number::GROUPS, 5),
        (&[0x81, 0x80, 0x00, 0x01], number::GROUPS, 3),
    ] {
        assert_eq!(number_in(bytes), (Err(number), taken), "{bytes:02x?}");
    }
}

/// Whether some number's bytes begin with these. If all have the top bit, more
/// bytes follow: the group 1 behind them makes a number if any does.
fn begins_a_number(bytes: &[u8]) -> bool {
    let whole = [bytes, &[1]].concat();
    let value = |bytes: &[u8]| {
        let shifts = (0..).step_by(7);
        let parts = bytes.iter().zip(shifts);
        parts.fold(0u128, |sum, (byte, shift)| {
            sum | u128::from(byte & 0x7F) << shift
        })
    };
    [bytes, &whole].iter().any(|bytes| {
        let number = u32::try_from(value(bytes));
        number.is_ok_and(|number| groups(number) == *bytes)
    })
}

/// Every string of up to five of these bytes.
fn strings() -> Vec<Vec<u8>> {
    let bytes = [0x00, 0x01, 0x0F, 0x10, 0x7F, 0x80, 0x81, 0x8F, 0x90, 0xFF];
    let mut all = vec![vec![]];
    let mut longest = 0;
    for _ in 0..5 {
        let from = std::mem::replace(&mut longest, all.len());
        for at in from..longest {
            for byte in bytes {
                let string = [&all[at][..], &[byte]].concat();
                all.push(string);
            }
        }
    }
    all
}

#[test]
fn the_first_impossible_byte_decides() {
    for string in strings() {
        let (read, taken) = number_in(&string);
        let taken = &string[..taken as usize];
        match read {
            Ok(number) => assert_eq!(groups(number), taken),
            Err(number::CUT) => {
                assert_eq!(taken, string);
                assert!(begins_a_number(&string), "{string:02x?}");
            }
            Err(refusal) => {
                assert_eq!(refusal, number::GROUPS);
                let (_, before) = taken.split_last().expect("a byte decides");
                assert!(begins_a_number(before), "{string:02x?}");
                assert!(!begins_a_number(taken), "{string:02x?}");
            }
        }
    }
}

#[test]
fn only_nine_kinds_are_listed() {
    for kind in 0..=255 {
        assert_eq!(Reader.forms(kind).is_some(), (1..=9).contains(&kind));
    }
}

fn read(bytes: &[u8]) -> Result<Option<Entry>, u32> {
    Reader.entry(&mut Bytes::new(bytes))
}

#[test]
fn a_disabling_is_one_byte() {
    let expected = Entry {
        kind: 3,
        values: vec![],
    };
    assert_eq!(read(&[0x03]), Ok(Some(expected)));
}

#[test]
fn the_order_of_values() {
    let kinds: Vec<_> = (1..=9).flat_map(|kind| Reader.forms(kind)).collect();
    let (n, d, h) = (Form::Number, Form::Digest, Form::Handle);
    let expected: [&[Form]; 9] = [
        &[d, d],
        &[d, d],
        &[],
        &[n, d, n, n],
        &[n, d],
        &[h, n, n, d, h, n],
        &[h, d, n],
        &[h, h, n],
        &[h, n],
    ];
    assert_eq!(kinds, expected);
}
