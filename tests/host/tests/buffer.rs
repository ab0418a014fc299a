//! waggleloft_sha384: which bytes of the buffer it writes.

use waggleloft::{sha384_into, Refusal};

/// Bytes before and after the buffer that have to stay.
const GUARD: usize = 16;

/// The memory around and in a buffer, before and after a call.
struct Call {
    result: Result<(), Refusal>,
    before: Vec<u8>,
    after: Vec<u8>,
}

fn call(message: &[u8], buffer_len: usize) -> Call {
    let before: Vec<u8> = (0..GUARD + buffer_len + GUARD)
        .map(|i| 0xA5 ^ i as u8)
        .collect();
    let mut after = before.clone();
    let result = sha384_into(message, &mut after[GUARD..GUARD + buffer_len]);
    Call {
        result,
        before,
        after,
    }
}

/// The call was refused so and wrote nothing.
fn refused(message: &[u8], buffer_len: usize, refusal: Refusal) {
    let call = call(message, buffer_len);
    assert_eq!(call.result, Err(refusal));
    assert_eq!(call.after, call.before);
}

/// The call wrote the digest to the buffer's first 48 bytes and nothing else.
fn written(message: &[u8], buffer_len: usize) {
    let call = call(message, buffer_len);
    let mut expected = call.before;
    expected[GUARD..GUARD + 48].copy_from_slice(&reference::sha384::digest(message));
    assert_eq!(call.result, Ok(()));
    assert_eq!(call.after, expected);
}

#[test]
fn no_buffer_is_refused() {
    refused(b"abc", 0, Refusal::ShortBuffer);
}

#[test]
fn every_buffer_below_48_bytes_is_refused() {
    for buffer_len in 1..48 {
        refused(b"abc", buffer_len, Refusal::ShortBuffer);
    }
}

#[test]
fn buffer_of_47_bytes_is_refused_for_the_longest_message() {
    refused(&[7; 65_535], 47, Refusal::ShortBuffer);
}

#[test]
fn buffer_of_48_bytes_is_filled() {
    written(b"abc", 48);
}

#[test]
fn buffer_of_49_bytes_keeps_its_last_byte() {
    written(b"abc", 49);
}

#[test]
fn buffer_of_64_bytes_keeps_its_last_16_bytes() {
    written(b"abc", 64);
}

#[test]
fn the_longest_message_keeps_the_tail_too() {
    written(&[7; 65_535], 64);
}

#[test]
fn message_too_long_writes_nothing() {
    refused(&[7; 65_536], 48, Refusal::LongMessage);
    refused(&[7; 65_536], 64, Refusal::LongMessage);
}

#[test]
fn message_too_long_is_told_before_buffer_too_short() {
    refused(&[7; 65_536], 0, Refusal::LongMessage);
    refused(&[7; 65_536], 47, Refusal::LongMessage);
}
