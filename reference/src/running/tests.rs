use super::*;
use crate::engine::Paper;
use crate::sha384::digest;

fn hex(bytes: &[u8]) -> String {
    bytes.iter().map(|byte| format!("{byte:02x}")).collect()
}

/// A digest begun and fed these slices, all accepted.
fn fed<'a>(slices: impl IntoIterator<Item = &'a [u8]>) -> Running {
    let mut running = Running::begun();
    for slice in slices {
        assert_eq!(Paper.feed(&mut running, slice), 0);
    }
    running
}

/// What a finish gives, as hexadecimal digits.
fn digits(running: &Running) -> String {
    let (number, digest) = Paper.finish(running);
    assert_eq!(number, 0);
    hex(&digest)
}

/// Bytes that differ from their neighbours.
fn message(length: usize) -> Vec<u8> {
    (0..length).map(|i| (i * 7 + i / 128) as u8).collect()
}

// Messages with a published digest (FIPS 180-4's examples and NIST's vectors).

const EMPTY: &str = "38b060a751ac96384cd9327eb1b1e36a21fdb71114be0743\
                     4c0cc7bf63f6e1da274edebfe76f65fbd51ad2f14898b95b";
const ABC: &str = "cb00753f45a35e8bb5a03d699ac65007272c32ab0eded163\
                   1a8b605a43ff5bed8086072ba1e7cc2358baeca134c825a7";
const TWO_BLOCKS: &str = "09330c33f71147e83d192fc782cd1b4753111b173b3b05d2\
                          2fa08086e3b0f712fcc7c71a557e2db966c3e9fa91746039";
const MILLION: &str = "9d0e1809716474cb086e834e310a4a1ced149e9c00f24852\
                       7972cec5704c2a5b07b8b3dc38ecc4ebae97ddd87f3d8985";

#[test]
fn no_slice_and_empty_slices() {
    assert_eq!(digits(&fed([])), EMPTY);
    assert_eq!(digits(&fed([&b""[..], b"", b""])), EMPTY);
}

#[test]
fn one_block_message_cut_everywhere() {
    for second in 0..=3 {
        for first in 0..=second {
            let (a, rest) = b"abc".split_at(first);
            let (b, c) = rest.split_at(second - first);
            assert_eq!(digits(&fed([a, b, b"", c])), ABC, "{first} and {second}");
        }
    }
}

#[test]
fn two_block_message_cut_everywhere() {
    let message = b"abcdefghbcdefghicdefghijdefghijkefghijklfghijklmghijklmn\
                    hijklmnoijklmnopjklmnopqklmnopqrlmnopqrsmnopqrstnopqrstu";
    for cut in 0..=message.len() {
        let (a, b) = message.split_at(cut);
        assert_eq!(digits(&fed([a, b])), TWO_BLOCKS, "cut at {cut}");
    }
}

#[test]
fn one_million_letters_in_slices_of_many_lengths() {
    let message = vec![b'a'; 1_000_000];
    for length in [13, 127, 128, 129, 4_096, 65_535] {
        let running = fed(message.chunks(length));
        assert_eq!(digits(&running), MILLION, "slices of {length}");
    }
}

// Zeros, as the machine's `head -c LENGTH /dev/zero | sha384sum` tells them.

/// The digest of so many zeros in slices of the greatest length.
fn digits_of_zeros(length: usize) -> String {
    let slice = [0; SLICE_BYTES];
    let (whole, rest) = (length / SLICE_BYTES, length % SLICE_BYTES);
    let slices = std::iter::repeat_n(&slice[..], whole);
    let running = fed(slices.chain([&slice[..rest]]));
    assert_eq!(running.total, length as u64);
    digits(&running)
}

#[test]
fn a_length_of_more_than_32_bits() {
    assert_eq!(
        digits_of_zeros((1 << 29) + 1),
        "243996d96817743f535a722ace62a692ec4324569ef92a79\
         09cddf2be6a16790308955e24500796b7036ef702c81d021"
    );
}

#[test]
#[ignore = "hashes four gigabytes"]
fn the_greatest_total() {
    assert_eq!(
        digits_of_zeros((1 << 32) - 1),
        "3e55c30ca2619b5ecd69c34dbb7275ef3e8e870c13ade4af\
         92df74549a8e9db7bfc27516c98fa44813f2d0b7de5e49b7"
    );
}

#[test]
fn every_length_byte_by_byte_and_in_longer_slices() {
    let message = message(400);
    for length in [1, 2, 63, 64, 111, 112, 127, 128, 129, 200] {
        let mut running = Running::begun();
        let mut fed = 0;
        for slice in message.chunks(length) {
            assert_eq!(Paper.feed(&mut running, slice), 0);
            fed += slice.len();
            let expected = (0, digest(&message[..fed]));
            assert_eq!(Paper.finish(&running), expected, "{fed} in {length}s");
        }
    }
}

#[test]
fn the_state_counts_and_keeps_the_rest() {
    let message = message(300);
    let running = fed([&message[..100], &message[100..]]);
    assert_eq!((running.total, running.waiting), (300, 44));
    assert_eq!(running.buffer[..44], message[256..]);
    assert_eq!(running.buffer[44..], [0; 84]);
    let full = fed([&message[..100], &message[100..256]]);
    assert_eq!((full.total, full.waiting), (256, 0));
    assert_eq!(full.buffer, [0; 128]);
    assert_eq!(full.hash, running.hash);
}

#[test]
fn begin_forgets_everything() {
    let mut running = fed([&message(200)[..]]);
    Paper.begin(&mut running);
    assert_eq!(running, Running::begun());
    assert_eq!(digits(&running), EMPTY);
}

#[test]
fn a_sum_past_64_bits_is_beyond() {
    let running = Running {
        total: u64::MAX,
        waiting: 127,
        ..Running::begun()
    };
    assert!(!Paper.has_room(&running, &[0]));
    assert_eq!(Paper.feed(&mut running.clone(), &[0]), 27);
}
