//! The running digest through the crate: published digests, cuts, states that are kept, refusals.

use waggleloft::{
    archive_state_bytes, sha384, Refusal, Sha384, SHA384_LONGEST, SHA384_STATE_BYTES,
    SHA384_TOTAL_LONGEST,
};

/// Where the counts stand in a state's bytes, lowest byte first: docs/REFERENCE.md, section 11.
const TOTAL_IN: usize = 0;
const WAITING_IN: usize = 8;

const TWO_BLOCKS: &[u8] = b"abcdefghbcdefghicdefghijdefghijkefghijklfghijklmghijklmn\
                            hijklmnoijklmnopjklmnopqklmnopqrlmnopqrsmnopqrstnopqrstu";

fn hex(bytes: &[u8]) -> String {
    bytes.iter().map(|byte| format!("{byte:02x}")).collect()
}

/// Bytes that differ from their neighbours.
fn message(length: usize) -> Vec<u8> {
    (0..length).map(|i| (i * 7 + i / 251) as u8).collect()
}

fn fed<'a>(slices: impl IntoIterator<Item = &'a [u8]>) -> Sha384 {
    let mut running = Sha384::new();
    for slice in slices {
        running.feed(slice).expect("a slice that is taken");
    }
    running
}

/// The digest of all slices, as hexadecimal digits.
fn digits<'a>(slices: impl IntoIterator<Item = &'a [u8]>) -> String {
    hex(&fed(slices).finish().expect("counts that agree"))
}

/// A state that was fed some bytes, with these counts.
fn bent(total: u64, waiting: u64) -> Sha384 {
    let mut bytes = *fed([&message(300)[..]]).as_bytes();
    bytes[TOTAL_IN..][..8].copy_from_slice(&total.to_le_bytes());
    bytes[WAITING_IN..][..8].copy_from_slice(&waiting.to_le_bytes());
    Sha384::from_bytes(bytes)
}

/// A feed of so many bytes is refused so, and the state stays.
fn refused(running: &Sha384, slice: usize, refusal: Refusal) {
    let mut after = running.clone();
    assert_eq!(after.feed(&vec![7; slice]), Err(refusal));
    assert_eq!(after, *running);
}

#[test]
fn the_size_is_the_archives() {
    assert_eq!(archive_state_bytes(), SHA384_STATE_BYTES);
}

#[test]
fn published_digests_in_slices_of_every_size() {
    for size in 1..=TWO_BLOCKS.len() + 1 {
        assert_eq!(
            digits(b"abc".chunks(size)),
            "cb00753f45a35e8bb5a03d699ac65007272c32ab0eded163\
             1a8b605a43ff5bed8086072ba1e7cc2358baeca134c825a7"
        );
        assert_eq!(
            digits(TWO_BLOCKS.chunks(size)),
            "09330c33f71147e83d192fc782cd1b4753111b173b3b05d2\
             2fa08086e3b0f712fcc7c71a557e2db966c3e9fa91746039"
        );
    }
}

#[test]
fn published_million_letters() {
    let letters = vec![b'a'; 1_000_000];
    for size in [64, 128, 1_000, 4_096, SHA384_LONGEST] {
        assert_eq!(
            digits(letters.chunks(size)),
            "9d0e1809716474cb086e834e310a4a1ced149e9c00f24852\
             7972cec5704c2a5b07b8b3dc38ecc4ebae97ddd87f3d8985",
            "slices of {size}"
        );
    }
}

#[test]
fn every_cut_of_a_short_message() {
    for length in [0, 1, 111, 112, 127, 128, 129, 255, 256, 300] {
        let whole = message(length);
        for cut in 0..=length {
            let running = fed([&whole[..cut], &[], &whole[cut..]]);
            assert_eq!(
                running.finish(),
                sha384(&whole),
                "{length} bytes, cut at {cut}"
            );
            assert_eq!(running, fed([&whole[..]]), "{length} bytes, cut at {cut}");
        }
    }
}

#[test]
fn finishing_changes_nothing() {
    let whole = message(1_000);
    let mut running = Sha384::default();
    for (n, byte) in whole.iter().enumerate() {
        assert_eq!(running.finish(), sha384(&whole[..n]));
        assert_eq!(running.finish(), sha384(&whole[..n]));
        assert_eq!(running.feed(&[*byte]), Ok(()));
    }
    assert_eq!(running.finish(), sha384(&whole));
}

#[test]
fn a_kept_state_goes_on() {
    let whole = message(500);
    for cut in [0, 1, 128, 200] {
        let kept = *fed([&whole[..cut]]).as_bytes();
        let mut running = Sha384::from_bytes(kept);
        let mut other = running.clone();
        assert_eq!(running.feed(&whole[cut..]), Ok(()));
        assert_eq!(running.finish(), sha384(&whole));
        assert_eq!(other.feed(b"something else"), Ok(()));
        assert_ne!(other.finish(), sha384(&whole));
    }
}

#[test]
fn finishing_into_a_buffer() {
    let running = fed([&b"abc"[..]]);
    for length in 0..=64 {
        let mut buffer = vec![0xA5; length];
        let mut expected = buffer.clone();
        let result = running.finish_into(&mut buffer);
        if length < 48 {
            assert_eq!(result, Err(Refusal::ShortBuffer));
        } else {
            assert_eq!(result, Ok(()));
            expected[..48].copy_from_slice(&sha384(b"abc").expect("a short message"));
        }
        assert_eq!(buffer, expected);
    }
}

#[test]
fn counts_that_disagree() {
    for (total, waiting) in [
        (128, 128),
        (128, 1),
        (129, 0),
        (5, u64::MAX),
        (SHA384_TOTAL_LONGEST + 1, 0),
        (u64::MAX, 127),
    ] {
        let running = bent(total, waiting);
        for slice in [0, 1, SHA384_LONGEST + 1] {
            refused(&running, slice, Refusal::WrongCounts);
        }
        assert_eq!(running.finish(), Err(Refusal::WrongCounts));
        let mut buffer = [0xA5; 48];
        assert_eq!(running.finish_into(&mut buffer), Err(Refusal::WrongCounts));
        assert_eq!(
            running.finish_into(&mut buffer[1..]),
            Err(Refusal::WrongCounts)
        );
        assert_eq!(buffer, [0xA5; 48]);
    }
}

#[test]
fn long_slices_and_totals() {
    let mut full = bent(SHA384_TOTAL_LONGEST, 127);
    refused(&Sha384::new(), SHA384_LONGEST + 1, Refusal::LongMessage);
    refused(&full, SHA384_LONGEST + 1, Refusal::LongMessage);
    refused(&full, 1, Refusal::LongTotal);
    refused(&full, SHA384_LONGEST, Refusal::LongTotal);
    assert_eq!(full.feed(&[]), Ok(()));
    assert!(full.finish().is_ok());
    let mut nearly = bent(SHA384_TOTAL_LONGEST - 1, 126);
    refused(&nearly, 2, Refusal::LongTotal);
    assert_eq!(nearly.feed(&[7]), Ok(()));
    refused(&nearly, 1, Refusal::LongTotal);
}

#[test]
fn refusals_have_names() {
    assert_eq!(Refusal::from_number(16), Refusal::LongTotal);
    assert_eq!(Refusal::from_number(27), Refusal::WrongCounts);
    assert_eq!(
        Refusal::WrongCounts.to_string(),
        "the state's counts disagree or its total is too large (number 27)"
    );
}

#[test]
fn debug_does_not_show_what_was_fed() {
    assert_eq!(format!("{:?}", fed([&b"abc"[..]])), "Sha384 { .. }");
}
