//! waggleloft_checksum.

use host::random::Random;
use waggleloft::checksum;

const STASH: u32 = 0x4D45_4153;
const DISABLE: u32 = 0x4453_424C;
const IDENTITY_KEY: u32 = 0x4944_4549;

/// Compares the core with the second implementation.
fn same_as_reference(code: u32, bytes: &[u8]) {
    assert_eq!(
        checksum(code, bytes),
        reference::checksum::checksum(code, bytes),
        "code {code:#x}, {} bytes",
        bytes.len()
    );
}

#[test]
fn card_1_disable_without_arguments() {
    assert_eq!(checksum(DISABLE, &[]), 0xFFFF_FEDB);
}

#[test]
fn card_2_identity_key() {
    assert_eq!(checksum(IDENTITY_KEY, &[]), 0xFFFF_FEE5);
}

#[test]
fn card_3_stash_with_56_zero_bytes() {
    assert_eq!(checksum(STASH, &[0; 56]), 0xFFFF_FEDA);
}

#[test]
fn card_4_stash_answer_with_dpe_result_2() {
    let status_and_result = [0, 0, 0, 0, 2, 0, 0, 0];
    assert_eq!(checksum(0, &status_and_result), 0xFFFF_FFFE);
}

#[test]
fn card_5_code_0_without_bytes() {
    assert_eq!(checksum(0, &[]), 0);
}

#[test]
fn every_code_byte_counts() {
    for shift in [0, 8, 16, 24] {
        assert_eq!(checksum(0xFF << shift, &[]), 0xFFFF_FF01);
    }
}

#[test]
fn random_codes_without_bytes_agree_with_reference() {
    let mut random = Random::from_seed(20);
    for _ in 0..1_000 {
        same_as_reference(random.word() as u32, &[]);
    }
}

#[test]
fn every_short_length_agrees_with_reference() {
    let mut random = Random::from_seed(21);
    for length in 0..=300 {
        let code = random.word() as u32;
        same_as_reference(code, &random.bytes(length));
    }
}

#[test]
fn random_lengths_agree_with_reference() {
    let mut random = Random::from_seed(22);
    for _ in 0..100 {
        let code = random.word() as u32;
        let length = random.between(301, 100_000);
        same_as_reference(code, &random.bytes(length));
    }
}

#[test]
fn a_sum_past_32_bits_wraps() {
    // 16,843,010 * 255 = 2^32 + 254
    assert_eq!(checksum(0, &vec![0xFF; 16_843_010]), 0xFFFF_FF02);
}
