//! The mailbox checksum, and the messages that begin with it.

use crate::layout::STATUS_BYTES;

/// Zero minus the sum of the code's four bytes and of all `bytes`, modulo 2^32.
pub fn checksum(code: u32, bytes: &[u8]) -> u32 {
    let sum = code
        .to_le_bytes()
        .iter()
        .chain(bytes)
        .fold(0u32, |sum, &byte| sum.wrapping_add(u32::from(byte)));
    sum.wrapping_neg()
}

/// A request: the checksum, then the bytes that it covers.
pub fn sealed(code: u32, bytes: &[u8]) -> Vec<u8> {
    let mut message = checksum(code, bytes).to_le_bytes().to_vec();
    message.extend_from_slice(bytes);
    message
}

/// An answer: the checksum with the code taken as zero, the FIPS status (always
/// 0), then the command's own bytes.
pub fn answer_of(body: &[u8]) -> Vec<u8> {
    sealed(0, &[&[0; STATUS_BYTES], body].concat())
}

#[cfg(test)]
mod tests {
    use super::{answer_of, checksum};

    #[test]
    fn nothing_sums_to_zero() {
        assert_eq!(checksum(0, &[]), 0);
    }

    #[test]
    fn the_four_code_bytes_count() {
        assert_eq!(checksum(0x0403_0201, &[]), 10u32.wrapping_neg());
    }

    #[test]
    fn each_byte_counts_once() {
        assert_eq!(checksum(0, &[1, 2, 255]), 258u32.wrapping_neg());
    }

    #[test]
    fn code_and_bytes_add_up() {
        assert_eq!(checksum(0xFF00_0000, &[1]), 256u32.wrapping_neg());
    }

    #[test]
    fn an_answer_without_a_body_is_zero() {
        assert_eq!(answer_of(&[]), [0; 8]);
    }

    #[test]
    fn an_answers_body_alone_counts() {
        assert_eq!(
            answer_of(&[1, 2]),
            [0xFD, 0xFF, 0xFF, 0xFF, 0, 0, 0, 0, 1, 2]
        );
    }
}
