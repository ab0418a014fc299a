//! waggleloft_sha384: which messages have a digest, and which digest.

use host::random::Random;
use host::shell::{hex, machine_digests};
use waggleloft::{sha384, Refusal, SHA384_LONGEST};

/// The digest, as hexadecimal digits, of a message that is taken.
fn digits(message: &[u8]) -> String {
    let digest = sha384(message);
    hex(&digest.unwrap_or_else(|refusal| panic!("{} bytes: {refusal}", message.len())))
}

/// Compares the core with the second implementation on each message.
fn same_as_reference(messages: &[Vec<u8>]) {
    for message in messages {
        let expected = hex(&reference::sha384::digest(message));
        assert_eq!(digits(message), expected, "{} bytes", message.len());
    }
}

/// Compares the core with the machine's `sha384sum` on each message.
fn same_as_machine(messages: &[Vec<u8>], label: &str) {
    for (message, expected) in messages.iter().zip(machine_digests(messages, label)) {
        assert_eq!(digits(message), expected, "{} bytes", message.len());
    }
}

/// A random message of each of the lengths.
fn messages(lengths: impl IntoIterator<Item = usize>, seed: u64) -> Vec<Vec<u8>> {
    let mut random = Random::from_seed(seed);
    lengths.into_iter().map(|n| random.bytes(n)).collect()
}

fn short_messages() -> Vec<Vec<u8>> {
    messages(0..=300, 1)
}

fn long_messages() -> Vec<Vec<u8>> {
    let mut random = Random::from_seed(2);
    let lengths: Vec<usize> = (0..300)
        .map(|_| random.between(301, SHA384_LONGEST))
        .collect();
    messages(lengths, 3)
}

/// Lengths at which a block is full or the padding takes a second block.
fn block_edges() -> Vec<Vec<u8>> {
    let rests = [0, 1, 110, 111, 112, 113, 127];
    let blocks = [3, 4, 255, 256, 510, 511];
    let lengths = blocks
        .iter()
        .flat_map(|b| rests.iter().map(move |r| b * 128 + r));
    messages(lengths, 4)
}

/// The lengths of bench card 11 that have a digest.
fn card_11() -> Vec<Vec<u8>> {
    messages([0, 111, 112, 65_535], 5)
}

#[test]
fn published_empty_message() {
    assert_eq!(
        digits(b""),
        "38b060a751ac96384cd9327eb1b1e36a21fdb71114be0743\
         4c0cc7bf63f6e1da274edebfe76f65fbd51ad2f14898b95b"
    );
}

#[test]
fn published_one_block_message() {
    assert_eq!(
        digits(b"abc"),
        "cb00753f45a35e8bb5a03d699ac65007272c32ab0eded163\
         1a8b605a43ff5bed8086072ba1e7cc2358baeca134c825a7"
    );
}

#[test]
fn published_two_block_message() {
    let message = b"abcdefghbcdefghicdefghijdefghijkefghijklfghijklmghijklmn\
                    hijklmnoijklmnopjklmnopqklmnopqrlmnopqrsmnopqrstnopqrstu";
    assert_eq!(
        digits(message),
        "09330c33f71147e83d192fc782cd1b4753111b173b3b05d2\
         2fa08086e3b0f712fcc7c71a557e2db966c3e9fa91746039"
    );
}

#[test]
fn published_million_letters_are_too_long() {
    assert_eq!(sha384(&vec![b'a'; 1_000_000]), Err(Refusal::LongMessage));
}

#[test]
fn card_11_lengths_agree_with_reference() {
    same_as_reference(&card_11());
}

#[test]
fn card_11_lengths_agree_with_machine() {
    same_as_machine(&card_11(), "card-11");
}

#[test]
fn card_11_one_byte_too_many_is_refused() {
    assert_eq!(sha384(&[0; 65_536]), Err(Refusal::LongMessage));
}

#[test]
fn short_lengths_agree_with_reference() {
    same_as_reference(&short_messages());
}

#[test]
fn short_lengths_agree_with_machine() {
    same_as_machine(&short_messages(), "short");
}

#[test]
fn long_lengths_agree_with_reference() {
    same_as_reference(&long_messages());
}

#[test]
fn long_lengths_agree_with_machine() {
    same_as_machine(&long_messages(), "long");
}

#[test]
fn block_edges_agree_with_reference() {
    same_as_reference(&block_edges());
}

#[test]
fn block_edges_agree_with_machine() {
    same_as_machine(&block_edges(), "edges");
}

#[test]
fn the_address_of_the_message_does_not_matter() {
    let bytes = Random::from_seed(6).bytes(400);
    for start in 0..16 {
        let message = &bytes[start..start + 300];
        assert_eq!(
            digits(message),
            hex(&reference::sha384::digest(message)),
            "start {start}"
        );
    }
}

#[test]
fn threads_do_not_disturb_each_other() {
    std::thread::scope(|scope| {
        for seed in 10..14 {
            scope.spawn(move || same_as_reference(&messages([5_000; 40], seed)));
        }
    });
}
