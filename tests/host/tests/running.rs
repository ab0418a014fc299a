//! The running digest of the program target/bin/driver: published values, the
//! machine's `sha384sum`, and the numbers of refusals.

use host::driver::{Replies, Script};
use host::random::Random;
use host::shell::{hex, machine_digests};

/// The longest slice.
const LONGEST: usize = 65_535;

/// The greatest total.
const GREATEST: u64 = 0xFFFF_FFFF;

/// The digest of an accepted finish, as hexadecimal digits.
fn digits(replies: &mut Replies) -> String {
    let (number, digest) = replies.digest();
    assert_eq!(number, 0, "the finish was refused");
    hex(&digest)
}

/// The digests of messages, each fed in slices that are all accepted.
fn digests(messages: &[Vec<&[u8]>]) -> Vec<String> {
    let mut script = Script::new();
    for slices in messages {
        script = script.begin();
        for slice in slices {
            script = script.feed(slice);
        }
        script = script.finish();
    }
    let mut replies = script.run();
    let digits = messages.iter().map(|slices| {
        for slice in slices {
            assert_eq!(replies.u32(), 0, "a slice of {} bytes", slice.len());
        }
        digits(&mut replies)
    });
    let digits = digits.collect();
    assert!(replies.are_read());
    digits
}

/// A message in up to five slices, cut anywhere.
fn cut<'a>(message: &'a [u8], random: &mut Random) -> Vec<&'a [u8]> {
    let mut places = vec![0, message.len()];
    for _ in 0..random.between(0, 4) {
        places.push(random.between(0, message.len()));
    }
    places.sort_unstable();
    places
        .windows(2)
        .map(|ends| &message[ends[0]..ends[1]])
        .collect()
}

/// Compares the driver with the machine's `sha384sum` on each message.
fn same_as_machine(messages: &[Vec<u8>], label: &str) {
    let mut random = Random::from_seed(7);
    let slices: Vec<Vec<&[u8]>> = messages.iter().map(|m| cut(m, &mut random)).collect();
    assert_eq!(digests(&slices), machine_digests(messages, label));
}

#[test]
fn published_messages_cut_everywhere() {
    let two_blocks = b"abcdefghbcdefghicdefghijdefghijkefghijklfghijklmghijklmn\
                       hijklmnoijklmnopjklmnopqklmnopqrlmnopqrsmnopqrstnopqrstu";
    let published = [
        (
            &b""[..],
            "38b060a751ac96384cd9327eb1b1e36a21fdb71114be0743\
             4c0cc7bf63f6e1da274edebfe76f65fbd51ad2f14898b95b",
        ),
        (
            b"abc",
            "cb00753f45a35e8bb5a03d699ac65007272c32ab0eded163\
             1a8b605a43ff5bed8086072ba1e7cc2358baeca134c825a7",
        ),
        (
            two_blocks,
            "09330c33f71147e83d192fc782cd1b4753111b173b3b05d2\
             2fa08086e3b0f712fcc7c71a557e2db966c3e9fa91746039",
        ),
    ];
    for (message, expected) in published {
        let cuts = (0..=message.len()).map(|cut| vec![&message[..cut], &message[cut..]]);
        let cuts: Vec<Vec<&[u8]>> = cuts.collect();
        assert!(digests(&cuts).iter().all(|digits| digits == expected));
    }
}

#[test]
fn published_million_letters() {
    let message = vec![b'a'; 1_000_000];
    for length in [LONGEST, 1_000, 129] {
        assert_eq!(
            digests(&[message.chunks(length).collect()]),
            ["9d0e1809716474cb086e834e310a4a1ced149e9c00f24852\
              7972cec5704c2a5b07b8b3dc38ecc4ebae97ddd87f3d8985"]
        );
    }
}

#[test]
fn short_lengths_agree_with_machine() {
    let mut random = Random::from_seed(1);
    let messages: Vec<Vec<u8>> = (0..=300).map(|n| random.bytes(n)).collect();
    same_as_machine(&messages, "running-short");
}

#[test]
fn long_lengths_agree_with_machine() {
    let mut random = Random::from_seed(2);
    let messages: Vec<Vec<u8>> = (0..16)
        .map(|_| random.between(301, 60_000))
        .map(|n| Random::from_seed(n as u64).bytes(n))
        .collect();
    same_as_machine(&messages, "running-long");
}

#[test]
fn a_finish_and_refused_slices_leave_the_digest() {
    let message = Random::from_seed(3).bytes(1_000);
    let long = vec![1; LONGEST + 1];
    let mut replies = Script::new()
        .feed(&message[..300])
        .feed(&long)
        .finish()
        .feed(&long)
        .finish()
        .feed(&message[300..])
        .finish()
        .run();
    let [first, whole] = [message[..300].to_vec(), message].map(|m| {
        let digests = machine_digests(&[m], "running-refused");
        digests[0].clone()
    });
    assert_eq!([replies.u32(), replies.u32()], [0, 10]);
    assert_eq!(digits(&mut replies), first);
    assert_eq!(replies.u32(), 10);
    assert_eq!(digits(&mut replies), first);
    assert_eq!(replies.u32(), 0);
    assert_eq!(digits(&mut replies), whole);
    assert!(replies.are_read());
}

/// The numbers of feeds of these lengths over counts that are set, and then of
/// a finish, whose bytes are zeros if it is refused.
fn numbers(total: u64, waiting: u64, lengths: &[usize]) -> Vec<u32> {
    let mut script = Script::new().counts(total, waiting);
    for &length in lengths {
        script = script.feed(&vec![9; length]);
    }
    let mut replies = script.finish().run();
    let mut numbers: Vec<u32> = lengths.iter().map(|_| replies.u32()).collect();
    let (number, digest) = replies.digest();
    assert_eq!(digest == [0; 48], number != 0);
    assert!(replies.are_read());
    numbers.push(number);
    numbers
}

#[test]
fn counts_that_disagree_and_totals_that_are_too_large() {
    let lengths = [0, 1, LONGEST, LONGEST + 1];
    for (total, waiting) in [
        (128, 128),
        (0, 128),
        (130, 3),
        (130, (1 << 32) + 2),
        (GREATEST, 126),
        (GREATEST + 1, 0),
        (GREATEST + 3, 2),
        (u64::MAX, 127),
    ] {
        assert_eq!(
            numbers(total, waiting, &lengths),
            [27; 5],
            "{total} and {waiting}"
        );
    }
}

#[test]
fn the_order_of_the_numbers_up_to_the_greatest_total() {
    assert_eq!(
        numbers(GREATEST, 127, &[0, 1, LONGEST, LONGEST + 1, 0]),
        [0, 16, 16, 10, 0, 0]
    );
    let room = LONGEST as u64;
    assert_eq!(
        numbers(GREATEST - room, 0, &[LONGEST + 1, LONGEST, 0, 1]),
        [10, 0, 0, 16, 0]
    );
    assert_eq!(
        numbers(GREATEST - room + 1, 1, &[LONGEST, LONGEST - 1, 1]),
        [16, 0, 16, 0]
    );
}

#[test]
fn raised_counts_take_zeros_in() {
    let letters = [b'a'; 130];
    let mut replies = Script::new().feed(&letters).counts(135, 7).finish().run();
    let zeros = [&letters[..], &[0; 5]].concat();
    assert_eq!(replies.u32(), 0);
    assert_eq!(
        digits(&mut replies),
        machine_digests(&[zeros], "running-raised")[0]
    );
}
