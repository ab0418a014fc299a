//! The running digest against the second implementation and the machine's `sha384sum`.

use host::random::Random;
use host::shell::{hex, machine_digests};
use waggleloft::{Refusal, Sha384, SHA384_LONGEST, SHA384_TOTAL_LONGEST};

/// The digest, as hexadecimal digits, of a message in slices of random lengths up to `most`.
fn digits(message: &[u8], most: usize, random: &mut Random) -> String {
    let mut running = Sha384::new();
    let mut rest = message;
    while !rest.is_empty() {
        let (slice, behind) = rest.split_at(random.between(0, most.min(rest.len())));
        running.feed(slice).expect("a slice that is taken");
        rest = behind;
    }
    hex(&running.finish().expect("counts that agree"))
}

/// Random messages: short ones, edges of a block, and some longer than a digest in one piece takes.
fn messages() -> Vec<Vec<u8>> {
    let mut random = Random::from_seed(30);
    let edges = [127, 128, 129, 239, 240, 255, 256, 65_535, 65_536, 65_663];
    let long = (0..20).map(|_| random.between(65_536, 500_000));
    let lengths: Vec<usize> = (0..=20).chain(edges).chain(long).collect();
    lengths.into_iter().map(|n| random.bytes(n)).collect()
}

const MOST: [usize; 4] = [1, 200, 5_000, SHA384_LONGEST];

#[test]
fn slices_agree_with_reference() {
    let mut random = Random::from_seed(31);
    for message in messages() {
        let expected = hex(&reference::sha384::digest(&message));
        for most in MOST {
            let found = digits(&message, most, &mut random);
            assert_eq!(found, expected, "{} bytes, up to {most}", message.len());
        }
    }
}

#[test]
fn slices_agree_with_machine() {
    let mut random = Random::from_seed(32);
    let messages = messages();
    for (message, expected) in messages.iter().zip(machine_digests(&messages, "running")) {
        for most in MOST {
            let found = digits(message, most, &mut random);
            assert_eq!(found, expected, "{} bytes, up to {most}", message.len());
        }
    }
}

#[test]
fn threads_do_not_disturb_each_other() {
    std::thread::scope(|scope| {
        for seed in 40..44 {
            scope.spawn(move || {
                let mut random = Random::from_seed(seed);
                for _ in 0..40 {
                    let message = random.bytes(5_000);
                    let expected = hex(&reference::sha384::digest(&message));
                    assert_eq!(digits(&message, 300, &mut random), expected);
                }
            });
        }
    });
}

/// 65,537 slices of 65,535 zero bytes are 2^32 - 1; the digest is what GNU sha384sum prints of
/// `head -c 4294967295 /dev/zero`.
#[test]
fn the_largest_total() {
    let zeros = [0; SHA384_LONGEST];
    let slices = SHA384_TOTAL_LONGEST / SHA384_LONGEST as u64;
    assert_eq!(slices * SHA384_LONGEST as u64, SHA384_TOTAL_LONGEST);
    let mut running = Sha384::new();
    for _ in 0..slices {
        running.feed(&zeros).expect("within the largest total");
    }
    let expected = "3e55c30ca2619b5ecd69c34dbb7275ef3e8e870c13ade4af\
                    92df74549a8e9db7bfc27516c98fa44813f2d0b7de5e49b7";
    assert_eq!(hex(&running.finish().expect("a digest")), expected);
    assert_eq!(running.feed(&[0]), Err(Refusal::LongTotal));
    assert_eq!(running.feed(&[]), Ok(()));
    assert_eq!(hex(&running.finish().expect("a digest")), expected);
}
