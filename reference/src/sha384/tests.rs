use super::*;

// The constants are held to their definition by whole-number arithmetic.

/// The first `count` primes.
fn primes(count: usize) -> Vec<u64> {
    let mut found: Vec<u64> = Vec::new();
    let mut candidate = 2;
    while found.len() < count {
        if found.iter().all(|prime| candidate % prime != 0) {
            found.push(candidate);
        }
        candidate += 1;
    }
    found
}

/// The product of two numbers held as 64-bit limbs, lowest first.
fn product(a: &[u64], b: &[u64]) -> Vec<u64> {
    let mut limbs = vec![0; a.len() + b.len()];
    for (i, &x) in a.iter().enumerate() {
        let mut carry = 0;
        for (j, &y) in b.iter().enumerate() {
            let sum = u128::from(x) * u128::from(y) + u128::from(limbs[i + j]) + carry;
            limbs[i + j] = sum as u64;
            carry = sum >> 64;
        }
        limbs[i + b.len()] = carry as u64;
    }
    limbs
}

/// floor(x^power / 2^(64 * power)): the whole part of (x / 2^64)^power.
fn whole_part_of_power(x: u128, power: usize) -> u64 {
    let limbs = [x as u64, (x >> 64) as u64];
    let raised = (1..power).fold(limbs.to_vec(), |raised, _| product(&raised, &limbs));
    assert!(raised[power + 1..].iter().all(|&limb| limb == 0));
    raised[power]
}

/// The whole part of the root of a small number.
fn whole_root(n: u64, power: u32) -> u64 {
    (1..)
        .take_while(|r: &u64| r.pow(power) <= n)
        .last()
        .unwrap()
}

/// Whether `fraction` is the first 64 bits of the fractional part of the
/// root of `prime`. With x = whole part * 2^64 + fraction that means
/// (x / 2^64)^power <= prime < ((x + 1) / 2^64)^power. A root of a prime is
/// no fraction, so the left side is strict as well.
fn is_root_fraction(fraction: u64, prime: u64, power: usize) -> bool {
    let whole = whole_root(prime, power as u32);
    let x = u128::from(whole) << 64 | u128::from(fraction);
    whole_part_of_power(x, power) < prime && whole_part_of_power(x + 1, power) >= prime
}

#[test]
fn round_constants_are_cube_roots_of_the_first_eighty_primes() {
    for (constant, prime) in ROUND.into_iter().zip(primes(80)) {
        assert!(is_root_fraction(constant, prime, 3), "prime {prime}");
    }
}

#[test]
fn initial_values_are_square_roots_of_the_ninth_to_sixteenth_prime() {
    for (value, prime) in INITIAL.into_iter().zip(primes(16).split_off(8)) {
        assert!(is_root_fraction(value, prime, 2), "prime {prime}");
    }
}

#[test]
fn a_constant_off_by_one_is_no_root_fraction() {
    for (constant, prime) in ROUND.into_iter().zip(primes(80)) {
        assert!(!is_root_fraction(constant + 1, prime, 3), "prime {prime}");
        assert!(!is_root_fraction(constant - 1, prime, 3), "prime {prime}");
    }
}

// Messages with a published digest (FIPS 180-4's examples and NIST's vectors).

fn hex(bytes: &[u8]) -> String {
    bytes.iter().map(|byte| format!("{byte:02x}")).collect()
}

#[test]
fn empty_message() {
    assert_eq!(
        hex(&digest(b"")),
        "38b060a751ac96384cd9327eb1b1e36a21fdb71114be0743\
         4c0cc7bf63f6e1da274edebfe76f65fbd51ad2f14898b95b"
    );
}

#[test]
fn one_block_message() {
    assert_eq!(
        hex(&digest(b"abc")),
        "cb00753f45a35e8bb5a03d699ac65007272c32ab0eded163\
         1a8b605a43ff5bed8086072ba1e7cc2358baeca134c825a7"
    );
}

#[test]
fn two_block_message() {
    let message = b"abcdefghbcdefghicdefghijdefghijkefghijklfghijklmghijklmn\
                    hijklmnoijklmnopjklmnopqklmnopqrlmnopqrsmnopqrstnopqrstu";
    assert_eq!(
        hex(&digest(message)),
        "09330c33f71147e83d192fc782cd1b4753111b173b3b05d2\
         2fa08086e3b0f712fcc7c71a557e2db966c3e9fa91746039"
    );
}

#[test]
fn one_million_letters() {
    assert_eq!(
        hex(&digest(&vec![b'a'; 1_000_000])),
        "9d0e1809716474cb086e834e310a4a1ced149e9c00f24852\
         7972cec5704c2a5b07b8b3dc38ecc4ebae97ddd87f3d8985"
    );
}

#[test]
fn padding_takes_a_second_block_from_112_bytes_on() {
    assert_eq!(padded_tail(&[0; 111], 111).1, BLOCK_BYTES);
    assert_eq!(padded_tail(&[0; 112], 112).1, 2 * BLOCK_BYTES);
}

#[test]
fn the_length_in_bits_may_pass_32_bits() {
    let (tail, end) = padded_tail(&[], 1 << 29);
    assert_eq!(tail[..2], [0x80, 0]);
    assert_eq!(
        tail[end - 16..end],
        [0, 0, 0, 0, 0, 0, 0, 0, 0, 0, 0, 1, 0, 0, 0, 0]
    );
}
