//! SHA-384 as FIPS 180-4 describes it, one step after the other.

/// Bytes of a digest.
pub const DIGEST_BYTES: usize = 48;

/// Bytes of a message block.
pub const BLOCK_BYTES: usize = 128;

/// Bytes of the message length, in bits, at the end of the last block.
const LENGTH_BYTES: usize = 16;

/// The initial hash value (FIPS 180-4, 5.3.4).
#[rustfmt::skip]
pub(crate) const INITIAL: [u64; 8] = [
    0xcbbb9d5dc1059ed8, 0x629a292a367cd507, 0x9159015a3070dd17, 0x152fecd8f70e5939,
    0x67332667ffc00b31, 0x8eb44a8768581511, 0xdb0c2e0d64f98fa7, 0x47b5481dbefa4fa4,
];

/// The round constants (FIPS 180-4, 4.2.3).
#[rustfmt::skip]
const ROUND: [u64; 80] = [
    0x428a2f98d728ae22, 0x7137449123ef65cd, 0xb5c0fbcfec4d3b2f, 0xe9b5dba58189dbbc,
    0x3956c25bf348b538, 0x59f111f1b605d019, 0x923f82a4af194f9b, 0xab1c5ed5da6d8118,
    0xd807aa98a3030242, 0x12835b0145706fbe, 0x243185be4ee4b28c, 0x550c7dc3d5ffb4e2,
    0x72be5d74f27b896f, 0x80deb1fe3b1696b1, 0x9bdc06a725c71235, 0xc19bf174cf692694,
    0xe49b69c19ef14ad2, 0xefbe4786384f25e3, 0x0fc19dc68b8cd5b5, 0x240ca1cc77ac9c65,
    0x2de92c6f592b0275, 0x4a7484aa6ea6e483, 0x5cb0a9dcbd41fbd4, 0x76f988da831153b5,
    0x983e5152ee66dfab, 0xa831c66d2db43210, 0xb00327c898fb213f, 0xbf597fc7beef0ee4,
    0xc6e00bf33da88fc2, 0xd5a79147930aa725, 0x06ca6351e003826f, 0x142929670a0e6e70,
    0x27b70a8546d22ffc, 0x2e1b21385c26c926, 0x4d2c6dfc5ac42aed, 0x53380d139d95b3df,
    0x650a73548baf63de, 0x766a0abb3c77b2a8, 0x81c2c92e47edaee6, 0x92722c851482353b,
    0xa2bfe8a14cf10364, 0xa81a664bbc423001, 0xc24b8b70d0f89791, 0xc76c51a30654be30,
    0xd192e819d6ef5218, 0xd69906245565a910, 0xf40e35855771202a, 0x106aa07032bbd1b8,
    0x19a4c116b8d2d0c8, 0x1e376c085141ab53, 0x2748774cdf8eeb99, 0x34b0bcb5e19b48a8,
    0x391c0cb3c5c95a63, 0x4ed8aa4ae3418acb, 0x5b9cca4f7763e373, 0x682e6ff3d6b2b8a3,
    0x748f82ee5defb2fc, 0x78a5636f43172f60, 0x84c87814a1f0ab72, 0x8cc702081a6439ec,
    0x90befffa23631e28, 0xa4506cebde82bde9, 0xbef9a3f7b2c67915, 0xc67178f2e372532b,
    0xca273eceea26619c, 0xd186b8c721c0c207, 0xeada7dd6cde0eb1e, 0xf57d4f7fee6ed178,
    0x06f067aa72176fba, 0x0a637dc5a2c898a6, 0x113f9804bef90dae, 0x1b710b35131c471b,
    0x28db77f523047d84, 0x32caab7b40c72493, 0x3c9ebe0a15c9bebc, 0x431d67c49c100d4c,
    0x4cc5d4becb3e42b6, 0x597f299cfc657e2a, 0x5fcb6fab3ad6faec, 0x6c44198c4a475817,
];

/// The SHA-384 digest of `message`.
pub fn digest(message: &[u8]) -> [u8; DIGEST_BYTES] {
    let mut state = INITIAL;
    let blocks = message.chunks_exact(BLOCK_BYTES);
    let (tail, tail_bytes) = padded_tail(blocks.remainder(), message.len());
    for block in blocks.chain(tail[..tail_bytes].chunks_exact(BLOCK_BYTES)) {
        state = next_state(state, block);
    }
    first_bytes(&state)
}

/// The bytes after the last whole block, padded to one block or two (5.1.2),
/// and how many bytes that takes.
pub(crate) fn padded_tail(rest: &[u8], message_bytes: usize) -> ([u8; 2 * BLOCK_BYTES], usize) {
    let fits_one_block = rest.len() + 1 + LENGTH_BYTES <= BLOCK_BYTES;
    let end = if fits_one_block {
        BLOCK_BYTES
    } else {
        2 * BLOCK_BYTES
    };
    let bits = message_bytes as u128 * 8;
    let mut tail = [0; 2 * BLOCK_BYTES];
    tail[..rest.len()].copy_from_slice(rest);
    tail[rest.len()] = 0x80;
    tail[end - LENGTH_BYTES..end].copy_from_slice(&bits.to_be_bytes());
    (tail, end)
}

/// The hash value after one more block (6.4.2).
pub(crate) fn next_state(state: [u64; 8], block: &[u8]) -> [u64; 8] {
    let schedule = schedule(block);
    let [mut a, mut b, mut c, mut d, mut e, mut f, mut g, mut h] = state;
    for t in 0..80 {
        let t1 = h
            .wrapping_add(big_sigma1(e))
            .wrapping_add(choose(e, f, g))
            .wrapping_add(ROUND[t])
            .wrapping_add(schedule[t]);
        let t2 = big_sigma0(a).wrapping_add(majority(a, b, c));
        h = g;
        g = f;
        f = e;
        e = d.wrapping_add(t1);
        d = c;
        c = b;
        b = a;
        a = t1.wrapping_add(t2);
    }
    let last = [a, b, c, d, e, f, g, h];
    std::array::from_fn(|i| state[i].wrapping_add(last[i]))
}

/// The eighty words of the message schedule (6.4.2, step 1).
fn schedule(block: &[u8]) -> [u64; 80] {
    let mut words = [0; 80];
    for (word, bytes) in words.iter_mut().zip(block.chunks_exact(8)) {
        *word = bytes.iter().fold(0, |w, &byte| w << 8 | u64::from(byte));
    }
    for t in 16..80 {
        words[t] = small_sigma1(words[t - 2])
            .wrapping_add(words[t - 7])
            .wrapping_add(small_sigma0(words[t - 15]))
            .wrapping_add(words[t - 16]);
    }
    words
}

/// The first 48 bytes of the hash value, each word's highest byte first.
pub(crate) fn first_bytes(state: &[u64; 8]) -> [u8; DIGEST_BYTES] {
    let mut digest = [0; DIGEST_BYTES];
    for (bytes, word) in digest.chunks_exact_mut(8).zip(state) {
        bytes.copy_from_slice(&word.to_be_bytes());
    }
    digest
}

// The six functions of 4.1.3.

fn choose(x: u64, y: u64, z: u64) -> u64 {
    (x & y) ^ (!x & z)
}

fn majority(x: u64, y: u64, z: u64) -> u64 {
    (x & y) ^ (x & z) ^ (y & z)
}

fn big_sigma0(x: u64) -> u64 {
    x.rotate_right(28) ^ x.rotate_right(34) ^ x.rotate_right(39)
}

fn big_sigma1(x: u64) -> u64 {
    x.rotate_right(14) ^ x.rotate_right(18) ^ x.rotate_right(41)
}

fn small_sigma0(x: u64) -> u64 {
    x.rotate_right(1) ^ x.rotate_right(8) ^ (x >> 7)
}

fn small_sigma1(x: u64) -> u64 {
    x.rotate_right(19) ^ x.rotate_right(61) ^ (x >> 6)
}

#[cfg(test)]
mod tests;
