//! Times the core's digest against the second implementation and OpenSSL, and
//! the running digest of slices against the digest in one piece.
//!
//! All run in this process, on the same buffers, and take turns: a batch is
//! made in many short turns, so that a machine that slows down for a while slows
//! all alike. Printed are the time of the whole batch and the best turn's time,
//! scaled to a batch. The last line is 'N passed, M failed'; the two arguments
//! are bounds. The batch of long messages may take at most so many times as long
//! as the second implementation's as the first says. In slices of 4,096 bytes a
//! digest may take at most so many times as long as in one piece as the second
//! says: the median of the turns, each of one digest, which a busy machine
//! disturbs least.

mod openssl;
mod turns;

use std::process::ExitCode;
use turns::{print_heading, print_row, times, Batch, Contender, Times};
use waggleloft::{sha384_into, Refusal, Sha384};

const LONG: Batch = Batch {
    digests: 1_000,
    bytes: 64_000,
    turns: 100,
};

const SHORT: Batch = Batch {
    digests: 100_000,
    bytes: 96,
    turns: 100,
};

const SLICED: Batch = Batch {
    digests: 1_000,
    bytes: 64_000,
    turns: 1_000,
};

/// The slices that the bound is for, and others, in bytes.
const BOUNDED_SLICE: usize = 4_096;
const OTHER_SLICES: [usize; 2] = [1_000, 64];

fn main() -> ExitCode {
    let Some((bound, slices_bound)) = bounds() else {
        eprintln!("usage: bench BOUND SLICES_BOUND");
        return ExitCode::from(2);
    };
    let kept = [
        keeps(time_others(), "the second implementation", bound),
        keeps(time_slices(), "one piece", slices_bound),
    ];
    let failed = kept.iter().filter(|kept| !**kept).count();
    println!("{} passed, {failed} failed", kept.len() - failed);
    if failed == 0 {
        ExitCode::SUCCESS
    } else {
        ExitCode::FAILURE
    }
}

/// The two arguments.
fn bounds() -> Option<(f64, f64)> {
    let words: Vec<String> = std::env::args().skip(1).collect();
    match &words[..] {
        [first, second] => Some((first.parse().ok()?, second.parse().ok()?)),
        _ => None,
    }
}

/// Whether a ratio keeps its bound; tells if it does not.
fn keeps(ratio: f64, other: &str, bound: f64) -> bool {
    let kept = ratio <= bound;
    if !kept {
        println!("FAILED: {ratio:.3} times as long as {other}; the bound is {bound}");
    }
    kept
}

/// Times the digest against others. The whole batch of long messages, ours divided by the second
/// implementation's.
fn time_others() -> f64 {
    let contenders = contenders();
    println!("Milliseconds of a batch and ratios of times (below 1: ours is faster), whole batch / best turn.");
    print_heading("digests   bytes", &contenders);
    let row = |batch: &Batch| {
        let times = times(batch, &contenders);
        let label = format!("{:>7} {:>7}", batch.digests, batch.bytes);
        print_row(&label, &times, [Times::whole_ratio, Times::best_ratio]);
        times[0].whole_ratio(&times[1])
    };
    let ratio = row(&LONG);
    row(&SHORT);
    ratio
}

/// The core first, then what it is compared with: the second implementation first.
fn contenders() -> Vec<Contender> {
    let mut contenders = vec![
        Contender::new("ours", in_one_piece),
        Contender::new("reference", |message, digest| {
            *digest = reference::sha384::digest(message);
        }),
    ];
    match openssl::sha384() {
        Some(hash) => contenders.push(Contender::new("OpenSSL", hash)),
        None => println!("OpenSSL's libcrypto.so.3 is not on this machine: not compared"),
    }
    contenders
}

/// Times the running digest against the digest in one piece. The median ratio for the slices that the
/// bound is for.
fn time_slices() -> f64 {
    let Batch { digests, bytes, .. } = SLICED;
    println!("{digests} digests of {bytes} bytes in slices; ratios of the whole batch / of the median turn.");
    print_heading("          slice", &slicing(BOUNDED_SLICE));
    let row = |length: usize| {
        let times = times(&SLICED, &slicing(length));
        let label = format!("{length:>15}");
        print_row(&label, &times, [Times::whole_ratio, Times::median_ratio]);
        times[0].median_ratio(&times[1])
    };
    let ratio = row(BOUNDED_SLICE);
    for length in OTHER_SLICES {
        row(length);
    }
    ratio
}

fn slicing(length: usize) -> [Contender; 2] {
    [
        Contender::new("slices", move |message, digest| {
            in_slices(message, length, digest).expect("slices that have a digest");
        }),
        Contender::new("one piece", in_one_piece),
    ]
}

fn in_one_piece(message: &[u8], digest: &mut [u8; 48]) {
    sha384_into(message, digest).expect("a message that has a digest");
}

/// Begin, a feed of each slice, and finish.
fn in_slices(message: &[u8], length: usize, digest: &mut [u8; 48]) -> Result<(), Refusal> {
    let mut running = Sha384::new();
    for slice in message.chunks(length) {
        running.feed(slice)?;
    }
    running.finish_into(digest)
}
