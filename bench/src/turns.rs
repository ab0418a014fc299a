//! Contenders that take turns on the same message, and their times.

use std::hint::black_box;
use std::time::{Duration, Instant};

/// How many digests, of a message of how many bytes, in how many turns.
pub struct Batch {
    pub digests: usize,
    pub bytes: usize,
    pub turns: usize,
}

type Hash = Box<dyn Fn(&[u8], &mut [u8; 48])>;

pub struct Contender {
    pub name: &'static str,
    hash: Hash,
}

impl Contender {
    pub fn new(name: &'static str, hash: impl Fn(&[u8], &mut [u8; 48]) + 'static) -> Contender {
        Contender {
            name,
            hash: Box::new(hash),
        }
    }
}

/// The times of one contender's turns.
pub struct Times(Vec<Duration>);

impl Times {
    /// The whole batch, in milliseconds.
    pub fn whole(&self) -> f64 {
        self.0.iter().sum::<Duration>().as_secs_f64() * 1e3
    }

    /// The best turn scaled to a batch, in milliseconds.
    pub fn best(&self) -> f64 {
        let best = self.0.iter().min().expect("a turn");
        best.as_secs_f64() * 1e3 * self.0.len() as f64
    }

    /// The whole batch's time divided by another's.
    pub fn whole_ratio(&self, other: &Times) -> f64 {
        self.whole() / other.whole()
    }

    /// The best turn's time divided by another's.
    pub fn best_ratio(&self, other: &Times) -> f64 {
        self.best() / other.best()
    }

    /// The median of the turns' times, each divided by another's in the same turn.
    pub fn median_ratio(&self, other: &Times) -> f64 {
        let pairs = self.0.iter().zip(&other.0);
        let mut ratios: Vec<f64> = pairs
            .map(|(ours, theirs)| ours.as_secs_f64() / theirs.as_secs_f64())
            .collect();
        ratios.sort_by(f64::total_cmp);
        ratios[ratios.len() / 2]
    }
}

/// The times of each contender's turns.
pub fn times(batch: &Batch, contenders: &[Contender]) -> Vec<Times> {
    let message: Vec<u8> = (0..batch.bytes).map(|i| (i * 7 + i / 251) as u8).collect();
    check_agreement(contenders, &message);
    let mut times: Vec<Times> = contenders.iter().map(|_| Times(Vec::new())).collect();
    for turn in 0..batch.turns {
        // Another contender begins each turn.
        for place in 0..contenders.len() {
            let who = (turn + place) % contenders.len();
            let taken = time(batch.digests / batch.turns, &contenders[who].hash, &message);
            times[who].0.push(taken);
        }
    }
    times
}

/// A time means nothing unless all digests are the same.
fn check_agreement(contenders: &[Contender], message: &[u8]) {
    let expected = reference::sha384::digest(message);
    for contender in contenders {
        let mut digest = [0; 48];
        (contender.hash)(message, &mut digest);
        assert_eq!(digest, expected, "{} differs", contender.name);
    }
}

fn time(digests: usize, hash: &Hash, message: &[u8]) -> Duration {
    let mut digest = [0; 48];
    let start = Instant::now();
    for _ in 0..digests {
        hash(black_box(message), black_box(&mut digest));
    }
    start.elapsed()
}

/// Prints a table's first line; `label` heads what the rows begin with.
pub fn print_heading(label: &str, contenders: &[Contender]) {
    print!("{label}");
    for contender in contenders {
        print!("  {:>17}", format!("{} ms", contender.name));
    }
    for other in &contenders[1..] {
        print!("  {:>16}", format!("{}/{}", contenders[0].name, other.name));
    }
    println!();
}

/// Prints a row: each contender's times, and the first's divided by each other's in two ways.
pub fn print_row(label: &str, times: &[Times], ratios: [fn(&Times, &Times) -> f64; 2]) {
    let (first, others) = times.split_first().expect("a contender");
    print!("{label}");
    for each in times {
        let cell = format!("{:.2} / {:.2}", each.whole(), each.best());
        print!("  {cell:>17}");
    }
    for other in others {
        let [one, two] = ratios.map(|ratio| ratio(first, other));
        print!("  {:>16}", format!("{one:.2} / {two:.2}"));
    }
    println!();
}
