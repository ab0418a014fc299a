//! A unit that the tests boot.

use waggleloft::{BootInputs, Outcome, Work, IMAGE_WORDS};

/// Stores of a cold boot.
const COLD: usize = 1521;

pub const INPUTS: BootInputs<'static> = BootInputs {
    runtime: &[0x11; 48],
    manifest: &[0x33; 48],
    secret: &[0x22; 48],
};

/// Makes at most `most` stores; hands back how many were made.
pub fn run(work: &mut Work, image: &mut [u32], most: usize) -> usize {
    let mut made = 0;
    while made < most && work.store(image).is_ok() {
        made += 1;
    }
    made
}

/// An image after a cold boot.
pub fn fresh() -> Vec<u32> {
    let mut image = vec![0xEEEE_EEEE; IMAGE_WORDS];
    let mut work = Work::new();
    assert_eq!(work.open_cold_boot(&image, &INPUTS), Ok(Outcome::Cold));
    assert_eq!(run(&mut work, &mut image, usize::MAX), COLD);
    image
}
