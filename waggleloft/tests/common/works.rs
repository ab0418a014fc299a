//! Works of requests, and their cuts.

use crate::common::{run, INPUTS};
use waggleloft::{checksum, Outcome, Refusal, Work, ANSWER_LONGEST, NODES_AT, NODE_WORDS};

/// Stores of an update and of a disabling.
pub const UPDATE: usize = 62;
pub const DISABLING: usize = 15;

/// The first word of a node.
pub fn node(index: usize) -> usize {
    NODES_AT + NODE_WORDS * index
}

/// The 48 bytes in the twelve words of an image from `at` on: a word's lowest byte first.
pub fn bytes_at(image: &[u32], at: usize) -> Vec<u8> {
    let words = image[at..at + 12].iter();
    words.flat_map(|word| word.to_le_bytes()).collect()
}

/// A request of these arguments, with its checksum.
pub fn sealed(code: u32, arguments: &[u8]) -> Vec<u8> {
    [&checksum(code, arguments).to_le_bytes(), arguments].concat()
}

/// Cuts a request's work on that image after every number of its stores, with an update boot behind; `shown` is a
/// word that changes once the work has counted, and that no update changes.
pub fn every_cut(
    start: &[u32],
    open: impl Fn(&mut Work, &[u32]) -> Result<(), Refusal>,
    stores: usize,
    length: usize,
    shown: usize,
) {
    for cut in 0..=stores {
        let mut image = start.to_vec();
        let mut work = Work::new();
        open(&mut work, &image).expect("accepted");
        assert_eq!(work.left(), stores);
        assert_eq!(run(&mut work, &mut image, cut), cut);
        let taken = work.answer(&mut [0xEE; ANSWER_LONGEST]);
        let expected = if cut == stores {
            Ok(length)
        } else {
            Err(Refusal::StoresLeft)
        };
        assert_eq!(taken, expected, "cut {cut}");
        let outcome = work.open_update_boot(&image, &INPUTS, true);
        let on = cut == 0 || cut == stores;
        let expected = if on {
            Outcome::Updated
        } else {
            Outcome::Disabled
        };
        assert_eq!(outcome, Ok(expected), "cut {cut}");
        assert_eq!(
            run(&mut work, &mut image, usize::MAX),
            if on { UPDATE } else { DISABLING }
        );
        assert_eq!(image[1], u32::from(on), "cut {cut}");
        assert_eq!(image[4..16].iter().all(|&word| word == 0), !on, "cut {cut}");
        if on {
            assert_eq!(image[shown] != start[shown], cut == stores, "cut {cut}");
        }
    }
}
