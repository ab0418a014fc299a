//! The running digest: messages cut into slices, counts set from outside, and
//! slices of about the greatest length.

use super::Maker;
use crate::layout::*;
use crate::script::{Op, TOTAL, WAITING};
use crate::sha384::BLOCK_BYTES;

/// Lengths at which a block is full or the padding takes another one.
const EDGES: [usize; 8] = [111, 112, 127, 128, 129, 239, 240, 256];

pub(super) const BLOCK: u64 = BLOCK_BYTES as u64;

/// The first total that is too large.
pub(super) const PAST: u64 = TOTAL_BYTES + 1;

/// From here on a message has more bits than a number of 32 bits can tell.
pub(super) const MANY: u64 = 1 << 29;

/// Cuts of a script that goes through them in turn.
const CUTS_IN_TURN: usize = 24;

/// Every message of a length at an edge and every place to cut it in two.
pub fn cuts() -> Vec<(usize, usize)> {
    let of_length = |length: usize| (0..=length).map(move |cut| (length, cut));
    EDGES.into_iter().flat_map(of_length).collect()
}

impl Maker {
    pub(super) fn slices(&mut self, count: usize) {
        for _ in 0..count {
            match self.random.below(8) {
                0..=3 => self.message(),
                4..=6 => self.bent_counts(),
                _ => self.full_total(),
            }
        }
    }

    fn feed(&mut self, length: usize) {
        let slice = self.random.bytes(length);
        self.add(Op::Feed(slice));
    }

    fn set_count(&mut self, field: u8, value: u64) {
        self.add(Op::SetCount { field, value });
    }

    /// Sets a total and the waiting bytes that agree with it.
    fn set_counts(&mut self, total: u64) {
        self.set_count(TOTAL, total);
        self.set_count(WAITING, total % BLOCK);
    }

    /// Cuts in two that go through all of them from seed to seed.
    pub(super) fn cuts_in_turn(&mut self) {
        let cuts = cuts();
        let first = self.seed as usize / 8 * CUTS_IN_TURN;
        for place in first..first + CUTS_IN_TURN {
            let (length, cut) = cuts[place % cuts.len()];
            self.add(Op::Begin);
            self.feed(cut);
            self.feed(length - cut);
            self.add(Op::Finish);
        }
    }

    /// A message of any length in slices; now and then it goes on from the one
    /// before.
    fn message(&mut self) {
        if !self.random.once_in(4) {
            self.add(Op::Begin);
        }
        let length = self.message_length();
        let mut fed = 0;
        for cut in self.cut_places(length) {
            self.feed(cut - fed);
            fed = cut;
            self.between_slices();
        }
        self.add(Op::Finish);
        if self.random.once_in(3) {
            self.add(Op::Finish);
        }
    }

    fn message_length(&mut self) -> usize {
        let near = self.random.pick(&EDGES);
        let short = self.random.between(0, 300);
        let long = self.random.between(300, 700);
        self.random
            .pick(&[near, near, near - 1, near + 1, short, short, long])
    }

    /// Where a message is cut, in order; the last is its end.
    fn cut_places(&mut self, length: usize) -> Vec<usize> {
        let mut places = vec![length];
        for _ in 0..self.random.between(0, 4) {
            let any = self.random.between(0, length);
            let edge = self.random.pick(&EDGES);
            let place = self
                .random
                .pick(&[0, 1, 64, edge, edge, edge + 1, any, any, any]);
            places.push(place.min(length));
        }
        places.sort_unstable();
        places
    }

    fn between_slices(&mut self) {
        match self.random.below(12) {
            0 | 1 => self.add(Op::Finish),
            2 => self.feed(0),
            3 => self.elsewhere(),
            _ => {}
        }
    }

    /// An operation that leaves the running digest alone.
    fn elsewhere(&mut self) {
        match self.random.below(7) {
            0 | 1 => self.push(Op::Cut),
            2 => self.push(Op::Left),
            3 => self.push_bad_boot(),
            4 => self.push_refused_request(),
            5 if self.size < super::ENOUGH => {
                let words = self.random.words(IMAGE_WORDS);
                self.push(Op::Image(words));
            }
            _ => self.push_answer(),
        }
    }

    /// A digest begun, with some bytes in it or none: its total.
    fn begun(&mut self) -> u64 {
        self.add(Op::Begin);
        let mut total = 0;
        while self.random.once_in(2) {
            let length = self.random.pick(&[1, 64, 100, 127, 128, 129, 200]);
            self.feed(length);
            total += length as u64;
        }
        if self.random.once_in(2) {
            self.add(Op::Finish);
        }
        total
    }

    /// Counts set from outside over a message under way, what they come to, and
    /// the counts set back.
    fn bent_counts(&mut self) {
        let total = self.begun();
        for _ in 0..self.random.between(1, 4) {
            self.bend(total);
            self.try_counts();
        }
        if !self.random.once_in(4) {
            self.set_counts(total);
            self.add(Op::Finish);
            let length = self.random.between(0, 130);
            self.feed(length);
            self.add(Op::Finish);
        }
    }

    /// Sets one count or both, the digest's total being so many bytes.
    fn bend(&mut self, total: u64) {
        match self.random.below(8) {
            0 | 1 => {
                let waiting = self.odd_waiting(total % BLOCK);
                self.set_count(WAITING, waiting);
            }
            2 => {
                let total = self.odd_total(total);
                self.set_count(TOTAL, total);
            }
            3 | 4 => {
                let total = self.fine_total(total);
                self.set_counts(total);
            }
            5 => {
                let total = self.large_total();
                self.set_counts(total);
            }
            6 => {
                // A whole block waits where a total ends a block.
                let blocks = self.random.pick(&[0, 1, 1, 2, PAST / BLOCK - 1]);
                self.set_count(TOTAL, blocks * BLOCK);
                self.set_count(WAITING, BLOCK);
            }
            _ => {
                let field = self.random.pick(&[2, 2, 3, 128, 254, 255]);
                let value = self.random.pick(&[0, 1, 5, BLOCK, u64::MAX]);
                self.set_count(field, value);
            }
        }
    }

    /// A number of waiting bytes near the right one, or far from it.
    fn odd_waiting(&mut self, right: u64) -> u64 {
        self.random.pick(&[
            right + 1,
            right.wrapping_sub(1),
            right ^ 64,
            right + BLOCK,
            right + 256,
            right + (1 << 16),
            right + (1 << 32),
            right + (1 << 63),
            0,
            BLOCK - 1,
            BLOCK,
            u64::MAX,
        ])
    }

    fn odd_total(&mut self, right: u64) -> u64 {
        self.random.pick(&[
            right + 1,
            right.wrapping_sub(1),
            right + 64,
            right + BLOCK,
            right + (1 << 16),
            right + MANY,
            right + PAST,
            right + (1 << 63),
            0,
            TOTAL_BYTES,
            PAST,
            u64::MAX,
        ])
    }

    /// A total that is within its bound.
    fn fine_total(&mut self, right: u64) -> u64 {
        let any = u64::from(self.random.half());
        self.random.pick(&[
            0,
            63,
            right + 1,
            right + 64,
            111,
            112,
            2 * BLOCK - 1,
            2 * BLOCK,
            (right | (BLOCK - 1)),
            MANY - 1,
            MANY,
            MANY + right,
            1 << 31,
            TOTAL_BYTES,
            TOTAL_BYTES - right,
            any,
        ])
    }

    /// A total that is too large.
    fn large_total(&mut self) -> u64 {
        let any = u64::from(self.random.half());
        self.random.pick(&[
            PAST,
            PAST,
            PAST + 1,
            PAST + BLOCK - 1,
            PAST + any,
            2 * PAST,
            (1 << 63) + any,
            u64::MAX,
        ])
    }

    fn try_counts(&mut self) {
        if self.random.once_in(2) {
            self.add(Op::Finish);
        }
        for _ in 0..self.random.between(0, 2) {
            let any = self.random.between(0, 140);
            let length = self.random.pick(&[0, 0, 1, any]);
            self.feed(length);
        }
        self.add(Op::Finish);
    }

    /// A total near its bound, slices up to the bound and beyond it, and a
    /// total past the bound.
    fn full_total(&mut self) {
        self.begun();
        let any = self.random.between(0, 300);
        let left = self.random.pick(&[0, 0, 1, 2, 127, 128, 129, any]);
        self.set_counts(TOTAL_BYTES - left as u64);
        for _ in 0..self.random.between(0, 3) {
            let length = self.random.pick(&[left + 1, left + 1, left + 128, 0]);
            self.feed(length);
        }
        if self.random.once_in(3) {
            // Both 27 and 16 apply.
            let waiting = self.random.pick(&[BLOCK, 1 << 32]);
            self.set_count(WAITING, waiting);
            self.feed(left + 1);
            self.set_counts(TOTAL_BYTES - left as u64);
        }
        self.add(Op::Finish);
        self.feed(left);
        self.add(Op::Finish);
        for length in [0, 1] {
            self.feed(length);
        }
        self.add(Op::Finish);
        self.set_counts(PAST);
        let length = self.random.below(2);
        self.feed(length);
        self.add(Op::Finish);
    }

    /// Slices of about the greatest length, alone and with other faults, which
    /// take turns from seed to seed.
    pub(super) fn long_slices(&mut self) {
        let turn = self.seed as usize / 64;
        self.begun();
        self.feed(SLICE_BYTES);
        self.feed(SLICE_BYTES + 1);
        self.add(Op::Finish);
        match turn % 4 {
            0 => {
                // 27 and 10 apply.
                self.set_count(WAITING, BLOCK);
                self.feed(SLICE_BYTES + 1);
            }
            1 => {
                // 10 and 16 apply.
                self.set_counts(TOTAL_BYTES - turn as u64);
                self.feed(SLICE_BYTES + 1);
            }
            2 => {
                // All three apply.
                self.set_count(TOTAL, TOTAL_BYTES);
                self.set_count(WAITING, 5);
                self.feed(SLICE_BYTES + 1);
            }
            _ => {
                // Up to the greatest total, or one byte short of that.
                let total = TOTAL_BYTES - SLICE_BYTES as u64;
                self.set_counts(total + turn as u64 / 4 % 2);
                self.feed(SLICE_BYTES);
            }
        }
        self.add(Op::Finish);
        self.add(Op::Begin);
        self.feed(3);
        let any = self.random.below(200);
        let longer = self.random.pick(&[2, 66, 2 + any, SLICE_BYTES + 1]);
        self.feed(SLICE_BYTES + longer);
        self.add(Op::Finish);
    }

    /// A small operation on the running digest, among others.
    pub(super) fn push_running(&mut self) {
        match self.random.below(10) {
            0 | 1 => self.add(Op::Begin),
            2 => self.bend(0),
            3..=6 => {
                let any = self.random.between(0, 140);
                let length = self.random.pick(&[0, 1, 16, 128, any]);
                self.feed(length);
            }
            _ => self.add(Op::Finish),
        }
    }
}
