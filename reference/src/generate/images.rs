//! Images that no list reaches: trees of any shape, and damage of every sort.

use super::damage::{Drawn, FAULTS};
use super::nodes::{set_handle, shuffled, FORMER_WORDS};
use super::svns::svns;
use super::{Maker, IMAGE_BYTES};
use crate::layout::*;
use crate::mailbox::booted;
use crate::script::{Op, LENT_WORDS};

/// Well formed: the root at 5, retired; node 9 below it, retired; node 2 below
/// node 9, the holder, of type RTJM. Node 0 is free.
pub fn odd_image_1() -> Vec<u32> {
    let mut image = booted();
    image.copy_within(node(0)..node(1), node(5));
    image[node(0)..node(1)].fill(0);
    set_handle(&mut image, 5, RETIRED_HANDLE);
    image[node(9)] = 0x0005_0001;
    set_handle(&mut image, 9, RETIRED_HANDLE);
    image[node(2)] = 0x0009_0001;
    image[node(2) + TAG] = 7;
    image[node(2) + TYPE] = RTJM;
    image[node(2) + LOCALITY] = 4;
    image
}

/// Well formed with as many steps as there may be: node i's parent is i + 1,
/// the root is the last node and node 0 the holder.
pub fn odd_image_2() -> Vec<u32> {
    let mut image = booted();
    image.copy_within(node(0)..node(1), node(NODES - 1));
    for index in 0..NODES - 1 {
        image[node(index)..node(index + 1)].fill(0);
        image[node(index)] = (index as u32 + 1) << 16 | USED;
    }
    for index in 1..NODES {
        set_handle(&mut image, index, RETIRED_HANDLE);
    }
    image
}

/// A script with more bytes gets no further image: about two, and what is tried
/// on them.
const MOST_BEFORE_IMAGE: usize = 2 * IMAGE_BYTES + 3_000;

/// A script with more bytes gets no two images at once.
const MOST_BEFORE_TWINS: usize = IMAGE_BYTES + 1_000;

/// Lengths that an image may not have: by a word or a node, and the former one.
const WRONG_LENGTHS: [usize; 9] = [
    0,
    1,
    2,
    IMAGE_WORDS - 1,
    IMAGE_WORDS + 1,
    LENT_WORDS,
    FORMER_WORDS,
    IMAGE_WORDS - NODE_WORDS,
    IMAGE_WORDS + NODE_WORDS,
];

/// The bits of a parent's index in a wild image: numbers behind the nodes have
/// no more.
const PARENT_BITS: u32 = (NODES as u32 + 1).next_power_of_two() - 1;

impl Maker {
    pub(super) fn images(&mut self, count: usize) {
        for turn in 0..count {
            if self.size > MOST_BEFORE_IMAGE {
                break;
            }
            let words = self.image(turn);
            let whole = words.len() == IMAGE_WORDS;
            if whole && self.size < MOST_BEFORE_TWINS && self.random.once_in(12) {
                self.push_twins(&words);
            } else {
                self.push(Op::Image(words.clone()));
                self.try_image(&words);
            }
        }
    }

    fn image(&mut self, turn: usize) -> Vec<u32> {
        if turn == 0 && self.seed % 32 == 3 {
            let in_turn = self.seed as usize / 32;
            return self.image_of_length(WRONG_LENGTHS[in_turn % WRONG_LENGTHS.len()]);
        }
        match self.random.below(16) {
            0 => odd_image_1(),
            1 => odd_image_2(),
            2 if self.random.once_in(2) => self.wild_image(),
            3 => {
                let length = self.random.pick(&WRONG_LENGTHS);
                self.image_of_length(length)
            }
            4 | 5 => {
                // A well formed one, whatever else it holds.
                self.drawn().words
            }
            _ => {
                let mut drawn = self.drawn();
                // The sorts of damage take turns from seed to seed.
                let fault = (self.seed as usize / 4 * 5 + turn * 11) % FAULTS.len();
                FAULTS[fault](&mut drawn, &mut self.random);
                if self.random.once_in(5) {
                    let fault = self.random.pick(FAULTS);
                    fault(&mut drawn, &mut self.random);
                }
                drawn.words
            }
        }
    }

    /// Random words, some of them in places that matter.
    fn wild_image(&mut self) -> Vec<u32> {
        let mut words = self.random.words(IMAGE_WORDS);
        if !self.random.once_in(3) {
            words[MARK] = DONE;
        }
        if !self.random.once_in(3) {
            words[ATTESTATION] = ON;
        }
        if self.random.once_in(2) {
            for index in 0..NODES {
                words[node(index)] &= PARENT_BITS << 16 | USED;
            }
        }
        words
    }

    /// An image of a wrong length; of the greatest only in a script that is short.
    fn image_of_length(&mut self, length: usize) -> Vec<u32> {
        let length = if length == LENT_WORDS && self.size > 2_500 {
            IMAGE_WORDS - 2
        } else {
            length
        };
        let mut words = odd_image_1();
        words.resize(length, 0);
        if length > 0 && self.random.once_in(3) {
            words[MARK] = 0;
        }
        words
    }

    /// A well formed tree of any shape in an image that boots.
    fn drawn(&mut self) -> Drawn {
        let mut order = shuffled(&mut self.random);
        if self.random.once_in(4) {
            order.sort_unstable();
        }
        let used = match self.random.below(6) {
            0 => NODES,
            1 => NODES - 1,
            2 => self.random.between(1, 4),
            _ => self.random.between(2, NODES),
        };
        let (used, free) = order.split_at(used);
        let shape = self.random.below(3);
        // Past the last there is none.
        let none = usize::from(self.random.once_in(4));
        let holder = self.random.below(used.len() + none);
        let lives = self.random.below(4);
        let mut words = self.random.words(NODES_AT);
        words.resize(IMAGE_WORDS, 0);
        words[MARK] = DONE;
        words[ATTESTATION] = ON;
        for (place, &index) in used.iter().enumerate() {
            let above = match shape {
                0 => place.saturating_sub(1),
                1 => 0,
                _ => self.random.below(place.max(1)),
            };
            let parent = if place == 0 {
                ROOT_PARENT
            } else {
                used[above] as u32
            };
            let handle = match lives {
                _ if place == holder => DEFAULT_HANDLE,
                0 | 1 => RETIRED_HANDLE,
                2 if self.random.once_in(2) => RETIRED_HANDLE,
                _ => self.live_handle(place),
            };
            let kind = self.word();
            let node = &mut words[node(index)..][..NODE_WORDS];
            node.copy_from_slice(&self.random.words(NODE_WORDS));
            node[0] = parent << 16 | USED;
            node[HANDLE..][..HANDLE_WORDS].copy_from_slice(&handle);
            node[FLAGS] = if place == 0 { INTERNAL } else { 0 };
            node[TYPE] = if place == 0 { RTJM } else { kind };
            if self.random.once_in(2) {
                node[SVN] = self.random.pick(&svns(kind, node[LOCALITY]));
            }
        }
        let current = node(used[0]) + NODE_CURRENT;
        words.copy_within(current..current + DIGEST_WORDS, register(JOURNEY));
        if self.random.once_in(3) {
            words[SPARE..SECRET].fill(0);
        }
        if self.random.once_in(4) {
            words[SECRET..][..DIGEST_WORDS].fill(0);
        }
        Drawn {
            words,
            root: used[0],
            holder: used.get(holder).copied().unwrap_or(used[0]),
            others: used[1..].to_vec(),
            free: free.to_vec(),
        }
    }

    /// A handle that no other place has: any, or with its number in one word.
    fn live_handle(&mut self, place: usize) -> [u32; HANDLE_WORDS] {
        if self.random.once_in(2) {
            let words = self.random.words(HANDLE_WORDS);
            return std::array::from_fn(|i| words[i]);
        }
        let mut handle = self.random.pick(&[[7; HANDLE_WORDS], DEFAULT_HANDLE]);
        handle[HANDLE_WORDS - 1] = 1 + place as u32;
        handle
    }

    /// Every opening on the image that is lent, then one work to its end.
    fn try_image(&mut self, image: &[u32]) {
        self.push_update(true);
        self.push(Op::Left);
        self.push_stash();
        self.push(Op::Left);
        self.push(Op::Answer(12));
        self.push_update(false);
        if self.random.once_in(3) {
            self.push_bad_boot();
        }
        for _ in 0..self.random.between(1, 3) {
            self.push_bad_manifest();
        }
        if image.len() == IMAGE_WORDS {
            self.try_calls(image);
        } else {
            self.push_call();
        }
        if self.random.once_in(3) {
            self.push_refused_request();
        }
        if self.random.once_in(4) {
            self.push_any_request();
            self.peek();
        }
        if self.random.once_in(4) {
            // Neither attestation nor the tree counts.
            self.push_small_request();
            self.push(Op::Answer(ANSWER_MAX as u16));
        }
        if self.random.once_in(2) {
            // The tree does not count.
            self.push_extension();
            self.push(Op::Left);
        }
        if self.random.once_in(4) {
            self.push_outside();
        }
        for _ in 0..self.random.between(1, 3) {
            match self.random.below(7) {
                0..=2 => self.push_stash(),
                3 | 4 => self.push_update(true),
                5 => self.push_extension(),
                _ => self.push_disable(),
            }
            if self.random.once_in(4) {
                let part = self.random.between(0, UPDATE_STORES);
                self.push_stores(part);
                self.push(Op::Dump);
            }
            self.finish();
            self.push_answer();
            self.push(Op::Dump);
        }
        if self.random.once_in(3) {
            self.push_cold();
            self.finish();
            self.push(Op::Dump);
        }
    }
}
