//! Damage to a tree that is well formed: one sort, one function.

use super::svns::{HIGH, LOW};
use crate::layout::*;
use crate::random::Random;

/// An image in the making, with what the damage needs to know.
pub(super) struct Drawn {
    pub words: Vec<u32>,
    pub root: usize,
    /// The holder of the default handle; the root if there is none.
    pub holder: usize,
    /// Used nodes other than the root.
    pub others: Vec<usize>,
    pub free: Vec<usize>,
}

impl Drawn {
    fn node(&mut self, index: usize) -> &mut [u32] {
        &mut self.words[node(index)..][..NODE_WORDS]
    }

    fn root(&mut self) -> &mut [u32] {
        self.node(self.root)
    }

    /// A free node, if there is one.
    fn free(&mut self, random: &mut Random) -> Option<&mut [u32]> {
        let free = one_of(&self.free, random)?;
        Some(self.node(free))
    }

    /// A used node other than the root, if there is one.
    fn other(&mut self, random: &mut Random) -> Option<&mut [u32]> {
        let other = one_of(&self.others, random)?;
        Some(self.node(other))
    }

    fn any_used(&self, random: &mut Random) -> usize {
        let place = random.below(self.others.len() + 1);
        self.others.get(place).copied().unwrap_or(self.root)
    }

    fn set_handle(&mut self, index: usize, handle: [u32; HANDLE_WORDS]) {
        self.node(index)[HANDLE..][..HANDLE_WORDS].copy_from_slice(&handle);
    }
}

fn one_of(indices: &[usize], random: &mut Random) -> Option<usize> {
    (!indices.is_empty()).then(|| random.pick(indices))
}

fn set_parent(node: &mut [u32], parent: u32) {
    node[0] = parent << 16 | node[0] & 0xFFFF;
}

/// A word that is neither 0 nor 1 but could be taken for one of them.
fn odd_word(random: &mut Random) -> u32 {
    let any = random.half();
    random.pick(&[
        2,
        3,
        0x0100,
        0x0101,
        0x0001_0000,
        0x0001_0001,
        0x0100_0000,
        0x0100_0001,
        0x8000_0001,
        0xFFFF_FFFF,
        0xFFFF_FFFE,
        any,
    ])
}

type Fault = fn(&mut Drawn, &mut Random);

/// The sorts of damage; some come more often.
pub(super) const FAULTS: &[Fault] = &[
    |drawn, _| drawn.words[MARK] = 0,
    |drawn, random| drawn.words[MARK] = odd_word(random),
    |drawn, _| drawn.words[ATTESTATION] = 0,
    |drawn, random| drawn.words[ATTESTATION] = odd_word(random),
    used_low_half,
    free_low_half,
    free_high_half,
    free_word,
    free_word,
    free_svn,
    second_root,
    no_root,
    odd_root_parent,
    odd_parent,
    odd_parent,
    own_parent,
    cycle_of_two,
    cycle_of_two,
    cycle_of_all,
    free_parent,
    |drawn, _| drawn.root()[FLAGS] = 0,
    |drawn, random| drawn.root()[FLAGS] |= 1 << random.below(31),
    internal_other,
    any_flag,
    odd_root_type,
    root_type_of_other,
    odd_handle,
    odd_handle,
    odd_handle,
    holder_with_one_word,
    two_holders,
    two_holders,
    same_handle,
    same_handle,
    nearly_same_handle,
    all_retired,
    |drawn, random| {
        let word = random.pick(&[0, 1, 7, u32::MAX]);
        let used = drawn.any_used(random);
        drawn.node(used)[LOCALITY] = word;
    },
    |drawn, _| drawn.set_handle(drawn.holder, RETIRED_HANDLE),
    |drawn, random| {
        let word = NODE_CURRENT + random.below(DIGEST_WORDS);
        drawn.root()[word] ^= 1 << random.below(32);
    },
    end_of_journey,
    |drawn, _| drawn.root()[NODE_CUMULATIVE] ^= 1,
];

fn used_low_half(drawn: &mut Drawn, random: &mut Random) {
    let used = drawn.any_used(random);
    let low = random.pick(&[0, 2, 3, 0x0101, 0x8001, 0xFFFF]);
    let word = &mut drawn.node(used)[0];
    *word = *word & 0xFFFF_0000 | low;
}

fn free_low_half(drawn: &mut Drawn, random: &mut Random) {
    if let Some(free) = drawn.free(random) {
        free[0] = random.pick(&[2, 4, 0x0100, 0x8000, 1, 0xFFFE]);
    }
}

fn free_high_half(drawn: &mut Drawn, random: &mut Random) {
    if let Some(free) = drawn.free(random) {
        free[0] = random.pick(&[1, 5, 0x00FF, 0xFFFF, 0x8000]) << 16;
    }
}

fn free_word(drawn: &mut Drawn, random: &mut Random) {
    if let Some(free) = drawn.free(random) {
        let at = random.between(1, NODE_WORDS - 1);
        free[at] = random.pick(&[1, 0x8000_0000, u32::MAX]);
    }
}

fn free_svn(drawn: &mut Drawn, random: &mut Random) {
    if let Some(free) = drawn.free(random) {
        free[SVN] = random.pick(&[LOW, HIGH]);
    }
}

/// A second root, as it stands or dressed as one.
fn second_root(drawn: &mut Drawn, random: &mut Random) {
    if let Some(other) = drawn.other(random) {
        set_parent(other, ROOT_PARENT);
        if random.once_in(2) {
            other[FLAGS] = INTERNAL;
            other[TYPE] = RTJM;
        }
    }
}

fn no_root(drawn: &mut Drawn, random: &mut Random) {
    let parent = one_of(&drawn.others, random).unwrap_or(drawn.root);
    set_parent(drawn.root(), parent as u32);
}

fn odd_root_parent(drawn: &mut Drawn, random: &mut Random) {
    let odd = random.pick(&[0xFFFF, 0x01FF, 0xFF00, 0x00FE, 0x007F]);
    set_parent(drawn.root(), odd);
}

fn odd_parent(drawn: &mut Drawn, random: &mut Random) {
    if let Some(other) = drawn.other(random) {
        let old = other[0] >> 16;
        let nodes = NODES as u32;
        let odd = random.pick(&[
            nodes,
            nodes + 1,
            0x0040,
            0x00FE,
            0xFFFF,
            0x01FF,
            0x0100 | old,
            0x0100 | old,
            0x8000 | old,
        ]);
        set_parent(other, odd);
    }
}

fn own_parent(drawn: &mut Drawn, random: &mut Random) {
    if let Some(other) = one_of(&drawn.others, random) {
        set_parent(drawn.node(other), other as u32);
    }
}

fn cycle_of_two(drawn: &mut Drawn, random: &mut Random) {
    if drawn.others.len() >= 2 {
        let place = random.between(1, drawn.others.len() - 1);
        let (one, two) = (drawn.others[place - 1], drawn.others[place]);
        set_parent(drawn.node(one), two as u32);
        set_parent(drawn.node(two), one as u32);
    }
}

/// All nodes but the root in a cycle, or in a chain below the root's child.
fn cycle_of_all(drawn: &mut Drawn, random: &mut Random) {
    let others = drawn.others.clone();
    let mut above = others.last().copied();
    for &index in &others {
        set_parent(drawn.node(index), above.unwrap_or(index) as u32);
        above = Some(index);
    }
    if let (Some(last), true) = (above, others.len() > 1 && random.once_in(2)) {
        let root = drawn.root as u32;
        set_parent(drawn.node(last), root);
    }
}

fn free_parent(drawn: &mut Drawn, random: &mut Random) {
    let free = one_of(&drawn.free, random);
    if let (Some(other), Some(free)) = (drawn.other(random), free) {
        set_parent(other, free as u32);
    }
}

fn internal_other(drawn: &mut Drawn, random: &mut Random) {
    if let Some(other) = drawn.other(random) {
        other[FLAGS] = INTERNAL;
    }
}

fn any_flag(drawn: &mut Drawn, random: &mut Random) {
    let used = drawn.any_used(random);
    drawn.node(used)[FLAGS] ^= 1 << random.below(32);
}

fn odd_root_type(drawn: &mut Drawn, random: &mut Random) {
    let bit = random.below(32);
    drawn.root()[TYPE] = random.pick(&[RTJM ^ (1 << bit), 0, RTJM.swap_bytes()]);
}

fn root_type_of_other(drawn: &mut Drawn, random: &mut Random) {
    if let Some(other) = drawn.other(random) {
        other[TYPE] = RTJM;
    }
}

/// A handle that is likely nobody's.
fn odd_handle(drawn: &mut Drawn, random: &mut Random) {
    let used = drawn.any_used(random);
    let word = &mut drawn.node(used)[HANDLE + random.below(HANDLE_WORDS)];
    *word = random.pick(&[1, 0xFFFF_FFFE, 0xFFFF_0000, !*word]);
}

/// One word of the holder's handle is as a retired one's.
fn holder_with_one_word(drawn: &mut Drawn, random: &mut Random) {
    drawn.node(drawn.holder)[HANDLE + random.below(HANDLE_WORDS)] = u32::MAX;
}

fn two_holders(drawn: &mut Drawn, random: &mut Random) {
    let used = drawn.any_used(random);
    let second = if used == drawn.holder {
        drawn.root
    } else {
        used
    };
    drawn.set_handle(second, DEFAULT_HANDLE);
}

/// Two nodes with one live handle.
fn same_handle(drawn: &mut Drawn, random: &mut Random) {
    let handle = random.pick(&[[7; HANDLE_WORDS], [0, 0, 0, 0, 1], [1, 0, 0, 0, 0]]);
    two_with(drawn, random, [handle; 2]);
}

/// No handle is live.
fn all_retired(drawn: &mut Drawn, _: &mut Random) {
    drawn.set_handle(drawn.root, RETIRED_HANDLE);
    for index in drawn.others.clone() {
        drawn.set_handle(index, RETIRED_HANDLE);
    }
}

/// Two nodes whose handles have all words but one in common.
fn nearly_same_handle(drawn: &mut Drawn, random: &mut Random) {
    let handle = random.pick(&[[7; HANDLE_WORDS], DEFAULT_HANDLE, RETIRED_HANDLE]);
    let mut other = handle;
    other[random.below(HANDLE_WORDS)] ^= 1 << random.below(32);
    two_with(drawn, random, [handle, other]);
}

/// Gives two nodes these handles, the root and another.
fn two_with(drawn: &mut Drawn, random: &mut Random, handles: [[u32; HANDLE_WORDS]; 2]) {
    drawn.set_handle(drawn.root, handles[0]);
    if let Some(other) = one_of(&drawn.others, random) {
        drawn.set_handle(other, handles[1]);
    }
}

/// The first word or the last of PCR3.
fn end_of_journey(drawn: &mut Drawn, random: &mut Random) {
    let at = random.pick(&[0, DIGEST_WORDS - 1]);
    drawn.words[register(JOURNEY) + at] ^= 1 << random.below(32);
}
