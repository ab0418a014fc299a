//! Units by the order of their nodes: long ways to the root, loops, parents near
//! the bounds, and the root, the holder and the free nodes at the end; works with
//! nodes near the bounds.

use super::svns::{HIGH, LOW};
use super::Maker;
use crate::layout::*;
use crate::mailbox::booted;
use crate::random::Random;
use crate::script::Op;

/// The nodes and words of an image before 02 gave it more: faults are likely
/// there.
pub const FORMER_NODES: usize = NODES - NODES / 4;
pub const FORMER_WORDS: usize = NODES_AT + FORMER_NODES * NODE_WORDS;

pub(super) const LAST: usize = NODES - 1;

/// Parents near the bounds, and such of which a part is a node's index.
pub(super) const PARENTS: [u32; 12] = [
    LAST as u32,
    NODES as u32,
    FORMER_NODES as u32,
    ROOT_PARENT,
    0x100 | LAST as u32,
    0x100 + NODES as u32,
    NODES as u32 + 1,
    2 * NODES as u32 - 1,
    2 * NODES as u32,
    0x80 | LAST as u32,
    0x8000 | LAST as u32,
    0xFFFF,
];

/// A work's nodes near the bounds, and such of which a part is one.
pub(super) const INDICES: [u64; 11] = [
    LAST as u64,
    NODES as u64,
    FORMER_NODES as u64,
    FORMER_NODES as u64 - 1,
    NODES as u64 + 1,
    2 * NODES as u64 - 1,
    2 * NODES as u64,
    0x100 | LAST as u64,
    (1 << 32) + LAST as u64,
    1 << 63,
    u64::MAX,
];

pub(super) fn ascending() -> Vec<usize> {
    (0..NODES).collect()
}

pub(super) fn descending() -> Vec<usize> {
    (0..NODES).rev().collect()
}

pub(super) fn shuffled(random: &mut Random) -> Vec<usize> {
    let mut order = ascending();
    for last in (1..NODES).rev() {
        order.swap(last, random.between(0, last));
    }
    order
}

/// All nodes but one, in ascending order.
pub(super) fn without(index: usize) -> Vec<usize> {
    (0..NODES).filter(|&other| other != index).collect()
}

pub(super) fn set_handle(image: &mut [u32], index: usize, handle: [u32; HANDLE_WORDS]) {
    image[node(index) + HANDLE..][..HANDLE_WORDS].copy_from_slice(&handle);
}

/// A unit whose used nodes are a chain in that order, the root first; the last
/// has the default handle.
pub fn chain(order: &[usize]) -> Vec<u32> {
    let mut image = booted();
    let root = node_of(&image, 0).to_vec();
    image[node(0)..].fill(0);
    image[node(order[0])..][..NODE_WORDS].copy_from_slice(&root);
    for pair in order.windows(2) {
        image[node(pair[1])] = (pair[0] as u32) << 16 | USED;
        set_handle(&mut image, pair[0], RETIRED_HANDLE);
    }
    image
}

/// The unit with another parent of a used node.
pub(super) fn with_parent(mut image: Vec<u32>, index: usize, parent: u32) -> Vec<u32> {
    image[node(index)] = parent << 16 | USED;
    image
}

/// A chain in which the parent of one place is a later place, or itself: those
/// between are a loop, and what comes behind hangs on it.
pub(super) fn looped(order: &[usize], from: usize, to: usize) -> Vec<u32> {
    with_parent(chain(order), order[from], order[to] as u32)
}

fn any_order(random: &mut Random) -> Vec<usize> {
    match random.below(3) {
        0 => ascending(),
        1 => descending(),
        _ => shuffled(random),
    }
}

type Shape = fn(&mut Random) -> Vec<u32>;

/// The shapes of a unit.
const SHAPES: &[Shape] = &[
    |_| chain(&ascending()),
    |_| chain(&descending()),
    |random| chain(&shuffled(random)),
    |_| chain(&ascending()[..LAST]),
    |_| chain(&ascending()[1..]),
    |_| chain(&descending()[..LAST]),
    |random| chain(&shuffled(random)[..LAST]),
    |random| looped(&any_order(random), 0, LAST),
    |random| looped(&any_order(random), 1, LAST),
    loop_of_two,
    loop_of_two,
    end_of_free_node,
    |random| same_handles(random.between(1, LAST - 1), LAST),
];

/// Two nodes that are each other's parent, and a chain that hangs on them.
fn loop_of_two(random: &mut Random) -> Vec<u32> {
    let from = random.between(1, LAST - 2);
    looped(&any_order(random), from, from + 1)
}

/// The last node is free but for its last word.
fn end_of_free_node(random: &mut Random) -> Vec<u32> {
    let used = random.between(1, LAST);
    let mut image = chain(&ascending()[..used]);
    image[IMAGE_WORDS - 1] = random.pick(&[LOW, HIGH]);
    image
}

/// A chain of all nodes but at most one: none, the last or the first behind the
/// former ones is free.
pub(super) fn nearly_full(which: usize) -> Vec<usize> {
    match which % 3 {
        0 => descending(),
        1 => without(LAST),
        _ => without(FORMER_NODES),
    }
}

/// A chain in that order with another parent of the last.
pub(super) fn ending_in(order: &[usize], parent: u32) -> Vec<u32> {
    with_parent(chain(order), order[order.len() - 1], parent)
}

/// Something odd in the words of a used node.
pub(super) type Oddity = fn(&mut [u32]);

/// What is odd in a node that is neither root nor holder: a second root, bare and
/// dressed as one, neither used nor free, flags, and handles.
pub(super) const ODDITIES: [Oddity; 7] = [
    |words| words[0] = ROOT_PARENT << 16 | USED,
    |words| {
        words[0] = ROOT_PARENT << 16 | USED;
        words[FLAGS] = INTERNAL;
        words[TYPE] = RTJM;
    },
    |words| words[0] += 1,
    |words| words[FLAGS] = INTERNAL,
    |words| words[FLAGS] = 1,
    |words| words[HANDLE] = 1,
    |words| words[HANDLE..][..HANDLE_WORDS].fill(0),
];

/// What is odd in a root.
pub(super) const ROOT_ODDITIES: [Oddity; 3] = [
    |words| words[FLAGS] = 0,
    |words| words[TYPE] = 0,
    |words| words[NODE_CURRENT] ^= 1,
];

/// All nodes in ascending order, from one on and then from node 0 on.
pub(super) fn from(index: usize) -> Vec<usize> {
    let mut order = ascending();
    order.rotate_left(index);
    order
}

/// All nodes are used, and that one is odd; node 1 is the root, node 0 the holder.
pub(super) fn odd_node(index: usize, odd: Oddity) -> Vec<u32> {
    odd_in(chain(&from(1)), index, odd)
}

/// That node is the root, and odd; the one before it is free.
pub(super) fn odd_root(index: usize, odd: Oddity) -> Vec<u32> {
    odd_in(chain(&from(index)[..LAST]), index, odd)
}

/// All nodes are used, and two have one live handle.
pub(super) fn same_handles(one: usize, two: usize) -> Vec<u32> {
    let mut unit = chain(&from(1));
    for index in [one, two] {
        set_handle(&mut unit, index, [9; HANDLE_WORDS]);
    }
    unit
}

fn odd_in(mut unit: Vec<u32>, index: usize, odd: Oddity) -> Vec<u32> {
    odd(&mut unit[node(index)..][..NODE_WORDS]);
    unit
}

/// A unit in turn: of a shape, with a parent near the bounds, or with something
/// odd in the last node.
fn unit(in_turn: usize, random: &mut Random) -> Vec<u32> {
    let all = SHAPES.len() + PARENTS.len() + ODDITIES.len() + ROOT_ODDITIES.len();
    let mut turn = in_turn % all;
    if let Some(shape) = SHAPES.get(turn) {
        return shape(random);
    }
    turn -= SHAPES.len();
    if let Some(&parent) = PARENTS.get(turn) {
        return ending_in(&nearly_full(turn + in_turn / all), parent);
    }
    turn -= PARENTS.len();
    if let Some(&odd) = ODDITIES.get(turn) {
        return odd_node(LAST, odd);
    }
    turn -= ODDITIES.len();
    odd_root(LAST, ROOT_ODDITIES[turn])
}

impl Maker {
    /// A unit and a work's nodes, which take turns from seed to seed.
    pub(super) fn nodes(&mut self) {
        let in_turn = self.seed as usize / 8;
        let unit = unit(in_turn, &mut self.random);
        self.push(Op::Image(unit));
        self.try_tree();
        self.moved_works(in_turn);
    }

    /// A stash and an update on a fresh unit with their nodes set.
    fn moved_works(&mut self, in_turn: usize) {
        let index = |turn: usize| INDICES[turn % INDICES.len()];
        self.push_booted();
        self.push_stash();
        let field = 1 + self.random.below(2) as u8;
        self.set(field, index(in_turn));
        self.use_moved();
        self.push_booted();
        self.push_update(true);
        self.set(1, index(in_turn + 1));
        self.use_moved();
    }

    fn use_moved(&mut self) {
        self.push(Op::Left);
        self.finish();
        self.push(Op::Answer(12));
        self.push(Op::Dump);
    }
}
