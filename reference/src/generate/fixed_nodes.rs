//! Every case of the number of nodes: ways of every length in several orders,
//! loops, parents, the root, the holder and the lowest free node everywhere, the
//! words of the last nodes, works at every node, the last stash, cold boots and
//! image lengths.

use super::fixed_svns::{boot, cold_boot, of_length, set, stash, stashed, stores, updated, FRESH};
use super::nodes::*;
use super::svns::{FOUR_BYTES, HIGH, LOW};
use crate::layout::*;
use crate::random::Random;
use crate::script::Op;

/// The places of a chain, and the nodes, near the bounds.
const NEAR: [usize; 8] = [
    0,
    1,
    2,
    FORMER_NODES - 1,
    FORMER_NODES,
    LAST - 2,
    LAST - 1,
    LAST,
];

/// Lists of operations; none needs what another leaves.
pub(super) fn nodes() -> Vec<Vec<Op>> {
    let units = [
        chains(),
        everywhere(),
        loops(),
        parents(),
        free_words(),
        odd_nodes(),
    ];
    [
        units.concat().into_iter().map(tried).collect(),
        works(),
        vec![filling()],
        last_stashes(),
        cold_boots(),
        lengths(),
    ]
    .concat()
}

/// All that looks at the tree of a unit, and the works that it opens.
fn tried(unit: Vec<u32>) -> Vec<Op> {
    let mut ops = vec![Op::Image(unit), Op::Update(boot(), 0)];
    ops.extend([stash(FRESH), Op::Left, Op::Answer(12)]);
    ops.extend(updated());
    ops.extend(stashed(FRESH));
    ops.extend([Op::Answer(12), Op::Dump]);
    ops
}

fn orders() -> Vec<Vec<usize>> {
    let shuffles = (0..2).map(|seed| shuffled(&mut Random::from_seed(seed)));
    [ascending(), descending()]
        .into_iter()
        .chain(shuffles)
        .collect()
}

/// Chains of every length.
fn chains() -> Vec<Vec<u32>> {
    let of_order = |order: Vec<usize>| (1..=NODES).map(move |used| chain(&order[..used]));
    orders().into_iter().flat_map(of_order).collect()
}

/// The root at every node, with the holder, and the only free node, before it.
fn everywhere() -> Vec<Vec<u32>> {
    (0..NODES).map(|root| chain(&from(root)[..LAST])).collect()
}

/// Loops of one, of two and up to the end, with the holder at the chain's end and
/// at its start.
fn loops() -> Vec<Vec<u32>> {
    let mut units = Vec::new();
    for order in orders() {
        for from in NEAR {
            for to in [from, LAST.min(from + 1), LAST] {
                let unit = looped(&order, from, to);
                let mut other = unit.clone();
                set_handle(&mut other, order[LAST], RETIRED_HANDLE);
                set_handle(&mut other, order[0], DEFAULT_HANDLE);
                units.extend([unit, other]);
            }
        }
    }
    units
}

/// Every index for the parent of a chain's last node, and numbers behind them.
fn parents() -> Vec<Vec<u32>> {
    let all = || (0..NODES as u32).chain(PARENTS);
    let of_order = |order: Vec<usize>| all().map(move |parent| ending_in(&order, parent));
    (0..3).map(nearly_full).flat_map(of_order).collect()
}

/// A free node with one word that is not zero, of the nodes near the end.
fn free_words() -> Vec<Vec<u32>> {
    let mut units = Vec::new();
    for index in [FORMER_NODES, LAST] {
        let unit = chain(&without(index));
        let words = (1..NODE_WORDS).map(|word| (word, LOW));
        let odd = [(0, 2), (0, 1 << 16), (NODE_WORDS - 1, HIGH)];
        for (word, value) in words.chain(odd) {
            let mut unit = unit.clone();
            unit[node(index) + word] = value;
            units.push(unit);
        }
    }
    units
}

/// Something odd in a node near the bounds.
fn odd_nodes() -> Vec<Vec<u32>> {
    let others = NEAR.into_iter().filter(|&index| index > 1);
    let nodes = others.flat_map(|index| ODDITIES.map(|odd| odd_node(index, odd)));
    let roots = NEAR
        .into_iter()
        .flat_map(|index| ROOT_ODDITIES.map(|odd| odd_root(index, odd)));
    let same = NEAR[3..].iter().map(|&index| same_handles(2, index));
    nodes.chain(roots).chain(same).collect()
}

/// Works with each of their nodes set to every one, and to numbers behind them;
/// then the finished ones once more.
fn works() -> Vec<Vec<Op>> {
    let mut lists = Vec::new();
    for (opening, field) in [
        (stash(FOUR_BYTES), 1),
        (stash(FOUR_BYTES), 2),
        (Op::Update(boot(), 1), 1),
    ] {
        for index in (0..NODES as u64).chain(INDICES) {
            let mut ops = cold_boot().to_vec();
            ops.extend([opening.clone(), set(field, index), Op::Left]);
            ops.extend([stores(UPDATE_STORES), Op::Answer(12), Op::Dump]);
            ops.extend([set(field, 0), stores(UPDATE_STORES), set(field, index)]);
            ops.extend([Op::Left, stores(1), Op::Answer(12), Op::Dump]);
            lists.push(ops);
        }
    }
    lists
}

/// More stashes than there are nodes, and boots after them.
fn filling() -> Vec<Op> {
    let mut ops = cold_boot().to_vec();
    for svn in 0..=NODES as u32 {
        ops.extend([stash(svn), Op::Left, stores(STASH_STORES)]);
        ops.extend([Op::Answer(12), Op::Dump]);
    }
    ops.extend(updated());
    ops.push(Op::Update(boot(), 0));
    ops.extend(stashed(FRESH));
    ops.extend([Op::Answer(12), Op::Dump]);
    ops
}

/// The stash that takes the last node, cut after every number of stores.
fn last_stashes() -> Vec<Vec<Op>> {
    let cut_after = |made: usize| {
        let mut ops = vec![Op::Image(chain(&without(LAST)))];
        ops.extend([stash(FOUR_BYTES), stores(made), Op::Left, Op::Dump, Op::Cut]);
        ops.extend([Op::Update(boot(), 0), Op::Left]);
        ops.extend(updated());
        ops.extend([stash(FRESH), Op::Answer(12)]);
        ops
    };
    (0..=STASH_STORES).map(cut_after).collect()
}

/// Cold boots over words that are all set and over all nodes in use, cut near the
/// stores of the former image's end and of this one's.
fn cold_boots() -> Vec<Vec<Op>> {
    let mut lists = Vec::new();
    for unit in [vec![u32::MAX; IMAGE_WORDS], chain(&ascending())] {
        for end in [FORMER_WORDS, node(LAST), COLD_STORES] {
            for made in end - 1..=end + 2 {
                let mut ops = vec![Op::Image(unit.clone()), Op::Cold(boot())];
                ops.extend([Op::Left, stores(made), Op::Left, Op::Dump, Op::Cut]);
                ops.extend(updated());
                lists.push(ops);
            }
        }
    }
    lists
}

fn lengths() -> Vec<Vec<Op>> {
    [
        FORMER_WORDS,
        IMAGE_WORDS - NODE_WORDS,
        IMAGE_WORDS - 1,
        IMAGE_WORDS,
        IMAGE_WORDS + 1,
        IMAGE_WORDS + NODE_WORDS,
    ]
    .map(of_length)
    .to_vec()
}
