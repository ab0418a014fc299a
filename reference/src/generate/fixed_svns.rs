//! Every case of an svn: its value, the holder's before it, cuts, nodes that are
//! free or used, and image lengths.

use super::images::{odd_image_1, odd_image_2};
use super::svns::{mail, FOUR_BYTES, HIGH, LOW};
use crate::checksum::sealed;
use crate::layout::*;
use crate::mailbox::{booted, BOOTED_WITH};
use crate::requests::Stash;
use crate::script::{BootBytes, Mail, Op};

/// The type and the caller of all stashes here.
const KIND: u32 = 0x1413_1211;
const CALLER: u32 = 0x2423_2221;

/// An svn that is no other stash's.
pub(super) const FRESH: u32 = 0x8765_4321;

/// Lists of operations; none needs what another leaves.
pub(super) fn svns() -> Vec<Vec<Op>> {
    [
        all_values(),
        all_pairs(),
        all_cuts(),
        alone(),
        free_nodes(),
        used_nodes(),
        vec![through_boots()],
        lengths(),
    ]
    .concat()
}

/// A stash whose bytes are all different, but for the svn's.
fn with(svn: u32) -> Stash {
    Stash {
        kind: KIND,
        digest: std::array::from_fn(|i| 0x40 + i as u8),
        svn,
        caller: CALLER,
    }
}

pub(super) fn stash(svn: u32) -> Op {
    Op::Request(mail(&with(svn)))
}

pub(super) fn stores(count: usize) -> Op {
    Op::Store(count as u32)
}

/// A whole stash.
pub(super) fn stashed(svn: u32) -> [Op; 2] {
    [stash(svn), stores(STASH_STORES)]
}

pub(super) fn boot() -> BootBytes {
    BOOTED_WITH.into()
}

/// A whole cold boot.
pub(super) fn cold_boot() -> [Op; 2] {
    [Op::Cold(boot()), stores(COLD_STORES)]
}

/// An update, one that is kept, a disabling, an update after it, and a cold boot.
pub(super) fn every_boot() -> [Vec<Op>; 5] {
    let disable = Op::Request(Mail {
        code: DISABLE,
        bytes: sealed(DISABLE, &[]),
        ..mail(&with(0))
    });
    [
        vec![Op::Update(boot(), 1), stores(UPDATE_STORES)],
        vec![Op::Update(boot(), 0)],
        vec![disable, stores(DISABLING_STORES)],
        vec![Op::Update(boot(), 1), stores(DISABLING_STORES)],
        cold_boot().to_vec(),
    ]
}

/// A whole update, and the image.
pub(super) fn updated() -> [Op; 3] {
    [Op::Update(boot(), 1), stores(UPDATE_STORES), Op::Dump]
}

pub(super) fn set(field: u8, value: u64) -> Op {
    Op::Set { field, value }
}

/// Every bit alone, numbers near bounds, and what else is in a stash.
fn values() -> Vec<u32> {
    let last_of_digest = little(&with(0).digest[DIGEST_WORDS * 4 - 4..]);
    let mut values: Vec<u32> = (0..32).map(|bit| 1 << bit).collect();
    values.extend([0, 3, 127, 129, 0xFFFF, 0x1_0001, HIGH - 1, u32::MAX]);
    values.extend([FOUR_BYTES, FOUR_BYTES.swap_bytes(), RTJM]);
    values.extend([KIND, CALLER, last_of_digest]);
    values
}

/// Every value in a stash, as many to a unit as it takes; then an update and a
/// boot that is kept.
fn all_values() -> Vec<Vec<Op>> {
    let on_unit = |values: &[u32]| {
        let mut ops = cold_boot().to_vec();
        for &svn in values {
            ops.extend([stash(svn), Op::Left, stores(STASH_STORES)]);
            ops.extend([Op::Answer(13), Op::Dump]);
        }
        ops.extend(updated());
        ops.extend([Op::Update(boot(), 0), Op::Dump]);
        ops
    };
    values().chunks(NODES - 1).map(on_unit).collect()
}

/// A stash with each svn over one with each.
fn all_pairs() -> Vec<Vec<Op>> {
    let each = [0, 1, 2, HIGH - 1, HIGH, u32::MAX];
    let pairs = each
        .iter()
        .flat_map(|&first| each.map(|second| (first, second)));
    pairs
        .map(|(first, second)| {
            let mut ops = cold_boot().to_vec();
            ops.extend(stashed(first));
            ops.extend(stashed(second));
            ops.extend([Op::Answer(12), Op::Dump]);
            ops
        })
        .collect()
}

/// A stash over one that counted, cut or replaced after every number of stores;
/// then an update boot with either verdict, and another stash.
fn all_cuts() -> Vec<Vec<Op>> {
    let mut lists = Vec::new();
    for made in 0..=STASH_STORES {
        for verdict in [0, 1] {
            for gone in [vec![Op::Cut], vec![stash(LOW)], vec![]] {
                let mut ops = cold_boot().to_vec();
                ops.extend(stashed(FRESH));
                ops.extend([stash(FOUR_BYTES), stores(made), Op::Left, Op::Dump]);
                ops.extend(gone);
                ops.extend([Op::Update(boot(), verdict), Op::Left]);
                ops.extend([stores(UPDATE_STORES), Op::Dump]);
                ops.extend(stashed(HIGH));
                ops.push(Op::Dump);
                lists.push(ops);
            }
        }
    }
    lists
}

/// The stores around an svn's, each alone and at every node.
fn alone() -> Vec<Vec<Op>> {
    let mut lists = Vec::new();
    for index in 0..NODES {
        for position in [BEFORE_SVN - 1, BEFORE_SVN, BEFORE_SVN + 1] {
            let mut ops = cold_boot().to_vec();
            ops.extend(stashed(FRESH));
            ops.extend([stash(FOUR_BYTES), set(1, index as u64)]);
            ops.extend([set(0, position as u64), stores(1), Op::Left, Op::Dump]);
            ops.extend([Op::Update(boot(), 0), Op::Update(boot(), 1), stash(LOW)]);
            lists.push(ops);
        }
    }
    lists
}

/// The image with one more svn.
fn with_svn(mut image: Vec<u32>, index: usize, svn: u32) -> Vec<u32> {
    image[node(index) + SVN] = svn;
    image
}

/// An svn in each node that is free, and nothing else in it.
fn free_nodes() -> Vec<Vec<Op>> {
    let mut lists = Vec::new();
    for index in 0..NODES {
        let unit = if index == 0 { odd_image_1() } else { booted() };
        for svn in [LOW, HIGH] {
            let mut ops = vec![Op::Image(with_svn(unit.clone(), index, svn))];
            ops.extend([Op::Update(boot(), 0), stash(FRESH), Op::Left]);
            ops.extend(updated());
            ops.extend([stash(FRESH), Op::Answer(12)]);
            lists.push(ops);
        }
    }
    lists
}

/// Every node but the first is used; the root is the last.
fn one_free() -> Vec<u32> {
    let mut image = odd_image_2();
    image[node(0)..node(1)].fill(0);
    image[node(1) + HANDLE..][..HANDLE_WORDS].copy_from_slice(&DEFAULT_HANDLE);
    image
}

/// An svn in each node that is used, and in all of them; no boot and no stash
/// but the cold boot at the end alters it.
fn used_nodes() -> Vec<Vec<Op>> {
    let used = 1..NODES;
    let own = |index: usize| HIGH + index as u32;
    let all = used.clone().fold(one_free(), |image, index| {
        with_svn(image, index, own(index))
    });
    let one = used.map(|index| with_svn(one_free(), index, own(index)));
    one.chain([all])
        .map(|image| {
            let mut ops = vec![Op::Image(image), Op::Update(boot(), 0), Op::Left];
            ops.extend(updated());
            ops.extend(stashed(FRESH));
            ops.push(Op::Dump);
            ops.extend(updated());
            ops.extend(cold_boot());
            ops.push(Op::Dump);
            ops
        })
        .collect()
}

/// Stashes before and after an update, a kept boot and a disabling, and a cold
/// boot over all.
fn through_boots() -> Vec<Op> {
    let mut ops = cold_boot().to_vec();
    for (svn, boots) in (FRESH..).zip(every_boot()) {
        ops.extend(stashed(svn));
        ops.extend(boots);
        ops.push(Op::Dump);
    }
    ops
}

/// Images that lack a word or have one too many, and one of nodes without svns.
fn lengths() -> Vec<Vec<Op>> {
    let lengths = [IMAGE_WORDS - NODES, IMAGE_WORDS - 1, IMAGE_WORDS + 1];
    lengths.map(of_length).to_vec()
}

/// Every opening on an image of that length.
pub(super) fn of_length(length: usize) -> Vec<Op> {
    let mut image = booted();
    image.resize(length, 0);
    let mut ops = vec![Op::Image(image)];
    for opening in [Op::Cold(boot()), Op::Update(boot(), 1), stash(FRESH)] {
        ops.extend([opening, Op::Left, stores(1), Op::Dump]);
    }
    ops
}
