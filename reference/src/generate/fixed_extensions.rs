//! Every case of an extension: registers, lengths, units, cuts, and registers
//! that are set from outside.

use super::fixed_svns::{boot, cold_boot, every_boot, set, stores};
use super::images::odd_image_2;
use crate::checksum::sealed;
use crate::layout::*;
use crate::mailbox::booted;
use crate::random::Random;
use crate::script::{Mail, Op};
use crate::sha384::DIGEST_BYTES;
use std::ops::RangeInclusive;

/// Registers that a part of the number would bring within the bounds, and the
/// greatest number.
const FAR: [u32; 9] = [
    0x104,
    0x11E,
    0x1_0004,
    0x0400_0000,
    0x1E00_0000,
    0x8000_0004,
    0xFFFF_FF04,
    0xFFFF_FFE4,
    u32::MAX,
];

/// What a work's register is set to.
const SET_TO: [u64; 12] = [
    4,
    18,
    30,
    0,
    3,
    31,
    32,
    36,
    0x104,
    (1 << 32) + 4,
    1 << 63,
    u64::MAX,
];

/// The register of most works here.
const REGISTER: u32 = 17;

pub(super) fn extensions() -> Vec<Op> {
    [
        registers(),
        lengths(),
        units().into_iter().flat_map(on_unit).collect(),
        all_cuts(),
        all_moves(),
        second_fields(),
        through_boots(),
    ]
    .concat()
}

/// A request of so many bytes. The digest is the register's number and up.
fn request(register: u32, length: usize) -> Mail {
    let first = register as u8;
    let digest = (0..DIGEST_BYTES + 64).map(|i| first.wrapping_add(i as u8));
    let mut bytes = register.to_le_bytes().to_vec();
    bytes.extend(digest);
    bytes.truncate(length.saturating_sub(CHECKSUM_BYTES));
    let mut bytes = sealed(EXTEND, &bytes);
    bytes.truncate(length);
    Mail {
        code: EXTEND,
        caller: 9,
        verdict: 0,
        table: Vec::new(),
        bytes,
        fresh: Vec::new(),
    }
}

fn extend(register: u32) -> Op {
    Op::Request(request(register, 56))
}

/// All registers, and numbers behind them.
fn near() -> RangeInclusive<u32> {
    0..=40
}

/// Every register twice, and random numbers; what is accepted runs to its end.
fn registers() -> Vec<Op> {
    let mut ops = cold_boot().to_vec();
    for register in near().chain(FAR).chain(near()) {
        ops.extend([extend(register), Op::Left, stores(EXTENSION_STORES)]);
        ops.extend([Op::Answer(9), Op::Dump]);
    }
    let mut random = Random::from_seed(1);
    ops.extend((0..256).map(|_| extend(random.half())));
    ops
}

/// Every length with the right checksum, and wrong checksums, with registers
/// within and outside.
fn lengths() -> Vec<Op> {
    let mut ops = cold_boot().to_vec();
    for register in [4, 30, 3, 31, 0x104] {
        ops.extend((0..=100).map(|length| Op::Request(request(register, length))));
        for at in 0..56 {
            let mut mail = request(register, 56);
            mail.bytes[at] ^= 1;
            ops.push(Op::Request(mail));
        }
    }
    ops.push(Op::Left);
    ops
}

/// Units that are fine, off, unfinished, not well formed, full or of a wrong
/// length, and some of this at once. Every register has a value of its own.
fn units() -> Vec<Vec<u32>> {
    let ready = |mut image: Vec<u32>| {
        let from = register(4);
        let values = Random::from_seed(2).words(NODES_AT - from);
        image[from..NODES_AT].copy_from_slice(&values);
        image
    };
    let with = |mut image: Vec<u32>, word: usize, value: u32| {
        image[word] = value;
        image
    };
    let fine = ready(booted());
    let full = ready(odd_image_2());
    let malformed = with(fine.clone(), node(1), 1 << 16 | USED);
    let mut units = vec![
        with(fine.clone(), MARK, 0),
        with(fine.clone(), MARK, 2),
        with(fine.clone(), ATTESTATION, 0),
        with(fine.clone(), ATTESTATION, 2),
        with(fine.clone(), ATTESTATION, u32::MAX),
        with(malformed.clone(), ATTESTATION, 0),
        with(full.clone(), ATTESTATION, 0),
        with(full.clone(), node(7), 6 << 16 | USED),
        with(fine.clone(), register(JOURNEY), 0),
        fine[..IMAGE_WORDS - 1].to_vec(),
        [&fine[..], &[0]].concat(),
        vec![],
    ];
    units.extend([fine, full, malformed]);
    units
}

fn on_unit(unit: Vec<u32>) -> Vec<Op> {
    let mut ops = vec![Op::Image(unit)];
    for register in near().chain(FAR) {
        ops.extend([extend(register), Op::Left]);
        ops.extend([stores(EXTENSION_STORES + 1), Op::Answer(12)]);
    }
    ops.push(Op::Dump);
    ops
}

/// An extension over one that counted, cut or replaced after every number of
/// stores; then an update boot with either verdict.
fn all_cuts() -> Vec<Op> {
    let mut ops = Vec::new();
    for made in 0..=EXTENSION_STORES {
        for verdict in [0, 1] {
            for gone in [vec![Op::Cut], vec![extend(REGISTER)], vec![]] {
                ops.extend(cold_boot());
                ops.extend([extend(REGISTER), stores(EXTENSION_STORES)]);
                ops.extend([extend(REGISTER), stores(made), Op::Left, Op::Dump]);
                ops.extend(gone);
                ops.extend([Op::Update(boot(), verdict), Op::Left]);
                ops.extend([stores(COLD_STORES), Op::Dump]);
                ops.extend([extend(REGISTER), extend(3)]);
            }
        }
    }
    ops
}

/// A register with a value, whose second extension has its register set after
/// every number of stores, is used, and has it set back.
fn all_moves() -> Vec<Op> {
    let mut ops = Vec::new();
    for made in 0..=EXTENSION_STORES {
        for to in SET_TO {
            ops.extend(cold_boot());
            ops.extend([extend(REGISTER), stores(EXTENSION_STORES)]);
            ops.extend([extend(REGISTER), stores(made), set(1, to)]);
            ops.extend([Op::Left, Op::Answer(8), stores(1), Op::Left]);
            ops.extend([stores(EXTENSION_STORES), Op::Answer(8), Op::Dump]);
            ops.extend([set(1, u64::from(REGISTER)), Op::Left]);
            ops.extend([stores(EXTENSION_STORES), Op::Answer(8), Op::Dump]);
        }
    }
    ops
}

/// An extension has no second index.
fn second_fields() -> Vec<Op> {
    let mut ops = Vec::new();
    for made in [0, 7, EXTENSION_STORES] {
        for value in [0, 5, NODES as u64, u64::MAX] {
            ops.extend(cold_boot());
            ops.extend([extend(REGISTER), stores(made), set(2, value)]);
            ops.extend([Op::Left, stores(EXTENSION_STORES), Op::Answer(8), Op::Dump]);
        }
    }
    ops
}

/// Extensions before and after an update, a disabling and a cold boot.
fn through_boots() -> Vec<Op> {
    let all = [4, REGISTER, 30].map(|register| [extend(register), stores(EXTENSION_STORES)]);
    let extended = [all.concat(), vec![Op::Dump]].concat();
    let mut ops = [cold_boot().to_vec(), extended.clone()].concat();
    for boots in every_boot() {
        ops.extend(boots);
        ops.push(Op::Dump);
        ops.extend(extended.clone());
    }
    ops
}
