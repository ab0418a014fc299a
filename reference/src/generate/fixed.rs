//! Inputs that have no seed: they go through every case of the running digest,
//! of a boot's inputs, of an svn, of the number of nodes, of an extension, of a
//! tree command and of a journal entry.

use super::fixed_boots::boot_inputs;
use super::fixed_entries::entries;
use super::fixed_extensions::extensions;
use super::fixed_nodes::nodes;
use super::fixed_svns::svns;
use super::fixed_trees::trees;
use super::slices::{cuts, BLOCK, MANY, PAST};
use crate::layout::{SLICE_BYTES, TOTAL_BYTES};
use crate::random::Random;
use crate::script::{encode, Op, INPUT_BYTES, TOTAL, WAITING};
use crate::sha384::BLOCK_BYTES;

/// The length of a message that is cut in three everywhere.
const IN_THREE: usize = BLOCK_BYTES + 2;

/// The published message of one million letters.
const MILLION: usize = 1_000_000;

/// The inputs; none is longer than what is used of one, but for the second
/// slice to the end.
pub fn fixed_inputs() -> Vec<Vec<u8>> {
    let mut inputs = vec![
        encode(&in_steps()),
        encode(&all_counts()),
        encode(&long_slices()),
        encode(&one_million_letters()),
    ];
    inputs.extend(in_pieces(cuts().into_iter().map(cut_in_two)));
    inputs.extend(in_pieces(pairs().map(cut_in_three)));
    inputs.extend([slice_to_the_end(0), slice_to_the_end(1)]);
    inputs.push(encode(&boot_inputs()));
    inputs.push(extension_input());
    inputs.extend(svn_inputs());
    inputs.extend(node_inputs());
    inputs.extend(tree_inputs());
    inputs.extend(entry_inputs());
    inputs
}

/// Every case of an extension.
pub fn extension_input() -> Vec<u8> {
    encode(&extensions())
}

/// Every case of an svn.
pub fn svn_inputs() -> Vec<Vec<u8>> {
    in_pieces(svns().into_iter())
}

/// Every case of the number of nodes.
pub fn node_inputs() -> Vec<Vec<u8>> {
    in_pieces(nodes().into_iter())
}

/// Every case of a tree command, in several inputs.
pub fn tree_inputs() -> Vec<Vec<u8>> {
    in_pieces_of(INPUT_BYTES / 8, trees().into_iter())
}

/// Every case of a journal entry, in several inputs.
pub fn entry_inputs() -> Vec<Vec<u8>> {
    in_pieces_of(INPUT_BYTES / 8, entries().into_iter())
}

fn message(length: usize) -> Vec<u8> {
    Random::from_seed(length as u64).bytes(length)
}

/// A digest of a message in slices that end at these places.
fn cut_at(message: &[u8], places: &[usize]) -> Vec<Op> {
    let mut ops = vec![Op::Begin];
    let mut from = 0;
    for &to in places {
        ops.push(Op::Feed(message[from..to].to_vec()));
        from = to;
    }
    ops.push(Op::Finish);
    ops
}

fn cut_in_two((length, cut): (usize, usize)) -> Vec<Op> {
    cut_at(&message(length), &[cut, length])
}

fn cut_in_three((first, second): (usize, usize)) -> Vec<Op> {
    cut_at(&message(IN_THREE), &[first, second, IN_THREE])
}

/// Two places in a message, the first not behind the second.
fn pairs() -> impl Iterator<Item = (usize, usize)> {
    (0..=IN_THREE).flat_map(|second| (0..=second).map(move |first| (first, second)))
}

/// Lists of operations one after the other, in as many inputs as they take.
fn in_pieces(lists: impl Iterator<Item = Vec<Op>>) -> Vec<Vec<u8>> {
    in_pieces_of(INPUT_BYTES, lists)
}

/// As `in_pieces`; no input has more bytes than `most`.
fn in_pieces_of(most: usize, lists: impl Iterator<Item = Vec<Op>>) -> Vec<Vec<u8>> {
    let mut inputs = vec![Vec::new()];
    for list in lists {
        let bytes = encode(&list);
        let last = inputs.len() - 1;
        if inputs[last].len() + bytes.len() > most {
            inputs.push(bytes);
        } else {
            inputs[last].extend(bytes);
        }
    }
    inputs
}

/// Messages in slices of one length, finished after each. The first goes byte
/// by byte through all lengths up to its own, from the digest at the start on.
fn in_steps() -> Vec<Op> {
    let mut ops = vec![Op::Finish];
    for step in [1, 2, 3, 7, 63, 64, 65, 111, 112, 127, 128, 129, 255, 256] {
        for slice in message(300).chunks(step) {
            ops.push(Op::Feed(slice.to_vec()));
            ops.push(Op::Finish);
        }
        ops.extend([Op::Feed(vec![]), Op::Finish, Op::Begin, Op::Finish]);
    }
    ops
}

/// Every total with every number of waiting bytes: a finish, an empty slice, a
/// slice and a finish.
fn all_counts() -> Vec<Op> {
    let totals = [
        0,
        1,
        2,
        BLOCK - 1,
        BLOCK,
        BLOCK + 1,
        BLOCK + 2,
        2 * BLOCK,
        MANY - 1,
        MANY,
        MANY + 2,
        TOTAL_BYTES - BLOCK,
        TOTAL_BYTES - 1,
        TOTAL_BYTES,
        PAST,
        PAST + 2,
        PAST + BLOCK - 1,
        1 << 63,
        u64::MAX,
    ];
    let numbers = [
        0,
        1,
        2,
        3,
        64,
        66,
        BLOCK - 2,
        BLOCK - 1,
        BLOCK,
        BLOCK + 2,
        256,
        1 << 32,
        (1 << 32) + 2,
        1 << 63,
        u64::MAX,
    ];
    let of_total = |total: u64| numbers.into_iter().map(move |waiting| (total, waiting));
    let all = totals.into_iter().flat_map(of_total);
    all.flat_map(|(total, waiting)| {
        let tried = [Op::Finish, Op::Feed(vec![]), Op::Feed(vec![9]), Op::Finish];
        [bent(total, waiting), tried.to_vec()].concat()
    })
    .collect()
}

/// A digest of a block and two bytes whose counts are set.
fn bent(total: u64, waiting: u64) -> Vec<Op> {
    let set = |field: u8, value: u64| Op::SetCount { field, value };
    vec![
        Op::Begin,
        Op::Feed(message(IN_THREE)),
        set(TOTAL, total),
        set(WAITING, waiting),
        set(2, u64::MAX),
    ]
}

/// A slice of the greatest length and one byte more, with counts that are fine,
/// that disagree, that leave just room for it or too little, and that are too
/// large.
fn long_slices() -> Vec<Op> {
    let room = SLICE_BYTES as u64;
    let counts = [
        (BLOCK + 2, 2),
        (BLOCK + 2, 3),
        (TOTAL_BYTES - room, 0),
        (TOTAL_BYTES - room + 1, 1),
        (TOTAL_BYTES, BLOCK - 1),
        (TOTAL_BYTES, BLOCK - 2),
        (PAST, 0),
    ];
    let mut ops = Vec::new();
    for (total, waiting) in counts {
        for length in [SLICE_BYTES + 1, SLICE_BYTES] {
            ops.extend(bent(total, waiting));
            ops.extend([Op::Feed(message(length)), Op::Finish]);
        }
    }
    ops
}

fn one_million_letters() -> Vec<Op> {
    let mut ops = Vec::new();
    for slice in vec![b'a'; MILLION].chunks(SLICE_BYTES) {
        ops.push(Op::Feed(slice.to_vec()));
    }
    ops.push(Op::Finish);
    ops
}

/// A slice that ends so many bytes behind what is used of an input.
fn slice_to_the_end(behind: usize) -> Vec<u8> {
    let before = encode(&[Op::Feed(vec![7; 5]), Op::Finish]);
    let head = Op::Feed(vec![]).bytes().len();
    let length = INPUT_BYTES - before.len() - head + behind;
    [before, Op::Feed(vec![8; length]).bytes()].concat()
}
