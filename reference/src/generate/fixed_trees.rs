//! Every case of a tree command: trees of every small shape and large ones, cuts,
//! grounds, data, lengths, works with their nodes set, and images whose handles
//! are equal, nearly equal or retired.

use super::fixed_journals::forms;
use super::fixed_svns::{boot, cold_boot, every_boot, set, stash, stores, FRESH};
use super::nodes::{chain, from, set_handle, LAST};
use super::trees::{data, handle_at, invoke, mail};
use crate::checksum::sealed;
use crate::layout::*;
use crate::mailbox::booted;
use crate::script::{Mail, Op, FREED_FROM, FREED_NUMBER};
use crate::tree::{Act, TreeCall, DEFAULT, RETIRED};

/// Lists of operations; none needs what another leaves.
pub(super) fn trees() -> Vec<Vec<Op>> {
    [
        small_trees(),
        large_trees(),
        vec![from_stash(), from_image()],
        cuts(),
        units().into_iter().map(grounds).collect(),
        vec![commands(), truncated(), numbers(), lengths()],
        works(),
        handles(),
        vec![through_boots()],
    ]
    .concat()
}

/// The handle of a number; those of the numbers from 200 on have all words but
/// the last in common.
fn handle(number: u8) -> Handle {
    let mut handle = [if number < 200 { number } else { 200 }; HANDLE_BYTES];
    handle[HANDLE_BYTES - 1] = number;
    handle
}

fn digest(first: u8) -> Digest {
    std::array::from_fn(|i| first.wrapping_add(i as u8))
}

fn derive(retain: u32) -> Act {
    Act::Derive {
        retain,
        kind: 0x0003_0201,
        digest: digest(0x21),
    }
}

fn extend() -> Act {
    Act::Extend {
        digest: digest(0x91),
    }
}

/// The four commands, a derive both ways.
fn acts() -> [Act; 5] {
    [derive(1), derive(0), extend(), Act::Rotate, Act::Destroy]
}

/// A command at a handle, of caller 0.
fn call(of: Handle, act: Act, fresh: Handle) -> Op {
    Op::Request(mail(&TreeCall::new(of, act, &fresh, 0)))
}

/// A command to its end.
fn called(of: Handle, act: Act, fresh: Handle) -> [Op; 2] {
    [call(of, act, fresh), stores(COLD_STORES)]
}

fn destroyed(of: Handle) -> [Op; 2] {
    called(of, Act::Destroy, DEFAULT)
}

/// The handle of a node of a small tree: the root has the default one.
fn at(node: usize) -> Handle {
    match node {
        0 => DEFAULT,
        _ => handle(node as u8),
    }
}

/// The nodes of a small tree.
const SMALL: usize = 5;

/// A small tree: the parents of the nodes from 1 on, and the nodes that their last
/// child retires.
struct Small {
    parents: Vec<usize>,
    retired: u32,
}

impl Small {
    fn all() -> Vec<Small> {
        let mut all = vec![vec![]];
        for node in 1..SMALL {
            let longer = |parents: &Vec<usize>| {
                let parents = parents.clone();
                (0..node).map(move |parent| [&parents[..], &[parent]].concat())
            };
            all = all.iter().flat_map(longer).collect();
        }
        let with_retired = |parents: Vec<usize>| {
            let inner = (0..SMALL)
                .filter(|node| parents.contains(node))
                .fold(0, |inner, node| inner | 1 << node);
            (0u32..1 << SMALL)
                .filter(move |retired| retired & !inner == 0)
                .map(move |retired| Small {
                    parents: parents.clone(),
                    retired,
                })
        };
        all.into_iter().flat_map(with_retired).collect()
    }

    fn is_retired(&self, node: usize) -> bool {
        self.retired >> node & 1 == 1
    }

    /// The derives that make it.
    fn grown(&self) -> Vec<Op> {
        let mut ops = cold_boot().to_vec();
        for (place, &parent) in self.parents.iter().enumerate() {
            let last = !self.parents[place + 1..].contains(&parent);
            let retain = u32::from(!(last && self.is_retired(parent)));
            ops.extend(called(at(parent), derive(retain), at(place + 1)));
        }
        ops
    }

    fn leaves(&self) -> impl Iterator<Item = usize> + '_ {
        (1..SMALL).filter(|node| !self.parents.contains(node))
    }
}

/// Every small tree, whose leaves are destroyed in both orders and replaced.
fn small_trees() -> Vec<Vec<Op>> {
    let destroyed_in = |tree: &Small, order: Vec<usize>, retain: u32| {
        let mut ops = tree.grown();
        for (turn, leaf) in order.into_iter().enumerate() {
            ops.extend([call(at(leaf), Act::Destroy, DEFAULT), Op::Left]);
            ops.extend([stores(COLD_STORES), Op::Answer(12)]);
            if turn == 0 {
                ops.push(Op::Dump);
                let below = if tree.is_retired(0) { leaf } else { 0 };
                ops.extend(called(at(below), derive(1), handle(200)));
                ops.extend(called(at(below), derive(retain), handle(201)));
            }
        }
        ops.push(Op::Dump);
        ops.extend([stash(FRESH), Op::Left, Op::Answer(12)]);
        ops
    };
    let both = |tree: Small| {
        let rising: Vec<usize> = tree.leaves().collect();
        let falling = rising.iter().rev().copied().collect();
        [
            destroyed_in(&tree, rising, 1),
            destroyed_in(&tree, falling, 0),
        ]
    };
    Small::all().into_iter().flat_map(both).collect()
}

/// Chains of stashes and of derived nodes of several lengths, destroyed from their
/// end; full stars and combs, and what grows where they were.
fn large_trees() -> Vec<Vec<Op>> {
    let mut lists = Vec::new();
    for length in [1, 2, LAST - 1, LAST] {
        let stashes = vec![[stash(FRESH), stores(STASH_STORES)]; length].concat();
        let end = Mail {
            caller: stash_caller(),
            ..mail(&TreeCall::new(DEFAULT, Act::Destroy, &[], 0))
        };
        let mut ops = [cold_boot().to_vec(), stashes].concat();
        ops.extend([Op::Request(end.clone()), Op::Left, stores(COLD_STORES)]);
        ops.extend([Op::Answer(12), Op::Dump, stash(FRESH), Op::Answer(12)]);
        ops.extend([Op::Request(end), Op::Answer(12)]);
        ops.extend([Op::Update(boot(), 1), stores(UPDATE_STORES), Op::Dump]);
        ops.extend([stash(FRESH), Op::Answer(12)]);
        lists.push(ops);
    }
    // Parent and retain by turn.
    let shapes: [fn(usize) -> (usize, u32); 5] = [
        |turn| (turn, 1),
        |turn| (turn, 0),
        |_| (0, 1),
        |turn| (turn - turn % 2, 1),
        |turn| (turn - turn % 2, 1 - turn as u32 % 2),
    ];
    for shape in shapes {
        let mut ops = cold_boot().to_vec();
        for turn in 0..NODES {
            let (parent, retain) = shape(turn);
            let fresh = at(turn + 1);
            ops.extend([call(at(parent), derive(retain), fresh), Op::Left]);
            ops.extend([stores(COLD_STORES), Op::Answer(12)]);
        }
        ops.push(Op::Dump);
        for node in [LAST, LAST - 1, LAST - 2, 1, 2, 16] {
            ops.extend([call(at(node), Act::Destroy, DEFAULT), Op::Left]);
            ops.extend([stores(COLD_STORES), Op::Answer(12), Op::Dump]);
        }
        for number in 100..104 {
            let below = if number % 2 == 0 { at(16) } else { DEFAULT };
            ops.extend(called(below, derive(1), handle(number)));
        }
        ops.push(Op::Dump);
        lists.push(ops);
    }
    lists
}

/// Commands by the caller of a stash below its node, which has an svn: children
/// of it and of one another, extended, renamed and destroyed.
fn from_stash() -> Vec<Op> {
    let steps = [
        (DEFAULT, derive(1), at(1)),
        (at(1), Act::Destroy, DEFAULT),
        (DEFAULT, derive(1), at(1)),
        (at(1), derive(0), at(2)),
        (at(2), extend(), DEFAULT),
        (at(2), Act::Rotate, at(3)),
        (DEFAULT, extend(), DEFAULT),
        (at(3), Act::Destroy, DEFAULT),
        (DEFAULT, derive(0), at(4)),
        (at(4), Act::Destroy, DEFAULT),
    ];
    let mut ops = cold_boot().to_vec();
    ops.extend([stash(FRESH), stores(STASH_STORES)]);
    for (of, act, fresh) in steps {
        let call = TreeCall::new(of, act, &fresh, stash_caller());
        ops.extend([Op::Request(mail(&call)), stores(COLD_STORES)]);
        ops.extend([Op::Answer(12), Op::Dump]);
    }
    ops
}

/// Commands at a node that has a tag, an svn and a locality, in an image with a
/// retired node that has no child.
fn from_image() -> Vec<Op> {
    let mut image = planted(&[0, 1, 2, 2]);
    set_handle(&mut image, 4, RETIRED_HANDLE);
    for word in [TAG, LOCALITY, SVN, TYPE] {
        image[node(3) + word] = 0x0001_0007;
    }
    let mut ops = Vec::new();
    for act in acts() {
        let call = TreeCall::new(at(3), act, &handle(9), 0x0001_0007);
        ops.extend([Op::Image(image.clone()), Op::Request(mail(&call))]);
        ops.extend([stores(COLD_STORES), Op::Answer(12), Op::Dump]);
        for caller in [7, 0x0001_0000, 0] {
            let other = TreeCall::new(at(3), act, &handle(10), caller);
            ops.extend([Op::Request(mail(&other)), Op::Left, Op::Answer(12)]);
        }
    }
    ops
}

/// The caller of the stashes here.
fn stash_caller() -> u32 {
    match stash(FRESH) {
        Op::Request(mail) => mail.caller,
        _ => 0,
    }
}

/// A root that is live, below it 1 that is live, then 2 that is retired, and 3;
/// and below 1 also 4, whose handle is that of 5.
fn fork() -> Vec<Op> {
    let mut ops = cold_boot().to_vec();
    ops.extend(called(DEFAULT, derive(1), at(1)));
    ops.extend(called(at(1), derive(1), at(2)));
    ops.extend(called(at(2), derive(0), at(3)));
    ops.extend(called(at(1), derive(1), at(5)));
    ops
}

/// A work on a fork and its number of stores.
struct Opening {
    open: Op,
    sort: Sort,
    number: usize,
}

impl Opening {
    fn of(of: Handle, act: Act) -> Opening {
        let call = TreeCall::new(of, act, &handle(9), 0);
        Opening {
            open: Op::Request(mail(&call)),
            sort: call.sort(),
            number: call.sort().stores(),
        }
    }

    /// The parts that are set.
    fn parts(&self) -> &'static [u8] {
        match self.sort {
            Sort::Destroy => &[1, 2, FREED_NUMBER, 5, 15, 16, 17, 18, 47, 48],
            _ => &[1, 2, FREED_NUMBER, 16],
        }
    }
}

/// Every command at a leaf, some at the root, and a destroy that frees the parent
/// besides.
fn openings() -> Vec<Opening> {
    let mut all: Vec<Opening> = acts().map(|act| Opening::of(at(5), act)).into();
    all.push(Opening::of(DEFAULT, derive(0)));
    all.push(Opening::of(DEFAULT, Act::Rotate));
    all.push(Opening {
        number: destroy_stores(2),
        ..Opening::of(at(3), Act::Destroy)
    });
    all
}

/// Each of them cut after every number of stores, by a cut or, near the ends, by
/// the update boot that follows; then what the unit still does.
fn cuts() -> Vec<Vec<Op>> {
    let gone_after = |open: &Op, made: usize, by_cut: bool| {
        let mut ops = fork();
        ops.extend([open.clone(), stores(made), Op::Left, Op::Dump]);
        if by_cut {
            ops.push(Op::Cut);
        }
        ops.extend([Op::Update(boot(), made as u8 % 2), Op::Left]);
        ops.extend([stores(COLD_STORES), Op::Dump]);
        ops.extend([open.clone(), Op::Left, Op::Answer(12)]);
        ops.extend([stash(FRESH), Op::Left]);
        ops
    };
    let of_opening = |Opening { open, number, .. }: Opening| {
        let cut = (0..=number).map(|made| gone_after(&open, made, true));
        let replaced = [0, 1, number - 1, number].map(|made| gone_after(&open, made, false));
        cut.chain(replaced).collect::<Vec<_>>()
    };
    openings().into_iter().flat_map(of_opening).collect()
}

/// A unit by the parents of its nodes from 1 on; all have the handles of `at`.
fn planted(parents: &[usize]) -> Vec<u32> {
    let mut image = booted();
    for (place, &parent) in parents.iter().enumerate() {
        let index = place + 1;
        image[node(index)] = (parent as u32) << 16 | USED;
        set_handle(&mut image, index, handle_words(&at(index)));
    }
    image
}

/// The fork as an image, with node 4 of another locality and 5 below it; and units
/// on which other grounds apply besides.
fn units() -> Vec<Vec<u32>> {
    let mut fine = planted(&[0, 1, 2, 0, 4]);
    set_handle(&mut fine, 2, RETIRED_HANDLE);
    fine[node(4) + LOCALITY] = 7;
    let with = |image: &[u32], word: usize, value: u32| {
        let mut image = image.to_vec();
        image[word] = value;
        image
    };
    let mut full = fine.clone();
    for index in 6..NODES {
        full[node(index)] = 1 << 16 | USED;
        set_handle(&mut full, index, handle_words(&at(index)));
    }
    let mut unheld = fine.clone();
    set_handle(&mut unheld, 0, handle_words(&handle(99)));
    let mut unheld_full = full.clone();
    set_handle(&mut unheld_full, 0, RETIRED_HANDLE);
    let malformed = with(&fine, node(9), 9 << 16 | USED);
    let mut twice = full.clone();
    set_handle(&mut twice, LAST, handle_words(&at(1)));
    vec![
        with(&fine, ATTESTATION, 0),
        with(&malformed, ATTESTATION, 0),
        with(&twice, ATTESTATION, 2),
        with(&full, ATTESTATION, 0),
        with(&unheld_full, ATTESTATION, 0),
        with(&fine, MARK, 0),
        fine[..IMAGE_WORDS - 1].to_vec(),
        [&fine[..], &[0]].concat(),
        with(&unheld_full, node(9) + FLAGS, 1),
        fine,
        full,
        unheld,
        unheld_full,
        malformed,
        twice,
    ]
}

/// Every command at nodes of every sort, of the right caller and of others, with
/// fresh handles of every sort; malformed data; and a stash.
fn grounds(unit: Vec<u32>) -> Vec<Op> {
    let mut ops = vec![Op::Image(unit.clone())];
    let near = {
        let mut near = at(1);
        near[4] ^= 1;
        near
    };
    let mut of = vec![
        DEFAULT,
        at(1),
        at(3),
        at(4),
        at(5),
        RETIRED,
        handle(77),
        near,
    ];
    if unit.len() >= IMAGE_WORDS {
        of.push(handle_at(&unit, 0));
    }
    let fresh: [&[u8]; 11] = [
        &handle(9),
        &[],
        &[0x55; HANDLE_BYTES - 1],
        &[0x55; HANDLE_BYTES + 1],
        &DEFAULT,
        &RETIRED,
        &at(1),
        &at(3),
        &at(5),
        &near,
        &[0; HANDLE_BYTES - 1],
    ];
    for act in acts() {
        for (place, &of) in of.iter().enumerate() {
            for caller in [0, 7] {
                let data = data(&TreeCall::new(of, act, &[], caller));
                // All of them at three nodes, of the caller that may call there.
                let all = act.takes_fresh() && place < 3 && caller == 0;
                let lent = if all { &fresh[..] } else { &fresh[..3] };
                for fresh in lent {
                    ops.push(Op::Request(invoke(&data, fresh, caller)));
                    ops.extend([Op::Left, Op::Answer(12)]);
                }
            }
        }
        let malformed = data(&TreeCall::new(at(3), act, &[], 0));
        let longer = [&malformed[..], &[0]].concat();
        for (data, fresh) in [
            (&longer[..], &[][..]),
            (&[], &[]),
            (&malformed[..9], &at(9)),
        ] {
            ops.extend([Op::Request(invoke(data, fresh, 0)), Op::Answer(12)]);
        }
    }
    ops.extend([stash(FRESH), Op::Left, Op::Answer(12), Op::Dump]);
    ops
}

/// What the data of each command does on a fork, tried one after the other.
fn on_fork(all: Vec<Vec<u8>>) -> Vec<Op> {
    let mut ops = fork();
    for data in all {
        ops.push(Op::Request(invoke(&data, &handle(9), 0)));
        ops.extend([Op::Left, Op::Answer(12)]);
    }
    ops
}

/// Every command byte before what follows each of the four.
fn commands() -> Vec<Op> {
    let with = |act: Act| {
        let data = data(&TreeCall::new(at(3), act, &[], 0));
        (0..=255).map(move |command| [&[command][..], &data[1..]].concat())
    };
    let acts = [derive(1), extend(), Act::Destroy];
    on_fork(acts.into_iter().flat_map(with).collect())
}

/// Data that ends after every number of bytes, and with bytes left over.
fn truncated() -> Vec<Op> {
    let ends = |act: Act| {
        let data = data(&TreeCall::new(at(3), act, &[], 0));
        let mut all: Vec<Vec<u8>> = (0..=data.len()).map(|end| data[..end].to_vec()).collect();
        for over in [&[0][..], &[1], &[0xFF; 48], &[7; 900]] {
            all.push([&data[..], over].concat());
        }
        all
    };
    on_fork(acts().into_iter().flat_map(ends).collect())
}

/// Numbers in every form for retain and for type.
fn numbers() -> Vec<Op> {
    let borders = [0, 1, 2, 3, 127, 128, 129, 300, 1 << 28, u32::MAX];
    let mut all = Vec::new();
    for number in borders {
        for form in forms(number) {
            for numbers in [[&form[..], &[5]], [&[1], &form]] {
                let parts = [&[DERIVE_DATA][..], &at(3), &numbers.concat(), &digest(3)];
                all.push(parts.concat());
            }
        }
    }
    on_fork(all)
}

/// A request that tells that size before so many bytes, the first of them a fine
/// rotate's.
fn sized(size: u32, length: usize) -> Mail {
    let mut data = data(&TreeCall::new(at(3), Act::Rotate, &[], 0));
    data.resize(length, 0);
    Mail {
        bytes: sealed(INVOKE, &[&size.to_le_bytes()[..], &data].concat()),
        ..invoke(&[], &handle(9), 0)
    }
}

/// Lengths around their bounds, sizes unlike them, and wrong checksums.
fn lengths() -> Vec<Op> {
    let mut ops = fork();
    let mut request = |mail: Mail| ops.extend([Op::Request(mail), Op::Left, Op::Answer(12)]);
    for length in 0..=INVOKE_DATA {
        let mut mail = sized(0, 0);
        mail.bytes.truncate(length);
        request(mail);
        let body = vec![0; length.saturating_sub(CHECKSUM_BYTES)];
        let bytes = sealed(INVOKE, &body)[..length.max(CHECKSUM_BYTES)].to_vec();
        request(Mail {
            bytes,
            ..sized(0, 0)
        });
    }
    for length in [
        0,
        1,
        20,
        21,
        22,
        255,
        256,
        DATA_BYTES - 1,
        DATA_BYTES,
        DATA_BYTES + 1,
    ] {
        let size = length as u32;
        let near = [size.wrapping_sub(1), size, size + 1, 0];
        let far = [size | 1 << 16, size | 1 << 31, size.swap_bytes(), u32::MAX];
        for size in near.into_iter().chain(far) {
            request(sized(size, length));
        }
    }
    for length in [1_280, 2_048, 65_527] {
        request(sized(length as u32, length));
        request(sized(21, length));
    }
    for at in 0..INVOKE_DATA + 21 {
        let mut mail = sized(21, 21);
        mail.bytes[at] ^= 1;
        request(mail);
    }
    ops
}

/// What a part of a work is set to; one that it does not have, to less.
fn values(sort: Sort, field: u8) -> Vec<u64> {
    let nodes = NODES as u64;
    let destroys = sort == Sort::Destroy;
    match field {
        FREED_NUMBER if destroys => {
            vec![0, 1, 2, 3, nodes - 1, nodes, nodes + 1, 1 << 32, u64::MAX]
        }
        1 | 2 | 16 if destroys == (field == 16) => {
            vec![
                0,
                3,
                5,
                nodes - 1,
                nodes,
                nodes + 1,
                (1 << 32) + 3,
                u64::MAX,
            ]
        }
        _ => vec![0, 5, nodes, u64::MAX],
    }
}

/// Works with a part set before, between and after their stores, used, and with
/// all their stores made once more.
fn works() -> Vec<Vec<Op>> {
    let mut lists = Vec::new();
    for work in openings() {
        for made in [0, work.number / 2, work.number] {
            for &field in work.parts() {
                let mut ops = fork();
                for value in values(work.sort, field) {
                    ops.extend([work.open.clone(), stores(made), set(field, value)]);
                    ops.extend([Op::Left, Op::Answer(12), Op::Entry(100), stores(1)]);
                    ops.extend([stores(COLD_STORES), Op::Left, Op::Answer(12)]);
                    ops.push(Op::Dump);
                    ops.extend(fork());
                }
                lists.push(ops);
            }
        }
    }
    lists.extend([raised(), lowered()]);
    lists
}

/// A destroy whose number is raised over indices that are set before and after.
fn raised() -> Vec<Op> {
    let mut ops = Vec::new();
    let last = (FREED_FROM + NODES - 1) as u8;
    for (place, index) in [(18, 1), (18, 32), (19, 32), (last, 32), (last, 4)] {
        for number in [2, 3, 4, NODES as u64] {
            for number_first in [true, false] {
                let (one, two) = (set(FREED_NUMBER, number), set(place, index));
                ops.extend(fork());
                ops.push(call(at(3), Act::Destroy, DEFAULT));
                ops.extend(if number_first { [one, two] } else { [two, one] });
                ops.extend([Op::Left, Op::Answer(12), stores(COLD_STORES)]);
                ops.extend([Op::Left, Op::Answer(12), Op::Entry(30), Op::Dump]);
            }
        }
    }
    ops
}

/// A destroy whose number is lowered below the stores that it has made, and whose
/// index is that of another node halfway.
fn lowered() -> Vec<Op> {
    let mut ops = Vec::new();
    for made in [2, 3, 36, 37, 38, 71, 72] {
        for (field, value) in [
            (FREED_NUMBER, 0),
            (FREED_NUMBER, 1),
            (16, 1),
            (17, 1),
            (17, 3),
        ] {
            ops.extend(fork());
            ops.extend([call(at(3), Act::Destroy, DEFAULT), stores(made)]);
            ops.extend([set(field, value), Op::Left, Op::Answer(12), Op::Entry(22)]);
            ops.extend([stores(COLD_STORES), Op::Left, Op::Answer(12), Op::Dump]);
        }
    }
    ops
}

/// Units whose handles are equal, nearly equal, default or retired: what looks at
/// the tree, and commands at one of them.
fn handles() -> Vec<Vec<Op>> {
    let mut units = Vec::new();
    let nine = [9; HANDLE_WORDS];
    for (one, two) in [
        (1, 2),
        (2, 3),
        (5, LAST),
        (LAST - 1, LAST),
        (0, LAST),
        (0, 1),
    ] {
        for word in 0..=HANDLE_WORDS {
            let mut near = nine;
            if let Some(word) = near.get_mut(word) {
                *word ^= 0x0100_0000;
            }
            units.push((vec![(one, nine), (two, near)], one));
            units.push((vec![(two, near)], two));
        }
        units.push((vec![(one, DEFAULT_HANDLE), (two, DEFAULT_HANDLE)], one));
        units.push((vec![(0, RETIRED_HANDLE), (one, DEFAULT_HANDLE)], one));
        units.push((vec![(0, RETIRED_HANDLE), (one, RETIRED_HANDLE)], one));
    }
    units.push((vec![(0, nine)], 0));
    units.push((vec![(0, RETIRED_HANDLE)], 0));
    let tried = |(handles, named): (Vec<(usize, [u32; HANDLE_WORDS])>, usize)| {
        let mut unit = chain(&from(1));
        (0..NODES).for_each(|index| set_handle(&mut unit, index, RETIRED_HANDLE));
        handles
            .iter()
            .for_each(|&(index, handle)| set_handle(&mut unit, index, handle));
        let of = handle_at(&unit, named);
        let mut ops = vec![Op::Image(unit), Op::Update(boot(), 0)];
        ops.extend([stash(FRESH), Op::Left, Op::Answer(12)]);
        for act in acts() {
            ops.extend([call(of, act, handle(9)), Op::Left, Op::Answer(12)]);
        }
        ops.extend([Op::Update(boot(), 1), stores(UPDATE_STORES)]);
        ops.extend(called(of, Act::Rotate, handle(9)));
        ops.push(Op::Dump);
        ops
    };
    units.into_iter().map(tried).collect()
}

/// Commands before and after an update, a disabling and a cold boot.
fn through_boots() -> Vec<Op> {
    let all = || {
        let mut ops = Vec::new();
        for act in acts() {
            ops.extend([call(at(3), act, handle(9)), Op::Left, Op::Answer(12)]);
        }
        ops.extend(called(at(1), extend(), DEFAULT));
        ops.extend(called(at(1), derive(1), at(4)));
        ops.extend(destroyed(at(4)));
        ops.push(Op::Dump);
        ops
    };
    let mut ops = [fork(), all()].concat();
    for boots in every_boot() {
        ops.extend(boots);
        ops.extend(all());
    }
    ops
}
