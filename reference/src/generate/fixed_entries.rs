//! Every case of a journal entry: every kind of work at every moment, every size
//! of the buffer, every part of a work set, refused openings, and numbers at
//! every border.

use super::entries::*;
use super::fixed_svns::{boot, cold_boot, set, stores};
use super::svns::mail;
use super::trees;
use crate::checksum::sealed;
use crate::layout::*;
use crate::requests::Stash;
use crate::script::{BootBytes, Mail, Op};
use crate::sha384::DIGEST_BYTES;
use crate::tree::{Act, TreeCall, DEFAULT};

/// Lists of operations; none needs what another leaves.
pub(super) fn entries() -> Vec<Vec<Op>> {
    [
        vec![none_in_hand()],
        openings().iter().map(moments).collect(),
        openings().iter().flat_map(bent).collect(),
        openings().iter().map(cut_and_again).collect(),
        numbers(),
        vec![registers()],
        digests(),
        refused(),
        vec![through_boots()],
    ]
    .concat()
}

/// A work: what is done before it is opened, its opening, its kind, the length
/// of its entry and that of its answer.
struct Opening {
    before: Vec<Op>,
    open: Op,
    sort: Sort,
    entry: usize,
    answer: usize,
}

/// A digest that begins so and rises.
fn digest(first: u8) -> Digest {
    std::array::from_fn(|i| first.wrapping_add(i as u8))
}

/// A boot whose inputs are all different.
fn other_boot() -> BootBytes {
    BootBytes {
        runtime: digest(0x10).to_vec(),
        manifest: digest(0x60).to_vec(),
        secret: digest(0xB0).to_vec(),
    }
}

fn update(verdict: u8) -> Op {
    Op::Update(other_boot(), verdict)
}

fn stash_of(kind: u32, svn: u32, caller: u32) -> Stash {
    Stash {
        kind,
        digest: digest(0x21),
        svn,
        caller,
    }
}

/// A stash whose numbers take three, two and four bytes.
fn plain_stash() -> Stash {
    stash_of(0x0001_2345, 300, 0x00C0_FFEE)
}

fn stash() -> Op {
    Op::Request(mail(&plain_stash()))
}

fn request(code: u32, body: &[u8], table: &[u8], verdict: u8) -> Op {
    Op::Request(Mail {
        code,
        caller: 5,
        verdict,
        table: table.to_vec(),
        bytes: sealed(code, body),
        fresh: Vec::new(),
    })
}

fn disable() -> Op {
    request(DISABLE, &[], &[], 0)
}

fn extend(register: u32, digest: &Digest) -> Op {
    request(
        EXTEND,
        &[&register.to_le_bytes()[..], digest].concat(),
        &[],
        0,
    )
}

/// A tree command of the plain stash's caller: its handle begins so, as does the
/// fresh one.
fn call(of: u8, act: Act, fresh: u8) -> TreeCall {
    let handle = |first: u8| match first {
        0 => DEFAULT,
        _ => std::array::from_fn(|i| first.wrapping_add(i as u8)),
    };
    TreeCall::new(handle(of), act, &handle(fresh), plain_stash().caller)
}

/// A derived child's type takes five bytes.
fn derive(retain: u32) -> Act {
    Act::Derive {
        retain,
        kind: 0xF123_4567,
        digest: digest(0x51),
    }
}

/// A unit with a stash, a child below it that is retired, and one below that.
fn grown() -> Vec<Op> {
    let mut ops = booted_then(&[stash(), stores(STASH_STORES)]);
    for (of, retain, fresh) in [(0, 1, 0x70), (0x70, 0, 0x90)] {
        let call = call(of, derive(retain), fresh);
        ops.extend([Op::Request(trees::mail(&call)), stores(SUCCEED_STORES)]);
    }
    ops
}

/// The same, and one more node below the last, which is retained.
fn grown_more() -> Vec<Op> {
    let more = Op::Request(trees::mail(&call(0x90, derive(1), 0xB0)));
    [grown(), vec![more, stores(DERIVE_STORES)]].concat()
}

fn verify(verdict: u8) -> Op {
    request(VERIFY, &[9; 192], &[], verdict)
}

fn identity() -> Op {
    let mut table = vec![7; TABLE_BYTES];
    table[..4].copy_from_slice(&TABLE_MARKER.to_le_bytes());
    table[4..6].copy_from_slice(&TABLE_MAJOR.to_le_bytes());
    request(IDENTITY, &[], &table, 0)
}

fn entry(size: usize) -> Op {
    Op::Entry(size as u16)
}

/// A booted unit, then these operations.
fn booted_then(ops: &[Op]) -> Vec<Op> {
    [&cold_boot(), ops].concat()
}

fn off() -> Vec<Op> {
    booted_then(&[disable(), stores(DISABLING_STORES)])
}

fn torn() -> Vec<Op> {
    booted_then(&[stash(), stores(3), Op::Cut])
}

/// Not well formed: a free node has an svn.
fn malformed() -> Vec<Op> {
    let at_svn = set(0, BEFORE_SVN as u64);
    booted_then(&[stash(), set(1, 5), at_svn, stores(1)])
}

/// PCR3 has another first word than the root.
fn unlike() -> Vec<Op> {
    let at_journey = set(0, 1 + DIGEST_WORDS as u64);
    booted_then(&[update(1), at_journey, stores(1)])
}

fn full() -> Vec<Op> {
    let all = vec![[stash(), stores(STASH_STORES)]; NODES - 1];
    booted_then(&all.concat())
}

/// Every kind of work, and what has nothing to store.
fn openings() -> Vec<Opening> {
    let work = |before: Vec<Op>, open: Op, sort: Sort, entry: usize, answer: usize| Opening {
        before,
        open,
        sort,
        entry,
        answer,
    };
    let fine = || booted_then(&[]);
    let extension = || extend(17, &digest(0x31));
    let called = |before: Vec<Op>, call: TreeCall| {
        let open = Op::Request(trees::mail(&call));
        work(before, open, call.sort(), call_entry(&call), 12)
    };
    let remeasure = Act::Extend {
        digest: digest(0x61),
    };
    let cold = || Op::Cold(other_boot());
    let stash_bytes = stash_entry(&plain_stash());
    vec![
        work(vec![Op::Cut], cold(), Sort::Cold, BOOT_ENTRY, 0),
        work(torn(), cold(), Sort::Cold, BOOT_ENTRY, 0),
        work(fine(), update(1), Sort::Update, BOOT_ENTRY, 0),
        work(off(), update(1), Sort::Disabling, DISABLING_ENTRY, 0),
        work(torn(), update(0), Sort::Disabling, DISABLING_ENTRY, 0),
        work(malformed(), update(1), Sort::Disabling, DISABLING_ENTRY, 0),
        work(unlike(), update(0), Sort::Disabling, DISABLING_ENTRY, 0),
        work(fine(), disable(), Sort::Disabling, DISABLING_ENTRY, 8),
        work(off(), disable(), Sort::Disabling, DISABLING_ENTRY, 8),
        work(fine(), stash(), Sort::Stash, stash_bytes, 12),
        work(fine(), extension(), Sort::Extension, EXTENSION_ENTRY, 8),
        work(
            malformed(),
            extension(),
            Sort::Extension,
            EXTENSION_ENTRY,
            8,
        ),
        work(fine(), update(0), Sort::Nothing, 0, 0),
        work(off(), stash(), Sort::Nothing, 0, 12),
        work(full(), stash(), Sort::Nothing, 0, 12),
        called(grown(), call(0x90, derive(1), 0xB0)),
        called(grown(), call(0x90, derive(0), 0xB0)),
        called(grown(), call(0x90, remeasure, 0)),
        called(grown(), call(0x90, Act::Rotate, 0xB0)),
        called(grown_more(), call(0xB0, Act::Destroy, 0)),
        work(
            grown(),
            Op::Request(trees::mail(&call(0x70, Act::Destroy, 0))),
            Sort::Nothing,
            0,
            12,
        ),
        work(fine(), verify(1), Sort::Nothing, 0, 8),
        work(fine(), identity(), Sort::Nothing, 0, ANSWER_MAX),
    ]
}

fn none_in_hand() -> Vec<Op> {
    let mut ops: Vec<Op> = [0, 1, 50, 97, 65_535].map(entry).to_vec();
    ops.extend([Op::Cut, entry(2), Op::Image(vec![1, 2, 3]), entry(3)]);
    ops.extend([Op::Image(vec![0; IMAGE_WORDS]), entry(1)]);
    ops
}

/// So many stores at once, from the first on: one by one, but for a cold boot.
fn steps(sort: Sort) -> Vec<usize> {
    match sort {
        Sort::Cold => vec![1, 1, 758, 760, 1],
        _ => vec![1; sort.stores()],
    }
}

/// The entry before the opening, after every store and, into buffers of every
/// size, after the last; then again after an answer and a store that is refused.
fn moments(work: &Opening) -> Vec<Op> {
    let mut ops = work.before.clone();
    ops.extend([entry(work.entry), work.open.clone()]);
    for made in steps(work.sort) {
        ops.extend([0, work.entry - 1, work.entry, work.entry + 9].map(entry));
        ops.push(stores(made));
    }
    ops.extend((0..=work.entry + 3).map(entry));
    ops.extend([160, 160, 65_535, work.entry].map(entry));
    ops.extend([Op::Answer(work.answer as u16), entry(work.entry + 1)]);
    ops.extend([stores(1), Op::Left, entry(work.entry), Op::Dump]);
    ops.extend([
        Op::Answer(work.answer as u16 + 1),
        Op::Cut,
        entry(work.entry),
    ]);
    ops
}

/// The entry after a cut at some of the stores, and of the same work once more.
fn cut_and_again(work: &Opening) -> Vec<Op> {
    let all = work.sort.stores();
    let mut ops = Vec::new();
    for made in [0, 1, all / 2, all] {
        ops.extend(work.before.clone());
        ops.extend([work.open.clone(), stores(made), Op::Cut, entry(work.entry)]);
        ops.extend([work.open.clone(), entry(work.entry)]);
        ops.extend([stores(COLD_STORES), entry(work.entry + 2), Op::Dump]);
    }
    ops
}

/// What each part of a work is set to.
fn values(field: u8, sort: Sort) -> Vec<u64> {
    let all = sort.stores() as u64;
    let half = 1 << 32;
    match field {
        0 => vec![
            0,
            all.wrapping_sub(1),
            all,
            all + 1,
            half,
            half + all,
            u64::MAX,
        ],
        1 => vec![4, 5, 30, 0, 3, 31, 32, 36, half + 4, half + 30, u64::MAX],
        2 => vec![0, 31, 32, half, u64::MAX],
        3 => vec![0, 8, 12, 104, 105, half, half + 8, u64::MAX],
        4 => vec![0, 1, 2, 32, 33, half, half + 1],
        _ => vec![1, 31, 32, half + 1],
    }
}

/// The parts that are set: of a destroy, indices that count and one that does not.
fn parts(sort: Sort) -> Vec<u8> {
    match sort {
        Sort::Destroy => vec![0, 1, 2, 3, 4, 16, 17, 18],
        _ => vec![0, 1, 2, 3, 4],
    }
}

/// The entry of a work with one part set, before its last store and after it,
/// and with all its stores made then.
fn bent(work: &Opening) -> Vec<Vec<Op>> {
    let all = work.sort.stores();
    let mut lists = Vec::new();
    for field in parts(work.sort) {
        for value in values(field, work.sort) {
            let mut ops = Vec::new();
            for made in [all.saturating_sub(1), all] {
                ops.extend(work.before.clone());
                ops.extend([work.open.clone(), stores(made), set(field, value)]);
                ops.extend([0, work.entry, work.entry + 1].map(entry));
                ops.extend([stores(COLD_STORES), Op::Left]);
                ops.extend([work.entry.saturating_sub(1), work.entry].map(entry));
            }
            lists.push(ops);
        }
    }
    lists
}

/// Every mix of numbers at the borders, as many stashes to a unit as it takes.
fn numbers() -> Vec<Vec<Op>> {
    let all = BORDERS.iter().flat_map(|&kind| {
        let callers = move |svn| BORDERS.map(|caller| stash_of(kind, svn, caller));
        BORDERS.into_iter().flat_map(callers)
    });
    let one_bit = (0..32).map(|bit| 1 << bit);
    let others = one_bit.chain([1, 129, 255, 300, RTJM, 0x8080_8080, 0x7F7F_7F7F]);
    let others = others.map(|number| stash_of(number, !number, number.rotate_left(9)));
    let all: Vec<Stash> = all.chain(others).collect();
    let on_unit = |stashes: &[Stash]| {
        let mut ops = booted_then(&[]);
        for stash in stashes {
            let length = stash_entry(stash);
            ops.extend([Op::Request(mail(stash)), stores(STASH_STORES)]);
            ops.extend([entry(length - 1), entry(length)]);
        }
        ops
    };
    all.chunks(NODES - 1).map(on_unit).collect()
}

/// Every register, and then every register in place of the opened one.
fn registers() -> Vec<Op> {
    let mut ops = booted_then(&[]);
    for register in 4..=30 {
        ops.extend([extend(register, &digest(register as u8))]);
        ops.extend([stores(EXTENSION_STORES), entry(49), entry(50), entry(51)]);
    }
    for to in 0..=40 {
        ops.extend([set(1, to), entry(50)]);
    }
    ops.extend([set(1, 30), entry(50), Op::Answer(8), Op::Dump]);
    ops
}

/// Digests of zeros, of all bits, equal ones, and such as look like other parts.
fn digests() -> Vec<Vec<Op>> {
    let odd = [
        ZERO,
        [0xFF; DIGEST_BYTES],
        [0x80; DIGEST_BYTES],
        [0xA5; DIGEST_BYTES],
        digest(1),
    ];
    let of = |runtime: Digest, manifest: Digest| {
        let boot = BootBytes {
            runtime: runtime.to_vec(),
            manifest: manifest.to_vec(),
            ..other_boot()
        };
        let stash = Stash {
            digest: runtime,
            ..stash_of(1, 2, 3)
        };
        let mut ops = vec![Op::Cold(boot.clone()), stores(COLD_STORES), entry(98)];
        ops.extend([Op::Update(boot, 1), stores(UPDATE_STORES), entry(98)]);
        ops.extend([Op::Request(mail(&stash)), stores(STASH_STORES), entry(53)]);
        ops.extend([extend(9, &manifest), stores(EXTENSION_STORES), entry(51)]);
        ops
    };
    let pairs = odd.iter().flat_map(|&one| odd.map(|two| (one, two)));
    pairs.map(|(one, two)| of(one, two)).collect()
}

/// Refused openings with none in hand, with a half stored work and with a finished
/// one: what is in hand stays.
fn refused() -> Vec<Vec<Op>> {
    let mut wrong_sum = mail(&plain_stash());
    wrong_sum.bytes[0] ^= 1;
    let short = Mail {
        bytes: sealed(STASH, &[0; 55]),
        ..mail(&plain_stash())
    };
    let no_secret = BootBytes {
        secret: ZERO.to_vec(),
        ..other_boot()
    };
    let refusals = [
        Op::Cold(no_secret.clone()),
        Op::Update(no_secret, 1),
        request(0, &[], &[], 0),
        Op::Request(short),
        Op::Request(wrong_sum),
        request(IDENTITY, &[], &[], 0),
        verify(0),
        extend(3, &digest(0)),
        extend(31, &digest(0)),
    ];
    let length = stash_entry(&plain_stash());
    let tried = |refusal: &Op| {
        let mut ops = booted_then(&[]);
        for before in [
            vec![Op::Cut],
            vec![stash(), stores(9)],
            vec![stores(STASH_STORES)],
        ] {
            ops.extend(before);
            ops.extend([refusal.clone(), entry(length), Op::Left, entry(length + 1)]);
        }
        ops
    };
    let when_off = [off(), vec![extend(4, &digest(0)), entry(1), Op::Dump]].concat();
    let lone = [malformed(), vec![stash(), entry(length)]].concat();
    let all = refusals.iter().map(tried);
    all.chain([when_off, lone]).collect()
}

/// One list with every kind of work, kept boots and declines, cuts among them.
fn through_boots() -> Vec<Op> {
    let length = stash_entry(&plain_stash());
    let stashed = || vec![stash(), stores(STASH_STORES), entry(length)];
    let extended = || vec![extend(30, &digest(3)), stores(EXTENSION_STORES), entry(50)];
    let disabled = |open: Op| vec![open, stores(DISABLING_STORES), entry(1)];
    let updated = || vec![update(1), stores(UPDATE_STORES), entry(97)];
    let mut ops = Vec::new();
    for off in [disabled(disable()), vec![stash(), stores(20), Op::Cut]] {
        ops.extend(vec![Op::Cold(boot()), stores(COLD_STORES), entry(97)]);
        ops.extend([stashed(), extended(), updated(), stashed()].concat());
        ops.extend([update(0), entry(0), verify(1), entry(0)]);
        ops.extend([extended(), updated(), updated()].concat());
        ops.extend(off);
        ops.extend(disabled(update(1)));
        ops.extend([stash(), entry(length), extend(4, &digest(8)), entry(50)]);
        ops.extend(disabled(disable()));
        ops.push(Op::Dump);
    }
    ops
}
