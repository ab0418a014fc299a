//! What the first scripts reach, and that the campaign tells.

use reference::book::wrong::BOOKS;
use reference::boots::Inputs;
use reference::engine::{Engine, Paper};
use reference::generate::{cuts, extension_input, fixed_inputs, program_input, script, svn_inputs};
use reference::layout::*;
use reference::mailbox::mailbox;
use reference::memory::Memory;
use reference::player::{Player, Seen, NONE_IN_HAND};
use reference::requests::{Request, Stash};
use reference::script::{BootBytes, Mail, Op, Reader, INPUT_BYTES, LENT_WORDS, LETTERS};
use reference::sha384::{BLOCK_BYTES, DIGEST_BYTES};
use reference::work::Work;
use reference::wrong::{caught, untold, GROUPS};
use std::collections::BTreeSet;

const SEEDS: u64 = 500;

fn seen() -> Seen {
    let mut all = Seen::default();
    for seed in 0..SEEDS {
        let mut player = Player::new(Engine::PAPER);
        if let Err(why) = player.run(&script(seed).bytes()) {
            panic!("seed {seed}: {why}");
        }
        let seen = player.seen;
        all.numbers.extend(seen.numbers);
        all.kinds.extend(seen.kinds);
        all.outcomes.extend(seen.outcomes);
        all.dpe_results.extend(seen.dpe_results);
        all.cuts.extend(seen.cuts);
        all.damaged_works += seen.damaged_works;
        all.looks += seen.looks;
        all.looks_after_tears += seen.looks_after_tears;
        all.waiting.extend(seen.waiting);
        all.digests += seen.digests;
    }
    all
}

#[test]
fn the_first_scripts_reach_everything() {
    let seen = seen();
    let numbers = |letter: char| -> Vec<u32> {
        let of_letter = |&&(other, _): &&(char, u32)| other == letter;
        seen.numbers.iter().filter(of_letter).map(|n| n.1).collect()
    };
    assert_eq!(numbers('C'), [0, 1, 6]);
    assert_eq!(numbers('U'), [0, 1, 6]);
    assert_eq!(
        numbers('R'),
        [
            0,
            1,
            2,
            3,
            4,
            5,
            11,
            12,
            13,
            number::CHECKSUM,
            number::SIGNATURE
        ]
    );
    // 1 at a store is out of a script's reach: an image takes the work along.
    assert_eq!(numbers('S'), [0, 9]);
    assert_eq!(numbers('A'), [0, 7, 8, NONE_IN_HAND]);
    assert_eq!(numbers('J'), [0, 7, 23, NONE_IN_HAND]);
    assert_eq!(numbers('f'), [0, 10, 16, 27]);
    assert_eq!(numbers('e'), [0, 27]);
    assert!(seen.kinds.iter().eq(&Sort::ALL));
    assert_eq!(
        seen.outcomes.iter().copied().collect::<Vec<_>>(),
        [0, 1, 2, 3]
    );
    let results = |code: u32| -> Vec<u32> {
        let of_code = |&&(other, _): &&(u32, u32)| other == code;
        let results = seen.dpe_results.iter();
        results.filter(of_code).map(|result| result.1).collect()
    };
    assert_eq!(results(STASH), [0, 1, 2, 3]);
    assert_eq!(results(INVOKE), [0, 1, 2, 5, 6, 7, 8, 9, 10]);
    for sort in Sort::ALL.into_iter().filter(|&sort| sort != Sort::Cold) {
        for position in 0..=sort.stores() as u64 {
            assert!(seen.cuts.contains(&(sort, position)), "{sort:?} {position}");
        }
    }
    let cold = seen.cuts.iter().filter(|(sort, _)| *sort == Sort::Cold);
    // All positions take about as many seeds as there are.
    assert!(cold.count() > 400);
    assert!(seen.damaged_works > 500, "{}", seen.damaged_works);
    assert!(seen.looks > 1_000, "{}", seen.looks);
    assert!(seen.looks_after_tears > 300, "{}", seen.looks_after_tears);
    assert!(seen.digests > 2_000, "{}", seen.digests);
    for waiting in 0..BLOCK_BYTES as u64 {
        assert!(seen.waiting.iter().any(|&(before, _)| before == waiting));
        assert!(seen.waiting.iter().any(|&(_, after)| after == waiting));
    }
}

#[test]
fn the_first_scripts_hold_every_length_and_letter() {
    let mut lengths = BTreeSet::new();
    let mut letters = BTreeSet::new();
    let mut images = BTreeSet::new();
    let mut tails = BTreeSet::new();
    for seed in 0..SEEDS {
        let script = script(seed);
        let most = 15_000 + 8 * IMAGE_WORDS;
        assert!(short_bytes(&script.ops) < most, "seed {seed}");
        assert!(script.bytes().len() < 400_000, "seed {seed}");
        assert_eq!(script.ops.last(), Some(&Op::Dump));
        for op in &script.ops {
            letters.insert(op.letter());
            match op {
                Op::Request(mail) => {
                    lengths.insert(mail.bytes.len());
                }
                Op::Image(words) => {
                    images.insert(words.len());
                }
                _ => {}
            }
        }
        tails.extend(script.tail.first());
    }
    assert!((0..=260).all(|length| lengths.contains(&length)));
    assert!(LETTERS.iter().all(|letter| letters.contains(letter)));
    let near = [IMAGE_WORDS - 1, IMAGE_WORDS, IMAGE_WORDS + 1];
    assert!(near.iter().all(|length| images.contains(length)));
    assert!([0, 1, LENT_WORDS]
        .iter()
        .all(|length| images.contains(length)));
    assert!(tails.iter().any(|letter| !LETTERS.contains(letter)));
    assert!(b"ICURSAJWfw".iter().all(|letter| tails.contains(letter)));
}

/// The bytes of a script but for slices of about the greatest length.
fn short_bytes(ops: &[Op]) -> usize {
    let is_long = |op: &Op| matches!(op, Op::Feed(slice) if slice.len() >= SLICE_BYTES);
    let short = ops.iter().filter(|op| !is_long(op));
    short.map(|op| op.bytes().len()).sum()
}

/// The lengths of slices that were fed one after the other between a begin and
/// a finish.
fn fed(ops: &[Op]) -> BTreeSet<Vec<usize>> {
    let mut found = BTreeSet::new();
    let mut lengths = None;
    for op in ops {
        lengths = match (op, lengths) {
            (Op::Begin, _) => Some(vec![]),
            (Op::Feed(slice), Some(before)) => Some([before, vec![slice.len()]].concat()),
            (Op::Finish, Some(all)) => {
                found.insert(all);
                None
            }
            _ => None,
        };
    }
    found
}

#[test]
fn the_first_scripts_hold_every_cut_in_two() {
    let scripts = (0..SEEDS).flat_map(|seed| fed(&script(seed).ops));
    let found: BTreeSet<Vec<usize>> = scripts.collect();
    for (length, cut) in cuts() {
        assert!(
            found.contains(&vec![cut, length - cut]),
            "{cut} of {length}"
        );
    }
}

#[test]
fn the_first_scripts_hold_slices_of_the_greatest_length() {
    let mut lengths = BTreeSet::new();
    for seed in 0..SEEDS {
        for op in script(seed).ops {
            if let Op::Feed(slice) = op {
                lengths.insert(slice.len());
            }
        }
    }
    let near = [0, 1, 127, 128, 129, SLICE_BYTES, SLICE_BYTES + 1];
    assert!(near.iter().all(|length| lengths.contains(length)));
    assert!(lengths.last() > Some(&(SLICE_BYTES + 1)));
}

/// What a boot comes to.
const ENDS: [&str; 7] = [
    "cold boot",
    "updated",
    "kept",
    "mark not 1",
    "off",
    "not well formed",
    "unlike PCR3",
];

/// What is told apart of a boot's inputs, and what the boot comes to.
#[derive(Debug, PartialEq, Eq, PartialOrd, Ord)]
struct Case {
    /// Whether runtime digest, manifest digest and secret are fine.
    fine: [bool; 3],
    manifest_bytes: usize,
    equal: bool,
    zero_runtime: bool,
    zero_manifest: bool,
    /// None if the boot is refused, with a right manifest digest too.
    end: Option<&'static str>,
}

impl Case {
    /// A boot on an image, with a verdict if it is an update boot.
    fn of(image: &[u32], boot: &BootBytes, verdict: Option<u8>) -> Case {
        let lengths = boot.named().map(|(_, bytes)| bytes.len());
        let [runtime, manifest, secret] = lengths.map(|length| length == DIGEST_BYTES);
        Case {
            fine: [runtime, manifest, secret && boot.secret != ZERO],
            manifest_bytes: boot.manifest.len(),
            equal: boot.manifest == boot.runtime,
            zero_runtime: boot.runtime == ZERO,
            zero_manifest: boot.manifest == ZERO,
            end: end(image, boot, verdict),
        }
    }
}

/// What a boot comes to with a right manifest digest.
fn end(image: &[u32], boot: &BootBytes, verdict: Option<u8>) -> Option<&'static str> {
    let inputs = Inputs {
        manifest: &ZERO,
        ..boot.inputs()
    };
    let opened = match verdict {
        None => Engine::PAPER.open_cold(image, inputs),
        Some(verdict) => Engine::PAPER.open_update(image, inputs, verdict == 1),
    };
    opened.ok().map(|(_, outcome)| match outcome {
        COLD => "cold boot",
        UPDATED => "updated",
        KEPT => "kept",
        _ => why_disabled(image),
    })
}

fn why_disabled(image: &[u32]) -> &'static str {
    if image[MARK] != DONE {
        "mark not 1"
    } else if image[ATTESTATION] != ON {
        "off"
    } else if !Paper.well_formed(image) {
        "not well formed"
    } else {
        "unlike PCR3"
    }
}

/// The cases of all boots of a list of operations.
fn boots(ops: impl Iterator<Item = Op>) -> BTreeSet<Case> {
    let mut player = Player::new(Engine::PAPER);
    let mut cases = BTreeSet::new();
    for op in ops {
        cases.extend(match &op {
            Op::Cold(boot) => Some(Case::of(player.image(), boot, None)),
            Op::Update(boot, verdict) => Some(Case::of(player.image(), boot, Some(*verdict))),
            _ => None,
        });
        player.operate(op).expect("the books agree");
    }
    cases
}

/// Every mix of right and wrong inputs; manifest digests of wrong lengths,
/// whatever the boot would come to; and odd digests that are accepted.
fn has_every_case(cases: &BTreeSet<Case>) {
    for which in 0..8 {
        let fine = [1, 2, 4].map(|bit| which & bit != 0);
        assert!(cases.iter().any(|case| case.fine == fine), "{fine:?}");
    }
    for length in [0, 47, 49] {
        has_ends(cases, &ENDS, |case| case.manifest_bytes == length);
    }
    let accepted = &ENDS[..3];
    has_ends(cases, accepted, |case| case.fine[1] && case.equal);
    has_ends(cases, accepted, |case| case.zero_manifest);
    has_ends(cases, accepted, |case| case.fine[1] && case.zero_runtime);
}

/// Whether cases of a sort come to all these ends.
fn has_ends(cases: &BTreeSet<Case>, ends: &[&str], sort: impl Fn(&Case) -> bool) {
    let of_sort = cases.iter().filter(|case| sort(case));
    let found: BTreeSet<&str> = of_sort.filter_map(|case| case.end).collect();
    for end in ends {
        assert!(found.contains(end), "{end} is not among {found:?}");
    }
}

#[test]
fn the_first_scripts_hold_every_case_of_a_boots_inputs() {
    let scripts = (0..SEEDS).flat_map(|seed| boots(script(seed).ops.into_iter()));
    has_every_case(&scripts.collect());
}

#[test]
fn an_input_without_a_seed_holds_every_case_of_a_boots_inputs() {
    let inputs = fixed_inputs();
    let cases = inputs.iter().flat_map(|input| boots(Reader::new(input)));
    has_every_case(&cases.collect());
}

/// An extension with what it meets, and its number.
#[derive(Debug, PartialEq, Eq, PartialOrd, Ord)]
struct Tried {
    length: usize,
    /// Of a request that reaches so far.
    register: Option<u32>,
    on: bool,
    well_formed: bool,
    full: bool,
    number: u32,
}

impl Tried {
    fn on(image: &[u32], mail: &Mail) -> Tried {
        let whole = image.len() == IMAGE_WORDS;
        let bytes = &mail.bytes;
        let opened = Engine::PAPER.open_request(image, Request::plain(mail.code, bytes));
        Tried {
            length: bytes.len(),
            register: bytes.get(4..8).map(little),
            on: whole && image[ATTESTATION] == ON,
            well_formed: whole && Paper.well_formed(image),
            full: whole && Paper.free_node(image).is_none(),
            number: opened.err().unwrap_or(0),
        }
    }
}

/// Where a part of an extension is set: its field and value, and whether that is
/// before the first store, between or after the last.
type Moved = (u8, u64, &'static str);

fn moved(work: &Work, field: u8, value: u64) -> Option<Moved> {
    const LAST: u64 = EXTENSION_STORES as u64;
    let place = match work.position {
        0 => "before",
        LAST => "after",
        1..LAST => "between",
        _ => return None,
    };
    (work.kind.sort() == Sort::Extension).then_some((field, value, place))
}

/// The extensions of lists of operations, each played from the start.
fn extensions(lists: impl Iterator<Item = Vec<Op>>) -> (BTreeSet<Tried>, BTreeSet<Moved>) {
    let (mut tried, mut moves) = (BTreeSet::new(), BTreeSet::new());
    for ops in lists {
        let mut player = Player::new(Engine::PAPER);
        for op in ops {
            match &op {
                Op::Request(mail) if mail.code == EXTEND => {
                    tried.insert(Tried::on(player.image(), mail));
                }
                Op::Set { field, value } => {
                    moves.extend(player.work().and_then(|work| moved(work, *field, *value)));
                }
                _ => {}
            }
            player.operate(op).expect("the books agree");
        }
    }
    (tried, moves)
}

fn has_every_extension((tried, moves): &(BTreeSet<Tried>, BTreeSet<Moved>)) {
    let has = |what: &str, sort: &dyn Fn(&Tried) -> bool| {
        assert!(tried.iter().any(sort), "{what}");
    };
    let of = |case: &Tried, register: u32, number: u32| {
        case.register == Some(register) && case.number == number
    };
    for register in 4..=30 {
        has("accepted", &|case| of(case, register, 0));
        has("off", &|case| of(case, register, 13));
    }
    for register in [0, 3, 31, 32, 36, 0x104, 0x0400_0000, u32::MAX] {
        has("outside", &|case| of(case, register, 12) && case.on);
        has("outside and off", &|case| {
            of(case, register, 12) && !case.on
        });
    }
    let near = |case: &Tried| case.register.is_some_and(|register| register <= 0x11E);
    has("far", &|case| case.number == 12 && !near(case));
    for number in [0, 12] {
        has("full", &|case| case.number == number && case.full);
        has("malformed", &|case| {
            case.number == number && !case.well_formed && case.on
        });
    }
    let outside = |case: &Tried| case.register.is_some_and(|r| !(4..=30).contains(&r));
    for length in [8, 55, 57, 60] {
        has("length", &|case| case.length == length && case.number == 4);
    }
    for number in [1, 2, 4, number::CHECKSUM] {
        has("before 12", &|case| case.number == number && outside(case));
        has("before 13", &|case| case.number == number && !outside(case));
    }
    for place in ["before", "between", "after"] {
        for value in [0, 3, 31, (1 << 32) + 4, u64::MAX] {
            assert!(moves.contains(&(1, value, place)), "{value} {place}");
        }
        let has = |field: u8, values: &dyn Fn(u64) -> bool| {
            let fits = |&(of, value, at): &Moved| of == field && at == place && values(value);
            assert!(moves.iter().any(fits), "{field} {place}");
        };
        has(1, &|value| (4..=30).contains(&value));
        has(2, &|_| true);
    }
}

#[test]
fn the_first_scripts_hold_every_case_of_an_extension() {
    has_every_extension(&extensions((0..SEEDS).map(|seed| script(seed).ops)));
}

#[test]
fn an_input_without_a_seed_holds_every_case_of_an_extension() {
    let input = extension_input();
    has_every_extension(&extensions([Reader::new(&input).collect()].into_iter()));
}

#[test]
fn an_input_without_a_seed_tells_every_wrong_extension() {
    assert_eq!(untold(&[extension_input()], "Extension"), [""; 0]);
}

/// A stash with what it meets, and its number.
#[derive(Debug, PartialEq, Eq, PartialOrd, Ord)]
struct Stashed {
    svn: u32,
    is_kind: bool,
    is_caller: bool,
    /// Of the node that has the default handle.
    before: u32,
    number: u32,
}

impl Stashed {
    fn on(image: &[u32], mail: &Mail) -> Option<Stashed> {
        let request = Request {
            caller: mail.caller,
            ..Request::plain(mail.code, &mail.bytes)
        };
        let opened = Engine::PAPER.open_request(image, request);
        let stash = Stash::of(request);
        let holder = Paper.holder(image)?;
        Some(Stashed {
            svn: stash.svn,
            is_kind: stash.svn == stash.kind,
            is_caller: stash.svn == stash.caller,
            before: node_of(image, holder)[SVN],
            number: opened.err().unwrap_or(0),
        })
    }
}

/// A node with an svn other than 0 at a boot or a stash, all else of the unit
/// being fine: its index, whether it is used or the root, the svn if the node is
/// free, and the opening's letter.
#[derive(Debug, PartialEq, Eq, PartialOrd, Ord)]
enum Met {
    Free(usize, u32, u8),
    Used(usize, u8),
    Root(usize, u8),
}

impl Met {
    fn on(image: &[u32], letter: u8) -> Vec<Met> {
        let mut mended = image.to_vec();
        (0..NODES).for_each(|index| mended[node(index) + SVN] = 0);
        if image[MARK] != DONE || image[ATTESTATION] != ON || !Paper.well_formed(&mended) {
            return vec![];
        }
        let with_svn = (0..NODES).filter(|&index| node_of(image, index)[SVN] != 0);
        let met = |index: usize| {
            let svn = node_of(image, index)[SVN];
            if Paper.is_free(image, index) {
                Met::Free(index, svn, letter)
            } else if Paper.is_root(image, index) {
                Met::Root(index, letter)
            } else {
                Met::Used(index, letter)
            }
        };
        with_svn.map(met).collect()
    }
}

/// The svns of lists of operations, each played from the start.
fn svns(lists: impl Iterator<Item = Vec<Op>>) -> (BTreeSet<Stashed>, BTreeSet<Met>) {
    let (mut stashes, mut met) = (BTreeSet::new(), BTreeSet::new());
    let stash_bytes = command(STASH).map(|stash| stash.request_bytes);
    for ops in lists {
        let mut player = Player::new(Engine::PAPER);
        for op in ops {
            let image = player.image();
            if image.len() == IMAGE_WORDS {
                match &op {
                    Op::Request(mail)
                        if mail.code == STASH && Some(mail.bytes.len()) == stash_bytes =>
                    {
                        stashes.extend(Stashed::on(image, mail));
                        met.extend(Met::on(image, op.letter()));
                    }
                    Op::Update(..) => met.extend(Met::on(image, op.letter())),
                    _ => {}
                }
            }
            player.operate(op).expect("the books agree");
        }
    }
    (stashes, met)
}

/// Every sort of svn is stashed, over lower and higher ones; free and used nodes
/// from `first` on have svns at a stash and at an update boot.
fn has_every_svn((stashes, met): &(BTreeSet<Stashed>, BTreeSet<Met>), first: usize) {
    let has = |what: &str, sort: &dyn Fn(&Stashed) -> bool| {
        let mut accepted = stashes.iter().filter(|stash| stash.number == 0);
        assert!(accepted.any(sort), "{what}");
    };
    for svn in [0, 1, 0x8000_0000, u32::MAX, 0x0403_0201] {
        has("svn", &|stash| stash.svn == svn);
    }
    has("type", &|stash| stash.is_kind && !stash.is_caller);
    has("caller", &|stash| stash.is_caller && !stash.is_kind);
    has("lower", &|stash| stash.svn < stash.before);
    has("zero over another", &|stash| {
        stash.svn == 0 && stash.before != 0
    });
    has("equal", &|stash| {
        stash.svn == stash.before && stash.svn != 0
    });
    has("higher", &|stash| {
        stash.svn > stash.before && stash.before != 0
    });
    for letter in *b"RU" {
        for index in first..NODES {
            for svn in [1, 0x8000_0000] {
                let free = Met::Free(index, svn, letter);
                assert!(met.contains(&free), "{free:?}");
            }
            let used = [Met::Used(index, letter), Met::Root(index, letter)];
            assert!(used.iter().any(|used| met.contains(used)), "{used:?}");
        }
        let is_root = |met: &Met| matches!(met, Met::Root(_, of) if *of == letter);
        assert!(met.iter().any(is_root), "a root");
    }
}

#[test]
fn the_first_scripts_hold_every_case_of_an_svn() {
    has_every_svn(&svns((0..SEEDS).map(|seed| script(seed).ops)), 1);
}

#[test]
fn an_input_without_a_seed_holds_every_case_of_an_svn() {
    let inputs = svn_inputs();
    let lists = inputs.iter().map(|input| Reader::new(input).collect());
    has_every_svn(&svns(lists), 0);
}

#[test]
fn an_input_without_a_seed_tells_every_wrong_svn() {
    assert_eq!(untold(&svn_inputs(), "The svn"), [""; 0]);
}

#[test]
fn the_first_inputs_of_the_small_program_hold_12() {
    let numbers: BTreeSet<u32> = (0..SEEDS)
        .map(|seed| little(&mailbox(&program_input(seed))))
        .collect();
    let expected = [0, 3, 4, 5, 12, number::CHECKSUM, number::SIGNATURE];
    assert!(numbers.iter().eq(&expected), "{numbers:?}");
}

#[test]
fn the_inputs_without_a_seed_hold_every_case() {
    let mut found = BTreeSet::new();
    let mut all = Seen::default();
    for (place, input) in fixed_inputs().into_iter().enumerate() {
        assert!(input.len() <= INPUT_BYTES + 1, "input {place}");
        found.extend(fed(&Reader::new(&input).collect::<Vec<_>>()));
        let mut player = Player::new(Engine::PAPER);
        if let Err(why) = player.run(&input) {
            panic!("input {place}: {why}");
        }
        all.numbers.extend(player.seen.numbers);
        all.waiting.extend(player.seen.waiting);
        all.cuts.extend(player.seen.cuts);
    }
    let torn = [
        Sort::Extension,
        Sort::Stash,
        Sort::Derive,
        Sort::Succeed,
        Sort::Remeasure,
        Sort::Rotate,
        Sort::Destroy,
    ];
    for sort in torn {
        for position in 0..=sort.stores() as u64 {
            assert!(all.cuts.contains(&(sort, position)), "{sort:?} {position}");
        }
    }
    assert!(cuts()
        .iter()
        .all(|&(length, cut)| found.contains(&vec![cut, length - cut])));
    let length = BLOCK_BYTES + 2;
    for first in 0..=length {
        for second in 0..=length - first {
            let third = length - first - second;
            assert!(found.contains(&vec![first, second, third]));
        }
    }
    let numbers = [
        ('A', 0),
        ('A', 7),
        ('A', NONE_IN_HAND),
        ('C', 0),
        ('C', 1),
        ('C', 6),
        ('J', 0),
        ('J', 7),
        ('J', 23),
        ('J', NONE_IN_HAND),
        ('R', 0),
        ('R', 1),
        ('R', 2),
        ('R', 3),
        ('R', 4),
        ('R', 5),
        ('R', 11),
        ('R', 12),
        ('R', 13),
        ('R', number::CHECKSUM),
        ('R', number::SIGNATURE),
        ('S', 0),
        ('S', 9),
        ('U', 0),
        ('U', 1),
        ('U', 6),
        ('e', 0),
        ('e', 27),
        ('f', 0),
        ('f', 10),
        ('f', 16),
        ('f', 27),
    ];
    assert!(all.numbers.iter().eq(&numbers));
}

#[test]
fn a_seed_gives_the_same_script() {
    for seed in [0, 3, 7, 1 << 40] {
        assert_eq!(script(seed).bytes(), script(seed).bytes());
        assert_eq!(program_input(seed), program_input(seed));
    }
}

#[test]
fn every_wrong_engine_is_caught() {
    let mut names = BTreeSet::new();
    let mut missed = Vec::new();
    caught(1_000, 0, |caught| {
        assert!(names.insert(caught.wrong.name), "a name twice");
        if caught.scripts.is_none() {
            missed.push(caught.wrong.name);
        }
    });
    assert!(missed.is_empty(), "{missed:?}");
    let listed = GROUPS.iter().map(|group| group.engines.len());
    assert_eq!(names.len(), listed.sum::<usize>());
}

#[test]
fn every_wrong_book_is_caught_by_the_right_engine() {
    for book in BOOKS {
        let caught = (0..SEEDS).any(|seed| {
            let mut player = Player::new(Engine::PAPER);
            player.keeper = book.keeper;
            player.run(&script(seed).bytes()).is_err()
        });
        assert!(caught, "{}", book.name);
    }
}
