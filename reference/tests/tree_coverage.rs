//! What the first scripts, and the inputs without a seed, hold of tree commands.

use reference::engine::{Engine, Paper};
use reference::generate::{program_input, script, tree_inputs};
use reference::layout::*;
use reference::mailbox::mailbox;
use reference::memory::{Memory, Unit};
use reference::player::Player;
use reference::requests::Ground::{Declined, Refused};
use reference::requests::{first_of, Ground, Request, Requests, View};
use reference::script::{Mail, Op, Reader};
use reference::tree::{Act, TreeCall};
use reference::work::{Freed, Kind, Work};
use reference::wrong::untold;
use std::cell::RefCell;
use std::collections::BTreeSet;

const SEEDS: u64 = 500;

/// What a fresh handle is like.
#[derive(Clone, Copy, Debug, PartialEq, Eq, PartialOrd, Ord)]
enum Lent {
    Empty,
    Short,
    Long,
    Zero,
    AllSet,
    Own,
    Others,
    /// All words but one are a node's.
    Near,
    Fine,
}

impl Lent {
    fn of(image: &[u32], fresh: &[u8], call: &TreeCall) -> Lent {
        let handle = match Handle::try_from(fresh) {
            Ok(handle) => handle,
            Err(_) if fresh.is_empty() => return Lent::Empty,
            Err(_) if fresh.len() < HANDLE_BYTES => return Lent::Short,
            Err(_) => return Lent::Long,
        };
        let words = handle_words(&handle);
        let near = |index: usize| {
            let other = reference::memory::handle_of(image, index);
            let equal = (0..HANDLE_WORDS).filter(|&word| other[word] == words[word]);
            Paper.is_used(image, index) && equal.count() == HANDLE_WORDS - 1
        };
        match handle {
            reference::tree::DEFAULT => Lent::Zero,
            reference::tree::RETIRED => Lent::AllSet,
            _ if handle == call.handle => Lent::Own,
            _ if Paper.named(image, &handle).is_some() => Lent::Others,
            _ if (0..NODES).any(near) => Lent::Near,
            _ => Lent::Fine,
        }
    }
}

/// Why a destroy frees no more nodes.
#[derive(Clone, Copy, Debug, PartialEq, Eq, PartialOrd, Ord)]
enum Stop {
    Live,
    Root,
    RetiredRoot,
    OtherChild,
}

/// What is seen of tree commands.
#[derive(Debug, PartialEq, Eq, PartialOrd, Ord)]
enum Case {
    /// The first ground that applies, and another that applies, too.
    Ground(u32, u32),
    /// As before, of a stash.
    StashGround(u32, u32),
    Lent(Sort, Lent),
    /// A derive: whether its parent is the root, and whether it has a child already.
    Derived(Sort, bool, bool),
    /// The lowest free node is below the last used one.
    Reused(Sort),
    /// At the root, at a leaf, at another node.
    At(Sort, &'static str),
    Freed(usize, Stop),
    /// A destroy of a node that a stash made, and one below such a node.
    FreedStash,
    /// The request's length and size: below its least, at its most, past it, and a
    /// size that is not its data's.
    Length(&'static str),
    /// Malformed data: what is wrong.
    Data(&'static str),
    /// A part of a work that is set: within or beyond, before, between or after.
    Moved(Sort, u8, bool, &'static str),
}

/// A ground's number; a refusal's is past them.
fn ground(ground: Ground) -> u32 {
    match ground {
        Declined(result) => result,
        Refused(number) => 100 + number,
    }
}

/// Pairs of the first ground that applies and each that applies besides, or itself.
fn pairs(grounds: &[(Ground, bool)]) -> Vec<(u32, u32)> {
    let mut applying = grounds.iter().filter(|line| line.1).map(|line| line.0);
    let Some(first) = applying.next() else {
        return vec![];
    };
    let all = [first].into_iter().chain(applying);
    all.map(|other| (ground(first), ground(other))).collect()
}

fn length(bytes: &[u8]) -> Vec<Case> {
    let Some((head, data)) = bytes.split_at_checked(INVOKE_DATA) else {
        return vec![Case::Length(if bytes.len() == 7 { "7" } else { "short" })];
    };
    let size = little(&head[INVOKE_SIZE..]) as usize;
    let mut cases = vec![];
    if size != data.len() {
        cases.push(if size == data.len() + 1 {
            "one more"
        } else {
            "unlike"
        });
        if size & 0xFFFF == data.len() {
            cases.push("low half alike");
        }
    } else {
        cases.extend(match size {
            0 => Some("empty"),
            DATA_BYTES => Some("most"),
            1_025.. => Some("past"),
            _ => None,
        });
    }
    cases.into_iter().map(Case::Length).collect()
}

fn data(data: &[u8], call: Option<&TreeCall>) -> Option<Case> {
    if call.is_some() {
        return None;
    }
    let longest = [0, 75, 69, 21, 21];
    Some(Case::Data(match data {
        [] => "empty",
        [0, ..] => "command 0",
        [5, ..] => "command 5",
        [6..=255, ..] => "command past",
        [1, ..] if data.len() > 21 && data[21] == 0x80 => "retain 80",
        [1, ..] if data.len() > 21 && data[21] == 0x81 => "retain 81",
        [1, ..] if data.len() > 21 && data[21] > 1 => "retain above 1",
        [1, ..] if data.len() > 26 && data[22..26] == [0xFF; 4] => "type over",
        [1, ..] if data.len() > 23 && data[22..24] == [0x80, 0] => "type 80 00",
        [command, ..] if data.len() > longest[usize::from(*command)] => "left over",
        _ => "cut",
    }))
}

/// Why no more is freed above the last freed node.
fn stop(image: &[u32], freed: &[usize]) -> Stop {
    let last = freed[freed.len() - 1];
    let above = Paper.parent(image, last) as usize;
    match (Paper.is_root(image, above), Paper.is_retired(image, above)) {
        (true, false) => Stop::Root,
        (true, true) => Stop::RetiredRoot,
        (false, false) => Stop::Live,
        (false, true) => Stop::OtherChild,
    }
}

/// An accepted command.
fn accepted(image: &[u32], call: &TreeCall) -> Vec<Case> {
    let sort = call.sort();
    let node = Paper
        .named(image, &call.handle)
        .expect("an accepted command's");
    let is_root = Paper.is_root(image, node);
    let has_child = !Paper.children(image, node).is_empty();
    let at = match (is_root, has_child) {
        (true, _) => "root",
        (false, true) => "inner",
        (false, false) => "leaf",
    };
    let mut cases = vec![Case::At(sort, at)];
    if call.act.is_derive() {
        cases.push(Case::Derived(sort, is_root, has_child));
        let free = Paper.free_node(image);
        let last = (0..NODES).rfind(|&index| Paper.is_used(image, index));
        if free < last {
            cases.push(Case::Reused(sort));
        }
    }
    if call.act == Act::Destroy {
        let freed = Paper.freed(image, node);
        cases.push(Case::Freed(freed.len(), stop(image, &freed)));
        if node_of(image, node)[SVN] != 0 {
            cases.push(Case::FreedStash);
        }
    }
    cases
}

fn on(image: &[u32], mail: &Mail) -> Vec<Case> {
    let request = Request {
        caller: mail.caller,
        fresh: &mail.fresh,
        ..Request::plain(mail.code, &mail.bytes)
    };
    let unit = Unit {
        memory: &Paper,
        image,
    };
    let view = View::of(&unit);
    let mut cases = length(&mail.bytes);
    if first_of(&Paper.order(&view, request)).is_some() {
        return cases;
    }
    let call = Paper.call(request);
    let grounds = Paper.call_grounds(&view, request, call.as_ref());
    let applying = pairs(&grounds);
    cases.extend(applying.iter().map(|&(one, two)| Case::Ground(one, two)));
    cases.extend(data(&mail.bytes[INVOKE_DATA..], call.as_ref()));
    if let Some(call) = &call {
        cases.push(Case::Lent(call.sort(), Lent::of(image, &mail.fresh, call)));
        if applying.is_empty() {
            cases.extend(accepted(image, call));
        }
    }
    cases
}

fn stashed(image: &[u32]) -> Vec<Case> {
    let unit = Unit {
        memory: &Paper,
        image,
    };
    let grounds = Paper.stash_grounds(&View::of(&unit));
    let pairs = pairs(&grounds).into_iter();
    pairs
        .map(|(one, two)| Case::StashGround(one, two))
        .collect()
}

/// A part of a tree command's work that is set.
fn moved(work: &Work, field: u8, value: u64) -> Option<Case> {
    let sort = work.kind.sort();
    let place = match Engine::PAPER.left(work) {
        0 => "after",
        _ if work.position == 0 => "before",
        _ => "between",
    };
    let most = match (work.kind, field) {
        (Kind::Destroy(Freed { .. }), 4) => NODES as u64,
        _ => NODES as u64 - 1,
    };
    (sort >= Sort::Derive).then_some(Case::Moved(sort, field, value > most, place))
}

/// The cases of lists of operations, each played from the start.
fn cases(lists: impl Iterator<Item = Vec<Op>>) -> BTreeSet<Case> {
    let mut cases = BTreeSet::new();
    for ops in lists {
        let mut player = Player::new(Engine::PAPER);
        for op in ops {
            let image = player.image();
            match &op {
                Op::Request(mail) if mail.code == INVOKE && image.len() == IMAGE_WORDS => {
                    cases.extend(on(image, mail));
                }
                Op::Request(mail) if mail.code == STASH && image.len() == IMAGE_WORDS => {
                    cases.extend(stashed(image));
                }
                Op::Set { field, value } => {
                    cases.extend(player.work().and_then(|work| moved(work, *field, *value)));
                }
                _ => {}
            }
            player.operate(op).expect("the books agree");
        }
    }
    cases
}

/// Grounds that can apply together, the first first.
const TOGETHER: [(u32, u32); 12] = [
    (2, 111),
    (2, 5),
    (111, 5),
    (2, 6),
    (111, 6),
    (6, 8),
    (7, 8),
    (7, 1),
    (8, 1),
    (7, 9),
    (7, 10),
    (9, 10),
];

/// Every ground, every pair, every shape, every oddity. Freed nodes up to so many.
fn has_every_case(cases: &BTreeSet<Case>, freed: &[usize]) {
    let missing = RefCell::new(Vec::new());
    let has = |case: Case| {
        if !cases.contains(&case) {
            missing.borrow_mut().push(case);
        }
    };
    for ground in [2, 111, 5, 6, 7, 8, 1, 9, 10] {
        has(Case::Ground(ground, ground));
    }
    for (one, two) in TOGETHER {
        has(Case::Ground(one, two));
    }
    for ground in [2, 111, 3, 1] {
        has(Case::StashGround(ground, ground));
    }
    for (one, two) in [(2, 111), (2, 3), (111, 3), (3, 1), (2, 1), (111, 1)] {
        has(Case::StashGround(one, two));
    }
    for sort in [Sort::Derive, Sort::Succeed, Sort::Rotate] {
        for lent in [
            Lent::Empty,
            Lent::Short,
            Lent::Long,
            Lent::Zero,
            Lent::AllSet,
            Lent::Own,
            Lent::Others,
            Lent::Near,
            Lent::Fine,
        ] {
            has(Case::Lent(sort, lent));
        }
    }
    for sort in [Sort::Remeasure, Sort::Destroy] {
        has(Case::Lent(sort, Lent::Empty));
        has(Case::Lent(sort, Lent::Short));
    }
    for sort in [Sort::Derive, Sort::Succeed] {
        has(Case::Reused(sort));
        for (root, child) in [(true, true), (true, false), (false, true), (false, false)] {
            has(Case::Derived(sort, root, child));
        }
    }
    for (sort, at) in [
        (Sort::Remeasure, "inner"),
        (Sort::Remeasure, "leaf"),
        (Sort::Rotate, "root"),
        (Sort::Rotate, "inner"),
        (Sort::Rotate, "leaf"),
        (Sort::Destroy, "leaf"),
    ] {
        has(Case::At(sort, at));
    }
    for stop in [Stop::Live, Stop::Root, Stop::RetiredRoot, Stop::OtherChild] {
        has(Case::Freed(1, stop));
        has(Case::Freed(2, stop));
    }
    for &count in freed {
        let of_count = |case: &&Case| matches!(case, Case::Freed(other, _) if *other == count);
        assert!(cases.iter().any(|case| of_count(&case)), "{count} freed");
    }
    has(Case::FreedStash);
    for length in ["short", "7", "empty", "most", "past", "one more", "unlike"] {
        has(Case::Length(length));
    }
    has(Case::Length("low half alike"));
    for wrong in [
        "empty",
        "command 0",
        "command 5",
        "command past",
        "retain 80",
        "retain 81",
        "retain above 1",
        "type over",
        "type 80 00",
        "left over",
        "cut",
    ] {
        has(Case::Data(wrong));
    }
    for place in ["before", "between", "after"] {
        for beyond in [false, true] {
            for sort in [Sort::Derive, Sort::Succeed, Sort::Remeasure, Sort::Rotate] {
                has(Case::Moved(sort, 1, beyond, place));
            }
            has(Case::Moved(Sort::Succeed, 2, beyond, place));
            has(Case::Moved(Sort::Destroy, 4, beyond, place));
            has(Case::Moved(Sort::Destroy, 16, beyond, place));
        }
    }
    assert!(missing.borrow().is_empty(), "{missing:?}");
}

#[test]
fn the_first_scripts_hold_every_case_of_a_tree_command() {
    let scripts = (0..SEEDS).map(|seed| script(seed).ops);
    has_every_case(&cases(scripts), &[1, 2, 3, 4, 5, 6]);
}

#[test]
fn inputs_without_a_seed_hold_every_case_of_a_tree_command() {
    let inputs = tree_inputs();
    let lists = inputs.iter().map(|input| Reader::new(input).collect());
    has_every_case(&cases(lists), &[1, 2, 3, 4, 30, 31]);
}

#[test]
fn inputs_without_a_seed_tell_every_wrong_tree_command() {
    assert_eq!(untold(&tree_inputs(), "Nodes as a tree"), [""; 0]);
}

/// The small program lends no fresh handle and boots anew: these results.
#[test]
fn the_first_inputs_of_the_small_program_hold_every_result() {
    let is_call = |input: &Vec<u8>| input.starts_with(&INVOKE.to_le_bytes());
    let inputs = (0..SEEDS).map(program_input).filter(is_call);
    let outputs = inputs.map(|input| mailbox(&input));
    let results: BTreeSet<u32> = outputs
        .filter(|output| output.len() == 16)
        .map(|output| little(&output[12..]))
        .collect();
    assert!(results.iter().eq(&[5, 6, 8, 9]), "{results:?}");
}
