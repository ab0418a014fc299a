//! 02's nodes as a tree: what each rule and each store comes to, by hand.

use reference::checksum::sealed;
use reference::engine::{Engine, Paper};
use reference::layout::*;
use reference::mailbox::{booted, mailbox, BOOTED_WITH};
use reference::memory::Memory;
use reference::player::Player;
use reference::requests::Request;
use reference::script::{BootBytes, Mail, Op};
use reference::sha384::digest;
use reference::work::{Freed, Kind, Work};

const ENGINE: Engine = Engine::PAPER;

/// The code, typed from 02.
const CODE: u32 = 0x4450_4543;

const DEFAULT: [u8; 20] = [0; 20];
const RETIRED: [u8; 20] = [0xFF; 20];

/// Handles of their own.
const A: [u8; 20] = [0xA1; 20];
const B: [u8; 20] = [0xB2; 20];
const C: [u8; 20] = [0xC3; 20];

/// Data by hand. A type of 300 is two bytes.
fn derive(handle: [u8; 20], retain: u8) -> Vec<u8> {
    [&[1][..], &handle, &[retain, 0xAC, 0x02], &[0x77; 48]].concat()
}

fn extend(handle: [u8; 20]) -> Vec<u8> {
    [&[2][..], &handle, &[0x88; 48]].concat()
}

fn rotate(handle: [u8; 20]) -> Vec<u8> {
    [&[3][..], &handle].concat()
}

fn destroy(handle: [u8; 20]) -> Vec<u8> {
    [&[4][..], &handle].concat()
}

fn body(data: &[u8]) -> Vec<u8> {
    [&(data.len() as u32).to_le_bytes()[..], data].concat()
}

/// A request of that caller with a fresh handle.
fn open(image: &[u32], data: &[u8], fresh: &[u8], caller: u32) -> Result<Work, u32> {
    let bytes = sealed(CODE, &body(data));
    let request = Request {
        fresh,
        caller,
        ..Request::plain(CODE, &bytes)
    };
    ENGINE.open_request(image, request)
}

fn run(work: &mut Work, image: &mut [u32]) {
    while ENGINE.store(work, image) == 0 {}
}

/// The dpe result in the whole answer.
fn answered(work: &Work) -> u32 {
    let mut buffer = [0xA5; 13];
    assert_eq!(ENGINE.answer(work, &mut buffer), 0);
    assert_eq!(ENGINE.answer(work, &mut [0; 11]), 8);
    let result = little(&buffer[8..]);
    let sum = 0u32.wrapping_sub(result);
    let expected = [
        &sum.to_le_bytes()[..],
        &[0; 4],
        &result.to_le_bytes(),
        &[0xA5],
    ];
    assert_eq!(buffer[..], expected.concat());
    result
}

/// A tree command of caller 0 to its end: its dpe result.
fn call(image: &mut [u32], data: &[u8], fresh: &[u8]) -> u32 {
    call_by(image, data, fresh, 0)
}

fn call_by(image: &mut [u32], data: &[u8], fresh: &[u8], caller: u32) -> u32 {
    let mut work = open(image, data, fresh, caller).expect("it is not refused");
    run(&mut work, image);
    answered(&work)
}

fn stash_by(image: &mut [u32], caller: u32) -> u32 {
    let bytes = sealed(STASH, &[5; 56]);
    let request = Request {
        caller,
        ..Request::plain(STASH, &bytes)
    };
    let mut work = ENGINE.open_request(image, request).expect("a fine tree");
    run(&mut work, image);
    answered(&work)
}

fn stash(image: &mut [u32]) -> u32 {
    stash_by(image, 0)
}

fn packed(bytes: &[u8]) -> Vec<u32> {
    bytes.chunks_exact(4).map(little).collect()
}

/// The digest of 48 bytes and of 48 more, as words.
fn joined(old: &[u32], filling: u8) -> Vec<u32> {
    let old: Vec<u8> = old.iter().flat_map(|word| word.to_le_bytes()).collect();
    packed(&digest(&[&old[..], &[filling; 48]].concat()))
}

fn handle(image: &[u32], index: usize) -> Vec<u32> {
    node_of(image, index)[2..7].to_vec()
}

fn used(image: &[u32]) -> Vec<usize> {
    (0..NODES)
        .filter(|&index| node_of(image, index)[0] != 0)
        .collect()
}

/// One store changes the word to the value and no other.
fn stores_one(work: &mut Work, image: &mut [u32], word: usize, value: u32) {
    let mut expected = image.to_vec();
    expected[word] = value;
    assert_eq!(ENGINE.store(work, image), 0);
    assert_eq!(image, expected);
}

/// All stores of a work: the mark, these words, the mark.
fn stores_all(mut work: Work, image: &mut [u32], words: &[(usize, u32)]) {
    let number = words.len() as u32 + 2;
    assert_eq!(ENGINE.left(&work), number);
    assert_eq!(ENGINE.answer(&work, &mut [0; 12]), 7);
    stores_one(&mut work, image, MARK, 0);
    for &(word, value) in words {
        stores_one(&mut work, image, word, value);
    }
    assert_eq!(ENGINE.left(&work), 1);
    stores_one(&mut work, image, MARK, 1);
    assert_eq!(ENGINE.store(&mut work, image), 9);
    assert_eq!(answered(&work), 0);
}

/// From a word on, these values.
fn from(word: usize, values: &[u32]) -> Vec<(usize, u32)> {
    (word..).zip(values.iter().copied()).collect()
}

/// A derived child's words: below that parent, with that handle and locality.
fn child(parent: u32, handle: &[u8], locality: u32) -> Vec<u32> {
    let mut words = vec![parent << 16 | 1, 0];
    words.extend(packed(handle));
    words.push(0);
    words.extend(packed(&[0x77; 48]));
    words.extend(joined(&[0; 12], 0x77));
    words.extend([300, locality, 0]);
    words
}

#[test]
fn a_derive_stores_the_node_and_without_retain_the_parents_handle() {
    for (retain, number) in [(1, 37), (0, 42)] {
        let mut image = booted();
        let work = open(&image, &derive(DEFAULT, retain), &A, 0).expect("a fine derive");
        let mut words = from(node(1), &child(0, &A, 0));
        if retain == 0 {
            assert_eq!(work.kind, Kind::Succeed { node: 1, parent: 0 });
            words.extend(from(node(0) + 2, &[u32::MAX; 5]));
        } else {
            assert_eq!(work.kind, Kind::Derive { node: 1 });
        }
        assert_eq!(words.len() + 2, number);
        stores_all(work, &mut image, &words);
        assert!(Paper.well_formed(&image));
        assert_eq!(image[register(31)..node(0)], [0; 12]);
    }
}

#[test]
fn a_childs_locality_is_its_callers() {
    let mut image = booted();
    assert_eq!(stash_by(&mut image, 9), 0);
    assert_eq!(call_by(&mut image, &derive(DEFAULT, 1), &A, 9), 0);
    assert_eq!(node_of(&image, 2), child(1, &A, 9));
    assert_eq!(call_by(&mut image, &derive(A, 1), &B, 9), 0);
    assert_eq!(node_of(&image, 3), child(2, &B, 9));
}

#[test]
fn an_extend_stores_both_measurements() {
    let mut image = booted();
    assert_eq!(call(&mut image, &derive(DEFAULT, 1), &A), 0);
    for _ in 0..2 {
        let old = image[node(1) + 20..][..12].to_vec();
        let work = open(&image, &extend(A), &[], 0).expect("a fine extend");
        assert_eq!(work.kind, Kind::Remeasure { node: 1 });
        let mut words = from(node(1) + 8, &packed(&[0x88; 48]));
        words.extend(from(node(1) + 20, &joined(&old, 0x88)));
        assert_eq!(words.len() + 2, 26);
        stores_all(work, &mut image, &words);
    }
}

#[test]
fn a_rotate_stores_the_handle() {
    let mut image = booted();
    for (old, new) in [(DEFAULT, A), (A, B), (B, A)] {
        let work = open(&image, &rotate(old), &new, 0).expect("a fine rotate");
        assert_eq!(work.kind, Kind::Rotate { node: 0 });
        let words = from(node(0) + 2, &packed(&new));
        assert_eq!(words.len() + 2, 7);
        stores_all(work, &mut image, &words);
        assert_eq!(call(&mut image, &rotate(old), &C), 6);
    }
}

/// A root, a live child, below it a retired chain of three and its end.
fn comb() -> Vec<u32> {
    let mut image = booted();
    assert_eq!(call(&mut image, &derive(DEFAULT, 1), &A), 0);
    assert_eq!(call(&mut image, &derive(A, 1), &B), 0);
    assert_eq!(call(&mut image, &derive(B, 0), &C), 0);
    assert_eq!(call(&mut image, &derive(C, 0), &B), 0);
    assert_eq!(used(&image), [0, 1, 2, 3, 4]);
    image
}

#[test]
fn a_destroy_frees_upwards() {
    let mut image = comb();
    let work = open(&image, &destroy(B), &[], 0).expect("a fine destroy");
    assert_eq!(work.kind, Kind::Destroy(Freed::of(&[4, 3, 2])));
    let blank = |index: usize| from(node(index), &[0; 35]);
    let words = [blank(4), blank(3), blank(2)].concat();
    assert_eq!(words.len() + 2, 2 + 35 * 3);
    stores_all(work, &mut image, &words);
    assert_eq!(used(&image), [0, 1]);
    // The parent of the last is live, and the root is never freed.
    assert_eq!(call(&mut image, &destroy(A), &[]), 0);
    assert_eq!(used(&image), [0]);
    assert_eq!(stash(&mut image), 0);
}

#[test]
fn a_destroy_stops_at_another_child() {
    let mut image = comb();
    assert_eq!(call(&mut image, &derive(B, 1), &C), 0);
    assert_eq!(call(&mut image, &destroy(B), &[]), 10);
    assert_eq!(call(&mut image, &derive(C, 1), &[0xD4; 20]), 0);
    // Nodes 2 and 3 are retired; node 3 gets a second child.
    let mut image = comb();
    image[node(5)..][..35].copy_from_slice(&child(3, &A, 0));
    image[node(5) + 2] = 7;
    assert!(Paper.well_formed(&image));
    let work = open(&image, &destroy(B), &[], 0).expect("a fine destroy");
    assert_eq!(work.kind, Kind::Destroy(Freed::of(&[4])));
}

#[test]
fn freed_nodes_serve_again_lowest_first() {
    let mut image = comb();
    assert_eq!(call(&mut image, &derive(A, 1), &C), 0);
    assert_eq!(call(&mut image, &destroy(B), &[]), 0);
    assert_eq!(used(&image), [0, 1, 5]);
    for index in [2, 3, 4, 6] {
        let fresh = [index as u8; 20];
        assert_eq!(call(&mut image, &derive(C, 1), &fresh), 0);
        assert_eq!(handle(&image, index), packed(&fresh));
    }
    assert_eq!(stash(&mut image), 0);
    assert_eq!(handle(&image, 7), [0; 5]);
}

/// Every ground with all that stand behind it where they can apply too.
#[test]
fn the_first_ground_that_applies() {
    let mut image = comb();
    let tried = |image: &[u32], data: &[u8], fresh: &[u8], caller: u32| {
        let work = open(image, data, fresh, caller).expect("it is not refused");
        assert_eq!((work.kind, ENGINE.left(&work)), (Kind::Nothing, 0));
        answered(&work)
    };
    assert_eq!(tried(&image, &[], &[], 1), 5);
    for unheld in [derive(C, 1), extend(RETIRED), rotate(C), destroy(RETIRED)] {
        assert_eq!(tried(&image, &unheld, &[], 1), 6);
    }
    for data in [
        derive(DEFAULT, 0),
        extend(DEFAULT),
        rotate(DEFAULT),
        destroy(A),
    ] {
        assert_eq!(tried(&image, &data, &[], 1), 7);
    }
    for data in [derive(DEFAULT, 1), rotate(A)] {
        for fresh in [&[][..], &[1; 19], &[1; 21], &DEFAULT, &RETIRED, &A, &B] {
            assert_eq!(tried(&image, &data, fresh, 0), 8);
        }
    }
    assert_eq!(tried(&image, &extend(DEFAULT), &A, 0), 9);
    assert_eq!(tried(&image, &destroy(DEFAULT), &[1; 19], 0), 9);
    assert_eq!(tried(&image, &destroy(A), &[], 0), 10);
    for index in 5..NODES as u8 {
        assert_eq!(call(&mut image, &derive(A, 1), &[index; 20]), 0);
    }
    assert_eq!(tried(&image, &derive(A, 1), &B, 0), 8);
    assert_eq!(tried(&image, &derive(A, 1), &C, 0), 1);
    assert_eq!(tried(&image, &derive(A, 1), &C, 1), 7);
    image[node(3) + 2..][..5].copy_from_slice(&packed(&A));
    assert_eq!(open(&image, &[], &[], 0).unwrap_err(), 11);
    image[ATTESTATION] = 0;
    assert_eq!(tried(&image, &[], &[], 0), 2);
}

/// Anything but exactly one of the four.
#[test]
fn malformed_data() {
    let mut image = comb();
    let mut tried = |data: &[u8]| call(&mut image, data, &C);
    for whole in [derive(A, 1), extend(A), rotate(A), destroy(A)] {
        for end in 0..whole.len() {
            assert_eq!(tried(&whole[..end]), 5);
        }
        assert_eq!(tried(&[&whole[..], &[0]].concat()), 5);
        for command in [0, 5, 0x81, 0xFF] {
            assert_eq!(tried(&[&[command], &whole[1..]].concat()), 5);
        }
    }
    let with = |numbers: &[u8]| [&[1][..], &A, numbers, &[0x77; 48]].concat();
    for numbers in [
        &[2, 5][..],
        &[0x7F, 5],
        &[0x80, 1, 5],
        &[0x80, 0, 5],
        &[0x81, 0, 5],
        &[1, 0x80, 0],
        &[1, 0xFF, 0xFF, 0xFF, 0xFF, 0x10],
        &[1, 0xFF, 0xFF, 0xFF, 0xFF, 0x8F],
        &[1, 0xFF, 0xFF, 0xFF, 0xFF, 0x80, 0],
    ] {
        assert_eq!(tried(&with(numbers)), 5, "{numbers:02x?}");
    }
    assert_eq!(tried(&with(&[1, 0xFF, 0xFF, 0xFF, 0xFF, 0x0F])), 0);
}

#[test]
fn lengths() {
    let image = booted();
    let length = |bytes: &[u8]| {
        let opened = ENGINE.open_request(&image, Request::plain(CODE, bytes));
        opened.map(|work| answered(&work))
    };
    for count in 0..8 {
        let mut bytes = sealed(CODE, &[0; 4][..count.max(4) - 4]);
        bytes.truncate(count);
        assert_eq!(length(&bytes), Err(4));
    }
    let sized = |size: u32, data: usize| {
        let body = [&size.to_le_bytes()[..], &vec![9; data]].concat();
        length(&sealed(CODE, &body))
    };
    for data in [0, 1, 1_023, 1_024] {
        assert_eq!(sized(data as u32, data), Ok(5));
        assert_eq!(sized(data as u32 + 1, data), Err(4));
        assert_eq!(sized(data as u32, data + 1), Err(4));
        assert_eq!(sized((data as u32) << 16 | 0x1_0000, data), Err(4));
    }
    assert_eq!(sized(1_025, 1_025), Err(4));
    assert_eq!(sized(65_527, 65_527), Err(4));
    let mut bent = sealed(CODE, &body(&[]));
    bent[0] ^= 1;
    assert_eq!(length(&bent), Err(0x4243_484B));
}

/// Destroying the end of a chain of stashes leaves no live handle: nothing can be
/// measured until a cold boot, and updates go on.
#[test]
fn the_end_of_a_chain_of_stashes() {
    let mut image = booted();
    for caller in 1..NODES as u32 {
        assert_eq!(stash_by(&mut image, caller), 0);
    }
    let last = NODES as u32 - 1;
    let work = open(&image, &destroy(DEFAULT), &[], last).expect("a fine destroy");
    let all: Vec<usize> = (1..NODES).rev().collect();
    assert_eq!(work.kind, Kind::Destroy(Freed::of(&all)));
    assert_eq!(ENGINE.left(&work), 2 + 35 * 31);
    assert_eq!(call_by(&mut image, &destroy(DEFAULT), &[], last), 0);
    assert_eq!(used(&image), [0]);
    assert_eq!(handle(&image, 0), [u32::MAX; 5]);
    for _ in 0..2 {
        assert!(Paper.well_formed(&image));
        assert_eq!(stash(&mut image), 3);
        for data in [
            derive(DEFAULT, 1),
            extend(RETIRED),
            rotate(RETIRED),
            destroy(DEFAULT),
        ] {
            assert_eq!(call(&mut image, &data, &A), 6);
        }
        let (mut work, outcome) = ENGINE
            .open_update(&image, BOOTED_WITH, true)
            .expect("a fine boot");
        assert_eq!(outcome, UPDATED);
        run(&mut work, &mut image);
    }
    let (mut work, _) = ENGINE.open_cold(&image, BOOTED_WITH).expect("a fine boot");
    run(&mut work, &mut image);
    assert_eq!(image, booted());
    assert_eq!(stash(&mut image), 0);
}

/// Caller 0 takes the default handle from the root: every later stash is 3.
#[test]
fn a_rotated_default_handle() {
    let mut image = booted();
    assert_eq!(call(&mut image, &rotate(DEFAULT), &A), 0);
    for caller in 0..3 {
        assert_eq!(stash_by(&mut image, caller), 3);
    }
    assert_eq!(call(&mut image, &derive(A, 0), &B), 0);
    assert_eq!(stash(&mut image), 3);
    // No holder is told before no free node.
    for index in 2..NODES as u8 {
        assert_eq!(call(&mut image, &derive(B, 1), &[index; 20]), 0);
    }
    assert_eq!(stash(&mut image), 3);
    image[ATTESTATION] = 0;
    assert_eq!(stash(&mut image), 2);
}

/// Live handles must be different; none at all is fine.
#[test]
fn well_formed() {
    let live = comb();
    let with = |index: usize, handle: &[u8; 20]| {
        let mut image = live.clone();
        image[node(index) + 2..][..5].copy_from_slice(&packed(handle));
        image
    };
    assert!(Paper.well_formed(&live));
    for index in 0..5 {
        assert!(Paper.well_formed(&with(index, &RETIRED)));
        assert!(Paper.well_formed(&with(index, &C)));
        for taken in [(0, DEFAULT), (1, A), (4, B)] {
            let fine = index == taken.0;
            assert_eq!(Paper.well_formed(&with(index, &taken.1)), fine);
        }
        // Alike but for one byte.
        for at in 0..20 {
            let mut near = B;
            near[at] ^= 0x80;
            assert!(Paper.well_formed(&with(index, &near)));
        }
    }
    let mut none = live;
    (0..5).for_each(|index| none[node(index) + 2..][..5].fill(u32::MAX));
    assert!(Paper.well_formed(&none));
}

/// A driver with a call in hand on the comb, made so far.
fn driven(data: &[u8], made: usize) -> Player {
    let mut player = Player::new(ENGINE);
    let request = |data: &[u8], fresh: &[u8]| {
        Op::Request(Mail {
            code: CODE,
            caller: 0,
            verdict: 0,
            table: vec![],
            bytes: sealed(CODE, &body(data)),
            fresh: fresh.to_vec(),
        })
    };
    let all = Op::Store(u32::MAX);
    let ops = [
        Op::Cold(BootBytes::from(BOOTED_WITH)),
        all.clone(),
        request(&derive(DEFAULT, 1), &A),
        all.clone(),
        request(&derive(A, 1), &B),
        all.clone(),
        request(&derive(B, 0), &C),
        all,
        request(data, &B),
        Op::Store(made as u32),
    ];
    ops.into_iter()
        .for_each(|op| player.operate(op).expect("the book agrees"));
    player
}

fn set(player: &mut Player, field: u8, value: u64) -> Work {
    let set = player.operate(Op::Set { field, value });
    set.expect("no book looks at a work that is set");
    player.work().expect("a work in hand").clone()
}

/// Stores left; none, and 7, if it is malformed.
fn left(work: &Work) -> Option<u32> {
    let left = ENGINE.left(work);
    let answers = ENGINE.answer(work, &mut [0; 12]) == 0;
    let mut image = booted();
    match (left, answers) {
        (0, false) => {
            assert_eq!(ENGINE.store(&mut work.clone(), &mut image), 9);
            assert_eq!(ENGINE.entry(work, &mut [0; 128]), Err(7));
            assert_eq!(image, booted());
            None
        }
        (0, true) => Some(0),
        (left, _) => Some(left),
    }
}

#[test]
fn indices_that_are_set() {
    let kinds = [
        (derive(C, 1), 37, 1),
        (derive(C, 0), 42, 2),
        (extend(C), 26, 1),
        (rotate(C), 7, 1),
        (destroy(C), 2 + 35 * 2, 0),
    ];
    for (data, number, indices) in kinds {
        for made in [0, 1, number / 2, number] {
            for field in 1..=2 {
                for value in [0, 31, 32, 1 << 32, u64::MAX] {
                    let mut player = driven(&data, made);
                    let work = set(&mut player, field, value);
                    let beyond = field <= indices && value > 31;
                    let fine = Some((number - made) as u32);
                    assert_eq!(left(&work), if beyond { None } else { fine });
                }
            }
            for field in [0, 4, 5, 15, 16, 47, 48, 255] {
                let mut player = driven(&data, made);
                let before = player.work().cloned();
                let work = set(&mut player, field, u64::MAX);
                let has = field == 0 || indices == 0 && [4, 16, 47].contains(&field);
                assert_eq!(Some(work) == before, !has, "{field}");
            }
        }
    }
}

#[test]
fn freed_nodes_that_are_set() {
    let made = 36;
    let mut player = driven(&destroy(C), made);
    assert_eq!(left(&set(&mut player, 4, 33)), None);
    assert_eq!(left(&set(&mut player, 4, 0)), None);
    assert_eq!(left(&set(&mut player, 4, 1)), Some(1));
    // A raised number takes in zeros.
    assert_eq!(left(&set(&mut player, 4, 32)), Some(2 + 35 * 32 - 36));
    // What stands behind the number does not matter.
    assert_eq!(left(&set(&mut player, 16 + 31, 32)), None);
    assert_eq!(left(&set(&mut player, 4, 31)), Some(2 + 35 * 31 - 36));
    assert_eq!(left(&set(&mut player, 4, 2)), Some(36));
    assert_eq!(left(&set(&mut player, 17, 32)), None);
    assert_eq!(left(&set(&mut player, 17, 3)), Some(36));
    // Twice the same index: node 2 stays.
    player.operate(Op::Store(u32::MAX)).expect("no book");
    assert_eq!(used(player.image()), [0, 1, 2]);
    let mut none = driven(&destroy(C), 0);
    assert_eq!(left(&set(&mut none, 4, 0)), Some(2));
    none.operate(Op::Store(u32::MAX)).expect("no book");
    assert_eq!(used(none.image()), [0, 1, 2, 3]);
}

#[test]
fn a_torn_tree_command_disables() {
    for (data, number) in [
        (derive(C, 1), 37),
        (derive(C, 0), 42),
        (extend(C), 26),
        (rotate(C), 7),
        (destroy(C), 72),
    ] {
        for made in 0..=number {
            let mut player = driven(&data, made);
            let boot = BootBytes::from(BOOTED_WITH);
            for op in [Op::Cut, Op::Update(boot, 1), Op::Store(u32::MAX)] {
                player.operate(op).expect("the book agrees");
            }
            let on = player.image()[ATTESTATION] == 1;
            assert_eq!(on, made == 0 || made == number);
            assert_eq!(player.seen.looks, 1);
        }
    }
}

#[test]
fn the_small_program_lends_no_fresh_handle() {
    let output = |data: &[u8]| {
        let input = [&b"CEPD"[..], &sealed(CODE, &body(data))].concat();
        let output = mailbox(&input);
        (output.len(), little(&output), output.get(12).copied())
    };
    let result = |result: u8| (16, 0, Some(result));
    assert_eq!(output(&[]), result(5));
    assert_eq!(output(&derive(A, 1)), result(6));
    assert_eq!(output(&derive(DEFAULT, 1)), result(8));
    assert_eq!(output(&rotate(DEFAULT)), result(8));
    assert_eq!(output(&extend(DEFAULT)), result(9));
    assert_eq!(output(&destroy(DEFAULT)), result(9));
}

/// A work's entry after its stores.
fn entry(image: &mut [u32], data: &[u8], fresh: &[u8], caller: u32) -> Vec<u8> {
    let mut work = open(image, data, fresh, caller).expect("a fine command");
    run(&mut work, image);
    let mut buffer = [0; 128];
    let length = ENGINE.entry(&work, &mut buffer).expect("no store left");
    assert_eq!(
        ENGINE
            .entry(&work, &mut [0; 128][..length.max(1) - 1])
            .is_ok(),
        length == 0
    );
    buffer[..length].to_vec()
}

#[test]
fn entries_by_hand() {
    let mut image = booted();
    assert_eq!(stash_by(&mut image, 300), 0);
    let caller = [0xAC, 0x02];
    for (retain, handle, fresh) in [(1, DEFAULT, A), (0, A, B)] {
        let data = derive(handle, retain);
        let expected = [&[6][..], &data[1..], &fresh, &caller].concat();
        assert_eq!(entry(&mut image, &data, &fresh, 300), expected);
    }
    let expected = [&[7][..], &extend(B)[1..], &caller].concat();
    assert_eq!(entry(&mut image, &extend(B), &A, 300), expected);
    let expected = [&[8][..], &B, &C, &caller].concat();
    assert_eq!(entry(&mut image, &rotate(B), &C, 300), expected);
    let expected = [&[9][..], &C, &caller].concat();
    assert_eq!(entry(&mut image, &destroy(C), &A, 300), expected);
    assert_eq!(entry(&mut image, &destroy(C), &A, 300), []);
}
