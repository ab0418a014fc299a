//! 02's svn in word 34 of a node: what stores it, what leaves it, and where it
//! counts.

use reference::checksum::sealed;
use reference::engine::{Engine, Paper};
use reference::generate::{odd_image_1, odd_image_2};
use reference::layout::*;
use reference::mailbox::{booted, mailbox_on, BOOTED_WITH};
use reference::memory::Memory;
use reference::player::Player;
use reference::requests::Request;
use reference::script::{encode, Mail, Op};
use reference::show;
use reference::work::{Kind, Work};
use reference::wrong;

const ENGINE: Engine = Engine::PAPER;

/// A type, a digest of bytes 7 and an svn, as 01 lays them out.
fn bytes(svn: [u8; 4]) -> Vec<u8> {
    sealed(STASH, &[&b"SVNT"[..], &[7; 48], &svn].concat())
}

fn open(image: &[u32], svn: u32) -> Result<Work, u32> {
    let bytes = bytes(svn.to_le_bytes());
    let request = Request {
        caller: 0x0C0B_0A09,
        ..Request::plain(STASH, &bytes)
    };
    ENGINE.open_request(image, request)
}

fn run(work: &mut Work, image: &mut [u32]) {
    while ENGINE.store(work, image) == 0 {}
}

/// A whole stash.
fn stash(image: &mut [u32], svn: u32) {
    let mut work = open(image, svn).expect("a free node");
    run(&mut work, image);
}

/// An update boot to its end: its outcome.
fn update(image: &mut [u32], verdict: bool) -> u8 {
    let opened = ENGINE.open_update(image, BOOTED_WITH, verdict);
    let (mut work, outcome) = opened.expect("a fine boot");
    run(&mut work, image);
    outcome
}

/// The svns of all nodes.
fn svns(image: &[u32]) -> Vec<u32> {
    (0..NODES).map(|index| node_of(image, index)[SVN]).collect()
}

/// These svns, and zeros for the other nodes.
fn and_zeros(svns: &[u32]) -> Vec<u32> {
    let mut svns = svns.to_vec();
    svns.resize(NODES, 0);
    svns
}

#[test]
fn the_word_is_little_endian() {
    let bytes = bytes([1, 2, 3, 4]);
    assert_eq!(bytes[STASH_SVN..], [1, 2, 3, 4]);
    let work = ENGINE.open_request(&booted(), Request::plain(STASH, &bytes));
    assert_eq!(work.expect("a free node").node[SVN], 0x0403_0201);
}

#[test]
fn a_node_has_its_own_svn_whatever_the_others_have() {
    let mut image = booted();
    let mut expected = vec![0];
    for svn in [5, 3, 0, u32::MAX, 0x8000_0000, 1, 0x0C0B_0A09, RTJM, 5, 5] {
        stash(&mut image, svn);
        expected.push(svn);
        assert_eq!(svns(&image), and_zeros(&expected));
        assert!(Paper.well_formed(&image));
    }
    assert_eq!(update(&mut image, true), UPDATED);
    assert_eq!(svns(&image), and_zeros(&expected));
}

#[test]
fn two_stashes_alike_but_for_the_svn_differ_in_word_34() {
    let after = |svn: u32| {
        let mut image = booted();
        stash(&mut image, svn);
        image
    };
    let (one, two) = (after(0x0403_0201), after(0x0403_0200));
    let words = (0..IMAGE_WORDS).filter(|&word| one[word] != two[word]);
    assert_eq!(words.collect::<Vec<_>>(), [node(1) + SVN]);
}

#[test]
fn a_stash_cut_after_every_store() {
    for made in 0..=STASH_STORES {
        let mut image = booted();
        stash(&mut image, 9);
        let mut work = open(&image, 0xFFFF_FFFE).expect("a free node");
        for _ in 0..made {
            assert_eq!(ENGINE.store(&mut work, &mut image), 0);
        }
        let expected = [0, 9, if made > BEFORE_SVN { 0xFFFF_FFFE } else { 0 }];
        assert_eq!(svns(&image), and_zeros(&expected), "after {made} stores");
        let on = made == 0 || made == STASH_STORES;
        let outcome = update(&mut image, true);
        assert_eq!(outcome, if on { UPDATED } else { DISABLED });
        assert_eq!(svns(&image), and_zeros(&expected), "after {made} stores");
    }
}

#[test]
fn a_cold_boot_leaves_no_svn() {
    let mut image = vec![u32::MAX; IMAGE_WORDS];
    let opened = ENGINE.open_cold(&image, BOOTED_WITH);
    let (mut work, _) = opened.expect("a fine boot");
    run(&mut work, &mut image);
    assert_eq!(svns(&image), and_zeros(&[]));
    assert_eq!(image, booted());
}

#[test]
fn a_free_nodes_svn_counts() {
    for index in 0..NODES {
        let unit = if index == 0 { odd_image_1() } else { booted() };
        assert!(Paper.well_formed(&unit));
        for bit in 0..32 {
            let mut image = unit.clone();
            image[node(index) + SVN] = 1 << bit;
            assert!(!Paper.well_formed(&image));
            assert_eq!(open(&image, 0).unwrap_err(), 11);
            assert_eq!(update(&mut image, false), DISABLED);
            assert_eq!(image[node(index) + SVN], 1 << bit);
        }
    }
}

/// All nodes are used; the last is the root.
#[test]
fn a_used_nodes_svn_does_not_count() {
    for index in 0..NODES {
        for svn in [1, 0x8000_0000, u32::MAX] {
            let mut image = odd_image_2();
            image[node(index) + SVN] = svn;
            assert!(Paper.well_formed(&image));
            let before = svns(&image);
            assert_eq!(update(&mut image, false), KEPT);
            assert_eq!(update(&mut image, true), UPDATED);
            assert_eq!(svns(&image), before);
        }
    }
}

#[test]
fn a_stash_is_taken_below_any_holder() {
    for before in [0, 1, u32::MAX] {
        for svn in [0, 1, u32::MAX] {
            let mut image = odd_image_1();
            image[node(2) + SVN] = before;
            image[node(5) + SVN] = before;
            let work = open(&image, svn).expect("a free node");
            assert_eq!(work.kind, Kind::Stash { node: 0, holder: 2 });
            stash(&mut image, svn);
            let expected = [svn, 0, before, 0, 0, before];
            assert_eq!(svns(&image), and_zeros(&expected));
        }
    }
}

fn request(svn: u32) -> Op {
    Op::Request(Mail {
        code: STASH,
        caller: 3,
        verdict: 0,
        table: vec![],
        bytes: bytes(svn.to_le_bytes()),
        fresh: Vec::new(),
    })
}

/// Two stashes after a cold boot, the second cut, and an update.
fn script(made: usize) -> Vec<u8> {
    encode(&[
        Op::Cold(BOOTED_WITH.into()),
        Op::Store(COLD_STORES as u32),
        request(0x0403_0201),
        Op::Store(STASH_STORES as u32),
        request(6),
        Op::Store(made as u32),
        Op::Cut,
        Op::Update(BOOTED_WITH.into(), 1),
        Op::Store(UPDATE_STORES as u32),
    ])
}

#[test]
fn the_book_has_the_svns() {
    for (made, second) in [(0, 0), (STASH_STORES, 6)] {
        let mut player = Player::new(ENGINE);
        player.run(&script(made)).expect("the book agrees");
        assert_eq!(player.seen.looks, 1);
        let expected = [0, 0x0403_0201, second];
        assert_eq!(svns(player.image()), and_zeros(&expected));
    }
}

#[test]
fn the_book_tells_a_wrong_svn() {
    for name in ["SvnZero", "SvnInTagToo", "SvnBigEndian", "RootSvnOne"] {
        let wrong = wrong::named(name).expect("a wrong engine");
        let why = Player::new(wrong.engine).run(&script(0)).unwrap_err();
        assert!(why.contains("and the book has"), "{name}: {why}");
    }
}

#[test]
fn the_small_program_stores_it() {
    let input = [&b"SAEM"[..], &bytes([1, 2, 3, 4])].concat();
    let ran = mailbox_on(ENGINE, &input);
    assert_eq!(ran.output, [0; 16]);
    assert_eq!(svns(&ran.image), and_zeros(&[0, 0x0403_0201]));
}

#[test]
fn an_svn_is_shown() {
    let mut image = booted();
    stash(&mut image, 0x0403_0201);
    let shown = show::operation(&Op::Image(image));
    assert!(shown.ends_with("type 0x544E5653 svn 0x4030201"), "{shown}");
}
