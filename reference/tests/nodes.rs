//! 02's number of nodes: the longest way to the root, loops, parents, and the last
//! node as the root, the holder and the free one.

use reference::checksum::sealed;
use reference::engine::{Engine, Paper};
use reference::generate::{chain, FORMER_NODES, FORMER_WORDS};
use reference::layout::*;
use reference::mailbox::{booted, BOOTED_WITH};
use reference::memory::Memory;
use reference::player::Player;
use reference::random::Random;
use reference::requests::Request;
use reference::script::{Mail, Op};
use reference::work::{Kind, Work};
use std::iter::successors;

const ENGINE: Engine = Engine::PAPER;
const LAST: usize = NODES - 1;

fn stash(image: &[u32]) -> Result<Work, u32> {
    let bytes = sealed(STASH, &[5; 56]);
    ENGINE.open_request(image, Request::plain(STASH, &bytes))
}

fn update(image: &[u32]) -> (Kind, u8) {
    let opened = ENGINE.open_update(image, BOOTED_WITH, true);
    let (work, outcome) = opened.expect("a fine boot");
    (work.kind, outcome)
}

/// A unit that a stash and an update boot take as it is; it has that root.
fn is_fine(image: &[u32], root: usize) {
    assert!(Paper.well_formed(image));
    let root = root as u64;
    assert_eq!(update(image), (Kind::Update { root }, UPDATED));
    assert!(stash(image).is_ok());
}

/// A unit whose tree is at fault.
fn is_malformed(image: &[u32]) {
    assert!(!Paper.well_formed(image));
    assert_eq!(update(image), (Kind::Disabling, DISABLED));
    assert_eq!(stash(image).unwrap_err(), number::TREE);
}

/// All nodes ascending, descending and in twenty orders by chance.
fn orders() -> Vec<Vec<usize>> {
    let mut orders = vec![(0..NODES).collect(), (0..NODES).rev().collect()];
    let mut random = Random::from_seed(32);
    for _ in 0..20 {
        let mut order: Vec<usize> = (0..NODES).collect();
        for last in (1..NODES).rev() {
            order.swap(last, random.below(last + 1));
        }
        orders.push(order);
    }
    orders
}

fn with_parent(image: &[u32], index: usize, parent: usize) -> Vec<u32> {
    let mut image = image.to_vec();
    image[node(index)] = (parent as u32) << 16 | USED;
    image
}

#[test]
fn a_way_has_every_number_of_steps() {
    for order in orders() {
        for used in 1..=NODES {
            let image = chain(&order[..used]);
            is_fine(&image, order[0]);
            let up = |at: &usize| Paper.next_up(&image, *at);
            let way: Vec<usize> = successors(Some(order[used - 1]), up).collect();
            assert!(way.iter().eq(order[..used].iter().rev()));
            assert!(way.len() <= 1 + MAX_STEPS);
        }
    }
}

#[test]
fn no_loop_is_fine() {
    for order in orders() {
        let image = chain(&order);
        for from in 0..NODES {
            for to in from..NODES {
                is_malformed(&with_parent(&image, order[from], order[to]));
            }
        }
    }
}

#[test]
fn a_parent_is_a_used_node() {
    let nodes: Vec<usize> = (0..NODES).collect();
    for free in [LAST, FORMER_NODES] {
        let used: Vec<usize> = nodes.iter().copied().filter(|&at| at != free).collect();
        let image = chain(&used);
        let (leaf, others) = used.split_last().expect("a used node");
        others
            .iter()
            .for_each(|&parent| is_fine(&with_parent(&image, *leaf, parent), 0));
        is_malformed(&with_parent(&image, *leaf, free));
    }
    let image = chain(&nodes);
    for parent in (NODES..=0xFFFF).chain([LAST]) {
        assert!(
            !Paper.well_formed(&with_parent(&image, LAST, parent)),
            "{parent}"
        );
    }
}

#[test]
fn the_last_node_is_like_any_other() {
    let used: Vec<usize> = (1..NODES).rev().collect();
    let image = chain(&used);
    is_fine(&image, LAST);
    let (node, holder) = (0, 1);
    assert_eq!(
        stash(&image).map(|work| work.kind),
        Ok(Kind::Stash { node, holder })
    );
    let image = chain(&(1..NODES).collect::<Vec<_>>());
    let holder = LAST as u64;
    assert_eq!(
        stash(&image).map(|work| work.kind),
        Ok(Kind::Stash { node, holder })
    );
    let image = chain(&(0..LAST).collect::<Vec<_>>());
    let (node, holder) = (LAST as u64, LAST as u64 - 1);
    assert_eq!(
        stash(&image).map(|work| work.kind),
        Ok(Kind::Stash { node, holder })
    );
}

#[test]
fn a_cold_boot_clears_every_node() {
    let mut image = vec![u32::MAX; IMAGE_WORDS];
    let opened = ENGINE.open_cold(&image, BOOTED_WITH);
    let (mut work, _) = opened.expect("a fine boot");
    for made in 0..COLD_STORES {
        assert_eq!(ENGINE.left(&work) as usize, COLD_STORES - made);
        assert_eq!(ENGINE.store(&mut work, &mut image), 0);
    }
    assert_eq!(ENGINE.store(&mut work, &mut image), number::NO_STORE);
    assert_eq!(image, booted());
}

#[test]
fn an_image_of_the_former_length_is_refused() {
    let mut image = booted();
    image.truncate(FORMER_WORDS);
    assert_eq!(stash(&image).unwrap_err(), number::IMAGE);
    let opened = ENGINE.open_update(&image, BOOTED_WITH, true);
    assert_eq!(opened.unwrap_err(), number::IMAGE);
    let opened = ENGINE.open_cold(&image, BOOTED_WITH);
    assert_eq!(opened.unwrap_err(), number::IMAGE);
}

/// A list of stashes until one is declined: the book agrees at every call.
#[test]
fn the_book_has_all_nodes() {
    let mut player = Player::new(ENGINE);
    let mut play = |op: Op| player.operate(op).expect("the book agrees");
    play(Op::Cold(BOOTED_WITH.into()));
    play(Op::Store(COLD_STORES as u32));
    for _ in 0..=NODES {
        play(Op::Request(Mail {
            code: STASH,
            caller: 3,
            verdict: 0,
            table: vec![],
            bytes: sealed(STASH, &[5; 56]),
            fresh: Vec::new(),
        }));
        play(Op::Store(STASH_STORES as u32));
    }
    play(Op::Update(BOOTED_WITH.into(), 1));
    play(Op::Store(UPDATE_STORES as u32));
    assert_eq!(player.seen.looks, 1);
    let expected = [(STASH, DPE_DONE), (STASH, DPE_FULL)];
    assert!(player.seen.dpe_results.iter().eq(&expected));
    let image = player.image();
    assert!((0..NODES).all(|index| Paper.is_used(image, index)));
    assert!((1..NODES).all(|index| Paper.next_up(image, index) == Some(index - 1)));
}
