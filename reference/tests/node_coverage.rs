//! What the first scripts, and the inputs without a seed, hold of the number of
//! nodes.

use reference::engine::{Engine, Paper};
use reference::generate::{node_inputs, script, FORMER_NODES, FORMER_WORDS};
use reference::layout::*;
use reference::memory::Memory;
use reference::player::Player;
use reference::script::{Op, Reader};
use reference::wrong::untold;
use std::collections::BTreeSet;
use std::iter::successors;

const SEEDS: u64 = 500;

/// What a unit's nodes are at a stash or an update boot, all else being fine.
#[derive(Debug, PartialEq, Eq, PartialOrd, Ord)]
enum Tree {
    /// In a tree that is well formed: how many are used, and where these are.
    Used(usize),
    Root(usize),
    Holder(usize),
    LowestFree(usize),
    /// All nodes in one chain, in that order.
    Chain(&'static str),
    /// A loop of so many nodes, and whether others hang on it.
    Loop(usize, bool),
    /// A parent, and whether it is a used node.
    Parent(u32, bool),
    /// The last node is free, and only its last word is not zero.
    EndOfFree,
}

impl Tree {
    fn on(image: &[u32]) -> Vec<Tree> {
        if image[MARK] != DONE || image[ATTESTATION] != ON {
            return vec![];
        }
        let used = (0..NODES).filter(|&index| Paper.is_used(image, index));
        let used: Vec<usize> = used.collect();
        let mut shown: Vec<Tree> = used.iter().flat_map(|&at| Tree::above(image, at)).collect();
        if Paper.well_formed(image) {
            shown.push(Tree::Used(used.len()));
            shown.extend(Paper.root(image).map(Tree::Root));
            shown.extend(Paper.holder(image).map(Tree::Holder));
            shown.extend(Paper.free_node(image).map(Tree::LowestFree));
            shown.extend(Tree::chain(image, &used));
        }
        let (end, words) = node_of(image, NODES - 1).split_last().expect("a node");
        shown.extend((*end != 0 && words.iter().all(|&word| word == 0)).then_some(Tree::EndOfFree));
        shown
    }

    /// A node's parent, and the loop that it leads to.
    fn above(image: &[u32], index: usize) -> Vec<Tree> {
        let parent = Paper.next_up(image, index);
        let mut shown = vec![Tree::Parent(Paper.parent(image, index), parent.is_some())];
        let up = |at: &usize| Paper.next_up(image, *at);
        if let Some(end) = successors(Some(index), up).nth(NODES) {
            let around = successors(up(&end), up).take_while(|&at| at != end);
            let length = 1 + around.count();
            let hangs = successors(parent, up).take(NODES).all(|at| at != index);
            shown.push(Tree::Loop(length, hangs));
        }
        shown
    }

    fn chain(image: &[u32], used: &[usize]) -> Option<Tree> {
        let parents: BTreeSet<u32> = used.iter().map(|&at| Paper.parent(image, at)).collect();
        if used.len() < NODES || parents.len() < NODES {
            return None;
        }
        let all_at = |by: isize| {
            let fine = |&at: &usize| match Paper.next_up(image, at) {
                Some(parent) => parent as isize == at as isize + by,
                None => true,
            };
            used.iter().all(fine)
        };
        Some(Tree::Chain(match (all_at(-1), all_at(1)) {
            (true, _) => "ascending",
            (_, true) => "descending",
            _ => "shuffled",
        }))
    }
}

/// The trees of lists of operations, the nodes that their works are set to by kind
/// and field, and the lengths of the images that something is opened on.
#[derive(Default)]
struct Nodes {
    trees: BTreeSet<Tree>,
    set: BTreeSet<(Sort, u8, u64)>,
    lengths: BTreeSet<usize>,
}

impl Nodes {
    fn of(lists: impl Iterator<Item = Vec<Op>>) -> Nodes {
        let mut nodes = Nodes::default();
        for ops in lists {
            let mut player = Player::new(Engine::PAPER);
            for op in ops {
                nodes.see(&player, &op);
                player.operate(op).expect("the books agree");
            }
        }
        nodes
    }

    fn see(&mut self, player: &Player, op: &Op) {
        let image = player.image();
        let looks = match op {
            Op::Request(mail) => mail.code == STASH,
            Op::Update(..) => true,
            _ => false,
        };
        if let (Op::Set { field, value }, Some(work)) = (op, player.work()) {
            self.set.insert((work.kind.sort(), *field, *value));
        }
        if looks {
            self.lengths.insert(image.len());
        }
        if looks && image.len() == IMAGE_WORDS {
            self.trees.extend(Tree::on(image));
        }
    }

    /// Trees of every sort; the root, the holder and the lowest free node at each
    /// index from `first` on.
    fn has_every_case(&self, first: usize) {
        let has = |tree: Tree| assert!(self.trees.contains(&tree), "{tree:?}");
        let (nodes, last, former) = (NODES as u32, NODES as u32 - 1, FORMER_NODES as u32);
        (first.max(1)..=NODES).for_each(|used| has(Tree::Used(used)));
        for index in first..NODES {
            has(Tree::Root(index));
            has(Tree::Holder(index));
            has(Tree::LowestFree(index));
        }
        for order in ["ascending", "descending", "shuffled"] {
            has(Tree::Chain(order));
        }
        for (length, hangs) in [(NODES, false), (NODES - 1, false), (2, true)] {
            has(Tree::Loop(length, hangs));
        }
        for parent in [last, former] {
            has(Tree::Parent(parent, true));
            has(Tree::Parent(parent, false));
        }
        for parent in [nodes, ROOT_PARENT, 0x100 | last, 0x100 + nodes] {
            has(Tree::Parent(parent, false));
        }
        has(Tree::EndOfFree);
        for (sort, field) in [(Sort::Stash, 1), (Sort::Stash, 2), (Sort::Update, 1)] {
            for index in [last, nodes, former] {
                let set = (sort, field, u64::from(index));
                assert!(self.set.contains(&set), "{set:?}");
            }
        }
        let near = [IMAGE_WORDS - 1, IMAGE_WORDS, IMAGE_WORDS + 1];
        let by_nodes = [FORMER_WORDS, IMAGE_WORDS + NODE_WORDS];
        for length in near.iter().chain(&by_nodes) {
            assert!(self.lengths.contains(length), "{length} words");
        }
    }
}

#[test]
fn the_first_scripts_hold_every_case_of_the_nodes() {
    let scripts = (0..SEEDS).map(|seed| script(seed).ops);
    Nodes::of(scripts).has_every_case(NODES - 1);
}

#[test]
fn an_input_without_a_seed_holds_every_case_of_the_nodes() {
    let inputs = node_inputs();
    let lists = inputs.iter().map(|input| Reader::new(input).collect());
    Nodes::of(lists).has_every_case(0);
}

#[test]
fn an_input_without_a_seed_tells_every_wrong_number_of_nodes() {
    let inputs = node_inputs();
    for title in ["Thirty-two nodes", "The way to the root"] {
        assert_eq!(untold(&inputs, title), [""; 0]);
    }
}
