//! "Work, one word at a time": the store table, one store, the stores left,
//! the answer.

use crate::journal::Value;
use crate::layout::*;

/// What a work does, by value; a destroy lists the nodes that it frees.
#[allow(clippy::large_enum_variant)]
#[derive(Clone, Copy, Debug, PartialEq, Eq)]
pub enum Kind {
    Cold,
    Update { root: u64 },
    Disabling,
    Stash { node: u64, holder: u64 },
    Extension { register: u64 },
    Derive { node: u64 },
    Succeed { node: u64, parent: u64 },
    Remeasure { node: u64 },
    Rotate { node: u64 },
    Destroy(Freed),
    Nothing,
}

/// The nodes that a destroy frees: so many of the indices, in this order.
#[derive(Clone, Copy, Debug, PartialEq, Eq)]
pub struct Freed {
    pub number: u64,
    pub indices: [u64; NODES],
}

impl Freed {
    /// Zero behind the last.
    pub fn of(nodes: &[usize]) -> Freed {
        let index = |place: usize| nodes.get(place).map_or(0, |&node| node as u64);
        Freed {
            number: nodes.len() as u64,
            indices: std::array::from_fn(index),
        }
    }

    /// The indices that count.
    pub fn counted(&self) -> &[u64] {
        &self.indices[..self.number.min(NODES as u64) as usize]
    }
}

/// An index that a work carries, by what it names.
pub enum Index<'a> {
    Node(&'a mut u64),
    Register(&'a mut u64),
}

impl Index<'_> {
    pub fn value(&mut self) -> &mut u64 {
        match self {
            Index::Node(index) | Index::Register(index) => index,
        }
    }
}

impl Kind {
    pub fn sort(self) -> Sort {
        match self {
            Kind::Cold => Sort::Cold,
            Kind::Update { .. } => Sort::Update,
            Kind::Disabling => Sort::Disabling,
            Kind::Stash { .. } => Sort::Stash,
            Kind::Extension { .. } => Sort::Extension,
            Kind::Derive { .. } => Sort::Derive,
            Kind::Succeed { .. } => Sort::Succeed,
            Kind::Remeasure { .. } => Sort::Remeasure,
            Kind::Rotate { .. } => Sort::Rotate,
            Kind::Destroy(_) => Sort::Destroy,
            Kind::Nothing => Sort::Nothing,
        }
    }

    /// The indices, the first first; a destroy has others.
    pub fn indices(&mut self) -> Vec<Index<'_>> {
        match self {
            Kind::Stash {
                node,
                holder: second,
            }
            | Kind::Succeed {
                node,
                parent: second,
            } => vec![Index::Node(node), Index::Node(second)],
            Kind::Update { root: node }
            | Kind::Derive { node }
            | Kind::Remeasure { node }
            | Kind::Rotate { node } => vec![Index::Node(node)],
            Kind::Extension { register } => vec![Index::Register(register)],
            Kind::Cold | Kind::Disabling | Kind::Destroy(_) | Kind::Nothing => vec![],
        }
    }

    /// The nodes that a destroy frees.
    pub fn freed(&mut self) -> Option<&mut Freed> {
        match self {
            Kind::Destroy(freed) => Some(freed),
            _ => None,
        }
    }
}

/// What an accepted opening yields. Parts that a kind does not use are zero.
#[derive(Clone, Debug, PartialEq, Eq)]
pub struct Work {
    pub kind: Kind,
    pub position: u64,
    pub answer_bytes: u64,
    pub answer: [u8; ANSWER_MAX],
    pub current: Words,
    pub journey: Words,
    pub stashed: Words,
    pub extended: Words,
    pub secret: Words,
    pub node: [u32; NODE_WORDS],
    /// A cold boot's words from word 1 on; empty for every other kind.
    pub whole: Vec<u32>,
    /// The inputs that its journal entry tells, but for an extension's register.
    pub told: Vec<Value>,
}

impl Work {
    pub fn new(kind: Kind, answer: &[u8]) -> Work {
        let mut prepared = [0; ANSWER_MAX];
        prepared[..answer.len()].copy_from_slice(answer);
        Work {
            kind,
            position: 0,
            answer_bytes: answer.len() as u64,
            answer: prepared,
            current: [0; DIGEST_WORDS],
            journey: [0; DIGEST_WORDS],
            stashed: [0; DIGEST_WORDS],
            extended: [0; DIGEST_WORDS],
            secret: [0; DIGEST_WORDS],
            node: [0; NODE_WORDS],
            whole: Vec::new(),
            told: Vec::new(),
        }
    }

    /// Sets the handle of the prepared node.
    pub fn set_handle(&mut self, handle: &Handle) {
        self.node[HANDLE..][..HANDLE_WORDS].copy_from_slice(&handle_words(handle));
    }

    /// Sets a measurement of the prepared node.
    pub fn set_node(&mut self, offset: usize, measurement: &Digest) {
        self.node[offset..][..DIGEST_WORDS].copy_from_slice(&words_of(measurement));
    }
}

/// Words that follow one another, and what they take.
pub type Field<'a> = (usize, &'a [u32]);

const MARK_OPEN: Field = (MARK, &[0]);
const MARK_DONE: Field = (MARK, &[DONE]);

/// The words of a free node.
const BLANK: [u32; NODE_WORDS] = [0; NODE_WORDS];

/// The rules of works, each a method, so that an engine can be wrong in just
/// one.
pub trait Works {
    /// The store table's row for this work, as fields in order.
    fn fields<'a>(&self, work: &'a Work) -> Vec<Field<'a>> {
        let measurement = |offset: usize| &work.node[offset..][..DIGEST_WORDS];
        match work.kind {
            Kind::Nothing => vec![],
            Kind::Stash { node: new, holder } => vec![
                MARK_OPEN,
                (register(STASHED), &work.stashed),
                (node(new as usize), &work.node),
                (node(holder as usize) + HANDLE, &RETIRED_HANDLE),
                MARK_DONE,
            ],
            Kind::Extension { register: named } => vec![
                MARK_OPEN,
                (register(named as usize), &work.extended),
                MARK_DONE,
            ],
            Kind::Disabling => vec![
                MARK_OPEN,
                (ATTESTATION, &[0]),
                (SECRET, &[0; DIGEST_WORDS]),
                MARK_DONE,
            ],
            Kind::Update { root } => vec![
                MARK_OPEN,
                (register(CURRENT), &work.current),
                (register(JOURNEY), &work.journey),
                (SECRET, &work.secret),
                (
                    node(root as usize) + NODE_CURRENT,
                    measurement(NODE_CURRENT),
                ),
                (
                    node(root as usize) + NODE_CUMULATIVE,
                    measurement(NODE_CUMULATIVE),
                ),
                MARK_DONE,
            ],
            Kind::Cold => vec![MARK_OPEN, (ATTESTATION, &work.whole), MARK_DONE],
            Kind::Derive { node: new } => {
                vec![MARK_OPEN, (node(new as usize), &work.node), MARK_DONE]
            }
            Kind::Succeed { node: new, parent } => vec![
                MARK_OPEN,
                (node(new as usize), &work.node),
                (node(parent as usize) + HANDLE, &RETIRED_HANDLE),
                MARK_DONE,
            ],
            Kind::Remeasure { node: old } => vec![
                MARK_OPEN,
                (node(old as usize) + NODE_CURRENT, measurement(NODE_CURRENT)),
                (
                    node(old as usize) + NODE_CUMULATIVE,
                    measurement(NODE_CUMULATIVE),
                ),
                MARK_DONE,
            ],
            Kind::Rotate { node: old } => vec![
                MARK_OPEN,
                (
                    node(old as usize) + HANDLE,
                    &work.node[HANDLE..][..HANDLE_WORDS],
                ),
                MARK_DONE,
            ],
            Kind::Destroy(freed) => {
                let free = |&index: &u64| (node(index as usize), &BLANK[..]);
                let freed = freed.counted().iter().map(free);
                let marked = [MARK_OPEN].into_iter().chain(freed);
                marked.chain([MARK_DONE]).collect()
            }
        }
    }

    /// The number of stores in the table.
    fn number(&self, work: &Work) -> u64 {
        let fields = self.fields(work);
        fields.iter().map(|(_, values)| values.len() as u64).sum()
    }

    /// The word of the next store and what it takes, if a store is left.
    fn next_store(&self, work: &Work) -> Option<(usize, u32)> {
        let mut made = work.position as usize;
        for (from, values) in self.fields(work) {
            if made < values.len() {
                return Some((from + made, values[made]));
            }
            made -= values.len();
        }
        None
    }

    /// Whether indices, answer length and position are within their bounds.
    fn is_sound(&self, work: &Work) -> bool {
        self.is_aimed(&work.kind)
            && work.answer_bytes <= ANSWER_MAX as u64
            && work.position <= self.number(work)
    }

    /// Whether all indices of a kind are within their bounds.
    fn is_aimed(&self, kind: &Kind) -> bool {
        match kind {
            Kind::Destroy(freed) => self.are_nodes(freed),
            Kind::Cold | Kind::Disabling | Kind::Nothing => true,
            _ => kind.clone().indices().iter().all(|i| self.is_within(i)),
        }
    }

    /// Whether a destroy has no more nodes than there are, and each is one.
    fn are_nodes(&self, freed: &Freed) -> bool {
        let nodes = freed.counted().iter();
        freed.number <= NODES as u64 && nodes.copied().all(|index| self.is_node(index))
    }

    fn is_within(&self, index: &Index) -> bool {
        match index {
            Index::Node(index) => self.is_node(**index),
            Index::Register(index) => self.is_register(**index),
        }
    }

    fn is_node(&self, index: u64) -> bool {
        index < NODES as u64
    }

    fn is_register(&self, index: u64) -> bool {
        EXTENDABLE.contains(&index)
    }

    /// The reported stores left.
    fn left(&self, work: &Work) -> u32 {
        if !self.is_sound(work) {
            return 0;
        }
        (self.number(work) - work.position) as u32
    }

    /// Makes one store and moves the work on. The number is 0, or says why
    /// nothing changed.
    fn store(&self, work: &mut Work, image: &mut [u32]) -> u32 {
        if image.len() != IMAGE_WORDS {
            return number::IMAGE;
        }
        if self.left(work) == 0 {
            return number::NO_STORE;
        }
        if let Some((word, value)) = self.next_store(work) {
            image[word] = value;
        }
        work.position += 1;
        0
    }

    /// Writes the answer to the front of the buffer. The number is 0, or says
    /// why nothing changed.
    fn answer(&self, work: &Work, buffer: &mut [u8]) -> u32 {
        if !self.is_sound(work) || self.left(work) > 0 {
            return number::STORES_LEFT;
        }
        let answer = &work.answer[..work.answer_bytes as usize];
        let Some(front) = buffer.get_mut(..answer.len()) else {
            return number::BUFFER;
        };
        front.copy_from_slice(answer);
        0
    }
}
