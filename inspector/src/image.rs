//! A unit's image: 1,520 words, little endian in a file (docs/REFERENCE.md, sections 2 and 3).

/// A digest, or a register's value.
pub type Digest = [u8; 48];

/// Words of an image, and bytes of a saved one.
pub const WORDS: usize = NODES_AT + NODES * NODE_WORDS;
pub const BYTES: usize = 4 * WORDS;

/// Registers, and the first of those that a verdict compares.
pub const REGISTERS: usize = 32;
pub const FIRST_COMPARED: usize = 2;

pub const NODES: usize = 32;
pub const NODE_WORDS: usize = 35;

const SECRET_AT: usize = 4;
const REGISTERS_AT: usize = 16;
const NODES_AT: usize = REGISTERS_AT + 12 * REGISTERS;

/// The type of the root, "RTJM", and its flags: the bit "internal".
pub const ROOT_TYPE: u32 = u32::from_le_bytes(*b"RTJM");
pub const ROOT_FLAGS: u32 = 0x8000_0000;

#[derive(Clone, Debug, PartialEq, Eq)]
pub struct Image {
    words: [u32; WORDS],
}

impl Image {
    pub const fn zero() -> Self {
        Self { words: [0; WORDS] }
    }

    /// The image of a file's bytes, if they are as many as it takes.
    pub fn from_bytes(bytes: &[u8]) -> Option<Self> {
        if bytes.len() != BYTES {
            return None;
        }
        let mut image = Self::zero();
        for (word, bytes) in image.words.iter_mut().zip(bytes.chunks_exact(4)) {
            *word = bytes.iter().rev().fold(0, |w, &b| w << 8 | u32::from(b));
        }
        Some(image)
    }

    pub fn to_bytes(&self) -> Vec<u8> {
        self.words.iter().flat_map(|w| w.to_le_bytes()).collect()
    }

    /// 1: no work is unfinished.
    pub fn mark(&self) -> u32 {
        self.words[0]
    }

    /// 1: on.
    pub fn attestation(&self) -> u32 {
        self.words[1]
    }

    pub fn is_on(&self) -> bool {
        self.attestation() == 1
    }

    pub fn set_marks(&mut self, mark: u32, attestation: u32) {
        self.words[0] = mark;
        self.words[1] = attestation;
    }

    /// Words 2 and 3, which nothing uses.
    pub fn spare(&self) -> [u32; 2] {
        [self.words[2], self.words[3]]
    }

    /// Whether the words of the device secret hold anything. What they hold is shown to nobody.
    pub fn holds_secret(&self) -> bool {
        self.words[SECRET_AT..REGISTERS_AT].iter().any(|&w| w != 0)
    }

    pub fn register(&self, number: usize) -> Digest {
        let at = REGISTERS_AT + 12 * number;
        unpacked(&self.words[at..at + 12])
    }

    pub fn set_register(&mut self, number: usize, value: &Digest) {
        let at = REGISTERS_AT + 12 * number;
        pack(value, &mut self.words[at..at + 12]);
    }

    pub fn node(&self, place: usize) -> Node {
        let at = NODES_AT + NODE_WORDS * place;
        let words = std::array::from_fn(|i| self.words[at + i]);
        Node { words }
    }

    pub fn set_node(&mut self, place: usize, node: &Node) {
        let at = NODES_AT + NODE_WORDS * place;
        self.words[at..at + NODE_WORDS].copy_from_slice(&node.words);
    }

    pub fn nodes(&self) -> impl Iterator<Item = (usize, Node)> + '_ {
        (0..NODES).map(|place| (place, self.node(place)))
    }

    /// Whether PCR2 to PCR31 and every word of every node are the other's. The words stand in one row.
    pub fn alike(&self, other: &Self) -> bool {
        let from = REGISTERS_AT + 12 * FIRST_COMPARED;
        self.words[from..] == other.words[from..]
    }

    /// Any word, for tests.
    pub fn word_mut(&mut self, at: usize) -> &mut u32 {
        &mut self.words[at]
    }
}

/// What a node hangs on: the upper half of its first word.
#[derive(Clone, Copy, Debug, PartialEq, Eq)]
pub enum Parent {
    /// None: it is the root.
    Root,
    Node(usize),
    /// A number that is no node's.
    Beyond(u32),
}

/// Bytes of a handle.
pub const HANDLE: usize = 20;

#[derive(Clone, Copy, Debug, PartialEq, Eq)]
pub enum Handle {
    /// 20 zero bytes.
    Default,
    /// 20 bytes 0xFF.
    Retired,
    Other([u8; HANDLE]),
}

impl Handle {
    pub fn from_bytes(bytes: [u8; HANDLE]) -> Self {
        match bytes {
            bytes if bytes == [0; HANDLE] => Handle::Default,
            bytes if bytes == [0xFF; HANDLE] => Handle::Retired,
            bytes => Handle::Other(bytes),
        }
    }

    pub fn bytes(self) -> [u8; HANDLE] {
        match self {
            Handle::Default => [0; HANDLE],
            Handle::Retired => [0xFF; HANDLE],
            Handle::Other(bytes) => bytes,
        }
    }

    /// Whether it can name a node; the default one can.
    pub fn is_live(self) -> bool {
        self != Handle::Retired
    }
}

#[derive(Clone, Copy, Debug, PartialEq, Eq)]
pub struct Node {
    words: [u32; NODE_WORDS],
}

impl Node {
    pub const FREE: Self = Self {
        words: [0; NODE_WORDS],
    };

    /// A used node with the default handle.
    pub fn used(parent: Parent) -> Self {
        let half = match parent {
            Parent::Root => ROOT_MARK,
            Parent::Node(place) => place as u32,
            Parent::Beyond(number) => number,
        };
        let mut node = Self::FREE;
        node.words[0] = half << 16 | 1;
        node
    }

    pub fn is_used(&self) -> bool {
        self.words[0] & 0xFFFF == 1
    }

    /// A free node is zero throughout.
    pub fn is_free(&self) -> bool {
        *self == Self::FREE
    }

    pub fn first_word(&self) -> u32 {
        self.words[0]
    }

    pub fn parent(&self) -> Parent {
        match self.words[0] >> 16 {
            ROOT_MARK => Parent::Root,
            half if (half as usize) < NODES => Parent::Node(half as usize),
            half => Parent::Beyond(half),
        }
    }

    pub fn tag(&self) -> u32 {
        self.words[1]
    }

    pub fn handle(&self) -> Handle {
        Handle::from_bytes(unpacked(&self.words[2..7]))
    }

    pub fn set_handle(&mut self, handle: Handle) {
        pack(&handle.bytes(), &mut self.words[2..7]);
    }

    pub fn flags(&self) -> u32 {
        self.words[7]
    }

    pub fn set_flags(&mut self, flags: u32) {
        self.words[7] = flags;
    }

    pub fn current(&self) -> Digest {
        unpacked(&self.words[8..20])
    }

    pub fn cumulative(&self) -> Digest {
        unpacked(&self.words[20..32])
    }

    pub fn set_measurements(&mut self, current: &Digest, cumulative: &Digest) {
        pack(current, &mut self.words[8..20]);
        pack(cumulative, &mut self.words[20..32]);
    }

    /// The type.
    pub fn kind(&self) -> u32 {
        self.words[32]
    }

    /// Its locality: the number of the caller that it came from.
    pub fn locality(&self) -> u32 {
        self.words[33]
    }

    pub fn svn(&self) -> u32 {
        self.words[34]
    }

    pub fn set_labels(&mut self, kind: u32, locality: u32, svn: u32) {
        self.words[32..].copy_from_slice(&[kind, locality, svn]);
    }
}

/// The upper half of the root's first word.
const ROOT_MARK: u32 = 0xFF;

/// Bytes are kept four to a word, the first in the lowest eight bits.
fn unpacked<const N: usize>(words: &[u32]) -> [u8; N] {
    let mut bytes = [0; N];
    for (four, word) in bytes.chunks_exact_mut(4).zip(words) {
        four.copy_from_slice(&word.to_le_bytes());
    }
    bytes
}

fn pack(bytes: &[u8], words: &mut [u32]) {
    for (word, four) in words.iter_mut().zip(bytes.chunks_exact(4)) {
        *word = four.iter().rev().fold(0, |w, &b| w << 8 | u32::from(b));
    }
}
