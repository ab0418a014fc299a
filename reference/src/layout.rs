//! Where everything is in the memory image and how long everything is: the
//! table of "What the unit holds", the numbers of "Mailbox", of the store table
//! and of the running digest. Every figure stands here once; `tests/figures.rs`
//! has the papers'.

use crate::sha384::{digest, DIGEST_BYTES};
use std::ops::RangeInclusive;

/// Words of a digest, a register or the secret.
pub const DIGEST_WORDS: usize = DIGEST_BYTES / 4;

pub const MARK: usize = 0;
pub const ATTESTATION: usize = 1;
pub const SPARE: usize = 2;
pub const SECRET: usize = 4;
pub const REGISTERS_AT: usize = SECRET + DIGEST_WORDS;
pub const REGISTERS: usize = 32;
pub const NODES_AT: usize = REGISTERS_AT + REGISTERS * DIGEST_WORDS;
pub const NODES: usize = 32;
pub const NODE_WORDS: usize = 35;
pub const IMAGE_WORDS: usize = NODES_AT + NODES * NODE_WORDS;

/// The most steps from a node to the root.
pub const MAX_STEPS: usize = NODES - 1;

/// The mark of a finished flow, and attestation that is on.
pub const DONE: u32 = 1;
pub const ON: u32 = 1;

/// Register roles (002, table 13).
pub const CURRENT: usize = 2;
pub const JOURNEY: usize = 3;
pub const STASHED: usize = 31;

/// The registers that an extension may name.
pub const EXTENDABLE: RangeInclusive<u64> = 4..=30;

/// Offsets within a node. The first word is the parent's index over "used".
pub const TAG: usize = 1;
pub const HANDLE: usize = 2;
pub const HANDLE_WORDS: usize = 5;
pub const HANDLE_BYTES: usize = 4 * HANDLE_WORDS;
pub const FLAGS: usize = 7;
pub const NODE_CURRENT: usize = 8;
pub const NODE_CUMULATIVE: usize = 20;
pub const TYPE: usize = 32;
pub const LOCALITY: usize = 33;
pub const SVN: usize = 34;

pub const USED: u32 = 1;
pub const FREE: u32 = 0;
pub const ROOT_PARENT: u32 = 0xFF;
pub const INTERNAL: u32 = 0x8000_0000;
pub const RTJM: u32 = 0x4D4A_5452;
pub const DEFAULT_HANDLE: [u32; HANDLE_WORDS] = [0; HANDLE_WORDS];
pub const RETIRED_HANDLE: [u32; HANDLE_WORDS] = [u32::MAX; HANDLE_WORDS];

/// The numbers of stores, both marks included.
pub const STASH_STORES: usize = 2 + DIGEST_WORDS + NODE_WORDS + HANDLE_WORDS;
pub const DISABLING_STORES: usize = 2 + 1 + DIGEST_WORDS;
pub const UPDATE_STORES: usize = 2 + 5 * DIGEST_WORDS;
pub const COLD_STORES: usize = 2 + IMAGE_WORDS - 1;
pub const EXTENSION_STORES: usize = 2 + DIGEST_WORDS;
pub const DERIVE_STORES: usize = 2 + NODE_WORDS;
pub const SUCCEED_STORES: usize = DERIVE_STORES + HANDLE_WORDS;
pub const REMEASURE_STORES: usize = 2 + 2 * DIGEST_WORDS;
pub const ROTATE_STORES: usize = 2 + HANDLE_WORDS;

/// The stores of a destroy that frees so many nodes.
pub const fn destroy_stores(freed: usize) -> usize {
    2 + NODE_WORDS * freed
}

/// The stores that a stash makes before that of its node's svn.
pub const BEFORE_SVN: usize = 1 + DIGEST_WORDS + SVN;

/// The kinds of work, in the order of their numbers from 0 on.
#[derive(Clone, Copy, Debug, PartialEq, Eq, PartialOrd, Ord)]
pub enum Sort {
    Nothing,
    Disabling,
    Stash,
    Update,
    Cold,
    Extension,
    /// A derive whose parent is retained.
    Derive,
    /// A derive whose parent is retired.
    Succeed,
    /// An extend of a node's measurement.
    Remeasure,
    Rotate,
    Destroy,
}

impl Sort {
    pub const ALL: [Sort; 11] = [
        Sort::Nothing,
        Sort::Disabling,
        Sort::Stash,
        Sort::Update,
        Sort::Cold,
        Sort::Extension,
        Sort::Derive,
        Sort::Succeed,
        Sort::Remeasure,
        Sort::Rotate,
        Sort::Destroy,
    ];

    /// The number of stores; of a destroy, if it frees its node alone.
    pub const fn stores(self) -> usize {
        match self {
            Sort::Nothing => 0,
            Sort::Disabling => DISABLING_STORES,
            Sort::Stash => STASH_STORES,
            Sort::Update => UPDATE_STORES,
            Sort::Cold => COLD_STORES,
            Sort::Extension => EXTENSION_STORES,
            Sort::Derive => DERIVE_STORES,
            Sort::Succeed => SUCCEED_STORES,
            Sort::Remeasure => REMEASURE_STORES,
            Sort::Rotate => ROTATE_STORES,
            Sort::Destroy => destroy_stores(1),
        }
    }
}

pub const STASH: u32 = 0x4D45_4153;
pub const DISABLE: u32 = 0x4453_424C;
pub const IDENTITY: u32 = 0x4944_4549;
pub const VERIFY: u32 = 0x5349_4756;
pub const EXTEND: u32 = 0x5043_5245;
pub const INVOKE: u32 = 0x4450_4543;

/// A command's row in the table of "Mailbox". The request of `INVOKE` has data
/// behind these bytes.
#[derive(Clone, Copy)]
pub struct Command {
    pub code: u32,
    pub name: &'static str,
    pub request_bytes: usize,
    pub answer_bytes: usize,
}

const fn row(code: u32, name: &'static str, request_bytes: usize, answer_bytes: usize) -> Command {
    Command {
        code,
        name,
        request_bytes,
        answer_bytes,
    }
}

pub const COMMANDS: [Command; 6] = [
    row(STASH, "stash", 60, 12),
    row(DISABLE, "disable", 4, 8),
    row(IDENTITY, "identity", 4, ANSWER_MAX),
    row(VERIFY, "verify", 196, 8),
    row(EXTEND, "extend", 56, 8),
    row(INVOKE, "invoke", INVOKE_DATA, 12),
];

/// The longest answer, an identity key.
pub const ANSWER_MAX: usize = 104;

/// The command of a code, if there is one.
pub fn command(code: u32) -> Option<&'static Command> {
    COMMANDS.iter().find(|command| command.code == code)
}

/// The checksum before a request or an answer; behind it an answer's FIPS
/// status, or the fields of a stash, of an extension or of a tree command.
pub const CHECKSUM_BYTES: usize = 4;
pub const STATUS_BYTES: usize = 4;
pub const STASH_TYPE: usize = 4;
pub const STASH_DIGEST: usize = 8;
pub const STASH_SVN: usize = 56;
pub const EXTEND_REGISTER: usize = 4;
pub const EXTEND_DIGEST: usize = 8;
pub const INVOKE_SIZE: usize = 4;
pub const INVOKE_DATA: usize = 8;

/// The most bytes of a tree command's data, and its commands.
pub const DATA_BYTES: usize = 1_024;
pub const DERIVE_DATA: u8 = 1;
pub const EXTEND_DATA: u8 = 2;
pub const ROTATE_DATA: u8 = 3;
pub const DESTROY_DATA: u8 = 4;

pub const TABLE_BYTES: usize = 2_048;
pub const TABLE_MARKER: u32 = 0x5448_4643;
pub const TABLE_MAJOR_AT: usize = 4;
pub const TABLE_MAJOR: u16 = 1;
pub const KEY_AT: usize = 304;
pub const KEY_BYTES: usize = 96;

/// The longest slice of a running digest, and the most bytes of all slices.
pub const SLICE_BYTES: usize = 65_535;
pub const TOTAL_BYTES: u64 = 0xFFFF_FFFF;

/// The numbers handed back.
pub mod number {
    pub const IMAGE: u32 = 1;
    pub const UNFINISHED: u32 = 2;
    pub const CODE: u32 = 3;
    pub const LENGTH: u32 = 4;
    pub const TABLE: u32 = 5;
    pub const BOOT_INPUT: u32 = 6;
    pub const STORES_LEFT: u32 = 7;
    pub const BUFFER: u32 = 8;
    pub const NO_STORE: u32 = 9;
    pub const SLICE: u32 = 10;
    pub const TREE: u32 = 11;
    pub const REGISTER: u32 = 12;
    pub const OFF: u32 = 13;
    pub const TOTAL: u32 = 16;
    pub const KIND: u32 = 20;
    pub const GROUPS: u32 = 21;
    pub const CUT: u32 = 22;
    pub const ENTRY_BUFFER: u32 = 23;
    pub const UNCOUNTED: u32 = 24;
    pub const COUNTS: u32 = 27;
    pub const CHECKSUM: u32 = 0x4243_484B;
    pub const SIGNATURE: u32 = 0x4253_4947;
}

/// The results of a stash or a tree command in its answer.
pub const DPE_DONE: u32 = 0;
pub const DPE_FULL: u32 = 1;
pub const DPE_OFF: u32 = 2;
pub const DPE_NO_HOLDER: u32 = 3;
pub const DPE_DATA: u32 = 5;
pub const DPE_HANDLE: u32 = 6;
pub const DPE_LOCALITY: u32 = 7;
pub const DPE_FRESH: u32 = 8;
pub const DPE_ROOT: u32 = 9;
pub const DPE_CHILDREN: u32 = 10;

/// A boot's outcomes.
pub const COLD: u8 = 0;
pub const KEPT: u8 = 1;
pub const UPDATED: u8 = 2;
pub const DISABLED: u8 = 3;

pub type Digest = [u8; DIGEST_BYTES];
pub type Words = [u32; DIGEST_WORDS];
pub type Handle = [u8; HANDLE_BYTES];

/// Forty-eight zero bytes.
pub const ZERO: Digest = [0; DIGEST_BYTES];

/// The first word of a register.
pub const fn register(index: usize) -> usize {
    REGISTERS_AT + DIGEST_WORDS * index
}

/// The first word of a node.
pub fn node(index: usize) -> usize {
    NODES_AT + NODE_WORDS * index
}

/// A node's words.
pub fn node_of(image: &[u32], index: usize) -> &[u32] {
    &image[node(index)..][..NODE_WORDS]
}

/// Four bytes to a word, the first byte lowest.
pub fn words_of(bytes: &Digest) -> Words {
    std::array::from_fn(|i| little(&bytes[4 * i..]))
}

/// The bytes of twelve words.
pub fn bytes_of(words: &[u32]) -> Digest {
    std::array::from_fn(|i| words[i / 4].to_le_bytes()[i % 4])
}

/// A handle's words.
pub fn handle_words(handle: &Handle) -> [u32; HANDLE_WORDS] {
    std::array::from_fn(|i| little(&handle[4 * i..]))
}

/// The number in the first four bytes.
pub fn little(bytes: &[u8]) -> u32 {
    u32::from_le_bytes([bytes[0], bytes[1], bytes[2], bytes[3]])
}

/// `old` extended by `by`.
pub fn extended(old: &Digest, by: &Digest) -> Digest {
    let mut both = [0; 2 * DIGEST_BYTES];
    both[..DIGEST_BYTES].copy_from_slice(old);
    both[DIGEST_BYTES..].copy_from_slice(by);
    digest(&both)
}

/// `old` extended by each of a list, the first first.
pub fn extended_by(old: &Digest, list: &[Digest]) -> Digest {
    list.iter().fold(*old, |value, by| extended(&value, by))
}
