//! Scripts by seed. Each mixes pieces of twelve sorts and ends with the image. And
//! inputs of the other programs.

mod broken;
mod damage;
mod entries;
mod extensions;
mod fixed;
mod fixed_boots;
mod fixed_entries;
mod fixed_extensions;
mod fixed_journals;
mod fixed_nodes;
mod fixed_svns;
mod fixed_trees;
mod images;
mod journals;
mod lists;
mod nodes;
mod requests;
mod slices;
mod svns;
mod trees;
mod works;

pub use entries::BORDERS;
pub use fixed::{
    entry_inputs, extension_input, fixed_inputs, node_inputs, svn_inputs, tree_inputs,
};
pub use images::{odd_image_1, odd_image_2};
pub use journals::{replay_inputs, Inspection, LongJournal, Unit};
pub use nodes::{chain, FORMER_NODES, FORMER_WORDS};
pub use requests::program_input;
pub use slices::cuts;

use crate::layout::*;
use crate::random::Random;
use crate::script::{encode, BootBytes, Op};

/// The bytes of an image's words.
const IMAGE_BYTES: usize = 4 * IMAGE_WORDS;

/// A script grows no more once it has this many bytes.
const ENOUGH: usize = 2 * IMAGE_BYTES;

/// One operation in so many has one on the running digest before it.
const RUNNING_BETWEEN: usize = 24;

/// One operation in so many has a journal entry taken before it.
const ENTRY_BETWEEN: usize = 12;

/// Operations, and bytes after them at which the run ends.
pub struct Script {
    pub ops: Vec<Op>,
    pub tail: Vec<u8>,
}

impl Script {
    pub fn bytes(&self) -> Vec<u8> {
        let mut bytes = encode(&self.ops);
        bytes.extend_from_slice(&self.tail);
        bytes
    }
}

/// The script of a seed.
pub fn script(seed: u64) -> Script {
    let mut maker = Maker::new(seed);
    match seed % 8 {
        0 | 1 => maker.lists(2),
        2 => {
            maker.long_list();
            maker.extensions();
            maker.trees();
        }
        3 => maker.images(3),
        4 => {
            maker.entries();
            maker.images(2);
        }
        5 => {
            maker.requests();
            maker.nodes();
        }
        6 => {
            maker.works(12);
            maker.svns();
            maker.moved_calls();
        }
        _ => {
            maker.cuts_in_turn();
            maker.trees();
        }
    }
    if seed % 64 == 63 {
        maker.long_slices();
    }
    while maker.size < ENOUGH && !maker.random.once_in(3) {
        match maker.random.below(13) {
            0 | 1 => maker.lists(1),
            2 => maker.images(1),
            3 => maker.requests(),
            4 => maker.works(6),
            5 => maker.slices(6),
            6 => maker.extensions(),
            7 => maker.svns(),
            8 => maker.nodes(),
            9 => maker.entries(),
            10 => maker.trees(),
            11 => maker.moved_calls(),
            _ => maker.long_list(),
        }
    }
    maker.push(Op::Dump);
    let tail = if seed % 8 == 7 {
        maker.broken_tail()
    } else {
        Vec::new()
    };
    Script {
        ops: maker.ops,
        tail,
    }
}

struct Maker {
    random: Random,
    seed: u64,
    ops: Vec<Op>,
    /// Bytes so far.
    size: usize,
    /// Counts interrupted works, so that their cuts go through all positions.
    turn: u64,
    /// The caller of the last stash.
    caller: u32,
}

impl Maker {
    fn new(seed: u64) -> Maker {
        Maker {
            random: Random::from_seed(seed),
            seed,
            ops: Vec::new(),
            size: 0,
            turn: 0,
            caller: 0,
        }
    }

    /// Adds an operation and now and then, before it, one on the running digest,
    /// which is to leave the others alone, and they it; or a journal entry, which
    /// changes nothing.
    fn push(&mut self, op: Op) {
        if self.random.once_in(RUNNING_BETWEEN) {
            self.push_running();
        }
        if self.random.once_in(ENTRY_BETWEEN) {
            self.push_entry();
        }
        self.add(op);
    }

    /// Adds an operation.
    fn add(&mut self, op: Op) {
        self.size += op.bytes().len();
        self.ops.push(op);
    }

    fn digest(&mut self) -> Vec<u8> {
        match self.random.below(12) {
            0 => vec![0; 48],
            1 => vec![0xFF; 48],
            _ => self.random.bytes(48),
        }
    }

    /// A secret that is accepted.
    fn secret(&mut self) -> Vec<u8> {
        match self.random.below(8) {
            0 => {
                let mut secret = vec![0; 48];
                let at = self.random.pick(&[0, 1, 24, 46, 47, 47]);
                secret[at] = self.random.between(1, 255) as u8;
                secret
            }
            1 => vec![0xFF; 48],
            _ => self.random.bytes(48),
        }
    }

    fn boot_inputs(&mut self) -> BootBytes {
        let runtime = self.digest();
        BootBytes {
            manifest: self.manifest(&runtime),
            runtime,
            secret: self.secret(),
        }
    }

    /// A manifest digest that is accepted: now and then the runtime digest's
    /// bytes.
    fn manifest(&mut self, runtime: &[u8]) -> Vec<u8> {
        match self.random.below(8) {
            0 => runtime.to_vec(),
            _ => self.digest(),
        }
    }

    /// A boot's inputs that are refused: one of them is wrong, or several.
    fn bad_boot_inputs(&mut self) -> BootBytes {
        let mut boot = self.boot_inputs();
        if self.random.once_in(8) {
            self.shift_byte(&mut boot);
            return boot;
        }
        self.spoil_input(&mut boot);
        while self.random.once_in(3) {
            self.spoil_input(&mut boot);
        }
        boot
    }

    /// Moves a byte between two of a boot's inputs: together they keep their
    /// length.
    fn shift_byte(&mut self, boot: &mut BootBytes) {
        match self.random.below(4) {
            0 => boot.manifest.extend(boot.runtime.pop()),
            1 => boot.runtime.extend(boot.manifest.pop()),
            2 => boot.secret.extend(boot.manifest.pop()),
            _ => boot.manifest.extend(boot.secret.pop()),
        }
    }

    /// Makes one of a boot's inputs wrong.
    fn spoil_input(&mut self, boot: &mut BootBytes) {
        let length = self.random.pick(&[0, 1, 12, 47, 47, 49, 49, 48 + 48]);
        match self.random.below(6) {
            0 => boot.runtime = self.random.bytes(length),
            1 | 2 => boot.manifest = self.random.bytes(length),
            3 => {
                boot.secret = self.random.bytes(length);
                boot.secret.iter_mut().for_each(|byte| *byte |= 1);
            }
            4 => boot.secret = vec![0; length],
            _ => boot.secret = vec![0; 48],
        }
    }

    fn verdict(&mut self, yes: bool) -> u8 {
        if yes {
            1
        } else {
            self.random.pick(&[0, 0, 2, 3, 128, 129, 255])
        }
    }

    fn push_cold(&mut self) {
        let boot = self.boot_inputs();
        self.push(Op::Cold(boot));
    }

    /// A whole cold boot.
    fn push_booted(&mut self) {
        self.push_cold();
        self.push_stores(COLD_STORES);
    }

    fn push_stores(&mut self, count: usize) {
        self.push(Op::Store(count as u32));
    }

    fn push_update(&mut self, yes: bool) {
        let boot = self.boot_inputs();
        let verdict = self.verdict(yes);
        self.push(Op::Update(boot, verdict));
    }

    fn push_bad_boot(&mut self) {
        let boot = self.bad_boot_inputs();
        let yes = self.random.once_in(2);
        let verdict = self.verdict(yes);
        let op = match self.random.below(3) {
            0 => Op::Cold(boot),
            _ => Op::Update(boot, verdict),
        };
        self.push(op);
    }

    /// An update boot that only the length of its manifest digest is against.
    fn push_bad_manifest(&mut self) {
        let length = self.random.pick(&[0, 47, 49]);
        let boot = BootBytes {
            manifest: self.random.bytes(length),
            ..self.boot_inputs()
        };
        let yes = self.random.once_in(2);
        let verdict = self.verdict(yes);
        self.push(Op::Update(boot, verdict));
    }

    /// Looks without consequence: stores left, an answer, an entry, the image.
    fn peek(&mut self) {
        match self.random.below(8) {
            0 | 1 => self.push(Op::Left),
            2 | 3 => self.push_answer(),
            4 => self.push(Op::Dump),
            5 | 6 => self.push_entry(),
            _ => {}
        }
    }

    /// An answer into a buffer of about the right size.
    fn push_answer(&mut self) {
        let most = ANSWER_MAX as u16;
        let size = self
            .random
            .pick(&[0, 1, 4, 7, 8, 9, 11, 12, 13, most - 1, most, most + 1, 200]);
        self.push(Op::Answer(size));
    }

    /// All stores of the work in hand, at once or in pieces.
    fn finish(&mut self) {
        match self.random.below(5) {
            0 => {
                let first = self.random.between(0, 70);
                self.push_stores(first);
                self.push(Op::Left);
                self.push_stores(COLD_STORES + 1);
            }
            1 => self.push(Op::Store(u32::MAX)),
            _ => self.push_stores(COLD_STORES),
        }
    }

    /// A caller's number or a type.
    fn word(&mut self) -> u32 {
        let random = self.random.half();
        self.random
            .pick(&[random, random, random, 0, 1, RTJM, u32::MAX, 300])
    }
}
