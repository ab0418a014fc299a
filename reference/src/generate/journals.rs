//! Units that write a journal: the engine runs, and the entry of each finished
//! work is taken. From them the inputs of the program `replay`.

use super::entries::BORDERS;
use super::fixed_journals::dishonest;
use super::trees::{self, any_call};
use crate::book::replay::bytes;
use crate::book::Event;
use crate::boots::Boot;
use crate::checksum::sealed;
use crate::engine::Engine;
use crate::layout::*;
use crate::random::Random;
use crate::requests::{Extension, Request, Stash};
use crate::sha384::DIGEST_BYTES;
use crate::tree::{Act, TreeCall, DEFAULT};
use crate::work::Work;
use std::io::{self, Read};
use std::rc::Rc;

/// An input of the program `replay`.
pub struct Inspection {
    pub name: &'static str,
    pub image: Rc<[u8]>,
    pub journal: Vec<u8>,
}

impl Inspection {
    pub fn input(&self) -> Vec<u8> {
        [&self.image[..], &self.journal].concat()
    }
}

/// Honest journals by seed.
const HONEST: u64 = 300;

/// Every input but the long ones that are streamed.
pub fn replay_inputs() -> Vec<Inspection> {
    let mut inputs: Vec<Inspection> = (0..HONEST).map(honest).collect();
    inputs.extend(dishonest());
    inputs
}

/// A unit, and the journal of what it has counted.
#[derive(Clone)]
pub struct Unit {
    pub image: Vec<u32>,
    pub journal: Vec<u8>,
}

const ENGINE: Engine = Engine::PAPER;

/// More than any entry has.
const ENTRY_BYTES: usize = 128;

impl Unit {
    /// All zero.
    pub fn blank() -> Unit {
        Unit {
            image: vec![0; IMAGE_WORDS],
            journal: Vec::new(),
        }
    }

    /// The unit right after a cold boot.
    pub fn booted() -> Unit {
        let mut unit = Unit::blank();
        unit.cold(&boot(1));
        unit
    }

    pub fn saved(&self) -> Rc<[u8]> {
        bytes(&self.image).into()
    }

    /// All stores of a work, and its entry.
    fn run(&mut self, mut work: Work) {
        while ENGINE.store(&mut work, &mut self.image) == 0 {}
        let mut entry = [0; ENTRY_BYTES];
        let length = ENGINE.entry(&work, &mut entry).expect("a finished work");
        self.journal.extend_from_slice(&entry[..length]);
    }

    pub fn cold(&mut self, boot: &Boot) {
        let opened = ENGINE.open_cold(&self.image, boot.inputs());
        self.run(opened.expect("a fine boot").0);
    }

    pub fn update(&mut self, boot: &Boot, verdict: bool) {
        let opened = ENGINE.open_update(&self.image, boot.inputs(), verdict);
        self.run(opened.expect("a fine boot").0);
    }

    fn request(&mut self, code: u32, body: &[u8], caller: u32) -> Option<Work> {
        let bytes = sealed(code, body);
        let request = Request {
            caller,
            ..Request::plain(code, &bytes)
        };
        ENGINE.open_request(&self.image, request).ok()
    }

    /// A tree command to its end.
    pub fn call(&mut self, call: &TreeCall) {
        let mail = trees::mail(call);
        let request = Request {
            caller: mail.caller,
            fresh: &mail.fresh,
            ..Request::plain(mail.code, &mail.bytes)
        };
        if let Ok(work) = ENGINE.open_request(&self.image, request) {
            self.run(work);
        }
    }

    /// A request to its end; one that is refused changes nothing.
    fn serve(&mut self, code: u32, body: &[u8], caller: u32) {
        if let Some(work) = self.request(code, body, caller) {
            self.run(work);
        }
    }

    pub fn stash(&mut self, stash: &Stash) {
        let (kind, svn) = (stash.kind.to_le_bytes(), stash.svn.to_le_bytes());
        let body = [&kind[..], &stash.digest, &svn].concat();
        self.serve(STASH, &body, stash.caller);
    }

    pub fn extend(&mut self, extension: &Extension) {
        let register = extension.register.to_le_bytes();
        self.serve(EXTEND, &[&register[..], &extension.digest].concat(), 0);
    }

    pub fn disable(&mut self) {
        self.serve(DISABLE, &[], 0);
    }

    /// A stash that is cut after so many stores.
    pub fn tear(&mut self, stores: usize) {
        let Some(mut work) = self.request(STASH, &[7; 56], 0) else {
            return;
        };
        for _ in 0..stores {
            ENGINE.store(&mut work, &mut self.image);
        }
    }
}

/// A boot of its own for each number, not 0.
pub fn boot(number: u8) -> Boot {
    Boot {
        runtime: [number; DIGEST_BYTES],
        manifest: [number ^ 0x55; DIGEST_BYTES],
        secret: [number | 0x80; DIGEST_BYTES],
    }
}

fn any_digest(random: &mut Random) -> Digest {
    let any = std::array::from_fn(|_| (random.word() >> 40) as u8);
    random.pick(&[any, any, any, ZERO, [0xFF; DIGEST_BYTES]])
}

fn any_boot(random: &mut Random) -> Boot {
    Boot {
        runtime: any_digest(random),
        manifest: any_digest(random),
        secret: [random.between(1, 255) as u8; DIGEST_BYTES],
    }
}

pub fn any_stash(random: &mut Random) -> Stash {
    let mut number = || {
        let (border, any) = (random.pick(&BORDERS), random.half());
        let small = any >> random.below(32);
        random.pick(&[border, border, any, small, small])
    };
    let (kind, svn, caller) = (number(), number(), number());
    Stash {
        kind,
        digest: any_digest(random),
        svn,
        caller,
    }
}

pub fn any_extension(random: &mut Random) -> Extension {
    let register = random.between(4, 30) as u32;
    Extension {
        register: random.pick(&[register, register, 4, 30]),
        digest: any_digest(random),
    }
}

/// A list of calls and cuts, its journal and the image that it leaves.
fn honest(seed: u64) -> Inspection {
    let unit = any_unit(seed);
    Inspection {
        name: "honest",
        image: unit.saved(),
        journal: unit.journal,
    }
}

/// A unit after any calls and cuts, every work at its end.
pub(super) fn any_unit(seed: u64) -> Unit {
    let random = &mut Random::from_seed(seed ^ 0x6A6F_7572_6E61_6C00);
    let mut unit = Unit::blank();
    let calls = random.pick(&[0, 1, 3, 8, 20, 60]);
    let stays_on = random.once_in(2);
    unit.cold(&any_boot(random));
    for _ in 0..calls {
        match random.below(26) {
            0..=8 => unit.stash(&any_stash(random)),
            20..=25 => {
                let call = any_call(random, &unit.image);
                unit.call(&call);
            }
            9..=13 => unit.extend(&any_extension(random)),
            14 | 15 => unit.update(&any_boot(random), true),
            16 => unit.update(&any_boot(random), false),
            17 if random.once_in(3) => unit.cold(&any_boot(random)),
            18 if !stays_on => unit.disable(),
            19 if !stays_on => {
                let stores = random.between(1, STASH_STORES - 1);
                unit.tear(stores);
                unit.update(&any_boot(random), true);
            }
            _ => {}
        }
    }
    unit
}

/// A long journal, made entry by entry while it is read: cold boots, and between
/// them stashes, extensions, tree commands, updates and disablings.
pub struct LongJournal {
    random: Random,
    /// Entries to come.
    left: u64,
    on: bool,
    free: usize,
    /// The locality of the default handle's holder.
    locality: u32,
    /// A derived node's handle and locality, and how many there were before it.
    child: Option<(Handle, u32)>,
    children: u64,
    /// The bytes of an entry that are still to be read.
    rest: Vec<u8>,
}

impl LongJournal {
    pub fn of(entries: u64) -> LongJournal {
        LongJournal {
            random: Random::from_seed(entries),
            left: entries,
            on: false,
            free: 0,
            locality: 0,
            child: None,
            children: 0,
            rest: Vec::new(),
        }
    }

    /// A fresh handle.
    fn fresh(&mut self) -> Handle {
        self.children += 1;
        let number = self.children.to_le_bytes();
        std::array::from_fn(|i| number.get(i).copied().unwrap_or(1))
    }

    /// A tree command: a child below the holder, or what can be done with it. Its
    /// parent has another child as soon as it is retired, and stays.
    fn call(&mut self) -> TreeCall {
        let fresh = self.fresh();
        let digest = any_digest(&mut self.random);
        let Some((handle, locality)) = self.child else {
            let act = Act::Derive {
                retain: 1,
                kind: self.random.half(),
                digest,
            };
            self.child = Some((fresh, self.locality));
            self.free -= 1;
            return TreeCall::new(DEFAULT, act, &fresh, self.locality);
        };
        let act = match self.random.below(3) {
            0 => Act::Rotate,
            1 => Act::Extend { digest },
            _ => Act::Destroy,
        };
        self.child = match act {
            Act::Rotate => Some((fresh, locality)),
            Act::Destroy => None,
            _ => self.child,
        };
        self.free += usize::from(act == Act::Destroy);
        TreeCall::new(handle, act, &fresh, locality)
    }

    /// The next event; it can be counted there, and the last leaves the unit on.
    fn event(&mut self) -> Event {
        let random = &mut self.random;
        let event = match random.below(64) {
            _ if !self.on => Event::Cold(any_boot(random)),
            0 if self.left > 0 => Event::DisableCommand,
            1 | 2 => Event::Cold(any_boot(random)),
            3..=5 => Event::Update(any_boot(random)),
            6..=17 if self.free > 0 => Event::Stash(any_stash(random)),
            18..=29 if self.free > 0 || self.child.is_some() => Event::Tree(self.call()),
            _ => Event::Extension(any_extension(random)),
        };
        match &event {
            Event::Cold(_) => {
                (self.on, self.free) = (true, NODES - 1);
                (self.locality, self.child) = (0, None);
            }
            Event::DisableCommand => self.on = false,
            Event::Stash(stash) => {
                self.free -= 1;
                self.locality = stash.caller;
            }
            _ => {}
        }
        event
    }
}

impl Read for LongJournal {
    fn read(&mut self, buffer: &mut [u8]) -> io::Result<usize> {
        if self.rest.is_empty() && self.left > 0 {
            self.left -= 1;
            self.rest = self.event().entry();
        }
        let count = self.rest.len().min(buffer.len());
        buffer[..count].copy_from_slice(&self.rest[..count]);
        self.rest.drain(..count);
        Ok(count)
    }
}
