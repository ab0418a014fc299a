//! The inspector's book: what a journal comes to, and whether a saved image
//! shows it. Nothing of it is the engine's.

pub mod wrong;

use super::{Event, Reading, State};
use crate::boots::Boot;
use crate::journal::read::{Bytes, Entry, Reads};
use crate::journal::*;
use crate::layout::*;
use crate::memory::Tree;
use crate::requests::{Extension, Stash};
use crate::tree::{Act, TreeCall, DEFAULT, RETIRED};
use std::io::{self, Read};

/// The bytes of a saved image.
pub const IMAGE_BYTES: usize = 4 * IMAGE_WORDS;

/// The most bytes of a journal that are used.
pub const JOURNAL_BYTES: u64 = 1 << 32;

/// The verdicts on a journal that is not refused.
pub const NOT_BOOTED: u8 = 0;
pub const SWITCHED_OFF: u8 = 1;
pub const UNLIKE: u8 = 2;
pub const ALIKE: u8 = 3;

/// The first word that is compared: PCR0 and PCR1 are not.
pub const COMPARED_FROM: usize = register(CURRENT);

/// What a journal has come to so far.
#[derive(Clone)]
pub struct Standing {
    booted: bool,
    off: bool,
    state: State,
}

impl Standing {
    fn at_first() -> Standing {
        Standing {
            booted: false,
            off: false,
            state: State::empty(),
        }
    }

    /// The image that shows it, as far as it is known: zero before PCR0.
    fn image(&self) -> Vec<u32> {
        let mut image = vec![0; REGISTERS_AT];
        image.extend(self.state.words());
        image
    }
}

/// Where an entry was refused.
#[derive(Clone, Copy)]
pub struct Place {
    /// The offset of its kind.
    entry: u64,
    /// How many bytes were read.
    read: u64,
    /// How many entries came before it.
    before: u64,
}

/// What the program has found.
#[derive(Clone, Debug, PartialEq, Eq)]
pub enum Found {
    /// The image is cut short: so many bytes.
    NoImage(u64),
    /// A refusal's number and the entry's offset.
    Refused(u32, u64),
    /// The verdict, and PCR2 to PCR31 as replayed if they were compared.
    Verdict(u8, Vec<u8>),
}

/// The rules of the replay, each a method, so that a replayer can be wrong in
/// just one.
pub trait Replays: Reads {
    /// The whole program: what it writes.
    fn run(&self, input: &mut dyn Read) -> io::Result<Vec<u8>> {
        let mut saved = Vec::new();
        let image_bytes = self.image_bytes() as u64;
        input.take(image_bytes).read_to_end(&mut saved)?;
        let Some(image) = self.image(&saved) else {
            return Ok(self.output(&Found::NoImage(saved.len() as u64)));
        };
        let mut journal = Bytes::new(input.take(self.most()));
        let found = self.inspect(&image, &mut journal);
        journal.failure.map_or(Ok(self.output(&found)), Err)
    }

    fn image_bytes(&self) -> usize {
        IMAGE_BYTES
    }

    /// The words of a saved image, if it is whole.
    fn image(&self, saved: &[u8]) -> Option<Vec<u32>> {
        (saved.len() == IMAGE_BYTES).then(|| saved.chunks_exact(4).map(little).collect())
    }

    /// The most bytes of a journal that are used.
    fn most(&self) -> u64 {
        JOURNAL_BYTES
    }

    /// What is written: number, offset, and what else was found.
    fn output(&self, found: &Found) -> Vec<u8> {
        let (number, offset, rest) = match found {
            Found::NoImage(_) => (number::IMAGE, 0, vec![]),
            Found::Refused(number, offset) => (*number, *offset, vec![]),
            Found::Verdict(verdict, registers) => (0, 0, [&[*verdict], &registers[..]].concat()),
        };
        [&number.to_le_bytes()[..], &offset.to_le_bytes(), &rest].concat()
    }

    /// What a journal and an image come to.
    fn inspect(&self, image: &[u32], journal: &mut Bytes) -> Found {
        match self.replay(journal) {
            Err((number, place)) => Found::Refused(number, self.offset(place)),
            Ok(standing) => self.judge(&standing, image),
        }
    }

    /// A refused entry's offset.
    fn offset(&self, place: Place) -> u64 {
        place.entry
    }

    /// What the entries come to; else the number and the place of the first that
    /// is refused.
    fn replay(&self, journal: &mut Bytes) -> Result<Standing, (u32, Place)> {
        let mut standing = Standing::at_first();
        let mut before = 0;
        loop {
            let entry = journal.taken;
            let next = self.next(&standing, journal);
            let read = journal.taken;
            let refused = |number: u32| {
                let place = Place {
                    entry,
                    read,
                    before,
                };
                (number, place)
            };
            let Some(event) = next.map_err(refused)? else {
                return Ok(standing);
            };
            standing = self.counted(standing, &event);
            before += 1;
        }
    }

    /// The next entry's event; none at the end. Its form comes first.
    fn next(&self, standing: &Standing, journal: &mut Bytes) -> Result<Option<Event>, u32> {
        let Some(entry) = self.entry(journal)? else {
            return Ok(None);
        };
        let event = self.event(&entry);
        if !self.could_count(standing, &event) {
            return Err(number::UNCOUNTED);
        }
        Ok(Some(event))
    }

    /// What an entry tells. It has no secret, and not who began a disabling.
    fn event(&self, entry: &Entry) -> Event {
        use Value::{Digest as D, Handle as H, Number as N};
        let call = |handle, act, fresh: &[u8], caller| {
            Event::Tree(TreeCall::new(handle, act, fresh, caller))
        };
        let boot = |runtime, manifest| Boot {
            runtime,
            manifest,
            secret: ZERO,
        };
        match (entry.kind, &entry.values[..]) {
            (COLD_ENTRY, &[D(runtime), D(manifest)]) => Event::Cold(boot(runtime, manifest)),
            (UPDATE_ENTRY, &[D(runtime), D(manifest)]) => Event::Update(boot(runtime, manifest)),
            (STASH_ENTRY, &[N(kind), D(digest), N(svn), N(caller)]) => Event::Stash(Stash {
                kind,
                digest,
                svn,
                caller,
            }),
            (EXTENSION_ENTRY, &[N(register), D(digest)]) => {
                Event::Extension(Extension { register, digest })
            }
            (DERIVE_ENTRY, &[H(handle), N(retain), N(kind), D(digest), H(fresh), N(caller)]) => {
                let act = Act::Derive {
                    retain,
                    kind,
                    digest,
                };
                call(handle, act, &fresh, caller)
            }
            (REMEASURE_ENTRY, &[H(handle), D(digest), N(caller)]) => {
                call(handle, Act::Extend { digest }, &[], caller)
            }
            (ROTATE_ENTRY, &[H(handle), H(fresh), N(caller)]) => {
                call(handle, Act::Rotate, &fresh, caller)
            }
            (DESTROY_ENTRY, &[H(handle), N(caller)]) => call(handle, Act::Destroy, &[], caller),
            (_, _) => Event::DisableCommand,
        }
    }

    /// Whether the unit could have counted this there.
    fn could_count(&self, standing: &Standing, event: &Event) -> bool {
        (standing.booted || self.goes_unbooted(event))
            && (!standing.off || self.goes_off(event))
            && match event {
                Event::Stash(_) => {
                    self.has_holder(&standing.state) && self.has_room(&standing.state)
                }
                Event::Tree(call) => self.could_call(&standing.state, call),
                Event::Extension(extension) => self.is_register(extension.register),
                _ => true,
            }
    }

    /// What can be counted before the first cold boot.
    fn goes_unbooted(&self, event: &Event) -> bool {
        matches!(event, Event::Cold(_))
    }

    /// What can be counted after a disabling.
    fn goes_off(&self, event: &Event) -> bool {
        matches!(event, Event::Cold(_) | Event::DisableCommand)
    }

    /// Whether a node is free.
    fn has_room(&self, state: &State) -> bool {
        state.has_room()
    }

    /// Whether a node has the default handle.
    fn has_holder(&self, state: &State) -> bool {
        state.with_handle(&DEFAULT).is_some()
    }

    /// Whether the unit would not decline a tree command.
    fn could_call(&self, state: &State, call: &TreeCall) -> bool {
        let Some(node) = self.named(state, &call.handle) else {
            return false;
        };
        self.may_call(state, node, call.caller)
            && match call.act {
                Act::Derive { retain, .. } => {
                    self.is_retain(retain)
                        && self.is_fresh(state, call)
                        && self.has_room_below(state)
                }
                Act::Extend { .. } => self.may_extend(state, node),
                Act::Rotate => self.is_fresh(state, call),
                Act::Destroy => self.may_destroy(state, node),
            }
    }

    /// The place of the node that a tree command names.
    fn named(&self, state: &State, handle: &Handle) -> Option<usize> {
        state.with_handle(handle)
    }

    /// Whether the caller is the node's locality.
    fn may_call(&self, state: &State, node: usize, caller: u32) -> bool {
        state.locality(node) == caller
    }

    fn is_retain(&self, retain: u32) -> bool {
        retain <= 1
    }

    /// Whether a fresh handle is neither zero nor retired, and no node's.
    fn is_fresh(&self, state: &State, call: &TreeCall) -> bool {
        call.fresh != DEFAULT && call.fresh != RETIRED && state.with_handle(&call.fresh).is_none()
    }

    /// Whether a node is free for a derived child.
    fn has_room_below(&self, state: &State) -> bool {
        state.has_room()
    }

    fn may_extend(&self, state: &State, node: usize) -> bool {
        !state.is_root(node)
    }

    fn may_destroy(&self, state: &State, node: usize) -> bool {
        !state.is_root(node) && !state.has_child(node)
    }

    fn is_register(&self, register: u32) -> bool {
        EXTENDABLE.contains(&u64::from(register))
    }

    fn counted(&self, before: Standing, event: &Event) -> Standing {
        Standing {
            booted: true,
            off: match event {
                Event::Cold(_) => false,
                Event::DisableCommand => true,
                _ => before.off,
            },
            state: before.state.after(event, self.reading()),
        }
    }

    /// How registers and nodes follow from the entries.
    fn reading(&self) -> Reading {
        Reading::PAPER
    }

    /// The verdict on an image.
    fn judge(&self, standing: &Standing, image: &[u32]) -> Found {
        if !standing.booted {
            return Found::Verdict(NOT_BOOTED, vec![]);
        }
        if standing.off {
            return Found::Verdict(SWITCHED_OFF, vec![]);
        }
        let replayed = standing.image();
        let alike = (0..IMAGE_WORDS)
            .filter(|&word| self.is_compared(word))
            .all(|word| replayed[word] == image[word]);
        let verdict = if alike { ALIKE } else { UNLIKE };
        Found::Verdict(verdict, self.registers(&replayed))
    }

    /// PCR2 to PCR31 and the nodes.
    fn is_compared(&self, word: usize) -> bool {
        word >= COMPARED_FROM
    }

    /// The bytes of PCR2 to PCR31.
    fn registers(&self, image: &[u32]) -> Vec<u8> {
        bytes(&image[COMPARED_FROM..NODES_AT])
    }
}

/// The bytes of words.
pub fn bytes(words: &[u32]) -> Vec<u8> {
    words.iter().flat_map(|word| word.to_le_bytes()).collect()
}

/// Every rule as the papers have it.
pub struct Inspector;

impl Reads for Inspector {}
impl Replays for Inspector {}

/// An image that shows what a journal comes to; none if it is refused.
pub fn shown(journal: &mut dyn Read) -> Option<Vec<u32>> {
    let standing = Inspector.replay(&mut Bytes::new(journal)).ok()?;
    Some(standing.image())
}

/// What the program writes for an input.
pub fn replay(input: &mut dyn Read) -> io::Result<Vec<u8>> {
    Inspector.run(input)
}
