//! The journal of the book's history.

use super::replay::{Found, Inspector, Replays, ALIKE, SWITCHED_OFF};
use super::{claim, Book, Event};
use crate::boots::Boot;
use crate::journal::read::Bytes;
use crate::journal::*;
use crate::layout::{number, IMAGE_WORDS};
use crate::player::NONE_IN_HAND;
use crate::tree::{Act, TreeCall};
use Value::{Digest, Handle, Number};

impl Event {
    /// Its entry; no bytes if nothing is stored.
    pub fn entry(&self) -> Vec<u8> {
        let digests = |boot: &Boot| vec![Digest(boot.runtime), Digest(boot.manifest)];
        let (kind, values) = match self {
            Event::Nothing => return vec![],
            Event::Cold(boot) => (COLD_ENTRY, digests(boot)),
            Event::Update(boot) => (UPDATE_ENTRY, digests(boot)),
            Event::DisableCommand | Event::BootDisabling => (DISABLING_ENTRY, vec![]),
            Event::Stash(stash) => (
                STASH_ENTRY,
                vec![
                    Number(stash.kind),
                    Digest(stash.digest),
                    Number(stash.svn),
                    Number(stash.caller),
                ],
            ),
            Event::Extension(extension) => (
                EXTENSION_ENTRY,
                vec![Number(extension.register), Digest(extension.digest)],
            ),
            Event::Tree(call) => of_call(call),
        };
        entry_of(kind, &values)
    }
}

/// The kind of a tree command's entry, and what follows it: the data after its
/// first byte, the fresh handle if there is one, and the caller.
fn of_call(call: &TreeCall) -> (u8, Vec<Value>) {
    let mut values = vec![Handle(call.handle)];
    let kind = match call.act {
        Act::Derive {
            retain,
            kind,
            digest,
        } => {
            values.extend([Number(retain), Number(kind), Digest(digest)]);
            DERIVE_ENTRY
        }
        Act::Extend { digest } => {
            values.push(Digest(digest));
            REMEASURE_ENTRY
        }
        Act::Rotate => ROTATE_ENTRY,
        Act::Destroy => DESTROY_ENTRY,
    };
    if matches!(kind, DERIVE_ENTRY | ROTATE_ENTRY) {
        values.push(Handle(call.fresh));
    }
    values.push(Number(call.caller));
    (kind, values)
}

impl Book {
    /// The entry of the work in hand, or the number that says why there is none.
    pub fn entry(&self) -> Result<Vec<u8>, u32> {
        match &self.in_hand {
            None => Err(NONE_IN_HAND),
            Some(hand) if hand.left() > 0 => Err(number::STORES_LEFT),
            Some(hand) => Ok((self.reading.entry)(&hand.event)),
        }
    }

    /// The entries of the history, joined.
    pub fn journal(&self) -> Vec<u8> {
        self.history.iter().flat_map(self.reading.entry).collect()
    }

    /// The inspector finds the image alike, or a disabling.
    pub(super) fn is_inspected(&self, image: &[u32]) -> Result<(), String> {
        claim(image.len() == IMAGE_WORDS, || {
            format!("an image of {} words", image.len())
        })?;
        let expected = if self.is_off() { SWITCHED_OFF } else { ALIKE };
        let found = Inspector.inspect(image, &mut Bytes::new(&self.journal()[..]));
        let fine = matches!(&found, Found::Verdict(verdict, _) if *verdict == expected);
        claim(fine, || {
            format!("the inspector finds {found:02x?} and not {expected}")
        })
    }
}
