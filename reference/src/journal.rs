//! "A journal the inspector can replay" (document 02): counted work as bytes.

pub mod read;

use crate::layout::*;
use crate::work::{Kind, Work, Works};

/// The kinds of entry.
pub const COLD_ENTRY: u8 = 1;
pub const UPDATE_ENTRY: u8 = 2;
pub const DISABLING_ENTRY: u8 = 3;
pub const STASH_ENTRY: u8 = 4;
pub const EXTENSION_ENTRY: u8 = 5;
pub const DERIVE_ENTRY: u8 = 6;
pub const REMEASURE_ENTRY: u8 = 7;
pub const ROTATE_ENTRY: u8 = 8;
pub const DESTROY_ENTRY: u8 = 9;

/// The bits of a number that a byte holds, and the bit that says that another
/// byte follows.
pub const GROUP_BITS: u32 = 7;
pub const MORE: u8 = 1 << GROUP_BITS;

/// The most bytes of a number of 32 bits.
pub const NUMBER_BYTES: u32 = u32::BITS.div_ceil(GROUP_BITS);

/// What follows an entry's kind.
#[derive(Clone, Copy, Debug, PartialEq, Eq)]
pub enum Value {
    Number(u32),
    Digest(Digest),
    Handle(Handle),
}

/// A number in groups of seven bits, the lowest first.
pub fn groups(number: u32) -> Vec<u8> {
    let mut bytes = Vec::new();
    let mut rest = number;
    while rest >= u32::from(MORE) {
        bytes.push(rest as u8 | MORE);
        rest >>= GROUP_BITS;
    }
    bytes.push(rest as u8);
    bytes
}

impl Value {
    /// The bytes, of a number as `written` has them.
    fn bytes(&self, written: impl Fn(u32) -> Vec<u8>) -> Vec<u8> {
        match self {
            Value::Number(number) => written(*number),
            Value::Digest(digest) => digest.to_vec(),
            Value::Handle(handle) => handle.to_vec(),
        }
    }
}

/// A kind and what follows it.
pub fn entry_of(kind: u8, values: &[Value]) -> Vec<u8> {
    let values = values.iter().flat_map(|value| value.bytes(groups));
    std::iter::once(kind).chain(values).collect()
}

/// A work's entry, each rule a method, so that an engine can be wrong in just
/// one.
pub trait Journals {
    /// Writes the entry to the front of the buffer: its length, or the number
    /// that says why nothing changed.
    fn take(&self, works: &dyn Works, work: &Work, buffer: &mut [u8]) -> Result<usize, u32> {
        if !self.is_ready(works, work) {
            return Err(number::STORES_LEFT);
        }
        let entry = self.entry(work);
        let front = buffer.get_mut(..entry.len());
        front.ok_or(number::ENTRY_BUFFER)?.copy_from_slice(&entry);
        Ok(entry.len())
    }

    /// As for an answer: sound, and no store left.
    fn is_ready(&self, works: &dyn Works, work: &Work) -> bool {
        works.is_sound(work) && works.left(work) == 0
    }

    /// The bytes; none if there is nothing to store.
    fn entry(&self, work: &Work) -> Vec<u8> {
        let Some(kind) = self.kind(work.kind.sort()) else {
            return vec![];
        };
        let mut entry = vec![kind];
        for value in self.values(work) {
            entry.extend(value.bytes(|number| self.number(number)));
        }
        entry
    }

    /// The kind's byte.
    fn kind(&self, sort: Sort) -> Option<u8> {
        match sort {
            Sort::Nothing => None,
            Sort::Cold => Some(COLD_ENTRY),
            Sort::Update => Some(UPDATE_ENTRY),
            Sort::Disabling => Some(DISABLING_ENTRY),
            Sort::Stash => Some(STASH_ENTRY),
            Sort::Extension => Some(EXTENSION_ENTRY),
            Sort::Derive | Sort::Succeed => Some(DERIVE_ENTRY),
            Sort::Remeasure => Some(REMEASURE_ENTRY),
            Sort::Rotate => Some(ROTATE_ENTRY),
            Sort::Destroy => Some(DESTROY_ENTRY),
        }
    }

    /// What follows the kind; an extension's register is the work's as it stands.
    fn values(&self, work: &Work) -> Vec<Value> {
        match work.kind {
            Kind::Extension { register } => {
                [&[Value::Number(register as u32)], &work.told[..]].concat()
            }
            _ => work.told.clone(),
        }
    }

    fn number(&self, number: u32) -> Vec<u8> {
        groups(number)
    }
}

#[cfg(test)]
mod tests;
