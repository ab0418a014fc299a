//! Reads a journal: one entry after the other, one byte after the other.

use super::*;
use crate::sha384::DIGEST_BYTES;
use std::io::{self, BufReader, Read};

/// What a value is made of.
#[derive(Clone, Copy, Debug, PartialEq, Eq)]
pub enum Form {
    Number,
    Digest,
    Handle,
}

use Form::{Digest as D, Handle as H, Number as N};

/// The values behind each kind that is listed.
const FORMS: [(u8, &[Form]); 9] = [
    (COLD_ENTRY, &[D, D]),
    (UPDATE_ENTRY, &[D, D]),
    (DISABLING_ENTRY, &[]),
    (STASH_ENTRY, &[N, D, N, N]),
    (EXTENSION_ENTRY, &[N, D]),
    (DERIVE_ENTRY, &[H, N, N, D, H, N]),
    (REMEASURE_ENTRY, &[H, D, N]),
    (ROTATE_ENTRY, &[H, H, N]),
    (DESTROY_ENTRY, &[H, N]),
];

/// The journal's bytes as they come.
pub struct Bytes<'a> {
    rest: io::Bytes<BufReader<Box<dyn Read + 'a>>>,
    /// How many were taken.
    pub taken: u64,
    /// Why no more could be read.
    pub failure: Option<io::Error>,
}

impl<'a> Bytes<'a> {
    pub fn new(journal: impl Read + 'a) -> Bytes<'a> {
        let journal: Box<dyn Read + 'a> = Box::new(journal);
        Bytes {
            rest: BufReader::new(journal).bytes(),
            taken: 0,
            failure: None,
        }
    }
}

impl Iterator for Bytes<'_> {
    type Item = u8;

    /// The next byte; none at the end.
    fn next(&mut self) -> Option<u8> {
        match self.rest.next()? {
            Ok(byte) => {
                self.taken += 1;
                Some(byte)
            }
            Err(error) => {
                self.failure = Some(error);
                None
            }
        }
    }
}

/// An entry, well formed.
#[derive(Clone, Debug, PartialEq, Eq)]
pub struct Entry {
    pub kind: u8,
    pub values: Vec<Value>,
}

/// The form of entries, each rule a method, so that a reader can be wrong in
/// just one. An error is the number of the refusal.
pub trait Reads {
    /// The next entry; none at the end.
    fn entry(&self, bytes: &mut Bytes) -> Result<Option<Entry>, u32> {
        let kind = bytes.next();
        kind.map(|kind| self.entry_of(kind, bytes)).transpose()
    }

    /// The entry whose kind was read.
    fn entry_of(&self, kind: u8, bytes: &mut Bytes) -> Result<Entry, u32> {
        let forms = self.forms(kind).ok_or(number::KIND)?;
        let values = forms.iter().map(|form| self.value(*form, bytes));
        let values = values.collect::<Result<_, _>>()?;
        Ok(Entry { kind, values })
    }

    /// What follows a kind, if it is listed.
    fn forms(&self, kind: u8) -> Option<&'static [Form]> {
        let row = FORMS.iter().find(|(listed, _)| *listed == kind);
        row.map(|(_, forms)| *forms)
    }

    fn value(&self, form: Form, bytes: &mut Bytes) -> Result<Value, u32> {
        match form {
            Form::Number => self.number(bytes).map(Value::Number),
            Form::Digest => self.digest(bytes).map(Value::Digest),
            Form::Handle => self.handle(bytes).map(Value::Handle),
        }
    }

    fn digest(&self, bytes: &mut Bytes) -> Result<Digest, u32> {
        let mut digest = [0; DIGEST_BYTES];
        self.fill(bytes, &mut digest)?;
        Ok(digest)
    }

    fn handle(&self, bytes: &mut Bytes) -> Result<Handle, u32> {
        let mut handle = [0; HANDLE_BYTES];
        self.fill(bytes, &mut handle)?;
        Ok(handle)
    }

    /// Plain bytes that have to be there.
    fn fill(&self, bytes: &mut Bytes, plain: &mut [u8]) -> Result<(), u32> {
        for byte in plain {
            *byte = self.must(bytes)?;
        }
        Ok(())
    }

    /// A number; the first byte that none could have at its place decides.
    fn number(&self, bytes: &mut Bytes) -> Result<u32, u32> {
        let mut number = 0;
        let mut place = 0;
        loop {
            let byte = self.must(bytes)?;
            if !self.is_possible(place, byte) {
                return Err(number::GROUPS);
            }
            number |= self.group(place, byte);
            if byte & MORE == 0 {
                return Ok(number);
            }
            place += 1;
        }
    }

    /// Whether some number has that byte at that place. A group of zeros at the
    /// end is not the shortest form, and the fifth place has four bits left,
    /// with no place behind it.
    fn is_possible(&self, place: u32, byte: u8) -> bool {
        let bits = u32::BITS - place * GROUP_BITS;
        (place == 0 || byte != 0) && (bits >= GROUP_BITS || byte >> bits == 0)
    }

    /// What a byte adds to its number.
    fn group(&self, place: u32, byte: u8) -> u32 {
        u32::from(byte & !MORE) << (place * GROUP_BITS)
    }

    /// A byte that has to be there.
    fn must(&self, bytes: &mut Bytes) -> Result<u8, u32> {
        bytes.next().ok_or(number::CUT)
    }
}
