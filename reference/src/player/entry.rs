//! The operation on the work's journal entry.

use super::{Player, Watch, FILLING, NONE_IN_HAND};
use crate::layout::number;

/// How a buffer fits an entry.
#[derive(Clone, Copy, Debug, PartialEq, Eq, PartialOrd, Ord)]
pub enum Fit {
    /// Nothing was to be had.
    None,
    OneShort,
    Short,
    Exact,
    Longer,
}

impl Fit {
    fn of(size: u16, length: usize) -> Fit {
        match usize::from(size) {
            size if size + 1 == length => Fit::OneShort,
            size if size < length => Fit::Short,
            size if size == length => Fit::Exact,
            _ => Fit::Longer,
        }
    }
}

impl Player {
    pub(super) fn entry(&mut self, size: u16) -> Result<(), String> {
        let mut buffer = vec![FILLING; usize::from(size)];
        let taken = match &self.work {
            None => Err(NONE_IN_HAND),
            Some(work) => self.engine.entry(work, &mut buffer),
        };
        let host = self.engine.host;
        let whole = |work| self.engine.journal.entry(work).len();
        let entry = self.work.as_ref().map_or(0, whole);
        self.put(taken.err().unwrap_or(0));
        self.put(host.entry_length(taken, entry));
        self.output.extend_from_slice(&buffer);
        self.see_entry(size, taken, entry);
        if taken.is_ok() {
            self.work = self.work.take().and_then(|work| host.after_entry(work));
        }
        match &self.watch {
            Watch::List(book) => agrees(&self.keeper.entry(book), taken, &buffer),
            _ => Ok(()),
        }
    }

    fn see_entry(&mut self, size: u16, taken: Result<usize, u32>, entry: usize) {
        let number = taken.err().unwrap_or(0);
        self.seen.numbers.insert(('J', number));
        let Some(work) = &self.work else { return };
        let fit = match number {
            number::STORES_LEFT => Fit::None,
            _ => Fit::of(size, entry),
        };
        self.seen.entries.insert((work.kind.sort(), number, fit));
    }
}

/// Whether an entry is the book's.
fn agrees(
    expected: &Result<Vec<u8>, u32>,
    taken: Result<usize, u32>,
    buffer: &[u8],
) -> Result<(), String> {
    let expected = match expected {
        Err(number) => (Err(*number), vec![FILLING; buffer.len()]),
        Ok(entry) if entry.len() > buffer.len() => {
            (Err(number::ENTRY_BUFFER), vec![FILLING; buffer.len()])
        }
        Ok(entry) => {
            let mut filled = entry.clone();
            filled.resize(buffer.len(), FILLING);
            (Ok(entry.len()), filled)
        }
    };
    if (taken, buffer) == (expected.0, &expected.1[..]) {
        return Ok(());
    }
    Err(format!(
        "an entry gave {taken:?} {buffer:02x?} and the book says {expected:02x?}"
    ))
}
