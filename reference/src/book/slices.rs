//! The book of a running digest: the bytes of the slices accepted since it was
//! begun, as one list. It says what must come of them without blocks or a hash
//! value under way.

use super::claim;
use crate::layout::*;
use crate::running::Running;
use crate::sha384::{digest, BLOCK_BYTES};

#[derive(Clone, Default)]
pub struct Slices {
    pub(super) joined: Vec<u8>,
    /// Of the bytes as they are, once it was asked for.
    digest: Option<Digest>,
}

impl Slices {
    /// The number of a feed; an accepted slice joins the others.
    pub fn feed(&mut self, slice: &[u8]) -> u32 {
        if slice.len() > SLICE_BYTES {
            return number::SLICE;
        }
        if (self.joined.len() + slice.len()) as u64 > TOTAL_BYTES {
            return number::TOTAL;
        }
        self.joins(slice);
        0
    }

    pub(super) fn joins(&mut self, slice: &[u8]) {
        self.joined.extend_from_slice(slice);
        self.digest = None;
    }

    /// What a finish gives: never a refusal.
    pub fn finish(&mut self) -> (u32, Digest) {
        let joined = &self.joined;
        (0, *self.digest.get_or_insert_with(|| digest(joined)))
    }

    /// The counts are those of the bytes, and the buffer holds the bytes after
    /// the last whole block and zeros.
    pub fn is_shown(&self, running: &Running) -> Result<(), String> {
        let rest = self.joined.chunks_exact(BLOCK_BYTES).remainder();
        let counts = (running.total, running.waiting);
        let expected = (self.joined.len() as u64, rest.len() as u64);
        claim(counts == expected, || {
            format!("total and waiting are {counts:?} and the book says {expected:?}")
        })?;
        let (front, behind) = running.buffer.split_at(rest.len());
        claim(
            front == rest && behind.iter().all(|&byte| byte == 0),
            || "the buffer does not hold the waiting bytes and zeros".into(),
        )
    }
}
