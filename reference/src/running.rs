//! "Digest of an image that comes in pieces" (document 02): begin, feed, finish.

use crate::layout::*;
use crate::requests::{first_of, Refusal};
use crate::sha384::{first_bytes, next_state, padded_tail, BLOCK_BYTES, INITIAL};

/// A digest under way. The rules take a state of any values.
#[derive(Clone, Debug, PartialEq, Eq)]
pub struct Running {
    /// The bytes of all accepted slices, counted.
    pub total: u64,
    /// Those of them that have not filled a block yet, counted.
    pub waiting: u64,
    /// The waiting bytes, then zeros.
    pub buffer: [u8; BLOCK_BYTES],
    /// The hash value after the blocks that were filled.
    pub hash: [u64; 8],
}

impl Running {
    /// A digest just begun.
    pub fn begun() -> Running {
        Running {
            total: 0,
            waiting: 0,
            buffer: [0; BLOCK_BYTES],
            hash: INITIAL,
        }
    }

    /// The waiting bytes; of a state that counts more, the whole buffer.
    pub fn rest(&self) -> &[u8] {
        let count = self.waiting.min(BLOCK_BYTES as u64);
        &self.buffer[..count as usize]
    }

    /// Takes a block into the hash value.
    pub(crate) fn absorb(&mut self, block: &[u8]) {
        self.hash = next_state(self.hash, block);
    }

    /// Keeps these bytes, fewer than a block, as the waiting ones.
    pub(crate) fn keep(&mut self, rest: &[u8]) {
        self.waiting = rest.len() as u64;
        self.buffer = [0; BLOCK_BYTES];
        self.buffer[..rest.len()].copy_from_slice(rest);
    }
}

/// The rules of the running digest, each a method, so that an engine can be
/// wrong in just one.
pub trait RunningDigest {
    /// Begins anew, whatever the state is.
    fn begin(&self, running: &mut Running) {
        *running = Running::begun();
    }

    /// Takes a slice. The number is 0, or says why nothing changed.
    fn feed(&self, running: &mut Running, slice: &[u8]) -> u32 {
        if let Some(number) = first_of(&self.feed_order(running, slice)) {
            return number;
        }
        self.take(running, slice);
        0
    }

    /// A number, and the digest of the accepted slices joined; zeros unless the
    /// number is 0.
    fn finish(&self, running: &Running) -> (u32, Digest) {
        if !self.counts_fine(running) {
            return (number::COUNTS, ZERO);
        }
        (0, self.digest_of(running))
    }

    /// A feed's order, top down.
    fn feed_order(&self, running: &Running, slice: &[u8]) -> Vec<Refusal> {
        vec![
            (number::COUNTS, !self.counts_fine(running)),
            (number::SLICE, !self.slice_fine(slice)),
            (number::TOTAL, !self.has_room(running, slice)),
        ]
    }

    fn counts_fine(&self, running: &Running) -> bool {
        self.counts_agree(running) && self.total_fine(running.total)
    }

    /// Whether the waiting bytes are the total's remainder.
    fn counts_agree(&self, running: &Running) -> bool {
        running.waiting == running.total % BLOCK_BYTES as u64
    }

    fn total_fine(&self, total: u64) -> bool {
        total <= TOTAL_BYTES
    }

    fn slice_fine(&self, slice: &[u8]) -> bool {
        slice.len() <= SLICE_BYTES
    }

    /// Whether a slice keeps the total within its bound. The total may be any
    /// number, so the sum can pass 64 bits.
    fn has_room(&self, running: &Running, slice: &[u8]) -> bool {
        u128::from(running.total) + slice.len() as u128 <= u128::from(TOTAL_BYTES)
    }

    /// Counts an accepted slice, absorbs the blocks that it fills and keeps
    /// what is left over.
    fn take(&self, running: &mut Running, slice: &[u8]) {
        let joined = self.joined(running, slice);
        let blocks = joined.chunks_exact(BLOCK_BYTES);
        running.keep(blocks.remainder());
        for block in blocks {
            running.absorb(block);
        }
        running.total += slice.len() as u64;
    }

    /// The waiting bytes and then the slice.
    fn joined(&self, running: &Running, slice: &[u8]) -> Vec<u8> {
        [running.rest(), slice].concat()
    }

    /// The digest of a state whose counts are fine.
    fn digest_of(&self, running: &Running) -> Digest {
        let (tail, end) = padded_tail(running.rest(), self.message_bytes(running) as usize);
        let blocks = tail[..end].chunks_exact(BLOCK_BYTES);
        first_bytes(&blocks.fold(running.hash, next_state))
    }

    /// The length of the message, for its padding.
    fn message_bytes(&self, running: &Running) -> u64 {
        running.total
    }
}

#[cfg(test)]
mod tests;
