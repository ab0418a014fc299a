//! The running digest: its counts, its order of numbers, what a slice changes,
//! what a finish gives, and the driver around it.

use super::requests::before;
use crate::engine::Paper;
use crate::layout::*;
use crate::player::Host;
use crate::requests::Refusal;
use crate::running::{Running, RunningDigest};
use crate::script::{TOTAL, WAITING};
use crate::sha384::{digest, first_bytes, next_state, padded_tail, BLOCK_BYTES};
use crate::work::Work;

const LOW_HALF: u64 = 0xFFFF_FFFF;
const BLOCK: u64 = BLOCK_BYTES as u64;

/// An operation of one of these letters begins anew.
fn begins(letters: &[u8], letter: u8, running: &mut Running) {
    if letters.contains(&letter) {
        *running = Running::begun();
    }
}

/// The total with a slice, which no total or length in reach makes overflow.
fn with(running: &Running, slice: &[u8]) -> u64 {
    running.total.saturating_add(slice.len() as u64)
}

super::engines! {

SliceBeforeCounts: "a feed tells 10 before 27"
[running: RunningDigest] {
    fn feed_order(&self, running: &Running, slice: &[u8]) -> Vec<Refusal> {
        before(Paper.feed_order(running, slice), number::SLICE, number::COUNTS)
    }
}

TotalBeforeCounts: "a feed tells 16 before 27"
[running: RunningDigest] {
    fn feed_order(&self, running: &Running, slice: &[u8]) -> Vec<Refusal> {
        before(Paper.feed_order(running, slice), number::TOTAL, number::COUNTS)
    }
}

TotalBeforeSlice: "a feed tells 16 before 10"
[running: RunningDigest] {
    fn feed_order(&self, running: &Running, slice: &[u8]) -> Vec<Refusal> {
        before(Paper.feed_order(running, slice), number::TOTAL, number::SLICE)
    }
}

FeedRefusesAll: "every feed is refused with 27"
[running: RunningDigest] {
    fn feed(&self, _: &mut Running, _: &[u8]) -> u32 {
        number::COUNTS
    }
}

FeedTakesNothing: "an accepted slice changes nothing"
[running: RunningDigest] {
    fn take(&self, _: &mut Running, _: &[u8]) {}
}

DigestOfNothing: "a finish gives the digest of no bytes"
[running: RunningDigest] {
    fn digest_of(&self, _: &Running) -> Digest {
        digest(&[])
    }
}

FeedWithoutRemainder: "a feed does not compare the waiting bytes with the total"
[running: RunningDigest] {
    fn feed_order(&self, running: &Running, slice: &[u8]) -> Vec<Refusal> {
        let mut order = Paper.feed_order(running, slice);
        order[0].1 = !self.total_fine(running.total);
        order
    }
}

FinishWithoutRemainder: "a finish does not compare the waiting bytes with the total"
[running: RunningDigest] {
    fn finish(&self, running: &Running) -> (u32, Digest) {
        if self.total_fine(running.total) {
            return (0, self.digest_of(running));
        }
        Paper.finish(running)
    }
}

FeedWithoutTotal: "a feed does not look for a larger total"
[running: RunningDigest] {
    fn feed_order(&self, running: &Running, slice: &[u8]) -> Vec<Refusal> {
        let mut order = Paper.feed_order(running, slice);
        order[0].1 = !self.counts_agree(running);
        order
    }
}

FinishWithoutTotal: "a finish does not look for a larger total"
[running: RunningDigest] {
    fn finish(&self, running: &Running) -> (u32, Digest) {
        if self.counts_agree(running) {
            return (0, self.digest_of(running));
        }
        Paper.finish(running)
    }
}

RemainderBy64: "the counts are compared modulo 64"
[running: RunningDigest] {
    fn counts_agree(&self, running: &Running) -> bool {
        running.waiting % 64 == running.total % 64
    }
}

BlockWaiting: "a whole block may wait where the total ends a block"
[running: RunningDigest] {
    fn counts_agree(&self, running: &Running) -> bool {
        let ends = running.total.is_multiple_of(BLOCK);
        Paper.counts_agree(running) || ends && running.waiting == BLOCK
    }
}

WaitingByte: "the waiting bytes are cut to 8 bits"
[running: RunningDigest] {
    fn counts_agree(&self, running: &Running) -> bool {
        running.waiting % 256 == running.total % BLOCK
    }
}

WaitingHalf: "the waiting bytes are cut to 32 bits"
[running: RunningDigest] {
    fn counts_agree(&self, running: &Running) -> bool {
        running.waiting & LOW_HALF == running.total % BLOCK
    }
}

TotalHalf: "the total is cut to 32 bits"
[running: RunningDigest] {
    fn feed(&self, running: &mut Running, slice: &[u8]) -> u32 {
        running.total &= LOW_HALF;
        Paper.feed(running, slice)
    }
    fn finish(&self, running: &Running) -> (u32, Digest) {
        Paper.finish(&Running { total: running.total & LOW_HALF, ..running.clone() })
    }
}

TotalOneMore: "a total of 2^32 is fine"
[running: RunningDigest] {
    fn total_fine(&self, total: u64) -> bool {
        total <= TOTAL_BYTES + 1
    }
}

TotalOneLess: "a total of 2^32 - 1 is told as a larger one"
[running: RunningDigest] {
    fn total_fine(&self, total: u64) -> bool {
        total < TOTAL_BYTES
    }
}

FeedOneMore: "a slice may take the total to 2^32"
[running: RunningDigest] {
    fn has_room(&self, running: &Running, slice: &[u8]) -> bool {
        with(running, slice) <= TOTAL_BYTES + 1
    }
}

FeedOneLess: "a slice may not take the total to 2^32 - 1"
[running: RunningDigest] {
    fn has_room(&self, running: &Running, slice: &[u8]) -> bool {
        with(running, slice) < TOTAL_BYTES
    }
}

FullTakesNone: "at a total of 2^32 - 1 an empty slice is refused"
[running: RunningDigest] {
    fn has_room(&self, running: &Running, slice: &[u8]) -> bool {
        Paper.has_room(running, slice) && running.total < TOTAL_BYTES
    }
}

BeyondAccepted: "a slice beyond the greatest total is taken"
[running: RunningDigest] {
    fn has_room(&self, _: &Running, _: &[u8]) -> bool {
        true
    }
}

SliceOneMore: "a slice of 65,536 bytes is taken"
[running: RunningDigest] {
    fn slice_fine(&self, slice: &[u8]) -> bool {
        slice.len() <= SLICE_BYTES + 1
    }
}

SliceOneLess: "a slice of 65,535 bytes is refused"
[running: RunningDigest] {
    fn slice_fine(&self, slice: &[u8]) -> bool {
        slice.len() < SLICE_BYTES
    }
}

SliceLowHalf: "a slice's length is cut to 16 bits"
[running: RunningDigest] {
    fn feed(&self, running: &mut Running, slice: &[u8]) -> u32 {
        Paper.feed(running, &slice[..slice.len() & 0xFFFF])
    }
}

LongSliceCut: "of a longer slice the first 65,535 bytes are taken"
[running: RunningDigest] {
    fn feed(&self, running: &mut Running, slice: &[u8]) -> u32 {
        Paper.feed(running, slice.get(..SLICE_BYTES).unwrap_or(slice))
    }
}

EmptySliceRefused: "an empty slice is refused"
[running: RunningDigest] {
    fn slice_fine(&self, slice: &[u8]) -> bool {
        !slice.is_empty() && Paper.slice_fine(slice)
    }
}

EmptySliceDrops: "an empty slice drops the waiting bytes"
[running: RunningDigest] {
    fn joined(&self, running: &Running, slice: &[u8]) -> Vec<u8> {
        if slice.is_empty() {
            return vec![];
        }
        Paper.joined(running, slice)
    }
}

RefusedSliceCounted: "a refused slice is counted"
[running: RunningDigest] {
    fn feed(&self, running: &mut Running, slice: &[u8]) -> u32 {
        let number = Paper.feed(running, slice);
        if number != 0 {
            running.total = with(running, slice);
        }
        number
    }
}

RefusedSliceClears: "a refused slice clears the waiting bytes"
[running: RunningDigest] {
    fn feed(&self, running: &mut Running, slice: &[u8]) -> u32 {
        let number = Paper.feed(running, slice);
        if number != 0 {
            running.buffer = [0; BLOCK_BYTES];
        }
        number
    }
}

TotalNotCounted: "an accepted slice leaves the total"
[running: RunningDigest] {
    fn take(&self, running: &mut Running, slice: &[u8]) {
        let total = running.total;
        Paper.take(running, slice);
        running.total = total;
    }
}

WaitingNotCounted: "an accepted slice leaves the number of waiting bytes"
[running: RunningDigest] {
    fn take(&self, running: &mut Running, slice: &[u8]) {
        let waiting = running.waiting;
        Paper.take(running, slice);
        running.waiting = waiting;
    }
}

WaitingOverwritten: "a slice is copied over the waiting bytes"
[running: RunningDigest] {
    fn joined(&self, running: &Running, slice: &[u8]) -> Vec<u8> {
        let mut joined = Paper.joined(running, slice);
        joined[..slice.len()].copy_from_slice(slice);
        joined
    }
}

SliceInFront: "a slice goes in front of the waiting bytes"
[running: RunningDigest] {
    fn joined(&self, running: &Running, slice: &[u8]) -> Vec<u8> {
        [slice, running.rest()].concat()
    }
}

HashRestarts: "every slice starts from the initial hash value"
[running: RunningDigest] {
    fn take(&self, running: &mut Running, slice: &[u8]) {
        running.hash = Running::begun().hash;
        Paper.take(running, slice);
    }
}

LastSliceOnly: "every slice begins anew"
[running: RunningDigest] {
    fn take(&self, running: &mut Running, slice: &[u8]) {
        *running = Running::begun();
        Paper.take(running, slice);
    }
}

FirstBlockOnly: "of the blocks that a slice fills only the first is absorbed"
[running: RunningDigest] {
    fn take(&self, running: &mut Running, slice: &[u8]) {
        let mut first = running.clone();
        if let Some(block) = Paper.joined(running, slice).get(..BLOCK_BYTES) {
            first.absorb(block);
        }
        Paper.take(running, slice);
        running.hash = first.hash;
    }
}

LastBlockKept: "a last block that is full stays in the buffer"
[running: RunningDigest] {
    fn take(&self, running: &mut Running, slice: &[u8]) {
        let joined = Paper.joined(running, slice);
        let most = joined.len().saturating_sub(1) / BLOCK_BYTES * BLOCK_BYTES;
        let (blocks, rest) = joined.split_at(most);
        blocks.chunks_exact(BLOCK_BYTES).for_each(|block| running.absorb(block));
        running.keep(rest);
        running.total += slice.len() as u64;
    }
}

BufferNotCleared: "the bytes behind the waiting ones stay in the buffer"
[running: RunningDigest] {
    fn take(&self, running: &mut Running, slice: &[u8]) {
        let before = running.buffer;
        Paper.take(running, slice);
        let behind = running.rest().len();
        running.buffer[behind..].copy_from_slice(&before[behind..]);
    }
}

RefusedDigestShown: "a finish refused with 27 gives a digest"
[running: RunningDigest] {
    fn finish(&self, running: &Running) -> (u32, Digest) {
        (Paper.finish(running).0, self.digest_of(running))
    }
}

BitsHalf: "the length in bits is cut to 32 bits"
[running: RunningDigest] {
    fn message_bytes(&self, running: &Running) -> u64 {
        ((running.total * 8) & LOW_HALF) / 8
    }
}

LengthOfRest: "the padding has the number of waiting bytes for the length"
[running: RunningDigest] {
    fn message_bytes(&self, running: &Running) -> u64 {
        running.waiting
    }
}

PaddingInOneBlock: "the padding never takes a second block"
[running: RunningDigest] {
    fn digest_of(&self, running: &Running) -> Digest {
        let (mut tail, end) = padded_tail(running.rest(), running.total as usize);
        tail.copy_within(end - 16..end, BLOCK_BYTES - 16);
        first_bytes(&next_state(running.hash, &tail[..BLOCK_BYTES]))
    }
}

BeginKeepsTotal: "a begin leaves the total"
[running: RunningDigest] {
    fn begin(&self, running: &mut Running) {
        *running = Running { total: running.total, ..Running::begun() };
    }
}

BeginKeepsWaiting: "a begin leaves the number of waiting bytes"
[running: RunningDigest] {
    fn begin(&self, running: &mut Running) {
        *running = Running { waiting: running.waiting, ..Running::begun() };
    }
}

BeginKeepsBuffer: "a begin leaves the bytes in the buffer"
[running: RunningDigest] {
    fn begin(&self, running: &mut Running) {
        *running = Running { buffer: running.buffer, ..Running::begun() };
    }
}

BeginKeepsHash: "a begin leaves the hash value"
[running: RunningDigest] {
    fn begin(&self, running: &mut Running) {
        *running = Running { hash: running.hash, ..Running::begun() };
    }
}

PaddingAbsorbed: "a finish leaves the padding in the hash value"
[host: Host] {
    fn alters_running(&self, letter: u8, running: &mut Running) {
        if letter == b'e' && Paper.counts_fine(running) {
            let (tail, end) = padded_tail(running.rest(), running.total as usize);
            tail[..end].chunks_exact(BLOCK_BYTES).for_each(|block| running.absorb(block));
        }
    }
}

PaddingInBuffer: "a finish leaves the first byte of the padding in the buffer"
[host: Host] {
    fn alters_running(&self, letter: u8, running: &mut Running) {
        if letter == b'e' && Paper.counts_fine(running) {
            running.buffer[running.waiting as usize] = 0x80;
        }
    }
}

FinishBegins: "a finish begins anew"
[host: Host] {
    fn alters_running(&self, letter: u8, running: &mut Running) {
        begins(b"e", letter, running)
    }
}

ImageBegins: "lending an image begins anew"
[host: Host] {
    fn alters_running(&self, letter: u8, running: &mut Running) {
        begins(b"I", letter, running)
    }
}

CutBegins: "a cut begins anew"
[host: Host] {
    fn alters_running(&self, letter: u8, running: &mut Running) {
        begins(b"X", letter, running)
    }
}

OpeningBegins: "an opening begins anew"
[host: Host] {
    fn alters_running(&self, letter: u8, running: &mut Running) {
        begins(b"CUR", letter, running)
    }
}

BeginDropsWork: "a begin drops the work in hand"
[host: Host] {
    fn alters_work(&self, letter: u8, in_hand: &mut Option<Work>) {
        if letter == b'b' {
            *in_hand = None;
        }
    }
}

NotBegun: "at the start the hash value is zero"
[host: Host] {
    fn at_start(&self) -> Running {
        Running { hash: [0; 8], ..Running::begun() }
    }
}

CountHalf: "a count that is set is cut to 32 bits"
[host: Host] {
    fn set_count(&self, running: &mut Running, field: u8, value: u64) {
        Paper.set_count(running, field, value & LOW_HALF);
    }
}

OtherFieldWaiting: "every field but the total's sets the waiting bytes"
[host: Host] {
    fn set_count(&self, running: &mut Running, field: u8, value: u64) {
        let field = if field == TOTAL { TOTAL } else { WAITING };
        Paper.set_count(running, field, value);
    }
}

}
