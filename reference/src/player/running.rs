//! The operations on the running digest.

use super::Player;

impl Player {
    pub(super) fn begin(&mut self) -> Result<(), String> {
        self.engine.begin(&mut self.running);
        let slices = self.keeper.begin(self.slices.take());
        self.slices.insert(slices).is_shown(&self.running)
    }

    pub(super) fn feed(&mut self, slice: &[u8]) -> Result<(), String> {
        let before = self.running.waiting;
        let number = self.engine.feed(&mut self.running, slice);
        self.put(number);
        self.seen.numbers.insert(('f', number));
        if number == 0 {
            self.seen.waiting.insert((before, self.running.waiting));
        }
        let Some(slices) = &mut self.slices else {
            return Ok(());
        };
        let expected = self.keeper.feed(slices, slice);
        if number != expected {
            return Err(format!(
                "a slice gave {number} and the book says {expected}"
            ));
        }
        slices.is_shown(&self.running)
    }

    pub(super) fn finish(&mut self) -> Result<(), String> {
        let (number, digest) = self.engine.finish(&self.running);
        self.put(number);
        self.output.extend_from_slice(&digest);
        self.seen.numbers.insert(('e', number));
        let Some(slices) = &mut self.slices else {
            return Ok(());
        };
        self.seen.digests += 1;
        if (number, digest) != slices.finish() {
            return Err(format!(
                "a finish gave {number} and not the digest of the accepted slices"
            ));
        }
        slices.is_shown(&self.running)
    }

    /// No slices lead to counts set from outside, so the book ends.
    pub(super) fn set_count(&mut self, field: u8, value: u64) {
        self.slices = None;
        self.engine.host.set_count(&mut self.running, field, value);
    }
}
