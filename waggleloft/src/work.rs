//! A work: its openings, stores, answer and journal entry.

use core::fmt;

use crate::{archive, Refusal, WORK_WORDS};

/// What a boot comes to.
#[derive(Clone, Copy, Debug, PartialEq, Eq, Hash)]
pub enum Outcome {
    /// A cold boot: all is measured anew.
    Cold,
    /// An update boot that keeps all: nothing to store.
    Kept,
    /// An update boot that counts the new program.
    Updated,
    /// Something was amiss: attestation goes off.
    Disabled,
}

impl Outcome {
    fn from_number(number: u32) -> Self {
        match number {
            0 => Self::Cold,
            1 => Self::Kept,
            2 => Self::Updated,
            _ => Self::Disabled,
        }
    }
}

/// What both boots take, 48 bytes each: other lengths, and a secret of zeros, are
/// [`Refusal::WrongInput`], whatever the boot would come to.
///
/// PCR2 and PCR3 are extended by `runtime`, then by `manifest`. The two digests have the same length
/// and type: exchanging them is not refused, and gives other registers. Each may have any content, all
/// zero too, and they may be equal.
#[derive(Clone, Copy)]
pub struct BootInputs<'a> {
    /// The SHA-384 digest of the code of the runtime that starts.
    pub runtime: &'a [u8],
    /// The SHA-384 digest of its firmware manifest.
    pub manifest: &'a [u8],
    /// The device secret.
    pub secret: &'a [u8],
}

/// The secret is not shown.
impl fmt::Debug for BootInputs<'_> {
    fn fmt(&self, f: &mut fmt::Formatter<'_>) -> fmt::Result {
        f.debug_struct("BootInputs")
            .field("runtime", &self.runtime)
            .field("manifest", &self.manifest)
            .finish_non_exhaustive()
    }
}

/// A mailbox request.
#[derive(Clone, Copy, Debug, Default, PartialEq, Eq)]
pub struct Request<'a> {
    /// The command's code: one of [`code`](crate::code).
    pub code: u32,
    /// The request's bytes; the first four are the checksum, lowest byte first.
    pub bytes: &'a [u8],
    /// The caller's number.
    pub caller: u32,
    /// The handoff table: 2,048 bytes for the identity key, of no matter otherwise.
    pub handoff: &'a [u8],
    /// The verdict on a signature: for verify, of no matter otherwise.
    pub verdict: bool,
    /// A fresh handle: for [`tree::DERIVE`](crate::tree::DERIVE) and [`tree::ROTATE`](crate::tree::ROTATE)
    /// [`HANDLE_BYTES`](crate::HANDLE_BYTES) bytes that were never a handle before, from a random source; of
    /// no matter otherwise.
    pub fresh: &'a [u8],
}

/// A piece of work in hand: what it will store, how far it is, and its answer.
///
/// A boot's work holds the device secret: [`wipe`](Work::wipe) it once it has run.
#[derive(Clone, PartialEq, Eq)]
pub struct Work {
    words: [u32; WORK_WORDS],
}

impl Work {
    /// A work with nothing to store and an answer of no bytes.
    pub const fn new() -> Self {
        Self::from_words([0; WORK_WORDS])
    }

    /// The work that any words are. Words that no opening made are safe: a work of damaged words has
    /// no store left, no answer and no entry.
    pub const fn from_words(words: [u32; WORK_WORDS]) -> Self {
        Self { words }
    }

    /// Its words, for another who holds the work.
    pub const fn words(&self) -> &[u32; WORK_WORDS] {
        &self.words
    }

    /// Overwrites the work by one with nothing to store.
    pub fn wipe(&mut self) {
        self.words = [0; WORK_WORDS];
        core::hint::black_box(&mut self.words);
    }

    /// Opens a cold boot, on an image with any content.
    ///
    /// Refused, and this work stays: [`Refusal::WrongImage`], then [`Refusal::WrongInput`].
    pub fn open_cold_boot(
        &mut self,
        image: &[u32],
        inputs: &BootInputs<'_>,
    ) -> Result<Outcome, Refusal> {
        let mut outcome = 0;
        Refusal::check(archive::open_cold_boot(
            image,
            inputs,
            &mut self.words,
            &mut outcome,
        ))?;
        Ok(Outcome::from_number(outcome))
    }

    /// Opens an update boot, as every restart with the image kept is one; the verdict is the ROM's.
    ///
    /// Refused, and this work stays: [`Refusal::WrongImage`], then [`Refusal::WrongInput`].
    pub fn open_update_boot(
        &mut self,
        image: &[u32],
        inputs: &BootInputs<'_>,
        verdict: bool,
    ) -> Result<Outcome, Refusal> {
        let mut outcome = 0;
        Refusal::check(archive::open_update_boot(
            image,
            inputs,
            verdict,
            &mut self.words,
            &mut outcome,
        ))?;
        Ok(Outcome::from_number(outcome))
    }

    /// Opens a mailbox request.
    ///
    /// Refused, and this work stays, the first that applies: [`Refusal::WrongImage`],
    /// [`Refusal::Unfinished`], [`Refusal::UnknownCode`], [`Refusal::WrongLength`],
    /// [`Refusal::BadChecksum`], then the command's own ([`code`](crate::code)).
    pub fn open_request(&mut self, image: &[u32], request: &Request<'_>) -> Result<(), Refusal> {
        Refusal::check(archive::open_request(image, request, &mut self.words))
    }

    /// The stores that are left.
    pub fn left(&self) -> usize {
        archive::left(&self.words)
    }

    /// Makes the next store: one word of the image takes one value.
    ///
    /// Refused, with nothing stored: [`Refusal::WrongImage`], then [`Refusal::NoStoreLeft`].
    pub fn store(&mut self, image: &mut [u32]) -> Result<(), Refusal> {
        Refusal::check(archive::store(&mut self.words, image))
    }

    /// Takes the answer, after the last store, into the front of a buffer: its length. The buffer's
    /// other bytes stay. A request's answer begins with its checksum, lowest byte first, made with the
    /// command code taken as zero: [`checksum`](crate::checksum)`(0, &buffer[4..length])`.
    ///
    /// Refused, with nothing written: [`Refusal::StoresLeft`], then [`Refusal::ShortBuffer`].
    pub fn answer(&self, buffer: &mut [u8]) -> Result<usize, Refusal> {
        let mut written = 0;
        Refusal::check(archive::answer(&self.words, buffer, &mut written))?;
        Ok(written)
    }

    /// Takes the journal entry, after the last store, into the front of a buffer: its length. The buffer's
    /// other bytes stay. Entries joined in the order of their works are the unit's journal; that of a work
    /// with nothing to store has no bytes. It never holds the secret.
    ///
    /// Refused, with nothing written: [`Refusal::StoresLeft`], then [`Refusal::ShortForEntry`].
    pub fn entry(&self, buffer: &mut [u8]) -> Result<usize, Refusal> {
        let mut written = 0;
        Refusal::check(archive::entry(&self.words, buffer, &mut written))?;
        Ok(written)
    }
}

impl Default for Work {
    fn default() -> Self {
        Self::new()
    }
}

/// The words are not shown: they may hold the secret.
impl fmt::Debug for Work {
    fn fmt(&self, f: &mut fmt::Formatter<'_>) -> fmt::Result {
        f.debug_struct("Work")
            .field("left", &self.left())
            .finish_non_exhaustive()
    }
}
