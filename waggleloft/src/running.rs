//! A running digest: SHA-384 of bytes that come in slices.

use core::fmt;

use crate::{archive, Refusal, SHA384_BYTES, SHA384_STATE_BYTES};

/// The running digest of bytes that come in slices, such as an update that is too long for
/// [`sha384`](crate::sha384): SHA-384 of all accepted bytes in their order, into whatever slices they came.
///
/// ```
/// use waggleloft::{sha384, Refusal, Sha384};
///
/// let mut digest = Sha384::new();
/// for slice in [&b"an update"[..], b"", b" in three slices"] {
///     digest.feed(slice)?;
/// }
/// assert_eq!(digest.finish(), sha384(b"an update in three slices"));
///
/// // Finishing changes nothing: feeding may go on.
/// digest.feed(b" and one more")?;
/// assert_eq!(digest.finish(), sha384(b"an update in three slices and one more"));
/// # Ok::<(), Refusal>(())
/// ```
#[derive(Clone, PartialEq, Eq)]
pub struct Sha384 {
    state: [u8; SHA384_STATE_BYTES],
}

impl Sha384 {
    /// The running digest of no bytes.
    pub fn new() -> Self {
        let mut state = [0; SHA384_STATE_BYTES];
        // An archive that was built for another length refuses, and so it does each feed and finish.
        let _ = archive::sha384_begin(&mut state);
        Self { state }
    }

    /// The running digest that any bytes are: those of [`as_bytes`](Sha384::as_bytes), of an archive of
    /// the same version. Other bytes are safe: they lead to [`Refusal::WrongCounts`] or to a wrong digest.
    pub const fn from_bytes(state: [u8; SHA384_STATE_BYTES]) -> Self {
        Self { state }
    }

    /// The state's bytes, to be kept.
    pub const fn as_bytes(&self) -> &[u8; SHA384_STATE_BYTES] {
        &self.state
    }

    /// Feeds one slice more, which may be empty.
    ///
    /// Refused, and nothing changes, the first that applies: [`Refusal::WrongCounts`],
    /// [`Refusal::LongMessage`] (the slice), [`Refusal::LongTotal`].
    pub fn feed(&mut self, slice: &[u8]) -> Result<(), Refusal> {
        Refusal::check(archive::sha384_feed(&mut self.state, slice))
    }

    /// The digest of all bytes fed so far.
    ///
    /// Refused: [`Refusal::WrongCounts`].
    pub fn finish(&self) -> Result<[u8; SHA384_BYTES], Refusal> {
        let mut digest = [0; SHA384_BYTES];
        self.finish_into(&mut digest)?;
        Ok(digest)
    }

    /// The digest of all bytes fed so far into the first 48 bytes of a buffer, whose other bytes stay.
    ///
    /// Refused, the first that applies: [`Refusal::WrongCounts`], [`Refusal::ShortBuffer`].
    pub fn finish_into(&self, buffer: &mut [u8]) -> Result<(), Refusal> {
        Refusal::check(archive::sha384_finish(&self.state, buffer))
    }
}

impl Default for Sha384 {
    fn default() -> Self {
        Self::new()
    }
}

/// The bytes are not shown: some are those that were fed.
impl fmt::Debug for Sha384 {
    fn fmt(&self, f: &mut fmt::Formatter<'_>) -> fmt::Result {
        f.debug_struct("Sha384").finish_non_exhaustive()
    }
}
