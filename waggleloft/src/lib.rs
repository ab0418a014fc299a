//! The Waggleloft measurement core for Rust firmware: safe calls of the proved archive
//! `libwaggleloft.a` (x86-64 only: it is built for nothing else).
//!
//! The unit's memory is an image of [`IMAGE_WORDS`] words that the caller holds. An opening, of a boot
//! or of a mailbox request, reads the image and prepares a [`Work`]; the work is then run one store at
//! a time, and at the end its answer and its journal entry are taken. Between two stores anything may
//! happen, a loss of power too.
//!
//! [`sha384`] is the digest of a message in one piece, [`Sha384`] that of one which comes in slices.
//!
//! Nothing here allocates, panics or keeps state. A call that hands back a [`Refusal`] has written
//! nothing.
//!
//! ```
//! use waggleloft::{sha384, BootInputs, Outcome, Refusal, Work, IMAGE_WORDS};
//!
//! let mut image = [0; IMAGE_WORDS];
//! let mut work = Work::new();
//! let inputs = BootInputs {
//!     runtime: &sha384(b"the runtime's code")?,
//!     manifest: &sha384(b"its firmware manifest")?,
//!     secret: &[0x5A; 48],
//! };
//! let outcome = work.open_cold_boot(&image, &inputs)?;
//! assert_eq!(outcome, Outcome::Cold);
//! assert_eq!(work.left(), IMAGE_WORDS + 1, "every word, and the flow mark twice");
//! while work.left() > 0 {
//!     work.store(&mut image)?;
//! }
//! assert_eq!(work.store(&mut image), Err(Refusal::NoStoreLeft));
//! assert_eq!(image[1], 1, "attestation is on");
//! # Ok::<(), Refusal>(())
//! ```

#![no_std]

mod archive;
mod refusal;
mod running;
mod work;

pub use refusal::Refusal;
pub use running::Sha384;
pub use work::{BootInputs, Outcome, Request, Work};

/// Words of the unit's image. It may grow with a later version; an image of another length is refused with
/// [`Refusal::WrongImage`]. One of an earlier version, of 1,216 or 1,240 words, is refused so and not carried over.
pub const IMAGE_WORDS: usize = 1520;
/// Words of a work. It may grow with a later version.
pub const WORK_WORDS: usize = 130;
/// The longest answer, in bytes: a buffer of so many bytes takes every answer.
pub const ANSWER_LONGEST: usize = 104;
/// The longest journal entry, in bytes: a buffer of so many bytes takes every entry.
pub const ENTRY_LONGEST: usize = 104;
/// Bytes of a node's handle.
pub const HANDLE_BYTES: usize = 20;
/// The most bytes of the data of [`code::INVOKE_DPE_COMMAND`].
pub const DPE_DATA_LONGEST: usize = 1024;
/// Bytes of a SHA-384 digest.
pub const SHA384_BYTES: usize = 48;
/// The longest message, in bytes, that [`sha384`] takes, and the longest slice of a [`Sha384`].
pub const SHA384_LONGEST: usize = 65_535;
/// Bytes of a running digest's state. It may change with a later version.
pub const SHA384_STATE_BYTES: usize = 208;
/// The most bytes that a [`Sha384`] takes, all slices together.
pub const SHA384_TOTAL_LONGEST: u64 = 0xFFFF_FFFF;

/// The first register that [`code::EXTEND_PCR`] extends. PCR *r* is the twelve words of the image from
/// word 16 + 12 *r* on, a word's lowest byte first.
pub const EXTEND_FIRST: u32 = 4;
/// The last register that [`code::EXTEND_PCR`] extends.
pub const EXTEND_LAST: u32 = 30;

/// Nodes of the image; the list of measurements is the used ones. Read it where no work is under way and
/// attestation, word 1 of the image, is 1.
///
/// Node *i* is the [`NODE_WORDS`] words of the image from word [`NODES_AT`] + [`NODE_WORDS`] *i* on. A free
/// node is all zero. Of a used one the low half of its first word is 1, and the high half is the index of
/// the node that it hangs on; 0xFF of the root, which stands for the runtime.
///
/// ```
/// use waggleloft::{IMAGE_WORDS, NODES_AT, NODE_SVN, NODE_WORDS};
///
/// /// The svn of each measurement in the list.
/// fn svns(image: &[u32; IMAGE_WORDS]) -> impl Iterator<Item = u32> + '_ {
///     let nodes = image[NODES_AT..].chunks_exact(NODE_WORDS);
///     nodes.filter(|node| node[0] & 0xFFFF == 1).map(|node| node[NODE_SVN])
/// }
/// # assert_eq!(svns(&[0; IMAGE_WORDS]).count(), 0);
/// ```
pub const NODES: usize = 32;
/// The first word of the nodes.
pub const NODES_AT: usize = 400;
/// Words of a node.
pub const NODE_WORDS: usize = 35;
/// Within a node: the first of the five words of its handle, a word's lowest byte first; all zero is the
/// default handle, all 0xFF a retired one.
pub const NODE_HANDLE: usize = 2;
/// Within a node: the first of the twelve words of the measured digest, a word's lowest byte first; the
/// root's is PCR3.
pub const NODE_CURRENT: usize = 8;
/// Within a node: the measurement's type, as the request gave it.
pub const NODE_TYPE: usize = 32;
/// Within a node: the number of the caller that stashed or derived it (locality).
pub const NODE_LOCALITY: usize = 33;
/// Within a node: the measurement's svn, as the request gave it; the root's and a derived child's is 0.
pub const NODE_SVN: usize = 34;

/// Command codes of the mailbox. What a command refuses of its own comes after
/// [`BadChecksum`](crate::Refusal::BadChecksum).
pub mod code {
    /// Adds a measurement to the list: a free node takes it ([`NODES`](crate::NODES)), below the node that
    /// holds the default handle, and that handle with it. The request is 60 bytes: checksum 4, type 4, digest
    /// 48, svn 4 (the program's security version number, lowest byte first). The answer is 12 bytes: checksum,
    /// status and dpe result, 4 each. It may be declined with [`OFF`](crate::dpe::OFF),
    /// [`NO_HOLDER`](crate::dpe::NO_HOLDER) or [`NO_FREE_NODE`](crate::dpe::NO_FREE_NODE), the first that applies.
    ///
    /// Its own refusal: [`NotWellFormed`](crate::Refusal::NotWellFormed), right after `OFF`.
    pub const STASH_MEASUREMENT: u32 = 0x4D45_4153;
    /// Switches attestation off.
    pub const DISABLE_ATTESTATION: u32 = 0x4453_424C;
    /// Asks for the identity key of the handoff table. Its own refusal:
    /// [`WrongHandoff`](crate::Refusal::WrongHandoff).
    pub const IDENTITY_KEY: u32 = 0x4944_4549;
    /// Hands back the verdict on a signature. Its own refusal: [`BadSignature`](crate::Refusal::BadSignature).
    pub const VERIFY_SIGNATURE: u32 = 0x5349_4756;
    /// Extends one of the registers [`EXTEND_FIRST`](crate::EXTEND_FIRST) to
    /// [`EXTEND_LAST`](crate::EXTEND_LAST) by a digest: it takes SHA-384 of its old 48 bytes and the digest
    /// joined. The request is 56 bytes: checksum 4, the register's number 4 (lowest byte first), digest 48.
    /// The answer is 8 bytes: checksum and status.
    ///
    /// Its own refusals, the first that applies: [`WrongRegister`](crate::Refusal::WrongRegister),
    /// [`AttestationOff`](crate::Refusal::AttestationOff).
    pub const EXTEND_PCR: u32 = 0x5043_5245;
    /// A command to the tree of nodes. The request is checksum 4, the size of its data 4 (lowest byte first, at
    /// most [`DPE_DATA_LONGEST`](crate::DPE_DATA_LONGEST)), and exactly so many bytes of data: one of
    /// [`tree`](crate::tree) and what it takes, with nothing behind it. The answer is 12 bytes as a stash's.
    ///
    /// Its own refusal: [`NotWellFormed`](crate::Refusal::NotWellFormed), right after [`OFF`](crate::dpe::OFF).
    pub const INVOKE_DPE_COMMAND: u32 = 0x4450_4543;
}

/// Commands to the tree: the first byte of the data of [`code::INVOKE_DPE_COMMAND`]. Behind it each has the
/// [`HANDLE_BYTES`] bytes of the handle of the node that it is about; all zero is the default handle. Retain and
/// type are numbers in groups of seven bits, the lowest first, the top bit set where another group follows, in the
/// shortest form.
///
/// ```
/// use waggleloft::{checksum, code, dpe, sha384, tree, BootInputs, Refusal, Request, Work, HANDLE_BYTES, IMAGE_WORDS};
///
/// # let (mut image, mut work) = ([0; IMAGE_WORDS], Work::new());
/// # let inputs = BootInputs { runtime: &[0x11; 48], manifest: &[0x33; 48], secret: &[0x5A; 48] };
/// # work.open_cold_boot(&image, &inputs)?;
/// # while work.left() > 0 { work.store(&mut image)?; }
/// // Below the node with the default handle, the root after a cold boot: a child of type 7. The root keeps its
/// // handle.
/// let mut request = [0; 8 + 1 + HANDLE_BYTES + 2 + 48];
/// request[4] = 71; // the size of the data
/// request[8] = tree::DERIVE;
/// request[29] = 1; // retain
/// request[30] = 7; // type
/// request[31..].copy_from_slice(&sha384(b"counts hours")?);
/// let sum = checksum(code::INVOKE_DPE_COMMAND, &request[4..]);
/// request[..4].copy_from_slice(&sum.to_le_bytes());
///
/// let random = [0xA5; HANDLE_BYTES]; // from a random source, and never used before
/// let request = Request {
///     code: code::INVOKE_DPE_COMMAND,
///     bytes: &request,
///     caller: 0, // the root's
///     fresh: &random,
///     ..Request::default()
/// };
/// work.open_request(&image, &request)?;
/// assert_eq!(work.left(), 37);
/// while work.left() > 0 {
///     work.store(&mut image)?;
/// }
/// let mut answer = [0; 12];
/// work.answer(&mut answer)?;
/// assert_eq!(answer[8..], dpe::DONE.to_le_bytes());
/// # Ok::<(), Refusal>(())
/// ```
pub mod tree {
    /// Retain (1 or 0), type, digest 48: a free node becomes the child of this one, with the fresh handle, the
    /// digest and svn 0. With retain 0 the handle of this node is retired: no command names it any more.
    /// 37 stores, 42 with retain 0.
    pub const DERIVE: u8 = 1;
    /// Digest 48: it replaces the node's measurement and extends its cumulative one. 26 stores.
    pub const EXTEND: u8 = 2;
    /// The node gets the fresh handle in place of its own. 7 stores.
    pub const ROTATE: u8 = 3;
    /// The node is free again, and so is upwards each retired node that is left without a child, but never the
    /// root. 2 stores and 35 for each node that is freed.
    pub const DESTROY: u8 = 4;
}

/// Dpe results: what the answer of a stash or of a command to the [`tree`] says in its bytes 8 to 11. All but
/// [`DONE`](dpe::DONE) decline: nothing was stored. A command to the tree gets the first that applies in this order,
/// [`Refusal::NotWellFormed`] right after [`OFF`](dpe::OFF): 2, 5, 6, 7, 8, 1, 9, 10.
pub mod dpe {
    /// Served.
    pub const DONE: u32 = 0;
    /// All nodes are used (stash, derive).
    pub const NO_FREE_NODE: u32 = 1;
    /// Attestation is off.
    pub const OFF: u32 = 2;
    /// No node holds the default handle (stash).
    pub const NO_HOLDER: u32 = 3;
    /// The data is not exactly one command.
    pub const WRONG_DATA: u32 = 5;
    /// No node holds the handle, or it is the retired one.
    pub const UNKNOWN_HANDLE: u32 = 6;
    /// The caller's number is not the node's.
    pub const OTHER_CALLER: u32 = 7;
    /// The fresh handle is not 20 bytes, is all 0 or 0xFF, or is in use.
    pub const WRONG_FRESH: u32 = 8;
    /// The root is neither extended nor destroyed.
    pub const ROOT: u32 = 9;
    /// A node with children is not destroyed.
    pub const HAS_CHILDREN: u32 = 10;
}

/// The SHA-384 digest of a message.
///
/// Refused: [`Refusal::LongMessage`].
pub fn sha384(message: &[u8]) -> Result<[u8; SHA384_BYTES], Refusal> {
    let mut digest = [0; SHA384_BYTES];
    sha384_into(message, &mut digest)?;
    Ok(digest)
}

/// The SHA-384 digest of a message into the first 48 bytes of a buffer, whose other bytes stay.
///
/// Refused, the first that applies: [`Refusal::LongMessage`], [`Refusal::ShortBuffer`].
pub fn sha384_into(message: &[u8], buffer: &mut [u8]) -> Result<(), Refusal> {
    Refusal::check(archive::sha384(message, buffer))
}

/// The mailbox checksum of a command code and of the bytes after the checksum field: zero minus the
/// sum of the code's four bytes and of all the bytes, modulo 2^32. A request's takes its own code,
/// an answer's the code 0.
pub fn checksum(code: u32, bytes: &[u8]) -> u32 {
    archive::checksum(code, bytes)
}

/// The sizes that the archive was built with: words of a work, words of an image.
///
/// They are [`WORK_WORDS`] and [`IMAGE_WORDS`] of the archive that belongs to this version; with any
/// other, the entries refuse.
pub fn archive_sizes() -> (usize, usize) {
    (archive::work_words(), archive::image_words())
}

/// Bytes of a running digest's state that the archive was built with: [`SHA384_STATE_BYTES`] of the one
/// that belongs to this version.
pub fn archive_state_bytes() -> usize {
    archive::sha384_state_bytes()
}
