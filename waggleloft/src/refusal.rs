//! The numbers that the core hands back, named.

use core::fmt;

/// The one list of refusals: what each says in the documentation, its name, its number, and its words.
macro_rules! refusals {
    ($(#[doc = $doc:literal] $name:ident = $number:literal, $words:literal;)+) => {
        /// Why a call was refused. A refused call has written nothing.
        #[derive(Clone, Copy, Debug, PartialEq, Eq, Hash)]
        #[non_exhaustive]
        pub enum Refusal {
            $(#[doc = concat!(stringify!($number), ":", $doc)] $name,)+
            /// A number that this version does not know.
            Other(u32),
        }

        impl Refusal {
            /// The number that stands for it.
            pub const fn number(self) -> u32 {
                match self {
                    $(Self::$name => $number,)+
                    Self::Other(number) => number,
                }
            }

            /// What a number stands for.
            pub const fn from_number(number: u32) -> Self {
                match number {
                    $($number => Self::$name,)+
                    _ => Self::Other(number),
                }
            }

            /// The refusal in words.
            const fn words(self) -> &'static str {
                match self {
                    $(Self::$name => $words,)+
                    Self::Other(_) => "refused",
                }
            }
        }
    };
}

refusals! {
    /// the image is not [`IMAGE_WORDS`](crate::IMAGE_WORDS) words.
    WrongImage = 1, "the image has another length";
    /// the image's flow mark is not 1: a boot is needed.
    Unfinished = 2, "the last work is unfinished, a boot is needed";
    /// no command has this code.
    UnknownCode = 3, "no command has this code";
    /// the request is not as long as its command's.
    WrongLength = 4, "the request has another length than its command's";
    /// the handoff table is wrong (identity key).
    WrongHandoff = 5, "the handoff table is wrong";
    /// one of [`BootInputs`](crate::BootInputs) not 48 bytes, or the secret all zero.
    WrongInput = 6, "a digest or the secret is not 48 bytes, or the secret is zero";
    /// no answer and no entry before the last store.
    StoresLeft = 7, "stores are left, so there is no answer and no entry yet";
    /// the buffer is shorter than the answer or the digest.
    ShortBuffer = 8, "the buffer is too short";
    /// the work has no store left, or its words are damaged.
    NoStoreLeft = 9, "no store is left";
    /// the message or the slice is longer than [`SHA384_LONGEST`](crate::SHA384_LONGEST) bytes.
    LongMessage = 10, "the message or the slice is longer than 65,535 bytes";
    /// the image's nodes are not well formed (stash, tree).
    NotWellFormed = 11, "the image's nodes are not well formed";
    /// the register is none of [`EXTEND_FIRST`](crate::EXTEND_FIRST) to [`EXTEND_LAST`](crate::EXTEND_LAST) (extend).
    WrongRegister = 12, "the register is none of PCR4 to PCR30";
    /// attestation is off (extend).
    AttestationOff = 13, "attestation is off";
    /// all slices together would pass [`SHA384_TOTAL_LONGEST`](crate::SHA384_TOTAL_LONGEST) bytes.
    LongTotal = 16, "the slices together are longer than 2^32 - 1 bytes";
    /// a journal's entry is of a kind that is not listed (the program `replay`).
    UnknownKind = 20, "the kind of a journal's entry is not listed";
    /// a number of a journal's entry is too long or too large (the program `replay`).
    WrongNumber = 21, "a number of a journal's entry is too long or too large";
    /// a journal ends inside an entry (the program `replay`).
    CutEntry = 22, "the journal ends inside an entry";
    /// the buffer is shorter than the journal entry.
    ShortForEntry = 23, "the buffer is too short for the journal entry";
    /// the unit could not have counted a journal's entry there (the program `replay`).
    ImpossibleEntry = 24, "the unit could not have counted this journal's entry there";
    /// the counts in a running digest's state disagree, or its total is too large.
    WrongCounts = 27, "the state's counts disagree or its total is too large";
    /// the archive was built for works, or for states of a running digest, of another length.
    WrongWork = 28, "the archive was built for works or states of another length";
    /// the request's checksum is wrong.
    BadChecksum = 0x4243484B, "the request's checksum is wrong";
    /// the verdict on a signature is no (verify).
    BadSignature = 0x42534947, "the verdict on the signature is no";
}

impl Refusal {
    /// A call's number: 0 is no refusal.
    pub(crate) const fn check(number: u32) -> Result<(), Self> {
        match number {
            0 => Ok(()),
            _ => Err(Self::from_number(number)),
        }
    }
}

impl fmt::Display for Refusal {
    fn fmt(&self, f: &mut fmt::Formatter<'_>) -> fmt::Result {
        write!(f, "{} (number {})", self.words(), self.number())
    }
}

impl core::error::Error for Refusal {}
