//! "Nodes as a tree" (document 02): what a tree command asks for, in the data of
//! a request or in the journal.

use crate::layout::*;

/// What is to be done with a handle's node.
#[derive(Clone, Copy, Debug, PartialEq, Eq)]
pub enum Act {
    /// A child below it. The parent is retained with 1 and retired with 0.
    Derive {
        retain: u32,
        kind: u32,
        digest: Digest,
    },
    Extend {
        digest: Digest,
    },
    Rotate,
    Destroy,
}

impl Act {
    /// Whether the host lends a fresh handle for it.
    pub fn takes_fresh(self) -> bool {
        matches!(self, Act::Derive { .. } | Act::Rotate)
    }

    pub fn is_derive(self) -> bool {
        matches!(self, Act::Derive { .. })
    }

    /// Whether the root is spared it.
    pub fn spares_root(self) -> bool {
        matches!(self, Act::Extend { .. } | Act::Destroy)
    }
}

/// A tree command and who calls. The fresh handle is zero if none is taken.
#[derive(Clone, Debug, PartialEq, Eq)]
pub struct TreeCall {
    pub handle: Handle,
    pub act: Act,
    pub fresh: Handle,
    pub caller: u32,
}

impl TreeCall {
    /// With the first bytes of a fresh handle, if one is taken.
    pub fn new(handle: Handle, act: Act, fresh: &[u8], caller: u32) -> TreeCall {
        let lent = if act.takes_fresh() { fresh } else { &[] };
        TreeCall {
            handle,
            act,
            fresh: std::array::from_fn(|i| lent.get(i).copied().unwrap_or(0)),
            caller,
        }
    }

    pub fn sort(&self) -> Sort {
        match self.act {
            Act::Derive { retain: 0, .. } => Sort::Succeed,
            Act::Derive { .. } => Sort::Derive,
            Act::Extend { .. } => Sort::Remeasure,
            Act::Rotate => Sort::Rotate,
            Act::Destroy => Sort::Destroy,
        }
    }
}

/// Zero, the handle of the default context, and the retired one.
pub const DEFAULT: Handle = [0; HANDLE_BYTES];
pub const RETIRED: Handle = [0xFF; HANDLE_BYTES];
