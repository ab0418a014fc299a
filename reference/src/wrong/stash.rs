//! What a stash is declined for, and what it stores.

use crate::engine::Paper;
use crate::layout::*;
use crate::memory::Unit;
use crate::requests::{Requests, Stash, View};
use crate::work::{Field, Kind, Work, Works};

/// The fields of a work; a stash stores this in the old holder's handle.
fn with_handle<'a>(work: &'a Work, handle: &'static [u32; HANDLE_WORDS]) -> Vec<Field<'a>> {
    let mut fields = Paper.fields(work);
    if let Kind::Stash { .. } = work.kind {
        fields[3].1 = handle;
    }
    fields
}

super::engines! {

TreeFirst: "11 is told before the decline when off"
[requests: Requests] {
    fn stash_result(&self, view: &View) -> Result<u32, u32> {
        Paper.stash_result(&View { on: view.on || !view.well_formed, ..*view })
    }
}

FullFirst: "the decline when full comes before 11"
[requests: Requests] {
    fn stash_result(&self, view: &View) -> Result<u32, u32> {
        Paper.stash_result(&View { well_formed: view.well_formed || view.full, ..*view })
    }
}

TreeIgnored: "a stash does not look at the tree"
[requests: Requests] {
    fn stash_result(&self, view: &View) -> Result<u32, u32> {
        Paper.stash_result(&View { well_formed: true, ..*view })
    }
}

LocalityZero: "the locality is 0"
[requests: Requests] {
    fn stash_work(&self, unit: Unit, stash: &Stash, answer: &[u8]) -> Work {
        Paper.stash_work(unit, &Stash { caller: 0, ..stash.clone() }, answer)
    }
}

CumulativeFromParent: "the new cumulative extends the holder's"
[requests: Requests] {
    fn stash_work(&self, unit: Unit, stash: &Stash, answer: &[u8]) -> Work {
        let mut work = Paper.stash_work(unit, stash, answer);
        let holder = unit.holder().unwrap_or(0);
        let above = unit.bytes_at(node(holder) + NODE_CUMULATIVE);
        work.set_node(NODE_CUMULATIVE, &extended(&above, &stash.digest));
        work
    }
}

CumulativeIsCurrent: "the new cumulative is the digest"
[requests: Requests] {
    fn stash_work(&self, unit: Unit, stash: &Stash, answer: &[u8]) -> Work {
        let mut work = Paper.stash_work(unit, stash, answer);
        work.set_node(NODE_CUMULATIVE, &stash.digest);
        work
    }
}

HolderKept: "the old holder's words are stored as they were"
[works: Works] {
    fn fields<'a>(&self, work: &'a Work) -> Vec<Field<'a>> {
        with_handle(work, &DEFAULT_HANDLE)
    }
}

HandleFourWords: "the fifth handle word is not retired"
[works: Works] {
    fn fields<'a>(&self, work: &'a Work) -> Vec<Field<'a>> {
        with_handle(work, &[u32::MAX, u32::MAX, u32::MAX, u32::MAX, 0])
    }
}

ValuesAtStore: "PCR31 is extended when its work starts to store"
[works: Works] {
    fn store(&self, work: &mut Work, image: &mut [u32]) -> u32 {
        let number = Paper.store(work, image);
        if let (0, 1, Kind::Stash { .. }) = (number, work.position, work.kind) {
            let old = bytes_of(&image[register(STASHED)..]);
            let by = bytes_of(&work.node[NODE_CURRENT..]);
            work.stashed = words_of(&extended(&old, &by));
        }
        number
    }
}

}
