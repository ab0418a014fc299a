//! Document 01's shortcuts.

use crate::boots::{Boots, Inputs, Opened};
use crate::checksum::checksum;
use crate::engine::Paper;
use crate::layout::*;
use crate::memory::{Memory, Unit};
use crate::requests::{Request, Requests, Stash, View};
use crate::work::{Field, Kind, Work, Works};

super::engines! {

ChecksumByteByByte: "adds the checksum's bytes one by one and expects zero"
[requests: Requests] {
    fn checksum_fine(&self, code: u32, bytes: &[u8]) -> bool {
        checksum(code, bytes) == 0
    }
}

MarkBeforeHandles: "a stash's mark 1 comes before the handle words"
[works: Works] {
    fn fields<'a>(&self, work: &'a Work) -> Vec<Field<'a>> {
        let mut fields = Paper.fields(work);
        if let Kind::Stash { .. } = work.kind {
            fields.swap(3, 4);
        }
        fields
    }
}

SecretTakenWhenOff: "an update boot after a disabling takes the new secret"
[boots: Boots] {
    fn update(&self, unit: Unit, inputs: Inputs, verdict: bool) -> Result<Opened, u32> {
        let boot = self.accept(unit.image, inputs)?;
        let (mut work, outcome) = Paper.update(unit, inputs, verdict)?;
        if unit.is_done() && !unit.is_on() {
            work.secret = words_of(&boot.secret);
        }
        Ok((work, outcome))
    }
}
[works: Works] {
    fn fields<'a>(&self, work: &'a Work) -> Vec<Field<'a>> {
        let mut fields = Paper.fields(work);
        if work.kind == Kind::Disabling {
            fields[2].1 = &work.secret;
        }
        fields
    }
}

StashedWhenFull: "PCR31 is extended when no node is free"
[requests: Requests] {
    fn open(&self, unit: Unit, request: Request) -> Result<Work, u32> {
        let work = Paper.open(unit, request)?;
        if request.code != STASH || Paper.stash_result(&View::of(&unit)) != Ok(DPE_FULL) {
            return Ok(work);
        }
        let answer = &work.answer[..work.answer_bytes as usize];
        let mut extending = Paper.stash_work(unit, &Stash::of(request), answer);
        let last = NODES as u64 - 1;
        extending.kind = Kind::Stash { node: last, holder: last };
        extending.node.copy_from_slice(node_of(unit.image, NODES - 1));
        Ok(extending)
    }
}

CycleAccepted: "the way to the root is not walked"
[memory: Memory] {
    fn leads_to_root(&self, image: &[u32], index: usize) -> bool {
        let parent = self.next_up(image, index);
        self.is_root(image, index) || parent.is_some_and(|parent| parent != index)
    }
}

}
