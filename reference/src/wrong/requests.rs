//! The request order, the checksum, the handoff table and the answers.

use crate::checksum::{checksum, sealed};
use crate::engine::Paper;
use crate::layout::*;
use crate::player::Host;
use crate::requests::{Accepted, Refusal, Request, Requests, Task, View};
use crate::work::Work;

/// Moves a number before another.
pub(super) fn before<T: PartialEq>(
    mut order: Vec<(T, bool)>,
    number: T,
    other: T,
) -> Vec<(T, bool)> {
    let place = |order: &[(T, bool)], wanted: &T| order.iter().position(|line| line.0 == *wanted);
    if let (Some(from), Some(to)) = (place(&order, &number), place(&order, &other)) {
        let line = order.remove(from);
        order.insert(to, line);
    }
    order
}

/// Adds a line at the end.
fn also(mut order: Vec<Refusal>, line: Refusal) -> Vec<Refusal> {
    order.push(line);
    order
}

/// What a request comes to, with the code kept in the answer's checksum if the answer is one of `those`.
fn keeping(view: &View, request: Request, those: fn(u32, &Task) -> bool) -> Result<Accepted, u32> {
    let mut accepted = Paper.decide(view, request)?;
    if those(request.code, &accepted.task) {
        accepted.answer = sealed(request.code, &accepted.answer[CHECKSUM_BYTES..]);
    }
    Ok(accepted)
}

/// A handoff table with a part that is as it should be.
fn mended(table: &[u8], at: usize, right: &[u8]) -> Vec<u8> {
    let mut table = table.to_vec();
    if let Some(part) = table.get_mut(at..at + right.len()) {
        part.copy_from_slice(right);
    }
    table
}

super::engines! {

MarkIgnored: "a request does not look at the mark"
[requests: Requests] {
    fn order(&self, view: &View, request: Request) -> Vec<Refusal> {
        Paper.order(&View { done: true, ..*view }, request)
    }
}

TwoBeforeOne: "a request tells 2 before 1"
[requests: Requests] {
    fn order(&self, view: &View, request: Request) -> Vec<Refusal> {
        before(Paper.order(view, request), number::UNFINISHED, number::IMAGE)
    }
}

CodeAfterLength: "fewer than 4 bytes are told before an unknown code"
[requests: Requests] {
    fn order(&self, view: &View, request: Request) -> Vec<Refusal> {
        let order = Paper.order(view, request);
        if request.bytes.len() < CHECKSUM_BYTES {
            return before(order, number::LENGTH, number::CODE);
        }
        order
    }
}

TableBeforeChecksum: "5 is told before a bad checksum"
[requests: Requests] {
    fn order(&self, view: &View, request: Request) -> Vec<Refusal> {
        before(Paper.order(view, request), number::TABLE, number::CHECKSUM)
    }
}

VerdictBeforeChecksum: "a verdict of no is told before a bad checksum"
[requests: Requests] {
    fn order(&self, view: &View, request: Request) -> Vec<Refusal> {
        before(Paper.order(view, request), number::SIGNATURE, number::CHECKSUM)
    }
}

IdentityWhenOn: "an identity key is refused with attestation off"
[requests: Requests] {
    fn order(&self, view: &View, request: Request) -> Vec<Refusal> {
        also(Paper.order(view, request), (number::TABLE, request.code == IDENTITY && !view.on))
    }
}

IdentityNeedsTree: "an identity key is refused when the tree is not well formed"
[requests: Requests] {
    fn order(&self, view: &View, request: Request) -> Vec<Refusal> {
        also(Paper.order(view, request), (number::TABLE, request.code == IDENTITY && !view.well_formed))
    }
}

TableForAll: "every command looks at a handoff table that is lent"
[requests: Requests] {
    fn order(&self, view: &View, request: Request) -> Vec<Refusal> {
        let lent = request.table.len() >= TABLE_BYTES;
        also(Paper.order(view, request), (number::TABLE, lent && !self.table_fine(request.table)))
    }
}

LengthAtLeast: "a longer request is accepted"
[requests: Requests] {
    fn length_fine(&self, code: u32, bytes: &[u8]) -> bool {
        command(code).is_some_and(|command| bytes.len() >= command.request_bytes)
    }
}

ChecksumHalf: "only the checksum's low half is compared"
[requests: Requests] {
    fn checksum_fine(&self, code: u32, bytes: &[u8]) -> bool {
        let parts = bytes.split_at_checked(CHECKSUM_BYTES);
        parts.is_some_and(|(field, rest)| (little(field) ^ checksum(code, rest)) & 0xFFFF == 0)
    }
}

ChecksumWithoutCode: "the request's checksum leaves the code out"
[requests: Requests] {
    fn checksum_fine(&self, _: u32, bytes: &[u8]) -> bool {
        Paper.checksum_fine(0, bytes)
    }
}

ChecksumWithoutSvn: "the svn is not covered by the checksum"
[requests: Requests] {
    fn checksum_fine(&self, code: u32, bytes: &[u8]) -> bool {
        let covered = if code == STASH { STASH_SVN } else { bytes.len() };
        Paper.checksum_fine(code, bytes.get(..covered).unwrap_or(bytes))
    }
}

MarkerThreeBytes: "three bytes of the table's marker are compared"
[requests: Requests] {
    fn table_fine(&self, table: &[u8]) -> bool {
        Paper.table_fine(&mended(table, 3, &TABLE_MARKER.to_le_bytes()[3..]))
    }
}

MajorOneByte: "one byte of the major version is compared"
[requests: Requests] {
    fn table_fine(&self, table: &[u8]) -> bool {
        Paper.table_fine(&mended(table, TABLE_MAJOR_AT + 1, &TABLE_MAJOR.to_le_bytes()[1..]))
    }
}

MinorChecked: "the minor version must be 0"
[requests: Requests] {
    fn table_fine(&self, table: &[u8]) -> bool {
        Paper.table_fine(table) && table[TABLE_MAJOR_AT + 2..][..2] == [0, 0]
    }
}

TableAtLeast: "a longer table is accepted"
[requests: Requests] {
    fn table_fine(&self, table: &[u8]) -> bool {
        Paper.table_fine(table.get(..TABLE_BYTES).unwrap_or(table))
    }
}

StashKeepsCode: "an accepted stash's answer keeps the code in its checksum"
[requests: Requests] {
    fn decide(&self, view: &View, request: Request) -> Result<Accepted, u32> {
        keeping(view, request, |code, task| code == STASH && *task != Task::Nothing)
    }
}

DeclineKeepsCode: "a declined stash's answer keeps the code in its checksum"
[requests: Requests] {
    fn decide(&self, view: &View, request: Request) -> Result<Accepted, u32> {
        keeping(view, request, |code, task| code == STASH && *task == Task::Nothing)
    }
}

DisableKeepsCode: "a disable command's answer keeps the code in its checksum"
[requests: Requests] {
    fn decide(&self, view: &View, request: Request) -> Result<Accepted, u32> {
        keeping(view, request, |code, _| code == DISABLE)
    }
}

IdentityKeepsCode: "an identity key's answer keeps the code in its checksum"
[requests: Requests] {
    fn decide(&self, view: &View, request: Request) -> Result<Accepted, u32> {
        keeping(view, request, |code, _| code == IDENTITY)
    }
}

VerifyKeepsCode: "a signature's answer keeps the code in its checksum"
[requests: Requests] {
    fn decide(&self, view: &View, request: Request) -> Result<Accepted, u32> {
        keeping(view, request, |code, _| code == VERIFY)
    }
}

ExtensionKeepsCode: "an extension's answer keeps the code in its checksum"
[requests: Requests] {
    fn decide(&self, view: &View, request: Request) -> Result<Accepted, u32> {
        keeping(view, request, |code, _| code == EXTEND)
    }
}

KeySwapped: "Y comes before X"
[requests: Requests] {
    fn decide(&self, view: &View, request: Request) -> Result<Accepted, u32> {
        let mut table = request.table.to_vec();
        if let Some(key) = table.get_mut(KEY_AT..KEY_AT + KEY_BYTES) {
            key.rotate_left(KEY_BYTES / 2);
        }
        Paper.decide(view, Request { table: &table, ..request })
    }
}

DisableSkipped: "a disabling when already off stores nothing"
[requests: Requests] {
    fn decide(&self, view: &View, request: Request) -> Result<Accepted, u32> {
        let mut accepted = Paper.decide(view, request)?;
        if accepted.task == Task::Disable && !view.on {
            accepted.task = Task::Nothing;
        }
        Ok(accepted)
    }
}

VerdictNonZero: "any verdict but 0 is yes"
[host: Host] {
    fn is_yes(&self, verdict: u8) -> bool {
        verdict != 0
    }
}

RefusalDropsWork: "a refused opening drops the work in hand"
[host: Host] {
    fn after_refusal(&self, _: Option<Work>) -> Option<Work> {
        None
    }
}

}
