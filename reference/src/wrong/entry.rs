//! A work's journal entry: what it tells, how numbers are written, when it is
//! handed out, and into which buffers.

use crate::boots::{Boot, Boots, Inputs, Opened};
use crate::engine::Paper;
use crate::journal::{
    entry_of, groups, Journals, Value, COLD_ENTRY, DISABLING_ENTRY, EXTENSION_ENTRY, GROUP_BITS,
    MORE, NUMBER_BYTES, STASH_ENTRY, UPDATE_ENTRY,
};
use crate::layout::*;
use crate::memory::Unit;
use crate::player::Host;
use crate::requests::{Extension, Request, Requests, Stash};
use crate::work::{Kind, Work, Works};
use Value::{Digest as D, Number as N};

/// A stash's values with its digest altered.
fn with_digest(stash: &Stash, digest: Digest) -> Vec<Value> {
    Requests::told(
        &Paper,
        &Stash {
            digest,
            ..stash.clone()
        },
    )
}

/// The bytes of a digest, each word's the other way round.
fn swapped(digest: &Digest) -> Digest {
    std::array::from_fn(|i| digest[i ^ 3])
}

/// An entry of these bytes taken as the right one is, or the number that the
/// buffer is too short for it.
fn put(entry: &[u8], buffer: &mut [u8], short: u32) -> Result<usize, u32> {
    let front = buffer.get_mut(..entry.len()).ok_or(short)?;
    front.copy_from_slice(entry);
    Ok(entry.len())
}

/// A number in so many groups, which may be more than it takes.
fn in_groups(number: u32, count: u32) -> Vec<u8> {
    let group = |place: u32| (u64::from(number) >> (GROUP_BITS * place)) as u8 & !MORE;
    let last = count - 1;
    let mut bytes: Vec<u8> = (0..last).map(|place| group(place) | MORE).collect();
    bytes.push(group(last));
    bytes
}

/// A disabling of a boot: it answers nothing.
fn is_of_boot(work: &Work) -> bool {
    work.kind == Kind::Disabling && work.answer_bytes == 0
}

super::engines! {

EntryCallerIsSvn: "a stash's entry has caller and svn exchanged"
[requests: Requests] {
    fn told(&self, stash: &Stash) -> Vec<Value> {
        vec![N(stash.kind), D(stash.digest), N(stash.caller), N(stash.svn)]
    }
}

EntryTypeIsSvn: "a stash's entry has type and svn exchanged"
[requests: Requests] {
    fn told(&self, stash: &Stash) -> Vec<Value> {
        vec![N(stash.svn), D(stash.digest), N(stash.kind), N(stash.caller)]
    }
}

EntryTypeIsCaller: "a stash's entry has type and caller exchanged"
[requests: Requests] {
    fn told(&self, stash: &Stash) -> Vec<Value> {
        vec![N(stash.caller), D(stash.digest), N(stash.svn), N(stash.kind)]
    }
}

EntryDigestFirst: "a stash's entry has the digest before the type"
[requests: Requests] {
    fn told(&self, stash: &Stash) -> Vec<Value> {
        vec![D(stash.digest), N(stash.kind), N(stash.svn), N(stash.caller)]
    }
}

EntryDigestLast: "a stash's entry has the digest after the numbers"
[requests: Requests] {
    fn told(&self, stash: &Stash) -> Vec<Value> {
        vec![N(stash.kind), N(stash.svn), N(stash.caller), D(stash.digest)]
    }
}

EntryWithoutSvn: "a stash's entry lacks the svn"
[requests: Requests] {
    fn told(&self, stash: &Stash) -> Vec<Value> {
        vec![N(stash.kind), D(stash.digest), N(stash.caller)]
    }
}

EntryWithoutCaller: "a stash's entry lacks the caller"
[requests: Requests] {
    fn told(&self, stash: &Stash) -> Vec<Value> {
        vec![N(stash.kind), D(stash.digest), N(stash.svn)]
    }
}

EntrySvnZero: "a stash's entry has svn 0"
[requests: Requests] {
    fn told(&self, stash: &Stash) -> Vec<Value> {
        vec![N(stash.kind), D(stash.digest), N(0), N(stash.caller)]
    }
}

EntryTypeBigEndian: "a stash's entry has the type's bytes the other way round"
[requests: Requests] {
    fn told(&self, stash: &Stash) -> Vec<Value> {
        vec![N(stash.kind.swap_bytes()), D(stash.digest), N(stash.svn), N(stash.caller)]
    }
}

EntryTypePlain: "a stash's entry has the type as four plain bytes"
[journal: Journals] {
    fn entry(&self, work: &Work) -> Vec<u8> {
        let mut entry = Paper.entry(work);
        if let (Kind::Stash { .. }, Some(N(kind))) = (work.kind, work.told.first()) {
            entry.splice(1..1 + groups(*kind).len(), kind.to_le_bytes());
        }
        entry
    }
}

EntryCumulative: "a stash's entry has the node's cumulative in place of the digest"
[requests: Requests] {
    fn told(&self, stash: &Stash) -> Vec<Value> {
        with_digest(stash, extended(&ZERO, &stash.digest))
    }
}

EntryDigestSwapped: "a stash's entry has each word of the digest the other way round"
[requests: Requests] {
    fn told(&self, stash: &Stash) -> Vec<Value> {
        with_digest(stash, swapped(&stash.digest))
    }
}

EntryManifestFirst: "a boot's entry has the manifest digest first"
[boots: Boots] {
    fn told(&self, boot: &Boot) -> Vec<Value> {
        vec![D(boot.manifest), D(boot.runtime)]
    }
}

EntryWithoutManifest: "a boot's entry lacks the manifest digest"
[boots: Boots] {
    fn told(&self, boot: &Boot) -> Vec<Value> {
        vec![D(boot.runtime)]
    }
}

EntryRuntimeTwice: "a boot's entry has the runtime digest twice"
[boots: Boots] {
    fn told(&self, boot: &Boot) -> Vec<Value> {
        vec![D(boot.runtime); 2]
    }
}

EntrySecretIsManifest: "a boot's entry has the secret in place of the manifest digest"
[boots: Boots] {
    fn told(&self, boot: &Boot) -> Vec<Value> {
        vec![D(boot.runtime), D(boot.secret)]
    }
}

EntrySecretBehind: "a boot's entry has the secret behind the digests"
[boots: Boots] {
    fn told(&self, boot: &Boot) -> Vec<Value> {
        vec![D(boot.runtime), D(boot.manifest), D(boot.secret)]
    }
}

EntryMeasured: "a boot's entry has the new PCR2 in place of the runtime digest"
[boots: Boots] {
    fn told(&self, boot: &Boot) -> Vec<Value> {
        let current = extended_by(&ZERO, &[boot.runtime, boot.manifest]);
        vec![D(current), D(boot.manifest)]
    }
}

EntryColdForgotten: "a cold boot has an entry of no bytes"
[journal: Journals] {
    fn kind(&self, sort: Sort) -> Option<u8> {
        Paper.kind(sort).filter(|&kind| kind != COLD_ENTRY)
    }
}

EntryOfUpdateIsCold: "an update has the kind of a cold boot"
[journal: Journals] {
    fn kind(&self, sort: Sort) -> Option<u8> {
        Paper.kind(sort).map(|kind| if kind == UPDATE_ENTRY { COLD_ENTRY } else { kind })
    }
}

EntryBootsSwapped: "the kinds of both boots are exchanged"
[journal: Journals] {
    fn kind(&self, sort: Sort) -> Option<u8> {
        match sort {
            Sort::Cold => Some(UPDATE_ENTRY),
            Sort::Update => Some(COLD_ENTRY),
            _ => Paper.kind(sort),
        }
    }
}

EntryRequestsSwapped: "the kinds of a stash and of an extension are exchanged"
[journal: Journals] {
    fn kind(&self, sort: Sort) -> Option<u8> {
        match sort {
            Sort::Stash => Some(EXTENSION_ENTRY),
            Sort::Extension => Some(STASH_ENTRY),
            _ => Paper.kind(sort),
        }
    }
}

EntryKindFromZero: "kinds are counted from 0 on"
[journal: Journals] {
    fn kind(&self, sort: Sort) -> Option<u8> {
        Paper.kind(sort).map(|kind| kind - 1)
    }
}

EntryKindOfWork: "an entry's kind is the number of the work's kind"
[journal: Journals] {
    fn kind(&self, sort: Sort) -> Option<u8> {
        Paper.kind(sort).map(|_| sort as u8)
    }
}

EntryExactRefused: "the buffer must be longer than the entry"
[journal: Journals] {
    fn take(&self, works: &dyn Works, work: &Work, buffer: &mut [u8]) -> Result<usize, u32> {
        if Paper.is_ready(works, work) && buffer.len() == Paper.entry(work).len() {
            return Err(number::ENTRY_BUFFER);
        }
        Paper.take(works, work, buffer)
    }
}

EntryOneShort: "an entry loses its last byte in a buffer that is one byte short"
[journal: Journals] {
    fn take(&self, works: &dyn Works, work: &Work, buffer: &mut [u8]) -> Result<usize, u32> {
        let mut entry = Paper.entry(work);
        if Paper.is_ready(works, work) && entry.len() == buffer.len() + 1 {
            entry.pop();
            return put(&entry, buffer, number::ENTRY_BUFFER);
        }
        Paper.take(works, work, buffer)
    }
}

EntryBufferFirst: "23 is told before 7"
[journal: Journals] {
    fn take(&self, works: &dyn Works, work: &Work, buffer: &mut [u8]) -> Result<usize, u32> {
        if buffer.len() < Paper.entry(work).len() {
            return Err(number::ENTRY_BUFFER);
        }
        Paper.take(works, work, buffer)
    }
}

EntryBufferIs8: "a buffer that is too short for the entry gives 8"
[journal: Journals] {
    fn take(&self, works: &dyn Works, work: &Work, buffer: &mut [u8]) -> Result<usize, u32> {
        let taken = Paper.take(works, work, buffer);
        taken.map_err(|number| if number == number::ENTRY_BUFFER { number::BUFFER } else { number })
    }
}

EntryWrittenFirst: "an entry is written as far as it fits, then 23"
[journal: Journals] {
    fn take(&self, works: &dyn Works, work: &Work, buffer: &mut [u8]) -> Result<usize, u32> {
        let taken = Paper.take(works, work, buffer);
        if taken == Err(number::ENTRY_BUFFER) {
            let fits = buffer.len();
            buffer.copy_from_slice(&Paper.entry(work)[..fits]);
        }
        taken
    }
}

EntryKindWritten: "the kind is written before the entry is found too long"
[journal: Journals] {
    fn take(&self, works: &dyn Works, work: &Work, buffer: &mut [u8]) -> Result<usize, u32> {
        let taken = Paper.take(works, work, buffer);
        if let (Err(number::ENTRY_BUFFER), Some(first)) = (taken, buffer.first_mut()) {
            *first = Paper.entry(work)[0];
        }
        taken
    }
}

EntryLengthTold: "23 comes with the entry's length"
[host: Host] {
    fn entry_length(&self, taken: Result<usize, u32>, entry: usize) -> u32 {
        match taken {
            Err(number::ENTRY_BUFFER) => entry as u32,
            _ => taken.unwrap_or(0) as u32,
        }
    }
}

EntryLengthOfBuffer: "an entry's length is the buffer's"
[journal: Journals] {
    fn take(&self, works: &dyn Works, work: &Work, buffer: &mut [u8]) -> Result<usize, u32> {
        Paper.take(works, work, buffer).map(|_| buffer.len())
    }
}

EntryAnyTime: "an entry is handed out with stores left"
[journal: Journals] {
    fn is_ready(&self, works: &dyn Works, work: &Work) -> bool {
        works.is_sound(work)
    }
}

EntryBeforeMark: "an entry is handed out with only the mark left to store"
[journal: Journals] {
    fn is_ready(&self, works: &dyn Works, work: &Work) -> bool {
        works.is_sound(work) && works.left(work) <= 1
    }
}

EntryUnstarted: "an entry is handed out before the first store"
[journal: Journals] {
    fn is_ready(&self, works: &dyn Works, work: &Work) -> bool {
        Paper.is_ready(works, work) || works.is_sound(work) && work.position == 0
    }
}

EntryOfDamaged: "7 is decided by the stores left, for entries too"
[journal: Journals] {
    fn is_ready(&self, works: &dyn Works, work: &Work) -> bool {
        works.left(work) == 0
    }
}

EntryLongAnswer: "an entry does not look at the answer's length"
[journal: Journals] {
    fn is_ready(&self, works: &dyn Works, work: &Work) -> bool {
        Paper.is_ready(works, &Work { answer_bytes: 0, ..work.clone() })
    }
}

EntryPositionPast: "an entry is handed out past the last store"
[journal: Journals] {
    fn is_ready(&self, works: &dyn Works, work: &Work) -> bool {
        let most = work.kind.sort().stores() as u64;
        Paper.is_ready(works, &Work { position: work.position.min(most), ..work.clone() })
    }
}

EntryNodePast: "an entry does not look at a work's nodes"
[journal: Journals] {
    fn is_ready(&self, works: &dyn Works, work: &Work) -> bool {
        let kind = match work.kind {
            Kind::Stash { .. } => Kind::Stash { node: 0, holder: 0 },
            Kind::Update { .. } => Kind::Update { root: 0 },
            kind => kind,
        };
        Paper.is_ready(works, &Work { kind, ..work.clone() })
    }
}

EntryRegisterPast: "an entry tells a register outside 4 to 30"
[journal: Journals] {
    fn is_ready(&self, works: &dyn Works, work: &Work) -> bool {
        let kind = match work.kind {
            Kind::Extension { .. } => Kind::Extension { register: *EXTENDABLE.start() },
            kind => kind,
        };
        Paper.is_ready(works, &Work { kind, ..work.clone() })
    }
}

EntryNothingRefused: "a work with nothing to store has no entry but 7"
[journal: Journals] {
    fn is_ready(&self, works: &dyn Works, work: &Work) -> bool {
        Paper.is_ready(works, work) && work.kind != Kind::Nothing
    }
}

EntryNothingNeedsByte: "an entry of no bytes needs a buffer of one"
[journal: Journals] {
    fn take(&self, works: &dyn Works, work: &Work, buffer: &mut [u8]) -> Result<usize, u32> {
        let taken = Paper.take(works, work, buffer)?;
        if buffer.is_empty() { Err(number::ENTRY_BUFFER) } else { Ok(taken) }
    }
}

EntryOfNothing: "a work with nothing to store has an entry of one byte"
[journal: Journals] {
    fn entry(&self, work: &Work) -> Vec<u8> {
        match work.kind {
            Kind::Nothing => vec![0],
            _ => Paper.entry(work),
        }
    }
}

EntryOfKept: "a boot that is kept has an update's entry"
[boots: Boots] {
    fn update(&self, unit: Unit, inputs: Inputs, verdict: bool) -> Result<Opened, u32> {
        let (mut work, outcome) = Paper.update(unit, inputs, verdict)?;
        if let (Kind::Nothing, Some(boot)) = (work.kind, self.boot(inputs)) {
            work.told = Boots::told(&Paper, &boot);
        }
        Ok((work, outcome))
    }
}
[journal: Journals] {
    fn entry(&self, work: &Work) -> Vec<u8> {
        match work.kind {
            Kind::Nothing if !work.told.is_empty() => entry_of(UPDATE_ENTRY, &work.told),
            _ => Paper.entry(work),
        }
    }
}

EntryOfDeclined: "a stash that is declined has an entry"
[requests: Requests] {
    fn open(&self, unit: Unit, request: Request) -> Result<Work, u32> {
        let mut work = Paper.open(unit, request)?;
        if request.code == STASH && work.kind == Kind::Nothing {
            work.told = Requests::told(&Paper, &Stash::of(request));
        }
        Ok(work)
    }
}
[journal: Journals] {
    fn entry(&self, work: &Work) -> Vec<u8> {
        match work.kind {
            Kind::Nothing if !work.told.is_empty() => entry_of(STASH_ENTRY, &work.told),
            _ => Paper.entry(work),
        }
    }
}

EntryOfBootDisabling: "a boot's disabling has an entry of no bytes"
[journal: Journals] {
    fn entry(&self, work: &Work) -> Vec<u8> {
        if is_of_boot(work) { vec![] } else { Paper.entry(work) }
    }
}

EntryOfDisableCommand: "a command's disabling has an entry of no bytes"
[journal: Journals] {
    fn entry(&self, work: &Work) -> Vec<u8> {
        match work.kind {
            Kind::Disabling if !is_of_boot(work) => vec![],
            _ => Paper.entry(work),
        }
    }
}

EntryTellsBoot: "a boot's disabling has the boot's digests in its entry"
[boots: Boots] {
    fn update(&self, unit: Unit, inputs: Inputs, verdict: bool) -> Result<Opened, u32> {
        let (mut work, outcome) = Paper.update(unit, inputs, verdict)?;
        if let (Kind::Disabling, Some(boot)) = (work.kind, self.boot(inputs)) {
            work.told = Boots::told(&Paper, &boot);
        }
        Ok((work, outcome))
    }
}

EntryTwice: "a disabling has two entries"
[journal: Journals] {
    fn entry(&self, work: &Work) -> Vec<u8> {
        match work.kind {
            Kind::Disabling => vec![DISABLING_ENTRY; 2],
            _ => Paper.entry(work),
        }
    }
}

EntryLongestForm: "a number takes five bytes"
[journal: Journals] {
    fn number(&self, number: u32) -> Vec<u8> {
        in_groups(number, NUMBER_BYTES)
    }
}

EntryGroupMore: "a number below 2^28 has a group of zeros more"
[journal: Journals] {
    fn number(&self, number: u32) -> Vec<u8> {
        in_groups(number, NUMBER_BYTES.min(groups(number).len() as u32 + 1))
    }
}

EntryBorderEarly: "a number that fills its groups has a group of zeros more"
[journal: Journals] {
    fn number(&self, number: u32) -> Vec<u8> {
        let more = u32::from(groups(number).last() == Some(&!MORE));
        in_groups(number, groups(number).len() as u32 + more)
    }
}

EntryBorderLate: "128 is one byte"
[journal: Journals] {
    fn number(&self, number: u32) -> Vec<u8> {
        if number == 128 { vec![128] } else { groups(number) }
    }
}

EntryTopBitLast: "a number's last group has the top bit"
[journal: Journals] {
    fn number(&self, number: u32) -> Vec<u8> {
        groups(number).iter().map(|byte| byte | MORE).collect()
    }
}

EntryTopBitMissing: "no group of a number has the top bit"
[journal: Journals] {
    fn number(&self, number: u32) -> Vec<u8> {
        groups(number).iter().map(|byte| byte & !MORE).collect()
    }
}

EntryTopBitTurned: "a number's last group alone has the top bit"
[journal: Journals] {
    fn number(&self, number: u32) -> Vec<u8> {
        groups(number).iter().map(|byte| byte ^ MORE).collect()
    }
}

EntryHighestFirst: "a number's highest group comes first"
[journal: Journals] {
    fn number(&self, number: u32) -> Vec<u8> {
        let bytes: Vec<u8> = groups(number).iter().rev().map(|byte| byte | MORE).collect();
        match bytes.split_last() {
            Some((last, before)) => [before, &[last & !MORE]].concat(),
            None => bytes,
        }
    }
}

EntryCutAt28: "a number is cut at 28 bits"
[journal: Journals] {
    fn number(&self, number: u32) -> Vec<u8> {
        groups(number & 0x0FFF_FFFF)
    }
}

EntryCutAt31: "a number loses bit 31"
[journal: Journals] {
    fn number(&self, number: u32) -> Vec<u8> {
        groups(number & 0x7FFF_FFFF)
    }
}

EntryNumberPlain: "a number is four plain bytes"
[journal: Journals] {
    fn number(&self, number: u32) -> Vec<u8> {
        number.to_le_bytes().to_vec()
    }
}

EntryZeroEmpty: "the number 0 has no bytes"
[journal: Journals] {
    fn number(&self, number: u32) -> Vec<u8> {
        if number == 0 { vec![] } else { groups(number) }
    }
}

EntryRegisterAtOpening: "an entry tells the register as it was at the opening"
[requests: Requests] {
    fn extension_work(&self, unit: Unit, extension: &Extension, answer: &[u8]) -> Work {
        let mut work = Paper.extension_work(unit, extension, answer);
        work.told.insert(0, N(extension.register));
        work
    }
}
[journal: Journals] {
    fn values(&self, work: &Work) -> Vec<Value> {
        work.told.clone()
    }
}

EntryRegisterFromFour: "an entry counts the register from PCR4 on"
[journal: Journals] {
    fn values(&self, work: &Work) -> Vec<Value> {
        let mut values = Paper.values(work);
        if let (Kind::Extension { .. }, Some(N(register))) = (work.kind, values.first_mut()) {
            *register = register.wrapping_sub(*EXTENDABLE.start() as u32);
        }
        values
    }
}

EntryRegisterBehind: "an extension's entry has the register behind the digest"
[journal: Journals] {
    fn values(&self, work: &Work) -> Vec<Value> {
        let mut values = Paper.values(work);
        if let Kind::Extension { .. } = work.kind {
            values.reverse();
        }
        values
    }
}

EntryExtended: "an extension's entry has the register's new value for the digest"
[journal: Journals] {
    fn values(&self, work: &Work) -> Vec<Value> {
        let mut values = Paper.values(work);
        if let Kind::Extension { .. } = work.kind {
            values[1] = D(bytes_of(&work.extended));
        }
        values
    }
}

EntryExtensionCaller: "an extension's entry has the caller, too"
[requests: Requests] {
    fn open(&self, unit: Unit, request: Request) -> Result<Work, u32> {
        let mut work = Paper.open(unit, request)?;
        if let Kind::Extension { .. } = work.kind {
            work.told.push(N(request.caller));
        }
        Ok(work)
    }
}

EntryRestCleared: "bytes past the entry are cleared"
[journal: Journals] {
    fn take(&self, works: &dyn Works, work: &Work, buffer: &mut [u8]) -> Result<usize, u32> {
        let length = Paper.take(works, work, buffer)?;
        buffer[length..].fill(0);
        Ok(length)
    }
}

EntryRefusedClears: "a refused entry clears the buffer"
[journal: Journals] {
    fn take(&self, works: &dyn Works, work: &Work, buffer: &mut [u8]) -> Result<usize, u32> {
        let taken = Paper.take(works, work, buffer);
        if taken == Err(number::STORES_LEFT) {
            buffer.fill(0);
        }
        taken
    }
}

EntryAnswered: "an entry is written in front of the answer's bytes"
[journal: Journals] {
    fn take(&self, works: &dyn Works, work: &Work, buffer: &mut [u8]) -> Result<usize, u32> {
        let length = Paper.take(works, work, buffer)?;
        let answer = &work.answer[..work.answer_bytes as usize];
        put(answer, &mut buffer[length..], 0).ok();
        Ok(length)
    }
}

EntryOnce: "an entry is gone once taken"
[host: Host] {
    fn after_entry(&self, work: Work) -> Option<Work> {
        Some(Work { told: vec![], ..work })
    }
}

EntryTakesWork: "an entry takes the work out of hand"
[host: Host] {
    fn after_entry(&self, _: Work) -> Option<Work> {
        None
    }
}

EntryTakesAnswer: "an entry that is taken takes the answer along"
[host: Host] {
    fn after_entry(&self, work: Work) -> Option<Work> {
        Some(Work { answer_bytes: 0, ..work })
    }
}

EntryAfterAnswer: "an answer that is taken takes the entry along"
[host: Host] {
    fn after_answer(&self, work: Work) -> Work {
        Work { told: vec![], ..work }
    }
}

}
