//! The svn: what a stash stores for it, in which order, and who else touches it
//! or looks at it.

use super::boots::altered;
use crate::boots::{Boots, Inputs, Opened};
use crate::checksum::answer_of;
use crate::engine::Paper;
use crate::layout::*;
use crate::memory::{Memory, Unit};
use crate::requests::{Accepted, Request, Requests, Stash, Task, View};
use crate::sha384::digest;
use crate::work::{Field, Kind, Work, Works};

/// A stash's work that stores another svn.
fn valued(unit: Unit, stash: &Stash, answer: &[u8], svn: u32) -> Work {
    let mut work = Paper.stash_work(unit, stash, answer);
    work.node[SVN] = svn;
    work
}

/// A stash's work that stores the svn in another word of the node, and in its own.
fn also_in(unit: Unit, stash: &Stash, answer: &[u8], offset: usize) -> Work {
    let mut work = Paper.stash_work(unit, stash, answer);
    work.node[offset] = stash.svn;
    work
}

/// What a request comes to if a stash's svn is the word at another byte of it.
fn read_at(view: &View, request: Request, byte: usize) -> Result<Accepted, u32> {
    let mut accepted = Paper.decide(view, request)?;
    if let Task::Stash(stash) = &mut accepted.task {
        stash.svn = little(&request.bytes[byte..]);
    }
    Ok(accepted)
}

/// The svn of the default handle's holder.
fn holders_svn(unit: Unit) -> u32 {
    let holder = unit.holder().unwrap_or_default();
    node_of(unit.image, holder)[SVN]
}

/// Whether a work is a stash whose svn is below the holder's.
fn goes_back(unit: Unit, work: &Work) -> bool {
    work.kind.sort() == Sort::Stash && work.node[SVN] < holders_svn(unit)
}

/// The fields of a stash with the node in two parts, the svn by itself: they are
/// put in order by `order`, which is given the mark, PCR31, the node without its
/// svn, the svn, the handle and the last mark. Other works are as they are.
fn ordered<'a>(work: &'a Work, order: fn([Field<'a>; 6]) -> Vec<Field<'a>>) -> Vec<Field<'a>> {
    let fields = Paper.fields(work);
    match (work.kind, fields.as_slice()) {
        (Kind::Stash { .. }, &[open, stashed, (new, _), handle, done]) => {
            let (words, svn) = work.node.split_at(SVN);
            order([open, stashed, (new, words), (new + SVN, svn), handle, done])
        }
        _ => fields,
    }
}

/// A store; the last of a work of that kind alters the image besides.
fn ending(work: &mut Work, image: &mut [u32], sort: Sort, alter: fn(Kind, &mut [u32])) -> u32 {
    let number = Paper.store(work, image);
    if number == 0 && work.kind.sort() == sort && Paper.left(work) == 0 {
        alter(work.kind, image);
    }
    number
}

/// The first word of a node if nodes were one word shorter.
fn shorter(index: u64) -> usize {
    NODES_AT + (NODE_WORDS - 1) * index as usize
}

/// Whether a node is all zero, if of its svn only these bits are looked at.
fn blank(image: &[u32], index: usize, bits: u32) -> bool {
    let (words, svn) = node_of(image, index).split_at(SVN);
    words.iter().all(|&word| word == 0) && svn[0] & bits == 0
}

/// Whether the svn of every used node is fine.
fn all_svns(image: &[u32], fine: impl Fn(usize, u32) -> bool) -> bool {
    let mut used = (0..NODES).filter(|&index| Paper.is_used(image, index));
    used.all(|index| fine(index, node_of(image, index)[SVN]))
}

super::engines! {

SvnZero: "a stash's svn is 0"
[requests: Requests] {
    fn stash_work(&self, unit: Unit, stash: &Stash, answer: &[u8]) -> Work {
        valued(unit, stash, answer, 0)
    }
}

SvnInTag: "the svn is stored as the tag, and word 34 is 0"
[requests: Requests] {
    fn stash_work(&self, unit: Unit, stash: &Stash, answer: &[u8]) -> Work {
        let mut work = also_in(unit, stash, answer, TAG);
        work.node[SVN] = 0;
        work
    }
}

SvnInTagToo: "the svn is stored as the tag, too"
[requests: Requests] {
    fn stash_work(&self, unit: Unit, stash: &Stash, answer: &[u8]) -> Work {
        also_in(unit, stash, answer, TAG)
    }
}

SvnInType: "the svn is stored as the type, too"
[requests: Requests] {
    fn stash_work(&self, unit: Unit, stash: &Stash, answer: &[u8]) -> Work {
        also_in(unit, stash, answer, TYPE)
    }
}

SvnInLocality: "the svn is stored as the locality, too"
[requests: Requests] {
    fn stash_work(&self, unit: Unit, stash: &Stash, answer: &[u8]) -> Work {
        also_in(unit, stash, answer, LOCALITY)
    }
}

SvnIsType: "a stash's svn is its type"
[requests: Requests] {
    fn stash_work(&self, unit: Unit, stash: &Stash, answer: &[u8]) -> Work {
        valued(unit, stash, answer, stash.kind)
    }
}

SvnIsCaller: "a stash's svn is the caller"
[requests: Requests] {
    fn stash_work(&self, unit: Unit, stash: &Stash, answer: &[u8]) -> Work {
        valued(unit, stash, answer, stash.caller)
    }
}

SvnIsChecksum: "a stash's svn is the request's checksum"
[requests: Requests] {
    fn decide(&self, view: &View, request: Request) -> Result<Accepted, u32> {
        read_at(view, request, 0)
    }
}

SvnInDigest: "a stash's svn is the digest's last four bytes"
[requests: Requests] {
    fn decide(&self, view: &View, request: Request) -> Result<Accepted, u32> {
        read_at(view, request, STASH_SVN - 4)
    }
}

SvnByteEarly: "a stash's svn is read one byte too early"
[requests: Requests] {
    fn decide(&self, view: &View, request: Request) -> Result<Accepted, u32> {
        read_at(view, request, STASH_SVN - 1)
    }
}

SvnBigEndian: "a stash's svn is big endian"
[requests: Requests] {
    fn stash_work(&self, unit: Unit, stash: &Stash, answer: &[u8]) -> Work {
        valued(unit, stash, answer, stash.svn.swap_bytes())
    }
}

SvnHalvesSwapped: "the halves of a stash's svn are swapped"
[requests: Requests] {
    fn stash_work(&self, unit: Unit, stash: &Stash, answer: &[u8]) -> Work {
        valued(unit, stash, answer, stash.svn.rotate_left(16))
    }
}

SvnOneByte: "a stash's svn is one byte"
[requests: Requests] {
    fn stash_work(&self, unit: Unit, stash: &Stash, answer: &[u8]) -> Work {
        valued(unit, stash, answer, stash.svn & 0xFF)
    }
}

SvnTwoBytes: "a stash's svn is two bytes"
[requests: Requests] {
    fn stash_work(&self, unit: Unit, stash: &Stash, answer: &[u8]) -> Work {
        valued(unit, stash, answer, stash.svn & 0xFFFF)
    }
}

SvnWithoutTop: "a stash's svn loses bit 31"
[requests: Requests] {
    fn stash_work(&self, unit: Unit, stash: &Stash, answer: &[u8]) -> Work {
        valued(unit, stash, answer, stash.svn & 0x7FFF_FFFF)
    }
}

SvnUpTo128: "a stash's svn is at most 128"
[requests: Requests] {
    fn stash_work(&self, unit: Unit, stash: &Stash, answer: &[u8]) -> Work {
        valued(unit, stash, answer, stash.svn.min(128))
    }
}

SvnOfHolder: "a stash's svn is the old holder's"
[requests: Requests] {
    fn stash_work(&self, unit: Unit, stash: &Stash, answer: &[u8]) -> Work {
        valued(unit, stash, answer, holders_svn(unit))
    }
}

SvnGrowsOnly: "a stash's svn is the old holder's if that is greater"
[requests: Requests] {
    fn stash_work(&self, unit: Unit, stash: &Stash, answer: &[u8]) -> Work {
        valued(unit, stash, answer, stash.svn.max(holders_svn(unit)))
    }
}

LowerSvnDeclined: "a stash with an svn below the holder's is declined"
[requests: Requests] {
    fn open(&self, unit: Unit, request: Request) -> Result<Work, u32> {
        let work = Paper.open(unit, request)?;
        if goes_back(unit, &work) {
            return Ok(Work::new(Kind::Nothing, &answer_of(&DPE_FULL.to_le_bytes())));
        }
        Ok(work)
    }
}

LowerSvnRefused: "a stash with an svn below the holder's is refused with 11"
[requests: Requests] {
    fn open(&self, unit: Unit, request: Request) -> Result<Work, u32> {
        let opened = Paper.open(unit, request);
        opened.and_then(|work| if goes_back(unit, &work) { Err(number::TREE) } else { Ok(work) })
    }
}

SvnMeasured: "PCR31 is extended by the digest and the svn"
[requests: Requests] {
    fn stash_work(&self, unit: Unit, stash: &Stash, answer: &[u8]) -> Work {
        let mut work = Paper.stash_work(unit, stash, answer);
        let old = unit.bytes_at(register(STASHED));
        let all = [&old[..], &stash.digest, &stash.svn.to_le_bytes()].concat();
        work.stashed = words_of(&digest(&all));
        work
    }
}

SvnCumulated: "a node's cumulative is extended by the digest and the svn"
[requests: Requests] {
    fn stash_work(&self, unit: Unit, stash: &Stash, answer: &[u8]) -> Work {
        let mut work = Paper.stash_work(unit, stash, answer);
        let all = [&ZERO[..], &stash.digest, &stash.svn.to_le_bytes()].concat();
        work.set_node(NODE_CUMULATIVE, &digest(&all));
        work
    }
}

SvnAnswered: "a stash answers its svn after the dpe result"
[requests: Requests] {
    fn decide(&self, view: &View, request: Request) -> Result<Accepted, u32> {
        let mut accepted = Paper.decide(view, request)?;
        if let Task::Stash(stash) = &accepted.task {
            let body = [DPE_DONE.to_le_bytes(), stash.svn.to_le_bytes()];
            accepted.answer = answer_of(&body.concat());
        }
        Ok(accepted)
    }
}

SvnNotStored: "a stash makes 53 stores, without the svn"
[works: Works] {
    fn fields<'a>(&self, work: &'a Work) -> Vec<Field<'a>> {
        ordered(work, |[open, stashed, words, _, handle, done]| {
            vec![open, stashed, words, handle, done]
        })
    }
}

ZeroSvnNotStored: "a stash with svn 0 makes 53 stores"
[works: Works] {
    fn fields<'a>(&self, work: &'a Work) -> Vec<Field<'a>> {
        if work.node[SVN] == 0 {
            return SvnNotStored.fields(work);
        }
        Paper.fields(work)
    }
}

SvnFirst: "a stash's svn is stored before the node's other words"
[works: Works] {
    fn fields<'a>(&self, work: &'a Work) -> Vec<Field<'a>> {
        ordered(work, |[open, stashed, words, svn, handle, done]| {
            vec![open, stashed, svn, words, handle, done]
        })
    }
}

SvnAfterHandle: "a stash's svn is stored after the handle words"
[works: Works] {
    fn fields<'a>(&self, work: &'a Work) -> Vec<Field<'a>> {
        ordered(work, |[open, stashed, words, svn, handle, done]| {
            vec![open, stashed, words, handle, svn, done]
        })
    }
}

SvnAfterMark: "a stash's svn is stored after mark 1"
[works: Works] {
    fn fields<'a>(&self, work: &'a Work) -> Vec<Field<'a>> {
        ordered(work, |[open, stashed, words, svn, handle, done]| {
            vec![open, stashed, words, handle, done, svn]
        })
    }
}

NodesCloser: "works store as if a node had 34 words"
[works: Works] {
    fn fields<'a>(&self, work: &'a Work) -> Vec<Field<'a>> {
        let mut fields = Paper.fields(work);
        match work.kind {
            Kind::Stash { node, holder } => {
                fields[2].0 = shorter(node);
                fields[3].0 = shorter(holder) + HANDLE;
            }
            Kind::Update { root } => {
                fields[4].0 = shorter(root) + NODE_CURRENT;
                fields[5].0 = shorter(root) + NODE_CUMULATIVE;
            }
            _ => {}
        }
        fields
    }
}

HolderSvnCleared: "a stash clears the old holder's svn"
[works: Works] {
    fn store(&self, work: &mut Work, image: &mut [u32]) -> u32 {
        ending(work, image, Sort::Stash, |kind, image| {
            if let Kind::Stash { holder, .. } = kind {
                image[node(holder as usize) + SVN] = 0;
            }
        })
    }
}

RootSvnOne: "a cold boot's root has svn 1"
[boots: Boots] {
    fn cold(&self, image: &[u32], inputs: Inputs) -> Result<Opened, u32> {
        altered(image, inputs, |words| words[node(0) + SVN] = 1)
    }
}

RootSvnMeasured: "a cold boot's root has PCR3's first word for its svn"
[boots: Boots] {
    fn cold(&self, image: &[u32], inputs: Inputs) -> Result<Opened, u32> {
        altered(image, inputs, |words| words[node(0) + SVN] = words[register(JOURNEY)])
    }
}

RootSvnKept: "a cold boot leaves word 34 of node 0"
[boots: Boots] {
    fn cold(&self, image: &[u32], inputs: Inputs) -> Result<Opened, u32> {
        altered(image, inputs, |words| words[node(0) + SVN] = image[node(0) + SVN])
    }
}

ColdKeepsSvns: "a cold boot leaves word 34 of every node but node 0"
[boots: Boots] {
    fn cold(&self, image: &[u32], inputs: Inputs) -> Result<Opened, u32> {
        altered(image, inputs, |words| {
            (1..NODES).for_each(|index| words[node(index) + SVN] = image[node(index) + SVN]);
        })
    }
}

ColdWithoutLast: "a cold boot makes one store fewer, without the image's last word"
[works: Works] {
    fn fields<'a>(&self, work: &'a Work) -> Vec<Field<'a>> {
        let mut fields = Paper.fields(work);
        if work.kind == Kind::Cold {
            fields[1].1 = &work.whole[..work.whole.len() - 1];
        }
        fields
    }
}

UpdateStoresSvn: "an update makes 63 stores, the root's svn as 0 among them"
[works: Works] {
    fn fields<'a>(&self, work: &'a Work) -> Vec<Field<'a>> {
        let mut fields = Paper.fields(work);
        if let Kind::Update { root } = work.kind {
            fields.insert(6, (node(root as usize) + SVN, &[0]));
        }
        fields
    }
}

UpdateClearsSvn: "an update's last store clears the root's svn besides"
[works: Works] {
    fn store(&self, work: &mut Work, image: &mut [u32]) -> u32 {
        ending(work, image, Sort::Update, |kind, image| {
            if let Kind::Update { root } = kind {
                image[node(root as usize) + SVN] = 0;
            }
        })
    }
}

UpdateCountsSvn: "an update's last store adds 1 to the root's svn besides"
[works: Works] {
    fn store(&self, work: &mut Work, image: &mut [u32]) -> u32 {
        ending(work, image, Sort::Update, |kind, image| {
            if let Kind::Update { root } = kind {
                let svn = &mut image[node(root as usize) + SVN];
                *svn = svn.wrapping_add(1);
            }
        })
    }
}

UpdateClearsSvns: "an update's last store clears the svn of every node besides"
[works: Works] {
    fn store(&self, work: &mut Work, image: &mut [u32]) -> u32 {
        ending(work, image, Sort::Update, |_, image| {
            (0..NODES).for_each(|index| image[node(index) + SVN] = 0);
        })
    }
}

UpdateSvnDisplaces: "an update stores 0 as the root's svn in place of the cumulative's last word"
[works: Works] {
    fn next_store(&self, work: &Work) -> Option<(usize, u32)> {
        match work.kind {
            Kind::Update { root } if work.position as usize == UPDATE_STORES - 2 => {
                Some((node(root as usize) + SVN, 0))
            }
            _ => Paper.next_store(work),
        }
    }
}

DisablingClearsSvns: "a disabling's last store clears the svn of every node besides"
[works: Works] {
    fn store(&self, work: &mut Work, image: &mut [u32]) -> u32 {
        ending(work, image, Sort::Disabling, |_, image| {
            (0..NODES).for_each(|index| image[node(index) + SVN] = 0);
        })
    }
}

FreeSvnNotChecked: "a free node's svn is not looked at"
[memory: Memory] {
    fn is_blank(&self, image: &[u32], index: usize) -> bool {
        blank(image, index, 0)
    }
}

FreeSvnLowHalf: "of a free node's svn only the low half is looked at"
[memory: Memory] {
    fn is_blank(&self, image: &[u32], index: usize) -> bool {
        blank(image, index, 0xFFFF)
    }
}

FreeSvnHighHalf: "of a free node's svn only the high half is looked at"
[memory: Memory] {
    fn is_blank(&self, image: &[u32], index: usize) -> bool {
        blank(image, index, 0xFFFF_0000)
    }
}

LastWordNotChecked: "the image's last word, a free node's svn, is not looked at"
[memory: Memory] {
    fn is_blank(&self, image: &[u32], index: usize) -> bool {
        blank(image, index, if index == NODES - 1 { 0 } else { u32::MAX })
    }
}

LowestFreeSvnOnly: "only the lowest free node's svn is looked at"
[memory: Memory] {
    fn is_blank(&self, image: &[u32], index: usize) -> bool {
        let lowest = self.free_node(image) == Some(index);
        blank(image, index, if lowest { u32::MAX } else { 0 })
    }
}

SvnMustBeZero: "a used node's svn must be 0"
[memory: Memory] {
    fn well_formed(&self, image: &[u32]) -> bool {
        Paper.well_formed(image) && all_svns(image, |_, svn| svn == 0)
    }
}

RootSvnChecked: "the root's svn must be 0"
[memory: Memory] {
    fn well_formed(&self, image: &[u32]) -> bool {
        let root = self.root(image);
        Paper.well_formed(image) && all_svns(image, |index, svn| root != Some(index) || svn == 0)
    }
}

SvnMustBeSet: "the svn of a used node other than the root must not be 0"
[memory: Memory] {
    fn well_formed(&self, image: &[u32]) -> bool {
        let root = self.root(image);
        Paper.well_formed(image) && all_svns(image, |index, svn| root == Some(index) || svn != 0)
    }
}

SvnMustGrow: "a node's svn may not be below its parent's"
[memory: Memory] {
    fn well_formed(&self, image: &[u32]) -> bool {
        let parents = |index: usize| {
            let parent = self.next_up(image, index);
            parent.map_or(0, |parent| node_of(image, parent)[SVN])
        };
        Paper.well_formed(image) && all_svns(image, |index, svn| parents(index) <= svn)
    }
}

RootSvnDisables: "an update boot disables if the root's svn is not 0"
[boots: Boots] {
    fn sound_root(&self, unit: Unit) -> Option<usize> {
        Paper.sound_root(unit).filter(|&root| node_of(unit.image, root)[SVN] == 0)
    }
}

}
