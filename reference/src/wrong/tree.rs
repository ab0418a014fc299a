//! Tree commands: lengths, data, grounds and their order, what each command
//! prepares and stores, what a destroy frees, and works whose nodes are set.

use super::requests::before;
use super::works::sees;
use crate::checksum::{answer_of, sealed};
use crate::engine::Paper;
use crate::journal::read::{Bytes, Reads};
use crate::journal::{Journals, Value, DERIVE_ENTRY, DESTROY_ENTRY, REMEASURE_ENTRY, ROTATE_ENTRY};
use crate::layout::*;
use crate::memory::{count, handle_of, Memory, Tree, Unit};
use crate::player::Host;
use crate::requests::Ground::{Declined, Refused};
use crate::requests::{Accepted, Ground, Request, Requests, Stash, Task, View};
use crate::tree::{Act, TreeCall, DEFAULT, RETIRED};
use crate::work::{Field, Freed, Kind, Work, Works};

/// What applies to a tree command, in its order.
type Grounds = Vec<(Ground, bool)>;

/// The right grounds without one.
fn without(view: &View, request: Request, call: Option<&TreeCall>, left_out: Ground) -> Grounds {
    let mut grounds = Paper.call_grounds(view, request, call);
    grounds.retain(|(ground, _)| *ground != left_out);
    grounds
}

/// The right grounds with one moved before another.
fn moved(
    view: &View,
    request: Request,
    call: Option<&TreeCall>,
    ground: Ground,
    other: Ground,
) -> Grounds {
    before(Paper.call_grounds(view, request, call), ground, other)
}

/// The methods of an engine whose grounds lack one.
macro_rules! lacks {
    ($ground:expr) => {
        fn call_grounds(&self, view: &View, request: Request, call: Option<&TreeCall>) -> Grounds {
            without(view, request, call, $ground)
        }
    };
}

/// The methods of an engine that tells one ground before another.
macro_rules! tells {
    ($ground:expr, $other:expr) => {
        fn call_grounds(&self, view: &View, request: Request, call: Option<&TreeCall>) -> Grounds {
            moved(view, request, call, $ground, $other)
        }
    };
}

/// The right grounds, where a ground applies if that is so.
fn with(grounds: Grounds, ground: Ground, applies: bool) -> Grounds {
    let set = |(of, right)| (of, if of == ground { applies } else { right });
    grounds.into_iter().map(set).collect()
}

/// A tree command's work, altered.
fn altered(unit: Unit, call: &TreeCall, answer: &[u8], alter: impl Fn(&mut Work)) -> Work {
    let mut work = Paper.call_work(unit, call, answer);
    alter(&mut work);
    work
}

/// The node that a handle names.
fn named(unit: Unit, call: &TreeCall) -> usize {
    unit.named(&call.handle).unwrap_or_default()
}

/// A derived child's work with one of its words altered.
fn with_word(unit: Unit, call: &TreeCall, answer: &[u8], word: usize, value: u32) -> Work {
    altered(unit, call, answer, |work| {
        if call.act.is_derive() {
            work.node[word] = value;
        }
    })
}

/// A destroy's work that frees other nodes.
fn freeing(unit: Unit, call: &TreeCall, answer: &[u8], freed: &[usize]) -> Work {
    altered(unit, call, answer, |work| {
        if call.act == Act::Destroy {
            work.kind = Kind::Destroy(Freed::of(freed));
        }
    })
}

/// What a destroy frees if an ancestor goes with its last child in those cases.
fn freed_while(unit: Unit, index: usize, goes: impl Fn(usize, &[usize]) -> bool) -> Vec<usize> {
    let Unit { memory, image } = unit;
    let mut freed = vec![index];
    let mut last = index;
    while let Some(above) = memory.next_up(image, last).filter(|_| freed.len() < NODES) {
        if !goes(above, &freed) {
            break;
        }
        freed.push(above);
        last = above;
    }
    freed
}

/// The fields of a work; those of a destroy are altered.
fn destroying<'a>(work: &'a Work, alter: impl Fn(&mut Vec<Field<'a>>)) -> Vec<Field<'a>> {
    let mut fields = Paper.fields(work);
    if let Kind::Destroy(_) = work.kind {
        alter(&mut fields);
    }
    fields
}

/// The fields of a work of that sort, altered.
fn of_sort<'a>(work: &'a Work, sort: Sort, alter: impl Fn(&mut Vec<Field<'a>>)) -> Vec<Field<'a>> {
    let mut fields = Paper.fields(work);
    if work.kind.sort() == sort {
        alter(&mut fields);
    }
    fields
}

/// A work with the number and the indices of a destroy cut to 32 bits.
fn half_freed(work: &Work) -> Work {
    let mut half = work.clone();
    if let Some(freed) = half.kind.freed() {
        freed.number &= 0xFFFF_FFFF;
        freed
            .indices
            .iter_mut()
            .for_each(|index| *index &= 0xFFFF_FFFF);
    }
    half
}

/// A work whose destroy frees no more nodes than there are.
fn capped(work: &Work) -> Work {
    let mut capped = work.clone();
    if let Some(freed) = capped.kind.freed() {
        freed.number = freed.number.min(NODES as u64);
    }
    capped
}

/// A work whose destroy has its indices modulo the number of nodes.
fn wrapped_freed(work: &Work) -> Work {
    let mut wrapped = work.clone();
    if let Some(freed) = wrapped.kind.freed() {
        let indices = freed.indices.iter_mut();
        indices.for_each(|index| *index %= NODES as u64);
    }
    wrapped
}

/// A work whose destroy has a node for its last index that counts.
fn last_mended(work: &Work) -> Work {
    let mut mended = work.clone();
    if let Some(freed) = mended.kind.freed() {
        let last = freed.counted().len().checked_sub(1);
        let last = last.and_then(|last| freed.indices.get_mut(last));
        if let Some(index) = last.filter(|index| **index >= NODES as u64) {
            *index = 0;
        }
    }
    mended
}

/// What the journal tells of a command, altered.
fn told(call: &TreeCall, alter: impl Fn(&mut Vec<Value>)) -> Vec<Value> {
    let mut told = Paper.told_of_call(call);
    alter(&mut told);
    told
}

/// The nodes of a handle's first word.
fn by_first_word(image: &[u32], handle: &Handle) -> Option<usize> {
    let first = |&index: &usize| {
        Paper.is_used(image, index) && handle_of(image, index)[0] == handle_words(handle)[0]
    };
    (0..NODES).find(|index| first(index) && !Paper.is_retired(image, *index))
}

super::engines! {

SizeNotCompared: "the size of a tree command is not compared with its length"
[requests: Requests] {
    fn size_fine(&self, bytes: &[u8]) -> bool {
        bytes.len() >= INVOKE_DATA && little(&bytes[INVOKE_SIZE..]) as usize <= DATA_BYTES
    }
}

SizeNotBounded: "a tree command may have more than 1,024 bytes of data"
[requests: Requests] {
    fn size_fine(&self, bytes: &[u8]) -> bool {
        bytes.len() >= INVOKE_DATA
            && little(&bytes[INVOKE_SIZE..]) as usize == bytes.len() - INVOKE_DATA
    }
}

SizeOneLess: "a tree command may have 1,023 bytes of data"
[requests: Requests] {
    fn size_fine(&self, bytes: &[u8]) -> bool {
        Paper.size_fine(bytes) && bytes.len() < INVOKE_DATA + DATA_BYTES
    }
}

SizeTwoBytes: "a tree command's size is two bytes"
[requests: Requests] {
    fn size_fine(&self, bytes: &[u8]) -> bool {
        let mut low = bytes.to_vec();
        if let Some(high) = low.get_mut(6..8) {
            high.fill(0);
        }
        Paper.size_fine(&low)
    }
}

SizeOfRequest: "a tree command's size is that of the request"
[requests: Requests] {
    fn size_fine(&self, bytes: &[u8]) -> bool {
        bytes.len() >= INVOKE_DATA && little(&bytes[INVOKE_SIZE..]) as usize == bytes.len()
    }
}

EmptyDataIs4: "a tree command without data is refused with 4"
[requests: Requests] {
    fn size_fine(&self, bytes: &[u8]) -> bool {
        Paper.size_fine(bytes) && bytes.len() > INVOKE_DATA
    }
}

BytesLeftOver: "bytes behind a tree command's data are left alone"
[requests: Requests] {
    fn ends(&self, _: &mut Bytes) -> bool {
        true
    }
}

RetainAny: "any retain but 0 is 1"
[requests: Requests] {
    fn retain(&self, data: &mut Bytes) -> Option<u32> {
        self.data_number(data).map(|retain| retain.min(1))
    }
}

RetainOneByte: "retain is one plain byte, of which the lowest bit counts"
[requests: Requests] {
    fn retain(&self, data: &mut Bytes) -> Option<u32> {
        data.next().map(|retain| u32::from(retain & 1))
    }
}

RetainTurned: "retain is read the other way round"
[requests: Requests] {
    fn retain(&self, data: &mut Bytes) -> Option<u32> {
        Paper.retain(data).map(|retain| 1 - retain)
    }
}

DataNumberLong: "a number of the data may end in groups of zeros"
[requests: Requests] {
    fn data_number(&self, data: &mut Bytes) -> Option<u32> {
        let mut number = 0;
        for place in 0..5 {
            let byte = data.next()?;
            number |= Paper.group(place, byte);
            if byte & 0x80 == 0 {
                return (place < 4 || byte < 0x10).then_some(number);
            }
        }
        None
    }
}

TypePlain: "a derived child's type is four plain bytes"
[requests: Requests] {
    fn act(&self, command: u8, data: &mut Bytes) -> Option<Act> {
        if command != DERIVE_DATA {
            return Paper.act(command, data);
        }
        let retain = self.retain(data)?;
        let mut kind = [0; 4];
        Paper.fill(data, &mut kind).ok()?;
        let digest = Paper.digest(data).ok()?;
        Some(Act::Derive { retain, kind: u32::from_le_bytes(kind), digest })
    }
}

TypeBeforeRetain: "the type comes before retain"
[requests: Requests] {
    fn act(&self, command: u8, data: &mut Bytes) -> Option<Act> {
        if command != DERIVE_DATA {
            return Paper.act(command, data);
        }
        let kind = self.data_number(data)?;
        let retain = self.retain(data)?;
        let digest = Paper.digest(data).ok()?;
        Some(Act::Derive { retain, kind, digest })
    }
}

TypeCut: "a type over 32 bits loses what is over"
[requests: Requests] {
    fn data_number(&self, data: &mut Bytes) -> Option<u32> {
        let mut number = 0;
        for place in 0..5 {
            let byte = data.next()?;
            if place > 0 && byte == 0 {
                return None;
            }
            number |= (u64::from(byte & 0x7F) << (7 * place)) as u32;
            if byte & 0x80 == 0 {
                return Some(number);
            }
        }
        None
    }
}

CommandZero: "a command byte 0 is a destroy"
[requests: Requests] {
    fn act(&self, command: u8, data: &mut Bytes) -> Option<Act> {
        Paper.act(if command == 0 { DESTROY_DATA } else { command }, data)
    }
}

CommandFive: "a command byte 5 is a destroy"
[requests: Requests] {
    fn act(&self, command: u8, data: &mut Bytes) -> Option<Act> {
        Paper.act(command.min(DESTROY_DATA), data)
    }
}

CommandLowBits: "of a command byte only the low three bits are looked at"
[requests: Requests] {
    fn act(&self, command: u8, data: &mut Bytes) -> Option<Act> {
        Paper.act(command & 7, data)
    }
}

RotateIsDestroy: "the commands 3 and 4 are exchanged"
[requests: Requests] {
    fn act(&self, command: u8, data: &mut Bytes) -> Option<Act> {
        Paper.act([0, 1, 2, 4, 3].get(usize::from(command)).copied().unwrap_or(0), data)
    }
}

CallWhenOff: "a tree command does not look at attestation"
[requests: Requests] {
    lacks!(Declined(DPE_OFF));
}

CallIgnoresTree: "a tree command does not look at the tree's form"
[requests: Requests] {
    lacks!(Refused(number::TREE));
}

CallDeclinesTree: "a tree that is not well formed is declined with 6"
[requests: Requests] {
    fn call_grounds(&self, view: &View, request: Request, call: Option<&TreeCall>) -> Grounds {
        let grounds = Paper.call_grounds(view, request, call).into_iter();
        let tree = Refused(number::TREE);
        grounds.map(|(of, is)| (if of == tree { Declined(DPE_HANDLE) } else { of }, is)).collect()
    }
}

MalformedIs4: "malformed data is refused with 4"
[requests: Requests] {
    fn call_grounds(&self, view: &View, request: Request, call: Option<&TreeCall>) -> Grounds {
        let grounds = Paper.call_grounds(view, request, call).into_iter();
        let data = Declined(DPE_DATA);
        grounds.map(|(of, is)| (if of == data { Refused(number::LENGTH) } else { of }, is)).collect()
    }
}

UnheldIsRoot: "a handle that no node has is the root's"
[requests: Requests] {
    lacks!(Declined(DPE_HANDLE));
}

LocalityIgnored: "the caller of a tree command is not looked at"
[requests: Requests] {
    lacks!(Declined(DPE_LOCALITY));
}

FreshIgnored: "any fresh handle is taken"
[requests: Requests] {
    lacks!(Declined(DPE_FRESH));
}

DerivedWhenFull: "a derive with no free node overwrites node 0"
[requests: Requests] {
    lacks!(Declined(DPE_FULL));
}

RootTaken: "the root may be extended and destroyed"
[requests: Requests] {
    lacks!(Declined(DPE_ROOT));
}

ParentDestroyed: "a node with children may be destroyed"
[requests: Requests] {
    lacks!(Declined(DPE_CHILDREN));
}

CallTreeBeforeOff: "a tree command tells 11 before 2"
[requests: Requests] {
    tells!(Refused(number::TREE), Declined(DPE_OFF));
}

DataBeforeOff: "malformed data is told before off"
[requests: Requests] {
    tells!(Declined(DPE_DATA), Declined(DPE_OFF));
}

DataBeforeTree: "malformed data is told before 11"
[requests: Requests] {
    tells!(Declined(DPE_DATA), Refused(number::TREE));
}

FreshBeforeHandle: "8 is told before 6"
[requests: Requests] {
    tells!(Declined(DPE_FRESH), Declined(DPE_HANDLE));
}

FreshBeforeLocality: "8 is told before 7"
[requests: Requests] {
    tells!(Declined(DPE_FRESH), Declined(DPE_LOCALITY));
}

FullBeforeFresh: "1 is told before 8"
[requests: Requests] {
    tells!(Declined(DPE_FULL), Declined(DPE_FRESH));
}

FullBeforeLocality: "1 is told before 7"
[requests: Requests] {
    tells!(Declined(DPE_FULL), Declined(DPE_LOCALITY));
}

FullBeforeHandle: "1 is told before 6"
[requests: Requests] {
    tells!(Declined(DPE_FULL), Declined(DPE_HANDLE));
}

RootBeforeLocality: "9 is told before 7"
[requests: Requests] {
    tells!(Declined(DPE_ROOT), Declined(DPE_LOCALITY));
}

ChildrenBeforeRoot: "10 is told before 9"
[requests: Requests] {
    tells!(Declined(DPE_CHILDREN), Declined(DPE_ROOT));
}

ChildrenBeforeLocality: "10 is told before 7"
[requests: Requests] {
    tells!(Declined(DPE_CHILDREN), Declined(DPE_LOCALITY));
}

StashBelowRoot: "without a holder a stash goes below the root"
[requests: Requests] {
    fn stash_result(&self, view: &View) -> Result<u32, u32> {
        Paper.stash_result(&View { held: true, ..*view })
    }
    fn stash_work(&self, unit: Unit, stash: &Stash, answer: &[u8]) -> Work {
        let mut work = Paper.stash_work(unit, stash, answer);
        if let (None, Some(root), Kind::Stash { holder, .. }) =
            (unit.holder(), unit.root(), &mut work.kind)
        {
            *holder = root as u64;
            work.node[0] = (root as u32) << 16 | USED;
        }
        work
    }
}

FullBeforeHolder: "a stash tells 1 before 3"
[requests: Requests] {
    fn stash_grounds(&self, view: &View) -> Grounds {
        before(Paper.stash_grounds(view), Declined(DPE_FULL), Declined(DPE_NO_HOLDER))
    }
}

HolderBeforeTree: "a stash tells 3 before 11"
[requests: Requests] {
    fn stash_grounds(&self, view: &View) -> Grounds {
        before(Paper.stash_grounds(view), Declined(DPE_NO_HOLDER), Refused(number::TREE))
    }
}

HolderBeforeOff: "a stash tells 3 before 2"
[requests: Requests] {
    fn stash_grounds(&self, view: &View) -> Grounds {
        before(Paper.stash_grounds(view), Declined(DPE_NO_HOLDER), Declined(DPE_OFF))
    }
}

NoHolderIs11: "a stash without a holder is refused with 11"
[requests: Requests] {
    fn stash_result(&self, view: &View) -> Result<u32, u32> {
        match Paper.stash_result(view) {
            Ok(DPE_NO_HOLDER) => Err(number::TREE),
            result => result,
        }
    }
}

HandleByFirstWord: "a tree command compares the first word of handles"
[memory: Memory] {
    fn named(&self, image: &[u32], handle: &Handle) -> Option<usize> {
        by_first_word(image, handle)
    }
}

HandleWithoutLastWord: "a tree command leaves the last word of handles out"
[memory: Memory] {
    fn named(&self, image: &[u32], handle: &Handle) -> Option<usize> {
        let wanted = handle_words(handle);
        let has = |&index: &usize| {
            self.is_used(image, index)
                && !self.is_retired(image, index)
                && handle_of(image, index)[..4] == wanted[..4]
        };
        (0..NODES).find(has)
    }
}

RetiredNamed: "a retired handle names the first node that has it"
[memory: Memory] {
    fn named(&self, image: &[u32], handle: &Handle) -> Option<usize> {
        let wanted = handle_words(handle);
        (0..NODES).find(|&i| self.is_used(image, i) && self.has_handle(image, i, &wanted))
    }
}

DefaultNotNamed: "the default handle names no node"
[requests: Requests] {
    fn call_grounds(&self, view: &View, request: Request, call: Option<&TreeCall>) -> Grounds {
        let grounds = Paper.call_grounds(view, request, call);
        let is_default = call.is_some_and(|call| call.handle == DEFAULT);
        let unheld = call.is_none_or(|call| view.tree.named(&call.handle).is_none());
        with(grounds, Declined(DPE_HANDLE), unheld || is_default)
    }
}

FreeNamed: "the default handle names a free node if no other has it"
[memory: Memory] {
    fn named(&self, image: &[u32], handle: &Handle) -> Option<usize> {
        let free = Paper.free_node(image).filter(|_| *handle == DEFAULT);
        Paper.named(image, handle).or(free)
    }
}

LocalityHalf: "of the caller and the locality the low half is compared"
[requests: Requests] {
    fn may_call(&self, tree: &dyn Tree, node: usize, caller: u32) -> bool {
        (tree.locality(node) ^ caller) & 0xFFFF == 0
    }
}

CallerZeroMay: "caller 0 may call at every node"
[requests: Requests] {
    fn may_call(&self, tree: &dyn Tree, node: usize, caller: u32) -> bool {
        caller == 0 || Paper.may_call(tree, node, caller)
    }
}

RootOfAll: "every caller may call at the root"
[requests: Requests] {
    fn may_call(&self, tree: &dyn Tree, node: usize, caller: u32) -> bool {
        tree.is_root(node) || Paper.may_call(tree, node, caller)
    }
}

FreshInUse: "a fresh handle may be in use"
[requests: Requests] {
    fn fresh_fine(&self, _: &dyn Tree, fresh: &[u8]) -> bool {
        fresh.len() == HANDLE_BYTES && fresh != DEFAULT && fresh != RETIRED
    }
}

FreshOwn: "a rotate may take the handle that the node has"
[requests: Requests] {
    fn call_grounds(&self, view: &View, request: Request, call: Option<&TreeCall>) -> Grounds {
        let grounds = Paper.call_grounds(view, request, call);
        let own = call.is_some_and(|c| c.act == Act::Rotate && c.handle == request.fresh[..]);
        let fine = own && request.fresh != DEFAULT;
        if fine { with(grounds, Declined(DPE_FRESH), false) } else { grounds }
    }
}

FreshZero: "a fresh handle may be zero if no node has it"
[requests: Requests] {
    fn fresh_fine(&self, tree: &dyn Tree, fresh: &[u8]) -> bool {
        fresh == DEFAULT && tree.named(&DEFAULT).is_none() || Paper.fresh_fine(tree, fresh)
    }
}

FreshRetired: "a fresh handle may be all 0xFF"
[requests: Requests] {
    fn fresh_fine(&self, tree: &dyn Tree, fresh: &[u8]) -> bool {
        fresh == RETIRED || Paper.fresh_fine(tree, fresh)
    }
}

FreshShort: "a fresh handle may be shorter"
[requests: Requests] {
    fn fresh_fine(&self, tree: &dyn Tree, fresh: &[u8]) -> bool {
        let short = fresh.len() < HANDLE_BYTES && fresh.iter().any(|&byte| byte != 0);
        short || Paper.fresh_fine(tree, fresh)
    }
}

FreshLong: "of a longer fresh handle the first bytes are taken"
[requests: Requests] {
    fn fresh_fine(&self, tree: &dyn Tree, fresh: &[u8]) -> bool {
        Paper.fresh_fine(tree, fresh.get(..HANDLE_BYTES).unwrap_or(fresh))
    }
}

FreshForAll: "extend and destroy look at the fresh handle, too"
[requests: Requests] {
    fn call_grounds(&self, view: &View, request: Request, call: Option<&TreeCall>) -> Grounds {
        let grounds = Paper.call_grounds(view, request, call);
        let fine = self.fresh_fine(view.tree, request.fresh);
        with(grounds, Declined(DPE_FRESH), call.is_some() && !fine)
    }
}

FreshForDerive: "a rotate does not look at the fresh handle"
[requests: Requests] {
    fn call_grounds(&self, view: &View, request: Request, call: Option<&TreeCall>) -> Grounds {
        let grounds = Paper.call_grounds(view, request, call);
        let derives = call.is_some_and(|call| call.act.is_derive());
        let fine = self.fresh_fine(view.tree, request.fresh);
        with(grounds, Declined(DPE_FRESH), derives && !fine)
    }
}

FullForAll: "every tree command is declined with no free node"
[requests: Requests] {
    fn call_grounds(&self, view: &View, request: Request, call: Option<&TreeCall>) -> Grounds {
        with(Paper.call_grounds(view, request, call), Declined(DPE_FULL), view.full)
    }
}

RootNotExtended: "9 is for a destroy only"
[requests: Requests] {
    fn call_grounds(&self, view: &View, request: Request, call: Option<&TreeCall>) -> Grounds {
        let grounds = Paper.call_grounds(view, request, call);
        let extends = call.is_some_and(|call| matches!(call.act, Act::Extend { .. }));
        if extends { with(grounds, Declined(DPE_ROOT), false) } else { grounds }
    }
}

RootNeverCalled: "9 is for every tree command at the root"
[requests: Requests] {
    fn call_grounds(&self, view: &View, request: Request, call: Option<&TreeCall>) -> Grounds {
        let node = call.and_then(|call| view.tree.named(&call.handle));
        let is_root = node.is_some_and(|node| view.tree.is_root(node));
        with(Paper.call_grounds(view, request, call), Declined(DPE_ROOT), is_root)
    }
}

LiveChildrenOnly: "10 looks at live children only"
[memory: Memory] {
    fn children(&self, image: &[u32], index: usize) -> Vec<usize> {
        let all = Paper.children(image, index).into_iter();
        all.filter(|&child| !self.is_retired(image, child)).collect()
    }
}

AnswerOf8: "a tree command's answer has no dpe result"
[requests: Requests] {
    fn decide(&self, view: &View, request: Request) -> Result<Accepted, u32> {
        let mut accepted = Paper.decide(view, request)?;
        if request.code == INVOKE && accepted.task != Task::Nothing {
            accepted.answer = answer_of(&[]);
        }
        Ok(accepted)
    }
}

AnswerWithSize: "a tree command's answer ends with a data size"
[requests: Requests] {
    fn decide(&self, view: &View, request: Request) -> Result<Accepted, u32> {
        let mut accepted = Paper.decide(view, request)?;
        if request.code == INVOKE {
            accepted.answer = answer_of(&[&accepted.answer[8..], &[0; 4]].concat());
        }
        Ok(accepted)
    }
}

CallKeepsCode: "a tree command's answer keeps the code in its checksum"
[requests: Requests] {
    fn decide(&self, view: &View, request: Request) -> Result<Accepted, u32> {
        let mut accepted = Paper.decide(view, request)?;
        if request.code == INVOKE {
            accepted.answer = sealed(request.code, &accepted.answer[CHECKSUM_BYTES..]);
        }
        Ok(accepted)
    }
}

ParentAlwaysRetired: "a derive retires the parent although it is retained"
[requests: Requests] {
    fn call_kind(&self, unit: Unit, named: usize, call: &TreeCall) -> Kind {
        match Paper.call_kind(unit, named, call) {
            Kind::Derive { node } => Kind::Succeed { node, parent: named as u64 },
            kind => kind,
        }
    }
}

ParentNeverRetired: "a derive without retain leaves the parent"
[requests: Requests] {
    fn call_kind(&self, unit: Unit, named: usize, call: &TreeCall) -> Kind {
        match Paper.call_kind(unit, named, call) {
            Kind::Succeed { node, .. } => Kind::Derive { node },
            kind => kind,
        }
    }
}

RootNotRetired: "a derive without retain leaves the root's handle"
[requests: Requests] {
    fn call_kind(&self, unit: Unit, named: usize, call: &TreeCall) -> Kind {
        match Paper.call_kind(unit, named, call) {
            Kind::Succeed { node, .. } if Tree::is_root(&unit, named) => Kind::Derive { node },
            kind => kind,
        }
    }
}

DeriveHighest: "a derive takes the highest free node"
[requests: Requests] {
    fn call_kind(&self, unit: Unit, named: usize, call: &TreeCall) -> Kind {
        let highest = (0..NODES).rfind(|&index| unit.memory.is_free(unit.image, index));
        let highest = highest.unwrap_or_default() as u64;
        match Paper.call_kind(unit, named, call) {
            Kind::Derive { .. } => Kind::Derive { node: highest },
            Kind::Succeed { parent, .. } => Kind::Succeed { node: highest, parent },
            kind => kind,
        }
    }
}

DeriveBehind: "a derive takes the first free node behind its parent"
[requests: Requests] {
    fn call_kind(&self, unit: Unit, named: usize, call: &TreeCall) -> Kind {
        let behind = (named..NODES).find(|&index| unit.memory.is_free(unit.image, index));
        let node = behind.or(unit.free_node()).unwrap_or_default() as u64;
        match Paper.call_kind(unit, named, call) {
            Kind::Derive { .. } => Kind::Derive { node },
            Kind::Succeed { parent, .. } => Kind::Succeed { node, parent },
            kind => kind,
        }
    }
}

ChildOfRoot: "a derived child goes below the root"
[requests: Requests] {
    fn call_work(&self, unit: Unit, call: &TreeCall, answer: &[u8]) -> Work {
        let root = unit.root().unwrap_or_default() as u32;
        with_word(unit, call, answer, 0, root << 16 | USED)
    }
}

ChildOfHolder: "a derived child goes below the holder of the default handle"
[requests: Requests] {
    fn call_work(&self, unit: Unit, call: &TreeCall, answer: &[u8]) -> Work {
        let holder = unit.holder().unwrap_or(named(unit, call)) as u32;
        with_word(unit, call, answer, 0, holder << 16 | USED)
    }
}

ChildHasDefault: "a derived child gets the default handle"
[requests: Requests] {
    fn call_work(&self, unit: Unit, call: &TreeCall, answer: &[u8]) -> Work {
        altered(unit, call, answer, |work| {
            if call.act.is_derive() {
                work.set_handle(&DEFAULT);
            }
        })
    }
}

ChildHasParents: "a derived child of a retired parent gets the parent's handle"
[requests: Requests] {
    fn call_work(&self, unit: Unit, call: &TreeCall, answer: &[u8]) -> Work {
        altered(unit, call, answer, |work| {
            if let Act::Derive { retain: 0, .. } = call.act {
                work.set_handle(&call.handle);
            }
        })
    }
}

ChildHasSvn: "a derived child has its parent's svn"
[requests: Requests] {
    fn call_work(&self, unit: Unit, call: &TreeCall, answer: &[u8]) -> Work {
        let svn = node_of(unit.image, named(unit, call))[SVN];
        with_word(unit, call, answer, SVN, svn)
    }
}

ChildSvnOne: "a derived child has svn 1"
[requests: Requests] {
    fn call_work(&self, unit: Unit, call: &TreeCall, answer: &[u8]) -> Work {
        with_word(unit, call, answer, SVN, 1)
    }
}

ChildLocalityZero: "a derived child's locality is 0"
[requests: Requests] {
    fn call_work(&self, unit: Unit, call: &TreeCall, answer: &[u8]) -> Work {
        with_word(unit, call, answer, LOCALITY, 0)
    }
}

ChildTypeOfParent: "a derived child has its parent's type"
[requests: Requests] {
    fn call_work(&self, unit: Unit, call: &TreeCall, answer: &[u8]) -> Work {
        let kind = node_of(unit.image, named(unit, call))[TYPE];
        with_word(unit, call, answer, TYPE, kind)
    }
}

ChildInternal: "a derived child is internal"
[requests: Requests] {
    fn call_work(&self, unit: Unit, call: &TreeCall, answer: &[u8]) -> Work {
        with_word(unit, call, answer, FLAGS, INTERNAL)
    }
}

ChildHasTag: "a derived child has its parent's tag"
[requests: Requests] {
    fn call_work(&self, unit: Unit, call: &TreeCall, answer: &[u8]) -> Work {
        let tag = node_of(unit.image, named(unit, call))[TAG];
        with_word(unit, call, answer, TAG, tag)
    }
}

ChildFromParent: "a derived child's cumulative extends its parent's"
[requests: Requests] {
    fn call_work(&self, unit: Unit, call: &TreeCall, answer: &[u8]) -> Work {
        let above = unit.bytes_at(node(named(unit, call)) + NODE_CUMULATIVE);
        altered(unit, call, answer, |work| {
            if let Act::Derive { digest, .. } = call.act {
                work.set_node(NODE_CUMULATIVE, &extended(&above, &digest));
            }
        })
    }
}

ChildCumulativeIsDigest: "a derived child's cumulative is the digest"
[requests: Requests] {
    fn call_work(&self, unit: Unit, call: &TreeCall, answer: &[u8]) -> Work {
        altered(unit, call, answer, |work| {
            if let Act::Derive { digest, .. } = call.act {
                work.set_node(NODE_CUMULATIVE, &digest);
            }
        })
    }
}

DeriveExtendsStashed: "a derive extends PCR31"
[works: Works] {
    fn store(&self, work: &mut Work, image: &mut [u32]) -> u32 {
        let number = Paper.store(work, image);
        if let (0, 1, Sort::Derive | Sort::Succeed) = (number, work.position, work.kind.sort()) {
            let old = bytes_of(&image[register(STASHED)..]);
            let by = bytes_of(&work.node[NODE_CURRENT..]);
            let stashed = words_of(&extended(&old, &by));
            image[register(STASHED)..][..DIGEST_WORDS].copy_from_slice(&stashed);
        }
        number
    }
}

CumulativeNotExtended: "an extend leaves the cumulative"
[requests: Requests] {
    fn call_work(&self, unit: Unit, call: &TreeCall, answer: &[u8]) -> Work {
        let old = unit.bytes_at(node(named(unit, call)) + NODE_CUMULATIVE);
        altered(unit, call, answer, |work| {
            if let Act::Extend { .. } = call.act {
                work.set_node(NODE_CUMULATIVE, &old);
            }
        })
    }
}

CumulativeAnew: "an extend takes the cumulative from zero"
[requests: Requests] {
    fn call_work(&self, unit: Unit, call: &TreeCall, answer: &[u8]) -> Work {
        altered(unit, call, answer, |work| {
            if let Act::Extend { digest } = call.act {
                work.set_node(NODE_CUMULATIVE, &extended(&ZERO, &digest));
            }
        })
    }
}

CurrentNotSet: "an extend leaves the current measurement"
[requests: Requests] {
    fn call_work(&self, unit: Unit, call: &TreeCall, answer: &[u8]) -> Work {
        let old = unit.bytes_at(node(named(unit, call)) + NODE_CURRENT);
        altered(unit, call, answer, |work| {
            if let Act::Extend { .. } = call.act {
                work.set_node(NODE_CURRENT, &old);
            }
        })
    }
}

CurrentExtended: "an extend extends the current measurement"
[requests: Requests] {
    fn call_work(&self, unit: Unit, call: &TreeCall, answer: &[u8]) -> Work {
        let old = unit.bytes_at(node(named(unit, call)) + NODE_CURRENT);
        altered(unit, call, answer, |work| {
            if let Act::Extend { digest } = call.act {
                work.set_node(NODE_CURRENT, &extended(&old, &digest));
            }
        })
    }
}

CumulativeFirst: "an extend stores the cumulative before the current"
[works: Works] {
    fn fields<'a>(&self, work: &'a Work) -> Vec<Field<'a>> {
        of_sort(work, Sort::Remeasure, |fields| fields.swap(1, 2))
    }
}

RotateFourWords: "a rotate leaves the last word of the handle"
[works: Works] {
    fn fields<'a>(&self, work: &'a Work) -> Vec<Field<'a>> {
        of_sort(work, Sort::Rotate, |fields| fields[1].1 = &fields[1].1[..4])
    }
}

RotateRetires: "a rotate retires the node"
[works: Works] {
    fn fields<'a>(&self, work: &'a Work) -> Vec<Field<'a>> {
        of_sort(work, Sort::Rotate, |fields| fields[1].1 = &RETIRED_HANDLE)
    }
}

RotatePutsDefault: "a rotate of a node gives it the default handle"
[requests: Requests] {
    fn call_work(&self, unit: Unit, call: &TreeCall, answer: &[u8]) -> Work {
        altered(unit, call, answer, |work| {
            if call.act == Act::Rotate {
                work.set_handle(&DEFAULT);
            }
        })
    }
}

HandleBeforeChild: "a derive without retain retires the parent before it stores the child"
[works: Works] {
    fn fields<'a>(&self, work: &'a Work) -> Vec<Field<'a>> {
        of_sort(work, Sort::Succeed, |fields| fields.swap(1, 2))
    }
}

MarkBeforeParent: "a derive without retain ends before the parent's handle"
[works: Works] {
    fn fields<'a>(&self, work: &'a Work) -> Vec<Field<'a>> {
        of_sort(work, Sort::Succeed, |fields| fields.swap(2, 3))
    }
}

ChildWithoutSvn: "a derive does not store the child's svn"
[works: Works] {
    fn fields<'a>(&self, work: &'a Work) -> Vec<Field<'a>> {
        let mut fields = Paper.fields(work);
        if matches!(work.kind.sort(), Sort::Derive | Sort::Succeed) {
            fields[1].1 = &work.node[..SVN];
        }
        fields
    }
}

NodeOnlyFreed: "a destroy frees its node alone"
[requests: Requests] {
    fn call_work(&self, unit: Unit, call: &TreeCall, answer: &[u8]) -> Work {
        freeing(unit, call, answer, &[named(unit, call)])
    }
}

ParentOnlyFreed: "a destroy frees its node and at most one ancestor"
[requests: Requests] {
    fn call_work(&self, unit: Unit, call: &TreeCall, answer: &[u8]) -> Work {
        let freed = unit.freed(named(unit, call));
        freeing(unit, call, answer, &freed[..freed.len().min(2)])
    }
}

OtherChildLeft: "a retired ancestor with another child is freed, too"
[requests: Requests] {
    fn call_work(&self, unit: Unit, call: &TreeCall, answer: &[u8]) -> Work {
        let Unit { memory, image } = unit;
        let freed = freed_while(unit, named(unit, call), |above, _| {
            memory.is_retired(image, above) && !memory.is_root(image, above)
        });
        freeing(unit, call, answer, &freed)
    }
}

LiveAncestorFreed: "a live ancestor left childless is freed, too"
[requests: Requests] {
    fn call_work(&self, unit: Unit, call: &TreeCall, answer: &[u8]) -> Work {
        let Unit { memory, image } = unit;
        let freed = freed_while(unit, named(unit, call), |above, freed| {
            let children = memory.children(image, above);
            !memory.is_root(image, above) && children.iter().all(|child| freed.contains(child))
        });
        freeing(unit, call, answer, &freed)
    }
}

HolderFreed: "an ancestor with the default handle goes as a retired one does"
[requests: Requests] {
    fn call_work(&self, unit: Unit, call: &TreeCall, answer: &[u8]) -> Work {
        let Unit { memory, image } = unit;
        let freed = freed_while(unit, named(unit, call), |above, freed| {
            let children = memory.children(image, above);
            (memory.is_retired(image, above) || memory.is_holder(image, above))
                && !memory.is_root(image, above)
                && children.iter().all(|child| freed.contains(child))
        });
        freeing(unit, call, answer, &freed)
    }
}

RootFreed: "a retired root left childless is freed, too"
[requests: Requests] {
    fn call_work(&self, unit: Unit, call: &TreeCall, answer: &[u8]) -> Work {
        let Unit { memory, image } = unit;
        let freed = freed_while(unit, named(unit, call), |above, freed| {
            let children = memory.children(image, above);
            memory.is_retired(image, above) && children.iter().all(|child| freed.contains(child))
        });
        freeing(unit, call, answer, &freed)
    }
}

FreedDownwards: "a destroy frees the highest ancestor first"
[requests: Requests] {
    fn call_work(&self, unit: Unit, call: &TreeCall, answer: &[u8]) -> Work {
        let mut freed = unit.freed(named(unit, call));
        freed.reverse();
        freeing(unit, call, answer, &freed)
    }
}

FreedRising: "a destroy frees nodes by their index"
[requests: Requests] {
    fn call_work(&self, unit: Unit, call: &TreeCall, answer: &[u8]) -> Work {
        let mut freed = unit.freed(named(unit, call));
        freed.sort_unstable();
        freeing(unit, call, answer, &freed)
    }
}

AllRetiredFreed: "a destroy frees every retired node without a child"
[requests: Requests] {
    fn call_work(&self, unit: Unit, call: &TreeCall, answer: &[u8]) -> Work {
        let Unit { memory, image } = unit;
        let mut freed = unit.freed(named(unit, call));
        let is_lost = |&index: &usize| {
            memory.is_used(image, index)
                && memory.is_retired(image, index)
                && !memory.is_root(image, index)
                && memory.children(image, index).is_empty()
        };
        let lost: Vec<usize> = (0..NODES).filter(is_lost).filter(|i| !freed.contains(i)).collect();
        freed.extend(lost);
        freeing(unit, call, answer, &freed)
    }
}

DestroyRevivesRoot: "a destroy gives the root the default handle if no node has it"
[works: Works] {
    fn store(&self, work: &mut Work, image: &mut [u32]) -> u32 {
        let number = Paper.store(work, image);
        let done = number == 0 && Paper.left(work) == 0;
        if done && work.kind.sort() == Sort::Destroy && Paper.holder(image).is_none() {
            if let Some(root) = Paper.root(image) {
                image[node(root) + HANDLE..][..HANDLE_WORDS].fill(0);
            }
        }
        number
    }
}

FreedWithoutSvn: "a destroy stores 34 words of each node"
[works: Works] {
    fn fields<'a>(&self, work: &'a Work) -> Vec<Field<'a>> {
        destroying(work, |fields| {
            let last = fields.len() - 1;
            fields[1..last].iter_mut().for_each(|(_, words)| *words = &words[..SVN]);
        })
    }
}

FreedFirstWord: "a destroy stores only the first word of each node"
[works: Works] {
    fn fields<'a>(&self, work: &'a Work) -> Vec<Field<'a>> {
        destroying(work, |fields| {
            let last = fields.len() - 1;
            fields[1..last].iter_mut().for_each(|(_, words)| *words = &words[..1]);
        })
    }
}

MarkBeforeLastFreed: "a destroy's mark 1 comes before the last node"
[works: Works] {
    fn fields<'a>(&self, work: &'a Work) -> Vec<Field<'a>> {
        destroying(work, |fields| {
            let last = fields.len() - 1;
            if last > 1 {
                fields.swap(last - 1, last);
            }
        })
    }
}

DestroyOneMore: "a destroy stores its mark twice"
[works: Works] {
    fn fields<'a>(&self, work: &'a Work) -> Vec<Field<'a>> {
        destroying(work, |fields| fields.push((MARK, &[DONE])))
    }
}

FreedAtStore: "a destroy looks at the tree again when it starts to store"
[works: Works] {
    fn store(&self, work: &mut Work, image: &mut [u32]) -> u32 {
        let number = Paper.store(work, image);
        if let (0, 1, Some(freed)) = (number, work.position, work.kind.freed()) {
            let first = freed.indices[0] as usize;
            if freed.number > 0 && Paper.is_used(image, first) {
                *freed = Freed::of(&Paper.freed(image, first));
            }
        }
        number
    }
}

FreedNumberPast: "a destroy with more nodes than there are frees all of its indices"
[works: Works] {
    sees!(capped);
}

FreedNumberOneLess: "a destroy with as many nodes as there are is damaged"
[works: Works] {
    fn are_nodes(&self, freed: &Freed) -> bool {
        Paper.are_nodes(freed) && freed.number < NODES as u64
    }
}

FreedIndexModulo: "a destroy's indices are taken modulo the number of nodes"
[works: Works] {
    sees!(wrapped_freed);
}

FreedLastNotChecked: "a destroy's last index is not looked at, and 0 if it is no node"
[works: Works] {
    sees!(last_mended);
}

FreedBehindCounts: "every index of a destroy has to be a node"
[works: Works] {
    fn are_nodes(&self, freed: &Freed) -> bool {
        freed.number <= NODES as u64 && freed.indices.iter().all(|&index| self.is_node(index))
    }
}

FreedHalf: "the number and the indices of a destroy are cut to 32 bits"
[works: Works] {
    sees!(half_freed);
}

FreedNoneDamaged: "a destroy of no nodes is damaged"
[works: Works] {
    fn are_nodes(&self, freed: &Freed) -> bool {
        Paper.are_nodes(freed) && freed.number > 0
    }
}

FreedTwiceDamaged: "a destroy that names a node twice is damaged"
[works: Works] {
    fn are_nodes(&self, freed: &Freed) -> bool {
        let counted = freed.counted();
        let twice = |place: usize| counted[..place].contains(&counted[place]);
        Paper.are_nodes(freed) && !(0..counted.len()).any(twice)
    }
}

FreedNotSet: "no field sets what a destroy frees"
[host: Host] {
    fn set_freed(&self, _: &mut Freed, _: u8, _: u64) {}
}

FirstIsFreed: "field 1 sets the first node that a destroy frees"
[host: Host] {
    fn set_part(&self, work: &mut Work, field: u8, value: u64) {
        match work.kind.freed() {
            Some(freed) if field == 1 => freed.indices[0] = value,
            _ => Paper.set_part(work, field, value),
        }
    }
}

DeriveHasSecond: "a derive with retain has a second index"
[works: Works] {
    fn is_sound(&self, work: &Work) -> bool {
        let marked = matches!(work.kind, Kind::Derive { .. }) && work.secret[0] == u32::MAX;
        Paper.is_sound(work) && !marked
    }
}
[host: Host] {
    fn set_part(&self, work: &mut Work, field: u8, value: u64) {
        if let (2, Kind::Derive { .. }) = (field, work.kind) {
            work.secret[0] = if value < NODES as u64 { 0 } else { u32::MAX };
        }
        Paper.set_part(work, field, value);
    }
}

OldHandleRule: "every handle but the default one has to be retired"
[memory: Memory] {
    fn is_alone(&self, image: &[u32], index: usize) -> bool {
        self.is_holder(image, index) || self.is_retired(image, index)
    }
}

HandlesNotCompared: "two nodes may have one live handle"
[memory: Memory] {
    fn is_alone(&self, _: &[u32], _: usize) -> bool {
        true
    }
}

HandlesByFirstWord: "handles whose first words are equal are equal"
[memory: Memory] {
    fn is_alone(&self, image: &[u32], index: usize) -> bool {
        let first = handle_of(image, index)[0];
        let same = |other: usize| {
            self.is_used(image, other)
                && !self.is_retired(image, other)
                && handle_of(image, other)[0] == first
        };
        self.is_retired(image, index) || count(same) <= 1
    }
}

HandlesWithRetired: "two retired handles are equal handles"
[memory: Memory] {
    fn is_alone(&self, image: &[u32], index: usize) -> bool {
        let handle = handle_of(image, index);
        count(|other| self.is_used(image, other) && handle_of(image, other) == handle) == 1
    }
}

HandlesWithFree: "the default handle may not be a free node's"
[memory: Memory] {
    fn has_few_holders(&self, image: &[u32]) -> bool {
        Paper.has_few_holders(image)
            && !(Paper.holder(image).is_none() && Paper.free_node(image).is_some())
    }
}

LiveHandleRequired: "without a live handle a tree is not well formed"
[memory: Memory] {
    fn well_formed(&self, image: &[u32]) -> bool {
        let is_live = |index: usize| self.is_used(image, index) && !self.is_retired(image, index);
        Paper.well_formed(image) && count(is_live) > 0
    }
}

RootMustLive: "a retired root is not well formed unless a node holds the default handle"
[memory: Memory] {
    fn well_formed(&self, image: &[u32]) -> bool {
        let retired = self.root(image).is_some_and(|root| self.is_retired(image, root));
        Paper.well_formed(image) && !(retired && self.holder(image).is_none())
    }
}

UpdateRevivesRoot: "an update gives the root the default handle if no node has it"
[works: Works] {
    fn store(&self, work: &mut Work, image: &mut [u32]) -> u32 {
        let number = Paper.store(work, image);
        if let (Kind::Update { root }, 0, 0) = (work.kind, number, Paper.left(work)) {
            if Paper.holder(image).is_none() && root < NODES as u64 {
                image[node(root as usize) + HANDLE..][..HANDLE_WORDS].fill(0);
            }
        }
        number
    }
}

EntryOfDeriveByRetain: "a derive without retain has an entry of kind 7"
[journal: Journals] {
    fn kind(&self, sort: Sort) -> Option<u8> {
        match sort {
            Sort::Succeed => Some(REMEASURE_ENTRY),
            _ => Paper.kind(sort),
        }
    }
}

EntryOfRotateIsDestroy: "the kinds of a rotate and of a destroy are exchanged"
[journal: Journals] {
    fn kind(&self, sort: Sort) -> Option<u8> {
        match sort {
            Sort::Rotate => Some(DESTROY_ENTRY),
            Sort::Destroy => Some(ROTATE_ENTRY),
            _ => Paper.kind(sort),
        }
    }
}

EntryOfDeriveIsStash: "a derive has an entry of a stash's kind"
[journal: Journals] {
    fn kind(&self, sort: Sort) -> Option<u8> {
        Paper.kind(sort).map(|kind| if kind == DERIVE_ENTRY { 4 } else { kind })
    }
}

EntryFreshFirst: "a tree command's entry has the fresh handle before the data"
[requests: Requests] {
    fn told_of_call(&self, call: &TreeCall) -> Vec<Value> {
        told(call, |told| {
            if call.act.takes_fresh() {
                let fresh = told.remove(told.len() - 2);
                told.insert(0, fresh);
            }
        })
    }
}

EntryCallerFirst: "a tree command's entry has the caller before the fresh handle"
[requests: Requests] {
    fn told_of_call(&self, call: &TreeCall) -> Vec<Value> {
        told(call, |told| {
            let last = told.len() - 1;
            told.swap(last - 1, last);
        })
    }
}

EntryWithoutFresh: "a tree command's entry lacks the fresh handle"
[requests: Requests] {
    fn told_of_call(&self, call: &TreeCall) -> Vec<Value> {
        told(call, |told| {
            if call.act.takes_fresh() {
                told.remove(told.len() - 2);
            }
        })
    }
}

EntryFreshAlways: "every tree command's entry has a fresh handle"
[requests: Requests] {
    fn told_of_call(&self, call: &TreeCall) -> Vec<Value> {
        told(call, |told| {
            if !call.act.takes_fresh() {
                told.insert(told.len() - 1, Value::Handle(call.fresh));
            }
        })
    }
}

EntryCallLacksCaller: "a tree command's entry lacks the caller"
[requests: Requests] {
    fn told_of_call(&self, call: &TreeCall) -> Vec<Value> {
        told(call, |told| {
            told.pop();
        })
    }
}

EntryTypeBeforeRetain: "a derive's entry has the type before retain"
[requests: Requests] {
    fn told_of_call(&self, call: &TreeCall) -> Vec<Value> {
        told(call, |told| {
            if call.act.is_derive() {
                told.swap(1, 2);
            }
        })
    }
}

EntryWithoutRetain: "a derive's entry lacks retain"
[requests: Requests] {
    fn told_of_call(&self, call: &TreeCall) -> Vec<Value> {
        told(call, |told| {
            if call.act.is_derive() {
                told.remove(1);
            }
        })
    }
}

EntryRetainOne: "a derive's entry always has retain 1"
[requests: Requests] {
    fn told_of_call(&self, call: &TreeCall) -> Vec<Value> {
        told(call, |told| {
            if call.act.is_derive() {
                told[1] = Value::Number(1);
            }
        })
    }
}

EntryNodeCumulative: "an extend's entry has the node's cumulative for the digest"
[requests: Requests] {
    fn call_work(&self, unit: Unit, call: &TreeCall, answer: &[u8]) -> Work {
        altered(unit, call, answer, |work| {
            if let Act::Extend { .. } = call.act {
                work.told[1] = Value::Digest(bytes_of(&work.node[NODE_CUMULATIVE..]));
            }
        })
    }
}

EntryOldHandle: "a rotate's entry has both handles exchanged"
[requests: Requests] {
    fn told_of_call(&self, call: &TreeCall) -> Vec<Value> {
        told(call, |told| {
            if call.act == Act::Rotate {
                told.swap(0, 1);
            }
        })
    }
}

EntryFreed: "a destroy's entry has the number of freed nodes behind the caller"
[journal: Journals] {
    fn values(&self, work: &Work) -> Vec<Value> {
        let mut values = Paper.values(work);
        if let Kind::Destroy(freed) = work.kind {
            values.push(Value::Number(freed.number as u32));
        }
        values
    }
}

}
