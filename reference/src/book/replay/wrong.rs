//! Replayers that are wrong on purpose: the inputs of the program have to tell
//! each of them.

use super::*;
use crate::book::tree::derived;
use crate::book::{root, runtime_then_manifest, stashed, Node};
use crate::journal::read::Form;

/// A wrong replayer.
pub struct WrongReplayer {
    pub name: &'static str,
    /// What it does instead.
    pub says: &'static str,
    pub replays: &'static dyn Replays,
}

/// The wrong replayer of a name.
pub fn named(name: &str) -> Option<&'static WrongReplayer> {
    let mut all = REPLAYERS.iter().chain([&HOARDER]);
    all.find(|wrong| wrong.name == name)
}

/// The one that writes what is right, and is told by its memory alone.
pub const HOARDER: WrongReplayer = WrongReplayer {
    name: "Hoarder",
    says: "the whole journal is kept in memory",
    replays: &Hoarder,
};

struct Hoarder;

impl Reads for Hoarder {}

impl Replays for Hoarder {
    fn inspect(&self, image: &[u32], journal: &mut Bytes) -> Found {
        let all: Vec<u8> = journal.collect();
        let mut again = Bytes::new(&all[..]);
        Inspector.inspect(image, &mut again)
    }
}

/// A list of replayers: a name, what it says, and the methods that it has instead
/// to read and to replay.
macro_rules! replayers {
    ($($name:ident: $says:literal
       $([reads] { $($reads:tt)* })? $([replays] { $($replays:tt)* })?)*) => {
        $(
            struct $name;
            impl Reads for $name { $($($reads)*)? }
            impl Replays for $name { $($($replays)*)? }
        )*

        pub const REPLAYERS: &[WrongReplayer] = &[$(WrongReplayer {
            name: stringify!($name),
            says: $says,
            replays: &$name,
        }),*];
    };
}

/// What the right number is taken for.
fn renumbered<T>(result: Result<T, u32>, from: u32, to: u32) -> Result<T, u32> {
    result.map_err(|number| if number == from { to } else { number })
}

/// The bytes of a number up to the first without the top bit, at most so many.
fn number_bytes(bytes: &mut Bytes, most: usize) -> Result<Vec<u8>, u32> {
    let mut all = Vec::new();
    loop {
        let byte = bytes.next().ok_or(number::CUT)?;
        all.push(byte);
        if byte & MORE == 0 || all.len() == most {
            return Ok(all);
        }
    }
}

/// What groups come to, as far as 32 bits go.
fn joined(groups: &[u8]) -> u32 {
    let places = groups.iter().zip(0..);
    places.fold(0, |number, (byte, place)| {
        let group = u64::from(byte & !MORE) << (GROUP_BITS * place).min(63);
        number | group as u32
    })
}

/// Counts an event; one that is so alters the state besides, which is given with
/// the one before.
fn altered(
    before: Standing,
    event: &Event,
    is_so: fn(&Event) -> bool,
    alter: fn(&State, &mut State),
) -> Standing {
    let old = before.state.clone();
    let mut after = Inspector.counted(before, event);
    if is_so(event) {
        alter(&old, &mut after.state);
    }
    after
}

fn is_cold(event: &Event) -> bool {
    matches!(event, Event::Cold(_))
}

fn is_update(event: &Event) -> bool {
    matches!(event, Event::Update(_))
}

fn is_stash(event: &Event) -> bool {
    matches!(event, Event::Stash(_))
}

fn is_extension(event: &Event) -> bool {
    matches!(event, Event::Extension(_))
}

/// Counts an event whose state cannot be worked out as nothing.
fn counted_or_not(before: Standing, event: &Event, can: bool) -> Standing {
    let state = before.state.clone();
    if can {
        return Inspector.counted(before, event);
    }
    Standing {
        booted: true,
        state,
        ..before
    }
}

/// The words of a register.
fn is_in(index: usize, word: usize) -> bool {
    (register(index)..register(index + 1)).contains(&word)
}

/// The offset of a word in its node, for words of nodes.
fn node_word(word: usize) -> Option<usize> {
    word.checked_sub(NODES_AT).map(|word| word % NODE_WORDS)
}

replayers! {

LongestForm: "a number may end in groups of zeros"
[reads] {
    fn is_possible(&self, place: u32, byte: u8) -> bool {
        Inspector.is_possible(place, byte) || byte == 0
    }
}

ZeroGroupOnce: "a number of two bytes may end in a group of zeros"
[reads] {
    fn is_possible(&self, place: u32, byte: u8) -> bool {
        Inspector.is_possible(place, byte) || place == 1
    }
}

FifthGroupZero: "a number of five bytes may end in a group of zeros"
[reads] {
    fn is_possible(&self, place: u32, byte: u8) -> bool {
        Inspector.is_possible(place, byte) || place == 4 && byte == 0
    }
}

ThirtyThreeBits: "a number may have 33 bits, the last of which is lost"
[reads] {
    fn is_possible(&self, place: u32, byte: u8) -> bool {
        Inspector.is_possible(place, byte) || place == 4 && byte & !0x1F == 0 && byte != 0
    }
}

ThirtyOneBits: "a number has 31 bits at most"
[reads] {
    fn is_possible(&self, place: u32, byte: u8) -> bool {
        Inspector.is_possible(place, byte) && (place < 4 || byte < 8)
    }
}

FourGroups: "a number has four bytes at most"
[reads] {
    fn is_possible(&self, place: u32, byte: u8) -> bool {
        Inspector.is_possible(place, byte) && (place < 3 || byte & MORE == 0)
    }
}

ManyGroups: "a number goes on as long as the top bit is set"
[reads] {
    fn number(&self, bytes: &mut Bytes) -> Result<u32, u32> {
        number_bytes(bytes, usize::MAX).map(|all| joined(&all))
    }
}

FifthEndsAnyway: "a number's fifth byte is its last, with the top bit too"
[reads] {
    fn number(&self, bytes: &mut Bytes) -> Result<u32, u32> {
        number_bytes(bytes, NUMBER_BYTES as usize).map(|all| joined(&all))
    }
}

HighestGroupFirst: "a number's highest group comes first"
[reads] {
    fn number(&self, bytes: &mut Bytes) -> Result<u32, u32> {
        let number = Inspector.number(bytes)?;
        let mut all = groups(number);
        all.reverse();
        Ok(joined(&all))
    }
}

CutBeforeForm: "a number is read to its end before its form counts"
[reads] {
    fn number(&self, bytes: &mut Bytes) -> Result<u32, u32> {
        let all = number_bytes(bytes, usize::MAX)?;
        let mut again = Bytes::new(&all[..]);
        Inspector.number(&mut again)
    }
}

EntryBeforeForm: "an entry that is cut is 22, whatever its numbers"
[reads] {
    fn entry_of(&self, kind: u8, bytes: &mut Bytes) -> Result<Entry, u32> {
        let mut whole = Vec::new();
        for form in self.forms(kind).ok_or(number::KIND)? {
            whole.extend(match form {
                Form::Number => number_bytes(bytes, NUMBER_BYTES as usize)?,
                Form::Digest => self.digest(bytes)?.to_vec(),
                Form::Handle => self.handle(bytes)?.to_vec(),
            });
        }
        let mut again = Bytes::new(&whole[..]);
        Inspector.entry_of(kind, &mut again)
    }
}

CutIs21: "a cut number is 21"
[reads] {
    fn number(&self, bytes: &mut Bytes) -> Result<u32, u32> {
        renumbered(Inspector.number(bytes), number::CUT, number::GROUPS)
    }
}

GroupsAre22: "a number's wrong byte is 22"
[reads] {
    fn number(&self, bytes: &mut Bytes) -> Result<u32, u32> {
        renumbered(Inspector.number(bytes), number::GROUPS, number::CUT)
    }
}

CutIs20: "a cut entry is 20"
[reads] {
    fn entry_of(&self, kind: u8, bytes: &mut Bytes) -> Result<Entry, u32> {
        renumbered(Inspector.entry_of(kind, bytes), number::CUT, number::KIND)
    }
}

CutIs24: "a cut entry is 24"
[reads] {
    fn entry_of(&self, kind: u8, bytes: &mut Bytes) -> Result<Entry, u32> {
        renumbered(Inspector.entry_of(kind, bytes), number::CUT, number::UNCOUNTED)
    }
}

KindIs24: "a kind that is not listed is 24"
[reads] {
    fn entry_of(&self, kind: u8, bytes: &mut Bytes) -> Result<Entry, u32> {
        renumbered(Inspector.entry_of(kind, bytes), number::KIND, number::UNCOUNTED)
    }
}

CutEntryLeft: "a cut entry at the end is left out"
[reads] {
    fn entry(&self, bytes: &mut Bytes) -> Result<Option<Entry>, u32> {
        match Inspector.entry(bytes) {
            Err(number::CUT) => Ok(None),
            read => read,
        }
    }
}

CutDigestFilled: "a cut digest is filled with zeros"
[reads] {
    fn digest(&self, bytes: &mut Bytes) -> Result<Digest, u32> {
        Ok(std::array::from_fn(|_| bytes.next().unwrap_or(0)))
    }
}

KindZeroSkipped: "a byte 00 between entries is skipped"
[reads] {
    fn entry(&self, bytes: &mut Bytes) -> Result<Option<Entry>, u32> {
        loop {
            match bytes.next() {
                Some(0) => {}
                kind => return kind.map(|kind| self.entry_of(kind, bytes)).transpose(),
            }
        }
    }
}

KindTenTaken: "kind 10 is taken for a disabling"
[reads] {
    fn forms(&self, kind: u8) -> Option<&'static [Form]> {
        Inspector.forms(if kind == 10 { DISABLING_ENTRY } else { kind })
    }
}

KindsAsBefore: "kinds 6 to 9 are not listed"
[reads] {
    fn forms(&self, kind: u8) -> Option<&'static [Form]> {
        Inspector.forms(kind).filter(|_| kind < DERIVE_ENTRY)
    }
}

CallerBeforeFresh: "a tree command's caller comes before the fresh handle"
[reads] {
    fn forms(&self, kind: u8) -> Option<&'static [Form]> {
        use Form::{Digest as D, Handle as H, Number as N};
        match kind {
            DERIVE_ENTRY => Some(&[H, N, N, D, N, H]),
            ROTATE_ENTRY => Some(&[H, N, H]),
            _ => Inspector.forms(kind),
        }
    }
}

TypeBeforeRetain: "a derive's type comes before retain"
[replays] {
    fn event(&self, entry: &Entry) -> Event {
        let mut entry = entry.clone();
        if entry.kind == DERIVE_ENTRY {
            entry.values.swap(1, 2);
        }
        Inspector.event(&entry)
    }
}

HandlesExchanged: "a rotate's handles are exchanged"
[replays] {
    fn event(&self, entry: &Entry) -> Event {
        let mut entry = entry.clone();
        if entry.kind == ROTATE_ENTRY {
            entry.values.swap(0, 1);
        }
        Inspector.event(&entry)
    }
}

RetainIsForm: "a retain above 1 is 21"
[reads] {
    fn entry_of(&self, kind: u8, bytes: &mut Bytes) -> Result<Entry, u32> {
        let entry = Inspector.entry_of(kind, bytes)?;
        match entry.values.get(1) {
            Some(Value::Number(2..)) if kind == DERIVE_ENTRY => Err(number::GROUPS),
            _ => Ok(entry),
        }
    }
}

RetainAboveOne: "a retain above 1 is 1"
[replays] {
    fn is_retain(&self, _: u32) -> bool {
        true
    }
}

RetainTurned: "retain is taken the other way round"
[replays] {
    fn reading(&self) -> Reading {
        Reading {
            called: |state, node, call, reading| {
                let mut call = call.clone();
                if let Act::Derive { retain, .. } = &mut call.act {
                    *retain = u32::from(*retain == 0);
                }
                state.called(node, &call, reading);
            },
            ..Reading::PAPER
        }
    }
}

HandleIs20: "a handle that no node has is 20"
[replays] {
    fn next(&self, standing: &Standing, journal: &mut Bytes) -> Result<Option<Event>, u32> {
        let Some(entry) = self.entry(journal)? else {
            return Ok(None);
        };
        let event = self.event(&entry);
        let unheld = matches!(&event, Event::Tree(call) if standing.state.with_handle(&call.handle).is_none());
        match self.could_count(standing, &event) {
            true => Ok(Some(event)),
            false if unheld => Err(number::KIND),
            false => Err(number::UNCOUNTED),
        }
    }
}

UnheldSkipped: "a tree command whose handle no node has is skipped"
[replays] {
    fn could_call(&self, state: &State, call: &TreeCall) -> bool {
        state.with_handle(&call.handle).is_none() || Inspector.could_call(state, call)
    }
    fn counted(&self, before: Standing, event: &Event) -> Standing {
        let can = match event {
            Event::Tree(call) => before.state.with_handle(&call.handle).is_some(),
            _ => true,
        };
        counted_or_not(before, event, can)
    }
}

CallWhileOff: "a tree command may come after a disabling"
[replays] {
    fn goes_off(&self, event: &Event) -> bool {
        Inspector.goes_off(event) || matches!(event, Event::Tree(_))
    }
}

AnyCaller: "a tree command's caller is not compared"
[replays] {
    fn may_call(&self, _: &State, _: usize, _: u32) -> bool {
        true
    }
}

CallerZeroCalls: "caller 0 may call at every node"
[replays] {
    fn may_call(&self, state: &State, node: usize, caller: u32) -> bool {
        caller == 0 || Inspector.may_call(state, node, caller)
    }
}

FreshNotLookedAt: "any fresh handle is taken"
[replays] {
    fn is_fresh(&self, _: &State, _: &TreeCall) -> bool {
        true
    }
}

FreshZeroTaken: "a fresh handle of zeros is taken if no node has it"
[replays] {
    fn is_fresh(&self, state: &State, call: &TreeCall) -> bool {
        let none = call.fresh == DEFAULT && state.with_handle(&DEFAULT).is_none();
        none || Inspector.is_fresh(state, call)
    }
}

FreshRetiredTaken: "a fresh handle of all 0xFF is taken"
[replays] {
    fn is_fresh(&self, state: &State, call: &TreeCall) -> bool {
        call.fresh == RETIRED || Inspector.is_fresh(state, call)
    }
}

FreshInUseTaken: "a fresh handle may be in use"
[replays] {
    fn is_fresh(&self, _: &State, call: &TreeCall) -> bool {
        call.fresh != DEFAULT && call.fresh != RETIRED
    }
}

FullDeriveSkipped: "a derive with no free node is skipped"
[replays] {
    fn has_room_below(&self, _: &State) -> bool {
        true
    }
    fn counted(&self, before: Standing, event: &Event) -> Standing {
        let derives = matches!(event, Event::Tree(call) if call.act.is_derive());
        let can = !derives || before.state.has_room();
        counted_or_not(before, event, can)
    }
}

RootExtended: "the root may be extended"
[replays] {
    fn may_extend(&self, _: &State, _: usize) -> bool {
        true
    }
}

RootDestroyed: "the root may be destroyed"
[replays] {
    fn may_destroy(&self, state: &State, node: usize) -> bool {
        !state.has_child(node)
    }
    fn counted(&self, before: Standing, event: &Event) -> Standing {
        let can = before.state.nodes[0].is_some() || is_cold(event);
        counted_or_not(before, event, can)
    }
}

ParentDestroyed: "a node with children may be destroyed"
[replays] {
    fn may_destroy(&self, state: &State, node: usize) -> bool {
        !state.is_root(node)
    }
}

NoHolderSkipped: "a stash without a holder is skipped"
[replays] {
    fn has_holder(&self, _: &State) -> bool {
        true
    }
    fn counted(&self, before: Standing, event: &Event) -> Standing {
        let can = !is_stash(event) || Inspector.has_holder(&before.state);
        counted_or_not(before, event, can)
    }
}

ReplayFreesAlone: "a destroy frees its node alone"
[replays] {
    fn reading(&self) -> Reading {
        Reading {
            goes: |_| false,
            ..Reading::PAPER
        }
    }
}

ReplayFreesLive: "a destroy frees live ancestors that are left childless, too"
[replays] {
    fn reading(&self) -> Reading {
        Reading {
            goes: |node| node.parent.is_some(),
            ..Reading::PAPER
        }
    }
}

ReplayFreesRoot: "a destroy frees a retired root that is left childless, too"
[replays] {
    fn reading(&self) -> Reading {
        Reading {
            goes: |node| node.handle.is_none(),
            ..Reading::PAPER
        }
    }
    fn counted(&self, before: Standing, event: &Event) -> Standing {
        let can = before.state.nodes[0].is_some() || is_cold(event);
        if can {
            let state = before.state.clone().after(event, self.reading());
            return Standing { state, ..Inspector.counted(before, event) };
        }
        counted_or_not(before, event, can)
    }
}

ReplayChildHasDefault: "a derived child has the default handle if its parent had it"
[replays] {
    fn reading(&self) -> Reading {
        Reading {
            derived: |parent, call| Node {
                handle: Some(if call.handle == DEFAULT { DEFAULT } else { call.fresh }),
                ..derived(parent, call)
            },
            ..Reading::PAPER
        }
    }
}

ReplayChildSvn: "a derived child has its type as the svn"
[replays] {
    fn reading(&self) -> Reading {
        Reading {
            derived: |parent, call| {
                let child = derived(parent, call);
                Node { svn: child.kind, ..child }
            },
            ..Reading::PAPER
        }
    }
}

ReplayChildOfRoot: "a derived child is below the root"
[replays] {
    fn reading(&self) -> Reading {
        Reading {
            derived: |_, call| derived(0, call),
            ..Reading::PAPER
        }
    }
}

ReplayExtendAnew: "an extend takes the cumulative from zero"
[replays] {
    fn reading(&self) -> Reading {
        Reading {
            called: |state, node, call, reading| {
                state.called(node, call, reading);
                if let Act::Extend { digest } = call.act {
                    state.node(node).cumulative = extended(&ZERO, &digest);
                }
            },
            ..Reading::PAPER
        }
    }
}

ReplayExtendLeavesCurrent: "an extend leaves the current measurement"
[replays] {
    fn reading(&self) -> Reading {
        Reading {
            called: |state, node, call, reading| {
                let before = state.node(node).current;
                state.called(node, call, reading);
                if let Act::Extend { .. } = call.act {
                    state.node(node).current = before;
                }
            },
            ..Reading::PAPER
        }
    }
}

ReplayDeriveStashes: "a derive extends PCR31"
[replays] {
    fn reading(&self) -> Reading {
        Reading {
            called: |state, node, call, reading| {
                state.called(node, call, reading);
                if let Act::Derive { digest, .. } = call.act {
                    let stashed = &mut state.registers[STASHED];
                    *stashed = extended(stashed, &digest);
                }
            },
            ..Reading::PAPER
        }
    }
}

ReplayRotateIgnored: "a rotate changes nothing"
[replays] {
    fn counted(&self, before: Standing, event: &Event) -> Standing {
        let rotates = matches!(event, Event::Tree(call) if call.act == Act::Rotate);
        counted_or_not(before, event, !rotates)
    }
}

KindTopBitLost: "the top bit of a kind is not looked at"
[reads] {
    fn entry_of(&self, kind: u8, bytes: &mut Bytes) -> Result<Entry, u32> {
        Inspector.entry_of(kind & !MORE, bytes)
    }
}

KindLowBits: "of a kind only the low four bits are looked at"
[reads] {
    fn entry_of(&self, kind: u8, bytes: &mut Bytes) -> Result<Entry, u32> {
        Inspector.entry_of(kind & 15, bytes)
    }
}

OffsetOfByte: "the offset is that of the byte that decides"
[replays] {
    fn offset(&self, place: Place) -> u64 {
        place.read.saturating_sub(1).max(place.entry)
    }
}

OffsetOfEnd: "the offset is that behind the bytes read"
[replays] {
    fn offset(&self, place: Place) -> u64 {
        place.read
    }
}

OffsetAfterKind: "the offset is that of the byte after the kind"
[replays] {
    fn offset(&self, place: Place) -> u64 {
        place.entry + 1
    }
}

OffsetIsCount: "the offset is the number of entries before"
[replays] {
    fn offset(&self, place: Place) -> u64 {
        place.before
    }
}

OffsetInInput: "the offset counts the image's bytes, too"
[replays] {
    fn offset(&self, place: Place) -> u64 {
        place.entry + IMAGE_BYTES as u64
    }
}

OffsetByte: "the offset is cut to one byte"
[replays] {
    fn offset(&self, place: Place) -> u64 {
        place.entry & 0xFF
    }
}

OffsetTwoBytes: "the offset is cut to two bytes"
[replays] {
    fn offset(&self, place: Place) -> u64 {
        place.entry & 0xFFFF
    }
}

OffsetWithOne: "number 1 comes with the number of bytes that are there"
[replays] {
    fn output(&self, found: &Found) -> Vec<u8> {
        match found {
            Found::NoImage(bytes) => Inspector.output(&Found::Refused(number::IMAGE, *bytes)),
            _ => Inspector.output(found),
        }
    }
}

OffsetFourBytes: "the offset is written in four bytes"
[replays] {
    fn output(&self, found: &Found) -> Vec<u8> {
        let mut output = Inspector.output(found);
        output.drain(8..12);
        output
    }
}

OffsetBigEndian: "the offset is written big endian"
[replays] {
    fn output(&self, found: &Found) -> Vec<u8> {
        let mut output = Inspector.output(found);
        output[4..12].reverse();
        output
    }
}

OffsetWhenRefusedOnly: "no offset is written if nothing is refused"
[replays] {
    fn output(&self, found: &Found) -> Vec<u8> {
        let mut output = Inspector.output(found);
        if let Found::Verdict(..) = found {
            output.drain(4..12);
        }
        output
    }
}

VerdictWhenRefused: "a refusal comes with a verdict 0"
[replays] {
    fn output(&self, found: &Found) -> Vec<u8> {
        let mut output = Inspector.output(found);
        if let Found::Refused(..) = found {
            output.push(NOT_BOOTED);
        }
        output
    }
}

UnbootedUpdate: "an update may come before the first cold boot"
[replays] {
    fn goes_unbooted(&self, event: &Event) -> bool {
        Inspector.goes_unbooted(event) || is_update(event)
    }
    fn counted(&self, before: Standing, event: &Event) -> Standing {
        let can = before.state.nodes[0].is_some() || is_cold(event);
        counted_or_not(before, event, can)
    }
}

UnbootedDisabling: "a disabling may come before the first cold boot"
[replays] {
    fn goes_unbooted(&self, event: &Event) -> bool {
        matches!(event, Event::Cold(_) | Event::DisableCommand)
    }
}

UnbootedDisablingSkipped: "a disabling before the first cold boot is skipped"
[replays] {
    fn goes_unbooted(&self, event: &Event) -> bool {
        matches!(event, Event::Cold(_) | Event::DisableCommand)
    }
    fn counted(&self, before: Standing, event: &Event) -> Standing {
        if !before.booted && *event == Event::DisableCommand {
            return before;
        }
        Inspector.counted(before, event)
    }
}

UnbootedStash: "a stash may come before the first cold boot"
[replays] {
    fn goes_unbooted(&self, event: &Event) -> bool {
        Inspector.goes_unbooted(event) || is_stash(event)
    }
    fn has_holder(&self, state: &State) -> bool {
        state.nodes[0].is_none() || Inspector.has_holder(state)
    }
    fn counted(&self, before: Standing, event: &Event) -> Standing {
        let can = before.state.nodes[0].is_some() || is_cold(event);
        counted_or_not(before, event, can)
    }
}

UnbootedExtension: "an extension may come before the first cold boot"
[replays] {
    fn goes_unbooted(&self, event: &Event) -> bool {
        Inspector.goes_unbooted(event) || is_extension(event)
    }
    fn counted(&self, before: Standing, event: &Event) -> Standing {
        let booted = before.booted || is_cold(event);
        Standing { booted, ..Inspector.counted(before, event) }
    }
}

UpdateWhileOff: "an update may come after a disabling"
[replays] {
    fn goes_off(&self, event: &Event) -> bool {
        Inspector.goes_off(event) || is_update(event)
    }
}

StashWhileOff: "a stash may come after a disabling"
[replays] {
    fn goes_off(&self, event: &Event) -> bool {
        Inspector.goes_off(event) || is_stash(event)
    }
}

ExtensionWhileOff: "an extension may come after a disabling"
[replays] {
    fn goes_off(&self, event: &Event) -> bool {
        Inspector.goes_off(event) || is_extension(event)
    }
}

UpdateTurnsOn: "an update after a disabling turns on again"
[replays] {
    fn goes_off(&self, event: &Event) -> bool {
        Inspector.goes_off(event) || is_update(event)
    }
    fn counted(&self, before: Standing, event: &Event) -> Standing {
        let off = before.off && !is_update(event);
        Inspector.counted(Standing { off, ..before }, event)
    }
}

SecondDisabling: "a second disabling is refused"
[replays] {
    fn goes_off(&self, event: &Event) -> bool {
        matches!(event, Event::Cold(_))
    }
}

DisablingEnds: "what follows a disabling is not read"
[replays] {
    fn next(&self, standing: &Standing, journal: &mut Bytes) -> Result<Option<Event>, u32> {
        if standing.off {
            return Ok(None);
        }
        Inspector.next(standing, journal)
    }
}

SecondColdRefused: "a second cold boot is refused"
[replays] {
    fn could_count(&self, standing: &Standing, event: &Event) -> bool {
        let second = standing.booted && is_cold(event);
        Inspector.could_count(standing, event) && !second
    }
}

ColdRefusedWhileOff: "a cold boot after a disabling is refused"
[replays] {
    fn goes_off(&self, event: &Event) -> bool {
        *event == Event::DisableCommand
    }
}

ColdRefusedWhileOn: "a cold boot of a unit that is on is refused"
[replays] {
    fn could_count(&self, standing: &Standing, event: &Event) -> bool {
        let again = standing.booted && !standing.off && is_cold(event);
        Inspector.could_count(standing, event) && !again
    }
}

ColdStaysOff: "a later cold boot does not turn on again"
[replays] {
    fn counted(&self, before: Standing, event: &Event) -> Standing {
        let off = before.off;
        let after = Inspector.counted(before, event);
        Standing { off: off || after.off, ..after }
    }
}

ColdKeepsRegisters: "a later cold boot keeps PCR4 to PCR31"
[replays] {
    fn counted(&self, before: Standing, event: &Event) -> Standing {
        altered(before, event, is_cold, |old, after| {
            after.registers[4..].copy_from_slice(&old.registers[4..]);
        })
    }
}

ColdKeepsStashed: "a later cold boot keeps PCR31"
[replays] {
    fn counted(&self, before: Standing, event: &Event) -> Standing {
        altered(before, event, is_cold, |old, after| {
            after.registers[STASHED] = old.registers[STASHED];
        })
    }
}

ColdKeepsNodes: "a later cold boot keeps the nodes behind the root"
[replays] {
    fn counted(&self, before: Standing, event: &Event) -> Standing {
        altered(before, event, is_cold, |old, after| {
            after.nodes[1..].clone_from_slice(&old.nodes[1..]);
        })
    }
}

ColdKeepsJourney: "a later cold boot extends PCR3"
[replays] {
    fn counted(&self, before: Standing, event: &Event) -> Standing {
        let old = before.state.registers[JOURNEY];
        let mut after = Inspector.counted(before, event);
        if let Event::Cold(boot) = event {
            after.state.registers[JOURNEY] = runtime_then_manifest(&old, boot);
        }
        after
    }
}

NoRoomTest: "a stash with no free node extends PCR31 alone"
[replays] {
    fn has_room(&self, _: &State) -> bool {
        true
    }
    fn counted(&self, mut before: Standing, event: &Event) -> Standing {
        match event {
            Event::Stash(stash) if !Inspector.has_room(&before.state) => {
                let stashed = &mut before.state.registers[STASHED];
                *stashed = extended(stashed, &stash.digest);
                before
            }
            _ => Inspector.counted(before, event),
        }
    }
}

FullSkipped: "a stash with no free node is skipped"
[replays] {
    fn has_room(&self, _: &State) -> bool {
        true
    }
    fn counted(&self, before: Standing, event: &Event) -> Standing {
        let can = !is_stash(event) || Inspector.has_room(&before.state);
        counted_or_not(before, event, can)
    }
}

RoomOneLess: "a stash that takes the last node is refused"
[replays] {
    fn has_room(&self, state: &State) -> bool {
        state.nodes[NODES - 2].is_none()
    }
}

RoomAsBefore: "a stash is refused when 24 nodes are used"
[replays] {
    fn has_room(&self, state: &State) -> bool {
        state.nodes.iter().flatten().count() < 24
    }
}

RegisterThree: "register 3 may be extended"
[replays] {
    fn is_register(&self, register: u32) -> bool {
        Inspector.is_register(register) || register == 3
    }
}

RegisterThirtyOne: "register 31 may be extended"
[replays] {
    fn is_register(&self, register: u32) -> bool {
        Inspector.is_register(register) || register == 31
    }
}

RegisterAny: "any of the 32 registers may be extended"
[replays] {
    fn is_register(&self, register: u32) -> bool {
        register < REGISTERS as u32
    }
}

RegisterFour: "register 4 may not be extended"
[replays] {
    fn is_register(&self, register: u32) -> bool {
        Inspector.is_register(register) && register != 4
    }
}

RegisterThirty: "register 30 may not be extended"
[replays] {
    fn is_register(&self, register: u32) -> bool {
        Inspector.is_register(register) && register != 30
    }
}

RegisterByte: "of a register's number the low byte counts"
[replays] {
    fn event(&self, entry: &Entry) -> Event {
        match Inspector.event(entry) {
            Event::Extension(extension) => Event::Extension(Extension {
                register: extension.register & 0xFF,
                ..extension
            }),
            event => event,
        }
    }
}

RegisterIsForm: "a register outside is 21"
[replays] {
    fn next(&self, standing: &Standing, journal: &mut Bytes) -> Result<Option<Event>, u32> {
        let Some(entry) = self.entry(journal)? else { return Ok(None) };
        let event = self.event(&entry);
        match &event {
            Event::Extension(e) if !self.is_register(e.register) => Err(number::GROUPS),
            _ if !self.could_count(standing, &event) => Err(number::UNCOUNTED),
            _ => Ok(Some(event)),
        }
    }
}

RegisterBeforeDigest: "a register outside is 24 before its digest is read"
[reads] {
    fn entry_of(&self, kind: u8, bytes: &mut Bytes) -> Result<Entry, u32> {
        if kind != EXTENSION_ENTRY {
            return Inspector.entry_of(kind, bytes);
        }
        let register = self.number(bytes)?;
        if !Inspector.is_register(register) {
            return Err(number::UNCOUNTED);
        }
        let values = vec![Value::Number(register), Value::Digest(self.digest(bytes)?)];
        Ok(Entry { kind, values })
    }
}

OrderBeforeForm: "24 is told at the kind, before the entry's form"
[replays] {
    fn next(&self, standing: &Standing, journal: &mut Bytes) -> Result<Option<Event>, u32> {
        let Some(kind) = journal.next() else { return Ok(None) };
        let unbooted = !standing.booted && kind != COLD_ENTRY;
        let off = standing.off && ![COLD_ENTRY, DISABLING_ENTRY].contains(&kind);
        let full = kind == STASH_ENTRY && !self.has_room(&standing.state);
        if self.forms(kind).is_some() && (unbooted || off || full) {
            return Err(number::UNCOUNTED);
        }
        let event = self.event(&self.entry_of(kind, journal)?);
        if !self.could_count(standing, &event) {
            return Err(number::UNCOUNTED);
        }
        Ok(Some(event))
    }
}

FormOfAllFirst: "the form of the whole journal comes before any 24"
[replays] {
    fn replay(&self, journal: &mut Bytes) -> Result<Standing, (u32, Place)> {
        let refusal = match Inspector.replay(journal) {
            Err((number::UNCOUNTED, place)) => (number::UNCOUNTED, place),
            replayed => return replayed,
        };
        loop {
            let entry = journal.taken;
            let place = Place { entry, ..refusal.1 };
            let read = self.entry(journal).map_err(|number| (number, place))?;
            if read.is_none() {
                return Err(refusal);
            }
        }
    }
}

UncountedSkipped: "an entry that could not be counted is skipped"
[replays] {
    fn next(&self, standing: &Standing, journal: &mut Bytes) -> Result<Option<Event>, u32> {
        loop {
            match Inspector.next(standing, journal) {
                Err(number::UNCOUNTED) => {}
                next => return next,
            }
        }
    }
}

ReplaySvnIsCaller: "a stash's svn and caller are exchanged"
[replays] {
    fn event(&self, entry: &Entry) -> Event {
        match Inspector.event(entry) {
            Event::Stash(stash) => Event::Stash(Stash {
                svn: stash.caller,
                caller: stash.svn,
                ..stash
            }),
            event => event,
        }
    }
}

ReplayTypeIsSvn: "a stash's type and svn are exchanged"
[replays] {
    fn event(&self, entry: &Entry) -> Event {
        match Inspector.event(entry) {
            Event::Stash(stash) => Event::Stash(Stash {
                kind: stash.svn,
                svn: stash.kind,
                ..stash
            }),
            event => event,
        }
    }
}

ReplayManifestFirst: "a boot extends by the manifest digest first"
[replays] {
    fn reading(&self) -> Reading {
        Reading {
            measure: |before, boot| extended(&extended(before, &boot.manifest), &boot.runtime),
            ..Reading::PAPER
        }
    }
}

ReplayWithoutManifest: "a boot extends by the runtime digest only"
[replays] {
    fn reading(&self) -> Reading {
        Reading {
            measure: |before, boot| extended(before, &boot.runtime),
            ..Reading::PAPER
        }
    }
}

ReplayWithoutSvn: "a stash's node has svn 0"
[replays] {
    fn reading(&self) -> Reading {
        Reading {
            stashed: |holder, stash| Node { svn: 0, ..stashed(holder, stash) },
            ..Reading::PAPER
        }
    }
}

ReplayBelowRoot: "a stash's node is below the root"
[replays] {
    fn reading(&self) -> Reading {
        Reading {
            stashed: |_, stash| stashed(0, stash),
            ..Reading::PAPER
        }
    }
}

ReplayRootSvn: "a cold boot's root has svn 1"
[replays] {
    fn reading(&self) -> Reading {
        Reading {
            root: |journey| Node { svn: 1, ..root(journey) },
            ..Reading::PAPER
        }
    }
}

ReplayUpdateFromZero: "an update takes PCR3 from zero"
[replays] {
    fn counted(&self, before: Standing, event: &Event) -> Standing {
        altered(before, event, is_update, |_, after| {
            after.registers[JOURNEY] = after.registers[CURRENT];
        })
    }
}

ReplayUpdateClears: "an update clears PCR4 to PCR30"
[replays] {
    fn counted(&self, before: Standing, event: &Event) -> Standing {
        altered(before, event, is_update, |_, after| {
            after.registers[4..STASHED].fill(ZERO);
        })
    }
}

ReplayUpdateLeavesRoot: "an update leaves the root"
[replays] {
    fn counted(&self, before: Standing, event: &Event) -> Standing {
        altered(before, event, is_update, |old, after| {
            after.nodes = old.nodes.clone();
        })
    }
}

ReplayStashLeavesHolder: "a stash leaves the old holder's handle"
[replays] {
    fn counted(&self, before: Standing, event: &Event) -> Standing {
        altered(before, event, is_stash, |_, after| {
            after.nodes.iter_mut().flatten().for_each(|node| node.handle = Some(DEFAULT));
        })
    }
}

CompareWithoutCurrent: "PCR2 is left out of the comparison"
[replays] {
    fn is_compared(&self, word: usize) -> bool {
        Inspector.is_compared(word) && !is_in(CURRENT, word)
    }
}

CompareWithoutJourney: "PCR3 is left out of the comparison"
[replays] {
    fn is_compared(&self, word: usize) -> bool {
        Inspector.is_compared(word) && !is_in(JOURNEY, word)
    }
}

CompareWithoutExtended: "PCR4 to PCR30 are left out of the comparison"
[replays] {
    fn is_compared(&self, word: usize) -> bool {
        let left = register(4)..register(STASHED);
        Inspector.is_compared(word) && !left.contains(&word)
    }
}

CompareWithoutStashed: "PCR31 is left out of the comparison"
[replays] {
    fn is_compared(&self, word: usize) -> bool {
        Inspector.is_compared(word) && !is_in(STASHED, word)
    }
}

CompareWithoutLastWord: "PCR31's last word is left out of the comparison"
[replays] {
    fn is_compared(&self, word: usize) -> bool {
        Inspector.is_compared(word) && word != NODES_AT - 1
    }
}

CompareFirstWords: "of a register only the first word is compared"
[replays] {
    fn is_compared(&self, word: usize) -> bool {
        let is_first = (0..REGISTERS).any(|index| register(index) == word);
        Inspector.is_compared(word) && (word >= NODES_AT || is_first)
    }
}

CompareWithoutNodes: "the nodes are left out of the comparison"
[replays] {
    fn is_compared(&self, word: usize) -> bool {
        Inspector.is_compared(word) && word < NODES_AT
    }
}

CompareNodesOnly: "the registers are left out of the comparison"
[replays] {
    fn is_compared(&self, word: usize) -> bool {
        word >= NODES_AT
    }
}

CompareWithoutSvn: "a node's svn is left out of the comparison"
[replays] {
    fn is_compared(&self, word: usize) -> bool {
        Inspector.is_compared(word) && node_word(word) != Some(SVN)
    }
}

CompareWithoutTag: "a node's tag is left out of the comparison"
[replays] {
    fn is_compared(&self, word: usize) -> bool {
        Inspector.is_compared(word) && node_word(word) != Some(TAG)
    }
}

CompareWithoutHandle: "a node's handle is left out of the comparison"
[replays] {
    fn is_compared(&self, word: usize) -> bool {
        let is_handle = |offset: usize| (HANDLE..FLAGS).contains(&offset);
        Inspector.is_compared(word) && !node_word(word).is_some_and(is_handle)
    }
}

CompareWithoutFlags: "a node's flags are left out of the comparison"
[replays] {
    fn is_compared(&self, word: usize) -> bool {
        Inspector.is_compared(word) && node_word(word) != Some(FLAGS)
    }
}

CompareWithoutLastNode: "the last node is left out of the comparison"
[replays] {
    fn is_compared(&self, word: usize) -> bool {
        Inspector.is_compared(word) && word < node(NODES - 1)
    }
}

CompareWithoutEnd: "the image's last word is left out of the comparison"
[replays] {
    fn is_compared(&self, word: usize) -> bool {
        Inspector.is_compared(word) && word < IMAGE_WORDS - 1
    }
}

CompareWithoutFree: "free nodes are left out of the comparison"
[replays] {
    fn judge(&self, standing: &Standing, image: &[u32]) -> Found {
        let mut seen = image.to_vec();
        for (index, place) in standing.state.nodes.iter().enumerate() {
            if place.is_none() {
                seen[node(index)..][..NODE_WORDS].fill(0);
            }
        }
        Inspector.judge(standing, &seen)
    }
}

CompareMark: "the mark is compared"
[replays] {
    fn judge(&self, standing: &Standing, image: &[u32]) -> Found {
        match Inspector.judge(standing, image) {
            Found::Verdict(ALIKE, registers) if image[MARK] != DONE => {
                Found::Verdict(UNLIKE, registers)
            }
            found => found,
        }
    }
}

CompareAttestation: "attestation is compared"
[replays] {
    fn judge(&self, standing: &Standing, image: &[u32]) -> Found {
        match Inspector.judge(standing, image) {
            Found::Verdict(ALIKE, registers) if image[ATTESTATION] != ON => {
                Found::Verdict(UNLIKE, registers)
            }
            found => found,
        }
    }
}

CompareSpare: "the spare words must be zero"
[replays] {
    fn is_compared(&self, word: usize) -> bool {
        Inspector.is_compared(word) || (SPARE..SECRET).contains(&word)
    }
}

CompareSecret: "a secret of zeros is unlike"
[replays] {
    fn judge(&self, standing: &Standing, image: &[u32]) -> Found {
        match Inspector.judge(standing, image) {
            Found::Verdict(ALIKE, registers) if bytes_of(&image[SECRET..]) == ZERO => {
                Found::Verdict(UNLIKE, registers)
            }
            found => found,
        }
    }
}

CompareAllRegisters: "PCR0 and PCR1 are compared, too"
[replays] {
    fn is_compared(&self, word: usize) -> bool {
        word >= REGISTERS_AT
    }
}

ComparedWhileOff: "after a disabling the image is compared all the same"
[replays] {
    fn judge(&self, standing: &Standing, image: &[u32]) -> Found {
        Inspector.judge(&Standing { off: false, ..standing.clone() }, image)
    }
}

UnlikeWhileOff: "after a disabling an image that is unlike is 2"
[replays] {
    fn judge(&self, standing: &Standing, image: &[u32]) -> Found {
        match ComparedWhileOff.judge(standing, image) {
            Found::Verdict(ALIKE, _) if standing.off => Inspector.judge(standing, image),
            found => found,
        }
    }
}

RegistersWhileOff: "the registers are written after a disabling, too"
[replays] {
    fn judge(&self, standing: &Standing, image: &[u32]) -> Found {
        match Inspector.judge(standing, image) {
            Found::Verdict(SWITCHED_OFF, _) => {
                Found::Verdict(SWITCHED_OFF, self.registers(&standing.image()))
            }
            found => found,
        }
    }
}

RegistersUnbooted: "the registers are written without a cold boot, too"
[replays] {
    fn judge(&self, standing: &Standing, image: &[u32]) -> Found {
        match Inspector.judge(standing, image) {
            Found::Verdict(NOT_BOOTED, _) => {
                Found::Verdict(NOT_BOOTED, self.registers(&standing.image()))
            }
            found => found,
        }
    }
}

RegistersWhenAlike: "the registers are written after 3 only"
[replays] {
    fn judge(&self, standing: &Standing, image: &[u32]) -> Found {
        match Inspector.judge(standing, image) {
            Found::Verdict(UNLIKE, _) => Found::Verdict(UNLIKE, vec![]),
            found => found,
        }
    }
}

RegistersOfImage: "the image's registers are written"
[replays] {
    fn judge(&self, standing: &Standing, image: &[u32]) -> Found {
        match Inspector.judge(standing, image) {
            Found::Verdict(verdict @ (UNLIKE | ALIKE), _) => {
                Found::Verdict(verdict, self.registers(image))
            }
            found => found,
        }
    }
}

RegistersFromZero: "PCR0 to PCR31 are written"
[replays] {
    fn registers(&self, image: &[u32]) -> Vec<u8> {
        bytes(&image[REGISTERS_AT..NODES_AT])
    }
}

RegistersToThirty: "PCR2 to PCR30 are written"
[replays] {
    fn registers(&self, image: &[u32]) -> Vec<u8> {
        bytes(&image[COMPARED_FROM..register(STASHED)])
    }
}

RegistersSwapped: "the registers' words are written big endian"
[replays] {
    fn registers(&self, image: &[u32]) -> Vec<u8> {
        let words = &image[COMPARED_FROM..NODES_AT];
        words.iter().flat_map(|word| word.to_be_bytes()).collect()
    }
}

NotBootedUnlike: "without a cold boot the image is unlike"
[replays] {
    fn judge(&self, standing: &Standing, image: &[u32]) -> Found {
        Inspector.judge(&Standing { booted: true, ..standing.clone() }, image)
    }
}

ZeroVerdictZero: "without a cold boot an image of zeros is alike"
[replays] {
    fn judge(&self, standing: &Standing, image: &[u32]) -> Found {
        if !standing.booted && image.iter().all(|&word| word == 0) {
            return NotBootedUnlike.judge(standing, image);
        }
        Inspector.judge(standing, image)
    }
}

ShortImageFilled: "an image that is cut short is filled with zeros"
[replays] {
    fn image(&self, saved: &[u8]) -> Option<Vec<u32>> {
        let mut whole = saved.to_vec();
        whole.resize(IMAGE_BYTES, 0);
        Inspector.image(&whole)
    }
}

LastWordMayLack: "an image may lack bytes of its last word"
[replays] {
    fn image(&self, saved: &[u8]) -> Option<Vec<u32>> {
        let mut whole = saved.to_vec();
        if saved.len() > IMAGE_BYTES - 4 {
            whole.resize(IMAGE_BYTES, 0);
        }
        Inspector.image(&whole)
    }
}

ImageBigEndian: "the image's words are big endian"
[replays] {
    fn image(&self, saved: &[u8]) -> Option<Vec<u32>> {
        let words = Inspector.image(saved)?;
        Some(words.into_iter().map(u32::swap_bytes).collect())
    }
}

ImageAsBefore: "the image has 1,240 words"
[replays] {
    fn image_bytes(&self) -> usize {
        4 * 1_240
    }
    fn image(&self, saved: &[u8]) -> Option<Vec<u32>> {
        let mut whole = saved.to_vec();
        if saved.len() == self.image_bytes() {
            whole.resize(IMAGE_BYTES, 0);
        }
        Inspector.image(&whole)
    }
}

JournalTwoBytes: "of a journal the first 65,535 bytes are used"
[replays] {
    fn most(&self) -> u64 {
        0xFFFF
    }
}

JournalOneMegabyte: "of a journal the first 1,048,576 bytes are used"
[replays] {
    fn most(&self) -> u64 {
        1 << 20
    }
}

}
