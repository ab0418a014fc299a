//! Books that are wrong on purpose: the right engine has to disagree with them.

use super::slices::Slices;
use super::tree::derived;
use super::{root, stashed, Book, Event, Look, Node, Opened, Reading, State};
use crate::boots::{Boot, Boots, Inputs};
use crate::engine::Paper;
use crate::journal::groups;
use crate::layout::{destroy_stores, extended, HANDLE_BYTES, NODES, STASHED, ZERO};
use crate::requests::{Extension, Request, Stash};
use crate::tree::{Act, DEFAULT};

/// How the books are kept.
pub trait Keeper {
    /// The book right after all stores of a cold boot.
    fn cold(&self, boot: Boot) -> Book {
        Book::after_cold_boot(boot)
    }

    fn request(&self, book: &mut Book, request: Request) -> Opened {
        book.request(request)
    }

    fn update(&self, book: &mut Book, inputs: Inputs, verdict: bool) -> (Opened, Option<Look>) {
        book.update(inputs, verdict)
    }

    fn store(&self, book: &mut Book) -> (u32, Option<Look>) {
        book.store()
    }

    fn cut(&self, book: &mut Book) {
        book.cut();
    }

    /// The entry of the work in hand, or why there is none.
    fn entry(&self, book: &Book) -> Result<Vec<u8>, u32> {
        book.entry()
    }

    /// The book of a running digest that is begun; there may be one before it.
    fn begin(&self, _before: Option<Slices>) -> Slices {
        Slices::default()
    }

    fn feed(&self, slices: &mut Slices, slice: &[u8]) -> u32 {
        slices.feed(slice)
    }
}

/// Keeps the books as they are.
pub struct Fair;

impl Keeper for Fair {}

/// A wrong book: its name, what it does instead, and its keeper.
pub struct WrongBook {
    pub name: &'static str,
    pub says: &'static str,
    pub keeper: &'static dyn Keeper,
}

const fn book(name: &'static str, says: &'static str, keeper: &'static dyn Keeper) -> WrongBook {
    WrongBook { name, says, keeper }
}

pub const BOOKS: &[WrongBook] = &[
    book(
        "OffBeforeGoes",
        "an update boot looks at off before the work in hand goes",
        &OffBeforeGoes,
    ),
    book(
        "TornByCutsOnly",
        "only a cut tears, not another opening",
        &TornByCutsOnly,
    ),
    book(
        "TornUnstarted",
        "a work that has not stored yet is torn too",
        &TornUnstarted,
    ),
    book("NeverTorn", "nothing is ever torn", &NeverTorn),
    book(
        "StaysUnfinished",
        "the last store leaves the book unfinished",
        &StaysUnfinished,
    ),
    book(
        "RefusalDropsHand",
        "a refused opening drops the work in hand",
        &RefusalDropsHand,
    ),
    book(
        "DisableForgotten",
        "a counted disable command is left out of the history",
        &Forgotten(|event| matches!(event, Event::DisableCommand)),
    ),
    book(
        "StashForgotten",
        "a counted stash is left out of the history",
        &Forgotten(|event| matches!(event, Event::Stash(_))),
    ),
    book(
        "UpdateForgotten",
        "a counted update is left out of the history",
        &Forgotten(|event| matches!(event, Event::Update(_))),
    ),
    book(
        "ExtensionForgotten",
        "a counted extension is left out of the history",
        &Forgotten(|event| matches!(event, Event::Extension(_))),
    ),
    book(
        "ExtensionInStashed",
        "a counted extension extends PCR31",
        &Extending(|book, extension| {
            book.history.push(Event::Extension(Extension {
                register: STASHED as u32,
                ..extension
            }));
        }),
    ),
    book(
        "ExtensionTwice",
        "an extension counts twice",
        &Extending(|book, extension| {
            let event = Event::Extension(extension);
            book.history.extend([event.clone(), event]);
        }),
    ),
    book(
        "ExtensionAtOpening",
        "an extension counts at its opening",
        &ExtensionAtOpening,
    ),
    book(
        "ExtensionFromZero",
        "an extension counts without the earlier ones of its register",
        &Extending(|book, extension| {
            let same = |event: &Event| matches!(event, Event::Extension(e) if e.register == extension.register);
            book.history.retain(|event| !same(event));
            book.history.push(Event::Extension(extension));
        }),
    ),
    book(
        "ExtensionsUntilUpdate",
        "a counted update takes all extensions out of the history",
        &ExtensionsUntilUpdate,
    ),
    book(
        "HistoryWithoutManifest",
        "a boot in the history extends by the runtime digest only",
        &Reads(Reading {
            measure: |before, boot| extended(before, &boot.runtime),
            ..Reading::PAPER
        }),
    ),
    book(
        "HistorySwapped",
        "a boot in the history extends by the manifest digest first",
        &Reads(Reading {
            measure: |before, boot| extended(&extended(before, &boot.manifest), &boot.runtime),
            ..Reading::PAPER
        }),
    ),
    book(
        "HistoryWithoutSvn",
        "a stash in the history has svn 0",
        &Reads(Reading {
            stashed: |holder, stash| Node {
                svn: 0,
                ..stashed(holder, stash)
            },
            ..Reading::PAPER
        }),
    ),
    book(
        "HistorySvnInTag",
        "a stash in the history has its svn as the tag",
        &Reads(Reading {
            stashed: |holder, stash| Node {
                tag: stash.svn,
                svn: 0,
                ..stashed(holder, stash)
            },
            ..Reading::PAPER
        }),
    ),
    book(
        "HistorySvnIsType",
        "a stash in the history has its type as the svn",
        &Reads(Reading {
            stashed: |holder, stash| Node {
                svn: stash.kind,
                ..stashed(holder, stash)
            },
            ..Reading::PAPER
        }),
    ),
    book(
        "HistoryRootSvn",
        "a cold boot in the history gives its root svn 1",
        &Reads(Reading {
            root: |journey| Node {
                svn: 1,
                ..root(journey)
            },
            ..Reading::PAPER
        }),
    ),
    book(
        "JournalSvnIsCaller",
        "a stash's entry in the journal has svn and caller exchanged",
        &Reads(Reading {
            entry: |event| match event {
                Event::Stash(stash) => Event::Stash(Stash {
                    svn: stash.caller,
                    caller: stash.svn,
                    ..stash.clone()
                })
                .entry(),
                _ => event.entry(),
            },
            ..Reading::PAPER
        }),
    ),
    book(
        "JournalManifestFirst",
        "a boot's entry in the journal has the manifest digest first",
        &Reads(Reading {
            entry: |event| match event {
                Event::Cold(boot) => Event::Cold(exchanged(boot)).entry(),
                Event::Update(boot) => Event::Update(exchanged(boot)).entry(),
                _ => event.entry(),
            },
            ..Reading::PAPER
        }),
    ),
    book(
        "JournalWithoutUpdates",
        "an update has no entry in the journal",
        &Reads(Reading {
            entry: |event| match event {
                Event::Update(_) => vec![],
                _ => event.entry(),
            },
            ..Reading::PAPER
        }),
    ),
    book(
        "JournalWithoutBootDisabling",
        "a boot's disabling has no entry in the journal",
        &Reads(Reading {
            entry: |event| match event {
                Event::BootDisabling => vec![],
                _ => event.entry(),
            },
            ..Reading::PAPER
        }),
    ),
    book(
        "JournalOfDeclined",
        "what stores nothing has an entry of one byte in the journal",
        &Reads(Reading {
            entry: |event| match event {
                Event::Nothing => Event::DisableCommand.entry(),
                _ => event.entry(),
            },
            ..Reading::PAPER
        }),
    ),
    book(
        "JournalAtOpening",
        "a work has its entry before its stores",
        &JournalAtOpening,
    ),
    book(
        "FullEarly",
        "a stash is declined when only the last node is free",
        &FullEarly,
    ),
    book(
        "CallForgotten",
        "a counted tree command is left out of the history",
        &Forgotten(|event| matches!(event, Event::Tree(_))),
    ),
    book(
        "DestroyForgotten",
        "a counted destroy is left out of the history",
        &Forgotten(|event| matches!(event, Event::Tree(call) if call.act == Act::Destroy)),
    ),
    book(
        "HistoryFreesAlone",
        "a destroy in the history frees its node alone",
        &Reads(Reading {
            goes: |_| false,
            ..Reading::PAPER
        }),
    ),
    book(
        "HistoryFreesLive",
        "a destroy in the history frees live ancestors, too",
        &Reads(Reading {
            goes: |node| node.parent.is_some(),
            ..Reading::PAPER
        }),
    ),
    book(
        "HistoryFreesFirst",
        "a destroy in the history frees every retired node above, childless or not",
        &Reads(Reading {
            called: |state, place, call, reading| {
                let mut above = state.node(place).parent;
                state.called(place, call, reading);
                while let (Act::Destroy, Some(next)) = (call.act, above) {
                    above = None;
                    if let Some(node) = state.nodes[next].clone().filter(reading.goes) {
                        state.nodes[next] = None;
                        above = node.parent;
                    }
                }
            },
            ..Reading::PAPER
        }),
    ),
    book(
        "HistoryRetains",
        "a derive in the history never retires its parent",
        &Reads(Reading {
            called: |state, place, call, reading| {
                let before = state.node(place).handle;
                state.called(place, call, reading);
                if call.act.is_derive() {
                    state.node(place).handle = before;
                }
            },
            ..Reading::PAPER
        }),
    ),
    book(
        "HistoryChildSvn",
        "a derived child in the history has svn 1",
        &Reads(Reading {
            derived: |parent, call| Node {
                svn: 1,
                ..derived(parent, call)
            },
            ..Reading::PAPER
        }),
    ),
    book(
        "HistoryChildDefault",
        "a derived child in the history has the default handle",
        &Reads(Reading {
            derived: |parent, call| Node {
                handle: Some(DEFAULT),
                ..derived(parent, call)
            },
            ..Reading::PAPER
        }),
    ),
    book(
        "HistoryChildLocality",
        "a derived child in the history has locality 0",
        &Reads(Reading {
            derived: |parent, call| Node {
                locality: 0,
                ..derived(parent, call)
            },
            ..Reading::PAPER
        }),
    ),
    book(
        "HistoryExtendAnew",
        "an extend in the history takes the cumulative from zero",
        &Reads(Reading {
            called: |state, place, call, reading| {
                state.called(place, call, reading);
                if let Act::Extend { digest } = call.act {
                    state.node(place).cumulative = extended(&ZERO, &digest);
                }
            },
            ..Reading::PAPER
        }),
    ),
    book(
        "DestroyStoresOne",
        "a destroy has the stores of one node",
        &DestroyStoresOne,
    ),
    book(
        "JournalFreshLast",
        "a tree command's entry in the journal has the fresh handle behind the caller",
        &Reads(Reading {
            entry: |event| match event {
                Event::Tree(call) if call.act.takes_fresh() => {
                    let mut entry = event.entry();
                    let caller = groups(call.caller).len();
                    let tail = entry.len() - caller - HANDLE_BYTES;
                    entry[tail..].rotate_left(HANDLE_BYTES);
                    entry
                }
                _ => event.entry(),
            },
            ..Reading::PAPER
        }),
    ),
    book(
        "JournalWithoutDestroys",
        "a destroy has no entry in the journal",
        &Reads(Reading {
            entry: |event| match event {
                Event::Tree(call) if call.act == Act::Destroy => vec![],
                _ => event.entry(),
            },
            ..Reading::PAPER
        }),
    ),
    book(
        "BeginForgotten",
        "a begin leaves the accepted slices in the list",
        &BeginForgotten,
    ),
    book(
        "SlicesSwapped",
        "a slice joins in front of those before it",
        &SlicesSwapped,
    ),
    book(
        "RefusedSliceJoined",
        "a refused slice joins the accepted ones",
        &RefusedSliceJoined,
    ),
];

struct OffBeforeGoes;

impl Keeper for OffBeforeGoes {
    fn update(&self, book: &mut Book, inputs: Inputs, verdict: bool) -> (Opened, Option<Look>) {
        let mut after = book.clone();
        after.goes();
        untorn(book, inputs);
        let opened = book.update(inputs, verdict);
        if opened.0.number == 0 {
            book.torn = after.torn;
        }
        opened
    }
}

struct TornByCutsOnly;

impl Keeper for TornByCutsOnly {
    fn update(&self, book: &mut Book, inputs: Inputs, verdict: bool) -> (Opened, Option<Look>) {
        untorn(book, inputs);
        book.update(inputs, verdict)
    }
}

struct TornUnstarted;

impl Keeper for TornUnstarted {
    fn request(&self, book: &mut Book, request: Request) -> Opened {
        let torn = book.torn || is_unstarted(book);
        let opened = book.request(request);
        if opened.number == 0 {
            book.torn = torn;
        }
        opened
    }

    fn update(&self, book: &mut Book, inputs: Inputs, verdict: bool) -> (Opened, Option<Look>) {
        book.torn |= is_unstarted(book) && Paper.boot(inputs).is_some();
        book.update(inputs, verdict)
    }

    fn cut(&self, book: &mut Book) {
        book.torn |= is_unstarted(book);
        book.cut();
    }
}

struct NeverTorn;

impl Keeper for NeverTorn {
    fn update(&self, book: &mut Book, inputs: Inputs, verdict: bool) -> (Opened, Option<Look>) {
        untorn(book, inputs);
        book.update(inputs, verdict)
    }

    fn cut(&self, book: &mut Book) {
        book.in_hand = None;
    }
}

/// Asked for a stash, the last node is used.
struct FullEarly;

impl Keeper for FullEarly {
    fn request(&self, book: &mut Book, request: Request) -> Opened {
        let last = book.state.nodes[NODES - 1].clone();
        let below_root = Node {
            parent: Some(0),
            handle: None,
            ..root(&ZERO)
        };
        book.state.nodes[NODES - 1].get_or_insert(below_root);
        let opened = book.request(request);
        book.state.nodes[NODES - 1] = last;
        opened
    }
}

struct DestroyStoresOne;

impl Keeper for DestroyStoresOne {
    fn request(&self, book: &mut Book, request: Request) -> Opened {
        let opened = book.request(request);
        if let (0, Some(hand)) = (opened.number, &mut book.in_hand) {
            if matches!(&hand.event, Event::Tree(call) if call.act == Act::Destroy) {
                hand.number = destroy_stores(1) as u32;
            }
        }
        opened
    }
}

struct StaysUnfinished;

impl Keeper for StaysUnfinished {
    fn store(&self, book: &mut Book) -> (u32, Option<Look>) {
        let before = book.left();
        let stored = book.store();
        book.unfinished |= book.left() != before;
        stored
    }
}

struct RefusalDropsHand;

impl Keeper for RefusalDropsHand {
    fn request(&self, book: &mut Book, request: Request) -> Opened {
        let opened = book.request(request);
        if opened.number != 0 {
            book.cut();
        }
        opened
    }

    fn update(&self, book: &mut Book, inputs: Inputs, verdict: bool) -> (Opened, Option<Look>) {
        let opened = book.update(inputs, verdict);
        if opened.0.number != 0 {
            book.cut();
        }
        opened
    }
}

/// Leaves counted work of a kind out.
struct Forgotten(fn(&Event) -> bool);

impl Keeper for Forgotten {
    fn store(&self, book: &mut Book) -> (u32, Option<Look>) {
        let stored = book.store();
        if book.history.last().is_some_and(self.0) {
            book.history.pop();
            book.state = State::replay(&book.history, book.reading);
        }
        stored
    }
}

/// Enters a counted extension in another way.
struct Extending(fn(&mut Book, Extension));

impl Keeper for Extending {
    fn store(&self, book: &mut Book) -> (u32, Option<Look>) {
        let before = book.history.len();
        let stored = book.store();
        if book.history.len() > before {
            if let Some(Event::Extension(extension)) = book.history.last().cloned() {
                book.history.pop();
                (self.0)(book, extension);
                book.state = State::replay(&book.history, book.reading);
            }
        }
        stored
    }
}

struct ExtensionAtOpening;

impl Keeper for ExtensionAtOpening {
    fn request(&self, book: &mut Book, request: Request) -> Opened {
        let opened = book.request(request);
        if let (0, Some(hand)) = (opened.number, &book.in_hand) {
            if let Event::Extension(_) = hand.event {
                let event = hand.event.clone();
                book.counts(event);
            }
        }
        opened
    }

    /// The last store does not count it again.
    fn store(&self, book: &mut Book) -> (u32, Option<Look>) {
        Extending(|_, _| {}).store(book)
    }
}

struct ExtensionsUntilUpdate;

impl Keeper for ExtensionsUntilUpdate {
    fn store(&self, book: &mut Book) -> (u32, Option<Look>) {
        let stored = book.store();
        if let Some(Event::Update(_)) = book.history.last() {
            let is_extension = |event: &Event| matches!(event, Event::Extension(_));
            book.history.retain(|event| !is_extension(event));
            book.state = State::replay(&book.history, book.reading);
        }
        stored
    }
}

/// A boot with its digests exchanged.
fn exchanged(boot: &Boot) -> Boot {
    Boot {
        runtime: boot.manifest,
        manifest: boot.runtime,
        ..boot.clone()
    }
}

struct JournalAtOpening;

impl Keeper for JournalAtOpening {
    fn entry(&self, book: &Book) -> Result<Vec<u8>, u32> {
        match &book.in_hand {
            Some(hand) => Ok(hand.event.entry()),
            None => book.entry(),
        }
    }
}

/// Reads the history by other rules.
struct Reads(Reading);

impl Keeper for Reads {
    fn cold(&self, boot: Boot) -> Book {
        Book::read_so(boot, self.0)
    }
}

/// The work in hand goes without a tear, if the boot is not refused.
fn untorn(book: &mut Book, inputs: Inputs) {
    if Paper.boot(inputs).is_some() {
        book.in_hand = None;
    }
}

fn is_unstarted(book: &Book) -> bool {
    let hand = book.in_hand.as_ref();
    hand.is_some_and(|hand| hand.made == 0 && hand.left() > 0)
}

struct BeginForgotten;

impl Keeper for BeginForgotten {
    fn begin(&self, before: Option<Slices>) -> Slices {
        before.unwrap_or_default()
    }
}

struct SlicesSwapped;

impl Keeper for SlicesSwapped {
    fn feed(&self, slices: &mut Slices, slice: &[u8]) -> u32 {
        let before = slices.joined.len();
        let number = slices.feed(slice);
        slices.joined.rotate_left(before);
        number
    }
}

struct RefusedSliceJoined;

impl Keeper for RefusedSliceJoined {
    fn feed(&self, slices: &mut Slices, slice: &[u8]) -> u32 {
        let number = slices.feed(slice);
        if number != 0 {
            slices.joins(slice);
        }
        number
    }
}
