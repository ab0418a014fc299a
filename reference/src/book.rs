//! The book of demand 3: what a list of calls and cuts after a cold boot comes
//! to. Its registers and nodes are computed from the history alone.

mod journal;
pub mod replay;
pub mod slices;
mod tree;
pub mod wrong;

use crate::boots::{Boot, Boots, Inputs};
use crate::engine::Paper;
use crate::layout::*;
use crate::requests::{Extension, Request, Requests, Stash, Task, View};
use crate::tree::{TreeCall, DEFAULT};

/// Work and its inputs.
#[derive(Clone, Debug, PartialEq, Eq)]
pub enum Event {
    Cold(Boot),
    Update(Boot),
    DisableCommand,
    BootDisabling,
    Stash(Stash),
    Extension(Extension),
    Tree(TreeCall),
    Nothing,
}

impl Event {
    fn sort(&self) -> Sort {
        match self {
            Event::Cold(_) => Sort::Cold,
            Event::Update(_) => Sort::Update,
            Event::DisableCommand | Event::BootDisabling => Sort::Disabling,
            Event::Stash(_) => Sort::Stash,
            Event::Extension(_) => Sort::Extension,
            Event::Tree(call) => call.sort(),
            Event::Nothing => Sort::Nothing,
        }
    }
}

#[derive(Clone, Debug, PartialEq, Eq)]
struct Node {
    /// None for the root.
    parent: Option<usize>,
    tag: u32,
    /// None if it is retired.
    handle: Option<Handle>,
    current: Digest,
    cumulative: Digest,
    kind: u32,
    locality: u32,
    svn: u32,
}

/// How the history is read, each rule by itself, so that a book can be wrong in
/// just one.
#[derive(Clone, Copy)]
pub struct Reading {
    /// A register's value after a boot, from the one before.
    measure: fn(&Digest, &Boot) -> Digest,
    /// A cold boot's root, from its measurement.
    root: fn(&Digest) -> Node,
    /// A stash's node below the holder.
    stashed: fn(usize, &Stash) -> Node,
    /// A derived child below the node that its handle names.
    derived: fn(usize, &TreeCall) -> Node,
    /// What a tree command does to that node and those around it.
    called: fn(&mut State, usize, &TreeCall, Reading),
    /// Whether a node is freed with its last child.
    goes: fn(&Node) -> bool,
    /// An event's entry in the journal.
    entry: fn(&Event) -> Vec<u8>,
}

impl Reading {
    const PAPER: Reading = Reading {
        measure: runtime_then_manifest,
        root,
        stashed,
        derived: tree::derived,
        called: State::called,
        goes: tree::goes,
        entry: Event::entry,
    };
}

/// The runtime digest first, then the manifest digest.
fn runtime_then_manifest(before: &Digest, boot: &Boot) -> Digest {
    let with_runtime = extended(before, &boot.runtime);
    extended(&with_runtime, &boot.manifest)
}

fn root(journey: &Digest) -> Node {
    Node {
        parent: None,
        tag: 0,
        handle: Some(DEFAULT),
        current: *journey,
        cumulative: extended(&ZERO, journey),
        kind: RTJM,
        locality: 0,
        svn: 0,
    }
}

fn stashed(holder: usize, stash: &Stash) -> Node {
    Node {
        parent: Some(holder),
        tag: 0,
        handle: Some(DEFAULT),
        current: stash.digest,
        cumulative: extended(&ZERO, &stash.digest),
        kind: stash.kind,
        locality: stash.caller,
        svn: stash.svn,
    }
}

/// Registers and nodes.
#[derive(Clone, Debug, PartialEq, Eq)]
pub struct State {
    registers: [Digest; REGISTERS],
    nodes: [Option<Node>; NODES],
}

impl State {
    fn empty() -> State {
        State {
            registers: [ZERO; REGISTERS],
            nodes: std::array::from_fn(|_| None),
        }
    }

    fn replay(history: &[Event], reading: Reading) -> State {
        let next = |state: State, event: &Event| state.after(event, reading);
        history.iter().fold(State::empty(), next)
    }

    fn after(mut self, event: &Event, reading: Reading) -> State {
        let measure = reading.measure;
        match event {
            Event::Cold(boot) => {
                let journey = measure(&ZERO, boot);
                let mut state = State::empty();
                state.registers[CURRENT] = journey;
                state.registers[JOURNEY] = journey;
                state.nodes[0] = Some((reading.root)(&journey));
                return state;
            }
            Event::Update(boot) => {
                let journey = measure(&self.registers[JOURNEY], boot);
                self.registers[CURRENT] = measure(&ZERO, boot);
                self.registers[JOURNEY] = journey;
                let root = self.nodes.iter_mut().flatten().find(|n| n.parent.is_none());
                let root = root.expect("a counted update has a root");
                root.current = journey;
                root.cumulative = extended(&root.cumulative, &journey);
            }
            Event::Stash(stash) => {
                self.registers[STASHED] = extended(&self.registers[STASHED], &stash.digest);
                let holder = self.with_handle(&DEFAULT);
                let holder = holder.expect("a counted stash has a holder");
                self.retire(holder);
                self.put((reading.stashed)(holder, stash));
            }
            Event::Extension(extension) => {
                let register = &mut self.registers[extension.register as usize];
                *register = extended(register, &extension.digest);
            }
            Event::Tree(call) => {
                let node = self.with_handle(&call.handle);
                let node = node.expect("a counted tree command has a node");
                (reading.called)(&mut self, node, call, reading);
            }
            Event::DisableCommand | Event::BootDisabling | Event::Nothing => {}
        }
        self
    }

    /// All words of the registers and the nodes.
    fn words(&self) -> Vec<u32> {
        let mut words: Vec<u32> = self.registers.iter().flat_map(words_of).collect();
        for node in &self.nodes {
            let Some(node) = node else {
                words.extend([0; NODE_WORDS]);
                continue;
            };
            let parent = node.parent.map_or(ROOT_PARENT, |index| index as u32);
            let live = node.handle.as_ref();
            let handle = live.map_or(RETIRED_HANDLE, handle_words);
            words.extend([parent << 16 | USED, node.tag]);
            words.extend(handle);
            words.push(if node.parent.is_none() { INTERNAL } else { 0 });
            words.extend(words_of(&node.current));
            words.extend(words_of(&node.cumulative));
            words.extend([node.kind, node.locality, node.svn]);
        }
        words
    }
}

/// The work in hand and how far it is.
#[derive(Clone, Debug, PartialEq, Eq)]
struct Hand {
    event: Event,
    /// The number of stores.
    number: u32,
    made: u32,
    of_boot: bool,
}

impl Hand {
    fn left(&self) -> u32 {
        self.number - self.made
    }
}

/// What the book says of an opening.
#[derive(Clone, Copy, Debug, PartialEq, Eq)]
pub struct Opened {
    pub number: u32,
    /// Kind and stores left, if it was accepted.
    pub work: Option<(Sort, u32)>,
    pub outcome: Option<u8>,
}

impl Opened {
    pub fn refused(number: u32) -> Opened {
        Opened {
            number,
            work: None,
            outcome: None,
        }
    }
}

/// What an image may have to show at a look.
pub struct Look;

#[derive(Clone)]
pub struct Book {
    history: Vec<Event>,
    /// The fold of the history so far.
    state: State,
    reading: Reading,
    in_hand: Option<Hand>,
    torn: bool,
    unfinished: bool,
    /// Whether a look has found the unit off because of a torn work.
    off_for_good: bool,
}

impl Book {
    /// The book right after all stores of a cold boot. That work is still in
    /// hand, finished.
    pub fn after_cold_boot(boot: Boot) -> Book {
        Book::read_so(boot, Reading::PAPER)
    }

    fn read_so(boot: Boot, reading: Reading) -> Book {
        let event = Event::Cold(boot);
        let number = State::empty().stores(&event, reading);
        Book {
            state: State::empty().after(&event, reading),
            history: vec![event.clone()],
            reading,
            in_hand: Some(Hand {
                event,
                number,
                made: number,
                of_boot: false,
            }),
            torn: false,
            unfinished: false,
            off_for_good: false,
        }
    }

    pub fn request(&mut self, request: Request) -> Opened {
        match Paper.decide(&self.view(), request) {
            Err(number) => Opened::refused(number),
            Ok(accepted) => {
                let event = match accepted.task {
                    Task::Stash(stash) => Event::Stash(stash),
                    Task::Extend(extension) => Event::Extension(extension),
                    Task::Tree(call) => Event::Tree(call),
                    Task::Disable => Event::DisableCommand,
                    Task::Nothing => Event::Nothing,
                };
                self.takes(event, None)
            }
        }
    }

    /// An update boot, and a look if it is at its end already.
    pub fn update(&mut self, inputs: Inputs, verdict: bool) -> (Opened, Option<Look>) {
        let Some(boot) = Paper.boot(inputs) else {
            return (Opened::refused(number::BOOT_INPUT), None);
        };
        self.goes();
        if self.is_off() {
            (self.takes(Event::BootDisabling, Some(DISABLED)), None)
        } else if verdict {
            (self.takes(Event::Update(boot), Some(UPDATED)), None)
        } else {
            (self.takes(Event::Nothing, Some(KEPT)), Some(Look))
        }
    }

    /// A store with a work in hand: its number, and a look if it was the last
    /// of an update boot.
    pub fn store(&mut self) -> (u32, Option<Look>) {
        let Some(hand) = &mut self.in_hand else {
            return (0, None);
        };
        if hand.left() == 0 {
            return (number::NO_STORE, None);
        }
        hand.made += 1;
        let last = hand.left() == 0;
        let look = (last && hand.of_boot).then_some(Look);
        self.unfinished = !last;
        if last {
            let event = hand.event.clone();
            self.counts(event);
        }
        (0, look)
    }

    pub fn cut(&mut self) {
        self.goes();
    }

    /// The stores left of the work in hand.
    pub fn left(&self) -> Option<u32> {
        self.in_hand.as_ref().map(Hand::left)
    }

    /// Whether a work was ever torn.
    pub fn is_torn(&self) -> bool {
        self.torn
    }

    fn is_off(&self) -> bool {
        let disabling =
            |event: &Event| matches!(event, Event::DisableCommand | Event::BootDisabling);
        self.torn || self.history.iter().any(disabling)
    }

    /// What the request rules see of the book.
    fn view(&self) -> View<'_> {
        View {
            whole: true,
            done: !self.unfinished,
            on: !self.is_off(),
            well_formed: self.state.is_well_formed(),
            held: self.state.with_handle(&DEFAULT).is_some(),
            full: !self.state.has_room(),
            tree: &self.state,
        }
    }

    /// The work in hand goes, by a cut or another opening.
    fn goes(&mut self) {
        if let Some(hand) = self.in_hand.take() {
            self.torn |= hand.made > 0 && hand.left() > 0;
        }
    }

    /// An accepted opening's work becomes the one in hand. A boot's has an
    /// outcome.
    fn takes(&mut self, event: Event, outcome: Option<u8>) -> Opened {
        self.goes();
        let hand = Hand {
            number: self.state.stores(&event, self.reading),
            event,
            made: 0,
            of_boot: outcome.is_some(),
        };
        let work = Some((hand.event.sort(), hand.left()));
        self.in_hand = Some(hand);
        Opened {
            number: 0,
            work,
            outcome,
        }
    }

    fn counts(&mut self, event: Event) {
        let before = std::mem::replace(&mut self.state, State::empty());
        self.state = before.after(&event, self.reading);
        self.history.push(event);
    }

    /// Demand 3 at a look, against the image.
    pub fn look(&mut self, _look: Look, image: &[u32]) -> Result<(), String> {
        if State::replay(&self.history, self.reading) != self.state {
            return Err("the book's state is not its history's".into());
        }
        self.is_inspected(image)?;
        if self.torn {
            self.off_for_good = true;
            return claim(is_shut(image), || {
                "a work was torn, and attestation is on or the secret stands".into()
            });
        }
        let on = image[ATTESTATION] == ON;
        let disabled = self.history.contains(&Event::DisableCommand);
        claim(on != disabled, || {
            format!("none was torn; on: {on}, a disable command has counted: {disabled}")
        })?;
        self.is_shown(image)
    }

    /// At every point: the mark is the book's, and no call changes what a look
    /// with a torn work found. More than demand 3 asks: with no work under way
    /// and none ever torn, the image shows the book.
    pub fn at_every_point(&self, image: &[u32]) -> Result<(), String> {
        let (mark, unfinished) = (image[MARK], self.unfinished);
        claim((mark == DONE) != unfinished, || {
            format!("the mark is {mark}; the book is unfinished: {unfinished}")
        })?;
        claim(!self.off_for_good || is_shut(image), || {
            "a later call undid the disabling after a torn work".into()
        })?;
        if self.torn || self.unfinished {
            return Ok(());
        }
        self.is_shown(image)
    }

    /// Attestation, secret, registers and nodes are the book's.
    fn is_shown(&self, image: &[u32]) -> Result<(), String> {
        claim(image.len() == IMAGE_WORDS, || {
            format!("a list on an image of {} words", image.len())
        })?;
        let on = !self.is_off();
        claim((image[ATTESTATION] == ON) == on, || {
            format!(
                "attestation is {}; the book is on: {on}",
                image[ATTESTATION]
            )
        })?;
        claim(bytes_of(&image[SECRET..]) == self.secret(), || {
            "the secret is not the book's".into()
        })?;
        let words = self.state.words();
        let differs = (0..words.len()).find(|&i| words[i] != image[REGISTERS_AT + i]);
        differs.map_or(Ok(()), |i| {
            let word = REGISTERS_AT + i;
            let (found, expected) = (image[word], words[i]);
            Err(format!(
                "word {word} is 0x{found:08X} and the book has 0x{expected:08X}"
            ))
        })
    }

    /// The last counted boot's, or zero when off.
    fn secret(&self) -> Digest {
        if self.is_off() {
            return ZERO;
        }
        let last_boot = self.history.iter().rev().find_map(|event| match event {
            Event::Cold(boot) | Event::Update(boot) => Some(boot.secret),
            _ => None,
        });
        last_boot.unwrap_or(ZERO)
    }
}

fn claim(holds: bool, otherwise: impl Fn() -> String) -> Result<(), String> {
    if holds {
        return Ok(());
    }
    Err(otherwise())
}

/// Attestation off and the secret zero.
fn is_shut(image: &[u32]) -> bool {
    image[ATTESTATION] != ON && bytes_of(&image[SECRET..]) == ZERO
}
