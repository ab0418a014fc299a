//! Plays a script on the engine, with the book beside it wherever a list
//! follows a completed cold boot, and with a book of the accepted slices beside
//! the running digest for as long as no count is set from outside.

pub mod entry;
mod running;

use crate::book::slices::Slices;
use crate::book::wrong::{Fair, Keeper};
use crate::book::{Book, Look, Opened};
use crate::boots::{Boot, Boots, Inputs};
use crate::engine::{Engine, Paper};
use crate::layout::*;
use crate::requests::Request;
use crate::running::Running;
use crate::script::{Op, Reader, FREED_FROM, FREED_NUMBER, TOTAL, WAITING};
use crate::work::{Freed, Work};
use entry::Fit;
use std::collections::BTreeSet;

/// The number for a call without a work in hand.
pub const NONE_IN_HAND: u32 = u32::MAX;

/// Every byte of an answer's buffer before the call.
pub const FILLING: u8 = 0xA5;

/// What the driver does around the entries, each rule a method, so that a
/// driver can be wrong in just one.
pub trait Host {
    /// A verdict's byte: 1 is yes, anything else no.
    fn is_yes(&self, verdict: u8) -> bool {
        verdict == 1
    }

    /// What is in hand after a refused opening.
    fn after_refusal(&self, in_hand: Option<Work>) -> Option<Work> {
        in_hand
    }

    /// What is in hand after an answer.
    fn after_answer(&self, work: Work) -> Work {
        work
    }

    /// The length that is written with a journal entry, of which so many bytes
    /// are to be had.
    fn entry_length(&self, taken: Result<usize, u32>, _entry: usize) -> u32 {
        taken.unwrap_or(0) as u32
    }

    /// What is in hand after its journal entry was taken.
    fn after_entry(&self, work: Work) -> Option<Work> {
        Some(work)
    }

    /// The running digest when a run starts.
    fn at_start(&self) -> Running {
        Running::begun()
    }

    /// What an operation of that letter does to the running digest besides its
    /// own part: nothing.
    fn alters_running(&self, _letter: u8, _running: &mut Running) {}

    /// What an operation of that letter does to the work in hand besides its
    /// own part: nothing.
    fn alters_work(&self, _letter: u8, _in_hand: &mut Option<Work>) {}

    /// Sets a part of a work; one that its kind does not have stays.
    fn set_part(&self, work: &mut Work, field: u8, value: u64) {
        match field {
            0 => work.position = value,
            1 | 2 => {
                let mut indices = work.kind.indices();
                if let Some(index) = indices.get_mut(usize::from(field) - 1) {
                    *index.value() = value;
                }
            }
            3 => work.answer_bytes = value,
            _ => {
                if let Some(freed) = work.kind.freed() {
                    self.set_freed(freed, field, value);
                }
            }
        }
    }

    /// Sets the number of nodes that a destroy frees, or one of its indices.
    fn set_freed(&self, freed: &mut Freed, field: u8, value: u64) {
        if field == FREED_NUMBER {
            freed.number = value;
        }
        let place = usize::from(field).checked_sub(FREED_FROM);
        if let Some(index) = place.and_then(|place| freed.indices.get_mut(place)) {
            *index = value;
        }
    }

    /// Sets a count of the running digest.
    fn set_count(&self, running: &mut Running, field: u8, value: u64) {
        match field {
            TOTAL => running.total = value,
            WAITING => running.waiting = value,
            _ => {}
        }
    }
}

/// What the calls of a run have come to, for the coverage test.
#[derive(Default)]
pub struct Seen {
    /// The operation's letter and the number that it gave.
    pub numbers: BTreeSet<(char, u32)>,
    pub kinds: BTreeSet<Sort>,
    pub outcomes: BTreeSet<u8>,
    /// A command's code and the dpe result in its answer.
    pub dpe_results: BTreeSet<(u32, u32)>,
    /// Kind of the work in hand and stores made when a cut came.
    pub cuts: BTreeSet<(Sort, u64)>,
    pub damaged_works: u64,
    /// Kind of work, number and fit of the buffer where an entry was taken.
    pub entries: BTreeSet<(Sort, u32, Fit)>,
    pub looks: u64,
    pub looks_after_tears: u64,
    /// Bytes waiting before and after an accepted slice.
    pub waiting: BTreeSet<(u64, u64)>,
    /// Digests that the book of the slices was asked for too.
    pub digests: u64,
    pub operations: u64,
}

/// Whether a book is kept.
enum Watch {
    Nothing,
    /// A cold boot with these inputs is in hand, all its stores so far made.
    Booting(Boot),
    List(Box<Book>),
}

pub struct Player {
    engine: Engine,
    image: Vec<u32>,
    work: Option<Work>,
    running: Running,
    watch: Watch,
    /// The book of the running digest; none once a count was set.
    slices: Option<Slices>,
    output: Vec<u8>,
    pub seen: Seen,
    /// Who keeps the books.
    pub keeper: &'static dyn Keeper,
}

/// Plays an input to its end. A disagreement with the book is a panic.
pub fn play(input: &[u8]) -> Vec<u8> {
    let mut player = Player::new(Engine::PAPER);
    match player.run(input) {
        Ok(()) => player.output,
        Err(why) => panic!("the engine and the book disagree: {why}"),
    }
}

/// Plays an input on a wrong engine, which no book looks at.
pub fn play_unwatched(engine: Engine, input: &[u8]) -> Vec<u8> {
    let mut player = Player::new(engine);
    for op in Reader::new(input) {
        player.watch = Watch::Nothing;
        player.slices = None;
        let _ = player.operate(op);
    }
    player.output
}

impl Player {
    pub fn new(engine: Engine) -> Player {
        Player {
            engine,
            image: vec![0; IMAGE_WORDS],
            work: None,
            running: engine.host.at_start(),
            watch: Watch::Nothing,
            slices: Some(Slices::default()),
            output: Vec::new(),
            seen: Seen::default(),
            keeper: &Fair,
        }
    }

    /// Plays an input to its end, or to the first disagreement with the book.
    pub fn run(&mut self, input: &[u8]) -> Result<(), String> {
        for (count, op) in Reader::new(input).enumerate() {
            let letter = op.letter() as char;
            self.operate(op)
                .map_err(|why| format!("operation {count}, {letter}: {why}"))?;
        }
        Ok(())
    }

    pub fn output(&self) -> &[u8] {
        &self.output
    }

    pub fn image(&self) -> &[u32] {
        &self.image
    }

    pub fn work(&self) -> Option<&Work> {
        self.work.as_ref()
    }

    pub fn running(&self) -> &Running {
        &self.running
    }

    /// Makes one operation.
    pub fn operate(&mut self, op: Op) -> Result<(), String> {
        self.seen.operations += 1;
        let letter = op.letter();
        let made = self.make(op);
        let host = self.engine.host;
        host.alters_running(letter, &mut self.running);
        host.alters_work(letter, &mut self.work);
        made?;
        match &self.watch {
            Watch::List(book) => book.at_every_point(&self.image),
            _ => Ok(()),
        }
    }

    /// An operation's own part.
    fn make(&mut self, op: Op) -> Result<(), String> {
        match op {
            Op::Image(words) => {
                self.image = words;
                self.work = None;
                self.watch = Watch::Nothing;
            }
            Op::Cold(boot) => self.cold(boot.inputs()),
            Op::Update(boot, verdict) => self.update(boot.inputs(), verdict)?,
            Op::Request(mail) => self.request(Request {
                code: mail.code,
                bytes: &mail.bytes,
                caller: mail.caller,
                table: &mail.table,
                verdict: self.engine.host.is_yes(mail.verdict),
                fresh: &mail.fresh,
            })?,
            Op::Store(count) => self.stores(count)?,
            Op::Answer(size) => self.answer(size)?,
            Op::Entry(size) => self.entry(size)?,
            Op::Left => self.left()?,
            Op::Cut => {
                if let Some(work) = self.work.take() {
                    self.seen.cuts.insert((work.kind.sort(), work.position));
                }
                match &mut self.watch {
                    Watch::List(book) => self.keeper.cut(book),
                    _ => self.watch = Watch::Nothing,
                }
            }
            Op::Set { field, value } => self.set(field, value),
            Op::Dump => {
                self.put(self.image.len() as u32);
                for word in &self.image {
                    self.output.extend_from_slice(&word.to_le_bytes());
                }
            }
            Op::Begin => self.begin()?,
            Op::Feed(slice) => self.feed(&slice)?,
            Op::Finish => self.finish()?,
            Op::SetCount { field, value } => self.set_count(field, value),
        }
        Ok(())
    }

    fn put(&mut self, number: u32) {
        self.output.extend_from_slice(&number.to_le_bytes());
    }

    /// Writes what an opening gave and takes its work in hand.
    fn opened(&mut self, letter: char, result: Result<(Work, Option<u8>), u32>) -> Opened {
        match result {
            Err(number) => {
                self.put(number);
                self.seen.numbers.insert((letter, number));
                self.work = self.engine.host.after_refusal(self.work.take());
                Opened::refused(number)
            }
            Ok((work, outcome)) => {
                let left = self.engine.left(&work);
                self.put(0);
                self.output.extend(outcome);
                self.put(left);
                self.seen.numbers.insert((letter, 0));
                self.seen.kinds.insert(work.kind.sort());
                self.seen.outcomes.extend(outcome);
                let opened = Opened {
                    number: 0,
                    work: Some((work.kind.sort(), left)),
                    outcome,
                };
                self.work = Some(work);
                opened
            }
        }
    }

    fn cold(&mut self, inputs: Inputs) {
        let result = self.engine.open_cold(&self.image, inputs);
        let opened = self.opened('C', result.map(|(work, outcome)| (work, Some(outcome))));
        // A refused cold boot changes nothing, so a list goes on over it.
        if opened.number == 0 {
            self.watch = Paper.boot(inputs).map_or(Watch::Nothing, Watch::Booting);
        }
    }

    fn update(&mut self, inputs: Inputs, verdict: u8) -> Result<(), String> {
        let yes = self.engine.host.is_yes(verdict);
        let result = self.engine.open_update(&self.image, inputs, yes);
        let opened = self.opened('U', result.map(|(work, outcome)| (work, Some(outcome))));
        let Watch::List(book) = &mut self.watch else {
            self.watch_ends_if(opened.number == 0);
            return Ok(());
        };
        let (expected, look) = self.keeper.update(book, inputs, yes);
        agree("update boot", &opened, &expected)?;
        self.look(look)
    }

    fn request(&mut self, request: Request) -> Result<(), String> {
        let result = self.engine.open_request(&self.image, request);
        if let Ok(work) = &result {
            if matches!(request.code, STASH | INVOKE) {
                let result = little(&work.answer[8..]);
                self.seen.dpe_results.insert((request.code, result));
            }
        }
        let opened = self.opened('R', result.map(|work| (work, None)));
        let Watch::List(book) = &mut self.watch else {
            self.watch_ends_if(opened.number == 0);
            return Ok(());
        };
        agree("request", &opened, &self.keeper.request(book, request))
    }

    /// A cold boot that is not at its end goes when another opening is accepted.
    fn watch_ends_if(&mut self, accepted: bool) {
        if accepted {
            self.watch = Watch::Nothing;
        }
    }

    fn look(&mut self, look: Option<Look>) -> Result<(), String> {
        let (Watch::List(book), Some(look)) = (&mut self.watch, look) else {
            return Ok(());
        };
        self.seen.looks += 1;
        self.seen.looks_after_tears += u64::from(book.is_torn());
        book.look(look, &self.image)
    }

    fn stores(&mut self, count: u32) -> Result<(), String> {
        let mut made = 0;
        let mut refusal = 0;
        while made < count && refusal == 0 {
            let Some(work) = &mut self.work else { break };
            refusal = self.engine.store(work, &mut self.image);
            if refusal == 0 {
                made += 1;
            }
            if let Watch::List(book) = &mut self.watch {
                let (expected, look) = self.keeper.store(book);
                if refusal != expected {
                    return Err(format!(
                        "a store gave {refusal} and the book says {expected}"
                    ));
                }
                self.look(look)?;
            }
            self.start_of_list();
        }
        self.put(made);
        self.put(refusal);
        self.seen.numbers.insert(('S', refusal));
        Ok(())
    }

    /// A list starts with the last store of a cold boot.
    fn start_of_list(&mut self) {
        if let (Watch::Booting(boot), Some(work)) = (&self.watch, &self.work) {
            if self.engine.left(work) == 0 {
                let book = self.keeper.cold(boot.clone());
                self.watch = Watch::List(Box::new(book));
            }
        }
    }

    fn answer(&mut self, size: u16) -> Result<(), String> {
        let mut buffer = vec![FILLING; usize::from(size)];
        let number = match &self.work {
            None => NONE_IN_HAND,
            Some(work) => self.engine.answer(work, &mut buffer),
        };
        self.put(number);
        self.output.extend_from_slice(&buffer);
        self.seen.numbers.insert(('A', number));
        if number == 0 {
            self.work = self
                .work
                .take()
                .map(|work| self.engine.host.after_answer(work));
        }
        if let Watch::List(book) = &self.watch {
            let expected = book.left().map(|left| left > 0);
            let found = (number != NONE_IN_HAND).then_some(number == number::STORES_LEFT);
            if expected != found {
                return Err(format!(
                    "an answer gave {number} and the book has {:?} stores left",
                    book.left()
                ));
            }
        }
        Ok(())
    }

    fn left(&mut self) -> Result<(), String> {
        let left = self.work.as_ref().map(|work| self.engine.left(work));
        self.put(left.unwrap_or(NONE_IN_HAND));
        match &self.watch {
            Watch::List(book) if book.left() != left => Err(format!(
                "{left:?} stores are left and the book says {:?}",
                book.left()
            )),
            _ => Ok(()),
        }
    }

    fn set(&mut self, field: u8, value: u64) {
        self.watch = Watch::Nothing;
        let Some(work) = &mut self.work else { return };
        self.engine.host.set_part(work, field, value);
        if self.engine.answer(work, &mut [0; ANSWER_MAX]) == number::STORES_LEFT
            && self.engine.left(work) == 0
        {
            self.seen.damaged_works += 1;
        }
    }
}

fn agree(what: &str, found: &Opened, expected: &Opened) -> Result<(), String> {
    if found == expected {
        return Ok(());
    }
    Err(format!(
        "{what}: the engine gave {found:?} and the book says {expected:?}"
    ))
}
