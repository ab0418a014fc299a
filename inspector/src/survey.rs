//! The journal read once, piece by piece: what is shown of it, and what it makes of registers and nodes.
//!
//! Memory is bounded whatever comes: the first and the last entries, and the bytes of at most one.

use std::collections::VecDeque;
use std::ops::Range;

use crate::form::{self, Entry, Stop};
use crate::image::Image;
use crate::replayed::{Impossible, Places, Replayed};
use crate::words::{grouped, stop_words};

/// Bytes that are shown behind those of a refusal.
const BEHIND: usize = 8;

/// An entry, its order number (the first is 1), where it begins, and the nodes that it was about.
#[derive(Clone, Debug)]
pub struct Shown {
    pub order: u64,
    pub offset: u64,
    pub entry: Entry,
    pub places: Places,
}

/// The entry where reading stopped.
#[derive(Clone, Debug)]
pub struct Refusal {
    pub number: u32,
    pub order: u64,
    pub offset: u64,
    /// The kind's name, where it is listed.
    pub name: Option<&'static str>,
    pub why: String,
    /// Bytes from the entry's first on, and those among them that decide; none if it is the end.
    pub bytes: Vec<u8>,
    pub marked: Range<usize>,
    /// How many bytes are shown.
    most: usize,
}

pub struct Survey<'a> {
    image: &'a Image,
    most: usize,
    replayed: Replayed,
    waiting: Vec<u8>,
    /// Where the waiting bytes begin.
    offset: u64,
    bytes: u64,
    first: Vec<Shown>,
    last: VecDeque<Shown>,
    count: u64,
    last_cold_boot: Option<u64>,
    last_disabling: Option<u64>,
    matched: Option<u64>,
    refusal: Option<Refusal>,
}

impl<'a> Survey<'a> {
    /// Shows at most so many of the first and so many of the last entries.
    pub fn new(image: &'a Image, most: usize) -> Self {
        Self {
            image,
            most,
            replayed: Replayed::new(),
            waiting: Vec::new(),
            offset: 0,
            bytes: 0,
            first: Vec::new(),
            last: VecDeque::new(),
            count: 0,
            last_cold_boot: None,
            last_disabling: None,
            matched: None,
            refusal: None,
        }
    }

    pub fn feed(&mut self, piece: &[u8]) {
        self.bytes += piece.len() as u64;
        match &mut self.refusal {
            Some(refusal) => refusal.show(piece),
            None => {
                self.waiting.extend_from_slice(piece);
                self.read_waiting();
            }
        }
    }

    /// The journal's end: bytes that still wait are a cut entry.
    pub fn finish(&mut self) {
        if self.refusal.is_some() || self.waiting.is_empty() {
            return;
        }
        let Err(stop) = form::read(&self.waiting) else {
            unreachable!("a whole entry does not wait");
        };
        let end = self.waiting.len();
        self.refuse(0, 22, end..end, stop_words(&stop));
    }

    fn read_waiting(&mut self) {
        let mut at = 0;
        while at < self.waiting.len() && self.refusal.is_none() {
            match form::read(&self.waiting[at..]) {
                Ok((entry, length)) => match self.replayed.count(&entry) {
                    Ok(places) => {
                        self.take(entry, places, at);
                        at += length;
                    }
                    Err(why) => {
                        let field = why.field();
                        let marked = field.map_or(0..1, |field| entry.bytes_of(field, length));
                        self.refuse(at, 24, marked, self.impossible(&why));
                    }
                },
                Err(Stop::Cut { .. }) => break,
                Err(stop @ Stop::Kind(_)) => self.refuse(at, 20, 0..1, stop_words(&stop)),
                Err(stop @ Stop::Number { at: byte, .. }) => {
                    self.refuse(at, 21, byte..byte + 1, stop_words(&stop));
                }
            }
        }
        self.waiting.drain(..at);
        self.offset += at as u64;
    }

    /// Why the unit could not have counted an entry there, from what has been read.
    fn impossible(&self, why: &Impossible) -> String {
        match (why, self.last_disabling) {
            (Impossible::AfterDisabling, Some(order)) => {
                format!(
                    "{}; the last disabling is entry {}",
                    why.words(),
                    grouped(order)
                )
            }
            _ => why.words(),
        }
    }

    fn take(&mut self, entry: Entry, places: Places, at: usize) {
        self.count += 1;
        match entry {
            Entry::ColdBoot { .. } => self.last_cold_boot = Some(self.count),
            Entry::Disabling => self.last_disabling = Some(self.count),
            _ => {}
        }
        if self.replayed.is_on() && self.replayed.image().alike(self.image) {
            self.matched = Some(self.count);
        }
        self.list(Shown {
            order: self.count,
            offset: self.offset + at as u64,
            entry,
            places,
        });
    }

    fn list(&mut self, shown: Shown) {
        if self.first.len() < self.most {
            self.first.push(shown);
            return;
        }
        if self.last.len() == self.most {
            self.last.pop_front();
        }
        self.last.push_back(shown);
    }

    fn refuse(&mut self, at: usize, number: u32, marked: Range<usize>, why: String) {
        let bytes = &self.waiting[at..];
        let whole = form::read(bytes).map_or(0, |(_, length)| length);
        let mut refusal = Refusal {
            number,
            order: self.count + 1,
            offset: self.offset + at as u64,
            name: form::kind_name(bytes[0]),
            why,
            bytes: Vec::new(),
            most: marked.end.max(whole) + BEHIND,
            marked,
        };
        refusal.show(bytes);
        self.refusal = Some(refusal);
    }

    // ---- what was found

    pub fn replayed(&self) -> &Replayed {
        &self.replayed
    }

    /// Bytes of the journal.
    pub fn bytes(&self) -> u64 {
        self.bytes
    }

    /// Entries that were read and could be counted.
    pub fn count(&self) -> u64 {
        self.count
    }

    /// The entries shown first; those shown last, and how many are left out between them.
    pub fn first(&self) -> &[Shown] {
        &self.first
    }

    pub fn last(&self) -> impl Iterator<Item = &Shown> {
        self.last.iter()
    }

    pub fn left_out(&self) -> u64 {
        self.count - (self.first.len() + self.last.len()) as u64
    }

    /// The order number of the last cold boot.
    pub fn last_cold_boot(&self) -> Option<u64> {
        self.last_cold_boot
    }

    /// Entries before the last cold boot no longer count.
    pub fn is_erased(&self, shown: &Shown) -> bool {
        self.last_cold_boot > Some(shown.order)
    }

    /// The last entry after which registers and nodes were the image's, with attestation on.
    pub fn matched(&self) -> Option<u64> {
        self.matched
    }

    pub fn refusal(&self) -> Option<&Refusal> {
        self.refusal.as_ref()
    }
}

impl Refusal {
    /// Takes in further bytes of the journal, as far as they are shown.
    fn show(&mut self, bytes: &[u8]) {
        let room = self.most - self.bytes.len();
        self.bytes.extend(bytes.iter().take(room));
    }

    /// Whether a byte decides; at a cut it is the place behind the last.
    pub fn is_marked(&self, place: usize) -> bool {
        match self.marked.is_empty() {
            true => place == self.marked.start,
            false => self.marked.contains(&place),
        }
    }

    /// Places to show: the bytes, and at a cut the one behind them.
    pub fn places(&self) -> usize {
        self.bytes.len().max(self.marked.start + 1)
    }
}
