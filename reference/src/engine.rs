//! The engine: the entries, made of parts that each hold a section's rules.

use crate::boots::{Boots, Inputs, Opened};
use crate::journal::read::Reads;
use crate::journal::Journals;
use crate::layout::Digest;
use crate::mailbox::Program;
use crate::memory::{Memory, Unit};
use crate::player::Host;
use crate::requests::{Request, Requests};
use crate::running::{Running, RunningDigest};
use crate::work::{Work, Works};

/// Every rule as the papers have it.
pub struct Paper;

impl Memory for Paper {}
impl Requests for Paper {}
impl Boots for Paper {}
impl Works for Paper {}
impl Journals for Paper {}
impl Reads for Paper {}
impl RunningDigest for Paper {}
impl Program for Paper {}
impl Host for Paper {}

#[derive(Clone, Copy)]
pub struct Engine {
    pub memory: &'static dyn Memory,
    pub requests: &'static dyn Requests,
    pub boots: &'static dyn Boots,
    pub works: &'static dyn Works,
    pub journal: &'static dyn Journals,
    pub running: &'static dyn RunningDigest,
    /// The small program around the entries, and the driver.
    pub program: &'static dyn Program,
    pub host: &'static dyn Host,
}

impl Engine {
    /// The right engine.
    pub const PAPER: Engine = Engine {
        memory: &Paper,
        requests: &Paper,
        boots: &Paper,
        works: &Paper,
        journal: &Paper,
        running: &Paper,
        program: &Paper,
        host: &Paper,
    };

    pub fn open_request(&self, image: &[u32], request: Request) -> Result<Work, u32> {
        self.requests.open(self.unit(image), request)
    }

    pub fn open_cold(&self, image: &[u32], inputs: Inputs) -> Result<Opened, u32> {
        self.boots.cold(image, inputs)
    }

    pub fn open_update(&self, image: &[u32], inputs: Inputs, verdict: bool) -> Result<Opened, u32> {
        self.boots.update(self.unit(image), inputs, verdict)
    }

    fn unit<'a>(&self, image: &'a [u32]) -> Unit<'a> {
        Unit {
            memory: self.memory,
            image,
        }
    }

    pub fn left(&self, work: &Work) -> u32 {
        self.works.left(work)
    }

    pub fn store(&self, work: &mut Work, image: &mut [u32]) -> u32 {
        self.works.store(work, image)
    }

    pub fn answer(&self, work: &Work, buffer: &mut [u8]) -> u32 {
        self.works.answer(work, buffer)
    }

    pub fn entry(&self, work: &Work, buffer: &mut [u8]) -> Result<usize, u32> {
        self.journal.take(self.works, work, buffer)
    }

    pub fn begin(&self, running: &mut Running) {
        self.running.begin(running);
    }

    pub fn feed(&self, running: &mut Running, slice: &[u8]) -> u32 {
        self.running.feed(running, slice)
    }

    pub fn finish(&self, running: &Running) -> (u32, Digest) {
        self.running.finish(running)
    }
}
