//! Everything that is shown, and the exit status.

use crate::chain::{self, chain};
use crate::image::{self, Image, FIRST_COMPARED, REGISTERS};
use crate::judge::Judgement;
use crate::registers::{self, registers};
use crate::shape;
use crate::survey::Survey;
use crate::words::{counted, grouped, listed, number_words};

/// Exit statuses, as `./inspect --help` lists them.
pub mod status {
    pub const ALIKE: u8 = 0;
    pub const NOT_ALIKE: u8 = 1;
    pub const FAILED: u8 = 2;
    pub const REFUSED: u8 = 3;
    pub const NOTHING_TO_COMPARE: u8 = 4;
    pub const ALIKE_WITH_WARNING: u8 = 5;
}

/// How good the news is.
#[derive(Clone, Copy, Debug, PartialEq, Eq)]
pub enum Tone {
    Good,
    Doubtful,
    Bad,
}

/// The files as they are named to the reader.
pub struct Names {
    pub image: String,
    pub journal: String,
}

pub struct Report<'a> {
    pub names: Names,
    /// Bytes of the image that were there.
    pub image_bytes: usize,
    /// The image and what was read of the journal; none if the image is cut short.
    pub seen: Option<Seen<'a>>,
    pub judgement: Judgement,
    /// Where the reading for display came to something else than the judgement.
    pub disagreement: Option<String>,
}

pub struct Seen<'a> {
    pub image: &'a Image,
    pub survey: &'a Survey<'a>,
    /// There were more bytes than are used.
    pub journal_goes_on: bool,
    pub chain: Vec<chain::Row>,
    pub registers: Vec<registers::Row>,
    pub warnings: Vec<String>,
    pub notes: Vec<String>,
}

impl Seen<'_> {
    /// Mark and attestation in words.
    pub fn image_words(&self) -> String {
        let mark = match self.image.mark() {
            1 => "no work unfinished".into(),
            mark => format!("A WORK IS UNFINISHED (mark {mark:#x})"),
        };
        let attestation = if self.image.is_on() { "on" } else { "OFF" };
        format!("{mark}, attestation {attestation}")
    }

    /// How long the journal is, and where replaying begins.
    pub fn journal_words(&self) -> String {
        let bytes = counted(self.survey.bytes(), "byte", "bytes");
        let entries = counted(self.survey.count(), "entry", "entries");
        let refused = match self.survey.refusal() {
            Some(_) => " before the refused one",
            None => "",
        };
        let boot = match self.survey.last_cold_boot() {
            Some(order) => format!("; the last cold boot is entry {}", grouped(order)),
            None => String::new(),
        };
        format!("{bytes}, {entries}{refused}{boot}")
    }
}

impl<'a> Report<'a> {
    /// The report on an image that is cut short.
    pub fn of_cut_image(names: Names, image_bytes: usize, judgement: Judgement) -> Self {
        let disagreement = match judgement {
            Judgement::ImageCut => None,
            _ => Some("replay took an image that is cut short for a whole one".into()),
        };
        Self {
            names,
            image_bytes,
            seen: None,
            judgement,
            disagreement,
        }
    }

    pub fn new(
        names: Names,
        image: &'a Image,
        survey: &'a Survey<'a>,
        journal_goes_on: bool,
        judgement: Judgement,
    ) -> Self {
        let compared = judgement.registers().map(|_| survey.replayed().image());
        let seen = Seen {
            image,
            survey,
            journal_goes_on,
            chain: chain(image, compared),
            registers: registers(image, judgement.registers()),
            warnings: warnings(image, survey, &judgement),
            notes: notes(image, survey, journal_goes_on, &judgement),
        };
        Self {
            names,
            image_bytes: image::BYTES,
            disagreement: disagreement(&seen, &judgement),
            seen: Some(seen),
            judgement,
        }
    }

    /// What stands behind a title where the image is shown by itself.
    pub fn compared_words(&self) -> &'static str {
        match self.judgement.registers() {
            Some(_) => "",
            None => " (the image's, not compared)",
        }
    }

    pub fn status(&self) -> u8 {
        if self.disagreement.is_some() {
            return status::FAILED;
        }
        match self.judgement {
            Judgement::Alike(_) if self.has_warnings() => status::ALIKE_WITH_WARNING,
            Judgement::Alike(_) => status::ALIKE,
            Judgement::Unlike(_) => status::NOT_ALIKE,
            Judgement::NoColdBoot | Judgement::Off => status::NOTHING_TO_COMPARE,
            Judgement::ImageCut | Judgement::Refused(..) => status::REFUSED,
        }
    }

    pub fn tone(&self) -> Tone {
        match self.status() {
            status::ALIKE => Tone::Good,
            status::ALIKE_WITH_WARNING | status::NOTHING_TO_COMPARE => Tone::Doubtful,
            _ => Tone::Bad,
        }
    }

    fn has_warnings(&self) -> bool {
        self.seen
            .as_ref()
            .is_some_and(|seen| !seen.warnings.is_empty())
    }

    /// The verdict in a few words.
    pub fn headline(&self) -> String {
        match &self.judgement {
            Judgement::Alike(_) if self.has_warnings() => "ALIKE, WITH A WARNING".into(),
            Judgement::Alike(_) => "ALIKE".into(),
            Judgement::Unlike(_) => "NOT ALIKE".into(),
            Judgement::NoColdBoot | Judgement::Off => "NOTHING TO COMPARE".into(),
            Judgement::ImageCut => "REFUSED: 1".into(),
            Judgement::Refused(number, _) => format!("REFUSED: {number}"),
        }
    }

    /// The verdict in a sentence or two.
    pub fn sentence(&self) -> String {
        match &self.judgement {
            Judgement::Alike(_) => {
                "Replayed, the journal gives the image's PCR2 to PCR31 and all its nodes.".into()
            }
            Judgement::Unlike(_) => format!(
                "Replayed, the journal gives other registers or nodes than the image has: {}.",
                self.differing()
            ),
            Judgement::NoColdBoot => {
                "The journal is empty: it has no cold boot that a list could begin with.".into()
            }
            Judgement::Off => "The journal has a disabling after its last cold boot: attestation \
                               is off, and the unit vouches for no list until the next cold boot."
                .into(),
            Judgement::ImageCut => format!(
                "The image is cut short: it has {} of {} bytes. The journal was not looked at. Are \
                 the two files exchanged?",
                grouped(self.image_bytes as u64),
                grouped(image::BYTES as u64)
            ),
            Judgement::Refused(number, offset) => format!(
                "The journal is refused at the entry that begins at offset {}: {}. Nothing was \
                 compared.",
                offset,
                number_words(*number)
            ),
        }
    }

    /// Registers and nodes that differ: by name if they are few.
    fn differing(&self) -> String {
        let Some(seen) = &self.seen else {
            return String::new();
        };
        let registers = seen.registers.iter().filter(|row| row.replayed.is_some());
        let registers: Vec<String> = registers.map(registers::Row::name).collect();
        let nodes = seen.chain.iter().filter(|row| row.mark.is_difference());
        let nodes: Vec<String> = nodes.map(|row| format!("node {}", row.place)).collect();
        let parts = [
            few(registers, "register", "registers"),
            few(nodes, "node", "nodes"),
        ];
        listed(&parts.concat())
    }
}

/// The names, or their number if they are more than a few.
fn few(names: Vec<String>, one: &str, many: &str) -> Vec<String> {
    match names.len() {
        0..=6 => names,
        n => vec![counted(n as u64, one, many)],
    }
}

/// What the verdict does not compare, where it is not as it should be.
fn warnings(image: &Image, survey: &Survey, judgement: &Judgement) -> Vec<String> {
    let mut warnings = Vec::new();
    if image.mark() != 1 {
        warnings.push(format!(
            "The image's mark is {:#x} and not 1: a work is unfinished. The image was saved in the \
             middle of it, or the power was cut and no update boot has run since.",
            image.mark()
        ));
    }
    match (judgement, image.attestation()) {
        (Judgement::Alike(_) | Judgement::Unlike(_), word) if word != 1 => warnings.push(format!(
            "Attestation is off in the image (word 1 is {word:#x}), though the journal has no \
             disabling after its last cold boot, entry {}. At least one entry is missing.",
            grouped(survey.last_cold_boot().unwrap_or(0))
        )),
        (Judgement::Off, 1) => warnings.push(
            "Attestation is on in the image, though the journal ends switched off: the two are not \
             of the same time, or not of the same unit."
                .into(),
        ),
        _ => {}
    }
    if image.spare() != [0, 0] {
        warnings.push("Words 2 and 3 of the image are not zero; no unit writes them so.".into());
    }
    for number in 0..FIRST_COMPARED {
        if image.register(number) != [0; 48] {
            warnings.push(format!(
                "PCR{number} is not zero in the image; no unit writes it so."
            ));
        }
    }
    warnings
}

/// What helps to understand the verdict.
fn notes(image: &Image, survey: &Survey, goes_on: bool, judgement: &Judgement) -> Vec<String> {
    let mut notes = Vec::new();
    if let (Judgement::Unlike(_), Some(order)) = (judgement, survey.matched()) {
        let behind = counted(
            survey.count() - order,
            "entry behind it is",
            "entries behind it are",
        );
        notes.push(format!(
            "After entry {} the registers and nodes were the image's: {behind} not in the image.",
            grouped(order)
        ));
    }
    if let Some(refusal) = survey.refusal().filter(|refusal| refusal.number == 22) {
        let bytes = counted(survey.bytes() - refusal.offset, "byte", "bytes");
        let entries = counted(survey.count(), "whole entry", "whole entries");
        notes.push(format!(
            "Before the last {bytes} the journal has {entries}: an append may have been \
             interrupted."
        ));
    }
    notes.extend(shape::remark(image));
    if goes_on {
        notes.push("The journal has more than 2^32 bytes; the rest is not used.".into());
    }
    if image.holds_secret() {
        notes.push(
            "Words 4 to 15 of the image are not zero: it holds the device secret, which no \
             inspector needs. They may be zeroed before the image is handed on."
                .into(),
        );
    }
    notes
}

/// Where the reading for display comes to something else than the judgement.
fn disagreement(seen: &Seen, judgement: &Judgement) -> Option<String> {
    let survey = seen.survey;
    let own = own_words(seen);
    let told = match judgement {
        Judgement::ImageCut => "image cut short".into(),
        Judgement::Refused(number, offset) => refused_words(*number, *offset),
        Judgement::NoColdBoot => "no cold boot".into(),
        Judgement::Off => "a disabling after the last cold boot".into(),
        Judgement::Unlike(_) => "not alike".into(),
        Judgement::Alike(_) => "alike".into(),
    };
    if own != told {
        return Some(format!("replay says: {told}; read for display: {own}"));
    }
    let replayed = survey.replayed().image();
    let numbers = FIRST_COMPARED..REGISTERS;
    let unlike: Vec<String> = numbers
        .zip(judgement.registers().into_iter().flatten())
        .filter(|(number, value)| replayed.register(*number) != **value)
        .map(|(number, _)| format!("PCR{number}"))
        .collect();
    match unlike.is_empty() {
        true => None,
        false => Some(format!(
            "replay's {} is not what the reading for display comes to",
            listed(&unlike)
        )),
    }
}

fn refused_words(number: u32, offset: u64) -> String {
    format!("refused with {number} at offset {offset}")
}

/// What the reading for display would say.
fn own_words(seen: &Seen) -> String {
    let replayed = seen.survey.replayed();
    match seen.survey.refusal() {
        Some(refusal) => refused_words(refusal.number, refusal.offset),
        None if !replayed.is_booted() => "no cold boot".into(),
        None if !replayed.is_on() => "a disabling after the last cold boot".into(),
        None if replayed.image().alike(seen.image) => "alike".into(),
        None => "not alike".into(),
    }
}
