//! Scripts and outputs as text.

use crate::checksum::checksum;
use crate::layout::*;
use crate::script::{BootBytes, Mail, Op, Reader, FREED_FROM};
use crate::sha384::DIGEST_BYTES;

fn hex(bytes: &[u8]) -> String {
    bytes.iter().map(|byte| format!("{byte:02x}")).collect()
}

/// Bytes as text: one byte repeated is told as such.
fn told(bytes: &[u8]) -> String {
    match bytes {
        [] => "empty".into(),
        [first, .., last] if bytes.len() > 4 && bytes.iter().all(|b| b == first) => {
            format!("{} x {last:02x}", bytes.len())
        }
        _ => hex(bytes),
    }
}

/// As `told`; of many bytes only the first.
fn shortened(bytes: &[u8]) -> String {
    if bytes.len() <= 16 {
        return told(bytes);
    }
    format!("{} bytes {}..", bytes.len(), hex(&bytes[..8]))
}

fn command_name(code: u32) -> String {
    match command(code) {
        Some(command) => command.name.into(),
        None => format!("code 0x{code:08X}"),
    }
}

/// What the word of an image belongs to.
pub fn place(word: usize) -> String {
    match word {
        MARK => "mark".into(),
        ATTESTATION => "attestation".into(),
        SECRET..REGISTERS_AT => format!("secret word {}", word - SECRET),
        REGISTERS_AT..NODES_AT => {
            let word = word - REGISTERS_AT;
            format!("PCR{} word {}", word / DIGEST_WORDS, word % DIGEST_WORDS)
        }
        NODES_AT..IMAGE_WORDS => {
            let word = word - NODES_AT;
            format!("node {} word {}", word / NODE_WORDS, word % NODE_WORDS)
        }
        _ => "spare".into(),
    }
}

fn handle_name(words: &[u32]) -> String {
    if words == DEFAULT_HANDLE {
        "default".into()
    } else if words == RETIRED_HANDLE {
        "retired".into()
    } else {
        let bytes: Vec<u8> = words.iter().flat_map(|word| word.to_le_bytes()).collect();
        format!("handle {}", told(&bytes))
    }
}

fn image(words: &[u32]) -> String {
    let bytes: Vec<u8> = words.iter().flat_map(|word| word.to_le_bytes()).collect();
    let sum = hex(&crate::sha384::digest(&bytes)[..4]);
    let mut text = format!("{} words, digest {sum}..", words.len());
    if words.len() == IMAGE_WORDS {
        text += &format!(", mark {:#x}, attestation {:#x}", words[0], words[1]);
        for index in 0..NODES {
            let node = node_of(words, index);
            if node.iter().all(|&word| word == 0) {
                continue;
            }
            text += &format!(
                "; node {index}: 0x{:08X} {} flags {:#x} type 0x{:08X} svn {:#x}",
                node[0],
                handle_name(&node[HANDLE..][..HANDLE_WORDS]),
                node[FLAGS],
                node[TYPE],
                node[SVN]
            );
        }
    }
    text
}

fn boot(boot: &BootBytes) -> String {
    let inputs = boot.named();
    let told = inputs.map(|(name, bytes)| format!("{name} {}", told(bytes)));
    told.join(", ")
}

fn mail(mail: &Mail) -> String {
    let bytes = &mail.bytes;
    let sum = match bytes.split_at_checked(CHECKSUM_BYTES) {
        Some((field, body)) if little(field) == checksum(mail.code, body) => "fine",
        Some(_) => "wrong",
        None => "missing",
    };
    format!(
        "{}, caller {:#x}, verdict {}, table {}, fresh {}, {} bytes, checksum {sum}: {}",
        command_name(mail.code),
        mail.caller,
        mail.verdict,
        shortened(&mail.table),
        shortened(&mail.fresh),
        bytes.len(),
        told(bytes)
    )
}

/// A field with what it sets.
fn field_name(field: u8, parts: &[&str]) -> String {
    let part = parts.get(usize::from(field)).unwrap_or(&"no part");
    format!("{field} ({part})")
}

/// A field of a work with what it sets.
fn work_field(field: u8) -> String {
    let parts = [
        "position",
        "first index or register",
        "second index",
        "answer length",
        "number of freed nodes",
    ];
    match usize::from(field).checked_sub(FREED_FROM) {
        Some(place) if place < NODES => format!("{field} (freed index {place})"),
        _ => field_name(field, &parts),
    }
}

/// An operation as one line.
pub fn operation(op: &Op) -> String {
    match op {
        Op::Image(words) => format!("I {}", image(words)),
        Op::Cold(inputs) => format!("C {}", boot(inputs)),
        Op::Update(inputs, verdict) => format!("U {}, verdict {verdict}", boot(inputs)),
        Op::Request(request) => format!("R {}", mail(request)),
        Op::Store(count) => format!("S {count}"),
        Op::Answer(size) => format!("A {size}"),
        Op::Entry(size) => format!("J {size}"),
        Op::Left => "L".into(),
        Op::Cut => "X".into(),
        Op::Set { field, value } => format!("W {} = {value}", work_field(*field)),
        Op::Dump => "D".into(),
        Op::Begin => "b".into(),
        Op::Feed(slice) => format!("f {}", shortened(slice)),
        Op::Finish => "e".into(),
        Op::SetCount { field, value } => {
            format!("w {} = {value}", field_name(*field, &["total", "waiting"]))
        }
    }
}

/// A script as text, one operation a line.
pub fn script(input: &[u8]) -> String {
    let mut reader = Reader::new(input);
    let mut text = String::new();
    for (count, op) in reader.by_ref().enumerate() {
        text += &format!("{count:4} {}\n", operation(&op));
    }
    let rest = reader.rest();
    if !rest.is_empty() {
        let shown = &rest[..rest.len().min(16)];
        text += &format!("     ends at {} bytes: {}..\n", rest.len(), hex(shown));
    }
    text
}

/// What one operation wrote.
#[derive(Clone, PartialEq, Eq)]
pub enum Written {
    Text(String),
    Image(Vec<u32>),
}

/// An output taken apart by the operations that wrote it.
pub struct Output<'a>(pub &'a [u8]);

impl Output<'_> {
    fn take(&mut self, count: usize) -> Option<Vec<u8>> {
        let (taken, rest) = self.0.split_at_checked(count)?;
        self.0 = rest;
        Some(taken.to_vec())
    }

    fn number(&mut self) -> Option<u32> {
        self.take(4).map(|bytes| little(&bytes))
    }

    /// What `op` wrote; none if the output ends before.
    pub fn of(&mut self, op: &Op) -> Option<Written> {
        Some(Written::Text(match op {
            Op::Image(_) | Op::Cut | Op::Set { .. } => String::new(),
            Op::Begin | Op::SetCount { .. } => String::new(),
            Op::Feed(_) => match self.number()? {
                0 => "accepted".into(),
                number => refused(number),
            },
            Op::Finish => {
                let number = self.number()?;
                let digest = self.take(DIGEST_BYTES)?;
                format!("number {}, digest {}", refusal(number), told(&digest))
            }
            Op::Cold(_) | Op::Update(..) => match self.number()? {
                0 => {
                    let outcome = self.take(1)?[0];
                    format!("accepted, outcome {outcome}, {} left", self.number()?)
                }
                number => refused(number),
            },
            Op::Request(_) => match self.number()? {
                0 => format!("accepted, {} left", self.number()?),
                number => refused(number),
            },
            Op::Store(_) => {
                let made = self.number()?;
                format!("{made} made, then {}", refusal(self.number()?))
            }
            Op::Answer(size) => {
                let number = self.number()?;
                let buffer = self.take(usize::from(*size))?;
                format!("number {}, buffer {}", refusal(number), told(&buffer))
            }
            Op::Entry(size) => {
                let (number, length) = (self.number()?, self.number()?);
                let buffer = self.take(usize::from(*size))?;
                format!(
                    "number {}, entry of {length} bytes, buffer {}",
                    refusal(number),
                    told(&buffer)
                )
            }
            Op::Left => format!("{} left", refusal(self.number()?)),
            Op::Dump => {
                let count = self.number()? as usize;
                let bytes = self.take(count.checked_mul(4)?)?;
                return Some(Written::Image(bytes.chunks_exact(4).map(little).collect()));
            }
        }))
    }
}

fn refused(number: u32) -> String {
    format!("refused with {}", refusal(number))
}

fn refusal(number: u32) -> String {
    match number {
        number::CHECKSUM => "BCHK".into(),
        number::SIGNATURE => "BSIG".into(),
        u32::MAX => "none in hand".into(),
        _ => number.to_string(),
    }
}

fn written(written: &Option<Written>) -> String {
    match written {
        None => "(the output ends)".into(),
        Some(Written::Text(text)) => text.clone(),
        Some(Written::Image(words)) => image(words),
    }
}

/// The words in which two images differ, the first few of them.
fn image_differences(ours: &[u32], theirs: &[u32]) -> String {
    let mut text = format!("{} and {} words", ours.len(), theirs.len());
    let differs = |&i: &usize| ours[i] != theirs[i];
    let shared = ours.len().min(theirs.len());
    for word in (0..shared).filter(differs).take(12) {
        text += &format!(
            "\n       word {word} ({}): 0x{:08X} and 0x{:08X}",
            place(word),
            ours[word],
            theirs[word]
        );
    }
    text
}

/// A longer script is shown only where the outputs differ.
const SHOWN_WHOLE: usize = 500;

/// A script with both outputs beside its operations.
pub fn comparison(input: &[u8], ours: &[u8], theirs: &[u8]) -> String {
    let whole = Reader::new(input).count() <= SHOWN_WHOLE;
    let mut reader = Reader::new(input);
    let mut text = String::new();
    let (mut ours, mut theirs) = (Output(ours), Output(theirs));
    for (count, op) in reader.by_ref().enumerate() {
        let (our, their) = (ours.of(&op), theirs.of(&op));
        if whole || our != their {
            text += &format!("{count:4} {}\n", operation(&op));
        }
        if our == their && !whole {
            continue;
        }
        if our == their {
            match &our {
                Some(Written::Text(said)) if said.is_empty() => {}
                _ => text += &format!("       {}\n", written(&our)),
            }
        } else if let (Some(Written::Image(our)), Some(Written::Image(their))) = (&our, &their) {
            text += &format!("    !! {}\n", image_differences(our, their));
        } else {
            text += &format!("    !! reference: {}\n", written(&our));
            text += &format!("    !! engine:    {}\n", written(&their));
        }
    }
    if !reader.rest().is_empty() {
        text += &format!("     ends before the last {} bytes\n", reader.rest().len());
    }
    if ours.0 != theirs.0 {
        text += &format!(
            "    !! behind the last operation: {} and {} bytes\n",
            ours.0.len(),
            theirs.0.len()
        );
    }
    text
}
