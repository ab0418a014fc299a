//! Compares a program `replay` with ours: on generated inputs, and on long
//! journals that come in uneven pieces while its memory is looked at.

use super::{is_program, output_of, run_in_pieces, started, PROGRESS};
use crate::book::replay::{bytes, replay, shown};
use crate::generate::{replay_inputs, Inspection, LongJournal};
use crate::layout::little;
use crate::random::Random;
use std::fs;
use std::io::{self, Read, Write};
use std::path::{Path, PathBuf};
use std::process::Child;
use std::sync::mpsc;
use std::thread;
use std::time::{Duration, Instant};

/// The entries of the short journal whose memory the long one's is compared with.
const FEW_ENTRIES: u64 = 1_000;

/// By how much the peak of the resident memory may differ, in KiB.
const ALLOWED_KIB: u64 = 256;

/// How long a program may take to read what it was sent.
const PATIENCE: Duration = Duration::from_secs(600);

/// The most bytes of a piece.
const PIECE_BYTES: usize = 70_000;

/// What a campaign is told.
pub struct Replaying {
    pub program: PathBuf,
    /// About so many of the inputs; all if it is 0.
    pub count: usize,
    /// The entries of the long journal.
    pub entries: u64,
    /// Where an input that differs is kept.
    pub keep: PathBuf,
}

/// False if one input differs, or if the memory grows with the journal.
pub fn replay_campaign(options: &Replaying) -> Result<bool, String> {
    is_program(&options.program)?;
    let inputs = replay_inputs();
    let step = inputs.len().checked_div(options.count).unwrap_or(1).max(1);
    let mut compared = 0;
    let mut shown = Instant::now();
    for (place, inspection) in inputs.iter().enumerate().step_by(step) {
        if !agrees(options, place, inspection) {
            return Ok(false);
        }
        compared += 1;
        if shown.elapsed() > PROGRESS {
            println!("{compared} inputs so far");
            shown = Instant::now();
        }
    }
    let flat = is_flat(&options.program, options.entries)?;
    if flat {
        println!(
            "{compared} inputs, {} entries, 0 differences",
            options.entries
        );
    }
    Ok(flat)
}

/// Every 31st input comes in about ten pieces.
fn agrees(options: &Replaying, place: usize, inspection: &Inspection) -> bool {
    let input = inspection.input();
    let piece = input.len() / if place % 31 == 30 { 10 } else { 1 };
    let theirs = run_in_pieces(&options.program, &input, piece.max(1));
    let ours = replay(&mut &input[..]).map_err(|error| error.to_string());
    if theirs == ours {
        return true;
    }
    let journal = &inspection.journal;
    println!(
        "input {place}, {}: an image of {} bytes, a journal of {}, its end {:02x?}",
        inspection.name,
        inspection.image.len(),
        journal.len(),
        &journal[journal.len().saturating_sub(64)..]
    );
    println!("reference: {}", told(&ours));
    println!("program:   {}", told(&theirs));
    let path = options.keep.join(format!("replay-{place}.input"));
    let kept = fs::create_dir_all(&options.keep).and_then(|()| fs::write(&path, &input));
    match kept {
        Ok(()) => println!("kept in {}", path.display()),
        Err(error) => println!("not kept in {}: {error}", path.display()),
    }
    false
}

/// An output's length and number, and what follows the number.
fn told(output: &Result<Vec<u8>, String>) -> String {
    let output = match output {
        Err(why) => return why.clone(),
        Ok(output) => output,
    };
    let mut text = format!("{} bytes", output.len());
    if let Some((number, rest)) = output.split_at_checked(4) {
        text += &format!(": number {}", little(number));
        if let Some((offset, rest)) = rest.split_at_checked(8) {
            text += &format!(", offset {}", little(offset));
            text += &rest
                .first()
                .map_or(String::new(), |v| format!(", verdict {v}"));
        }
    }
    text
}

/// Whether a long journal gives what it gives us, from no more memory than a short
/// one.
fn is_flat(program: &Path, entries: u64) -> Result<bool, String> {
    let few = peak_of(program, FEW_ENTRIES)?;
    let many = peak_of(program, entries)?;
    let (Some(few), Some(many)) = (few, many) else {
        return Ok(false);
    };
    println!("memory at its peak: {few} KiB for {FEW_ENTRIES} entries, {many} KiB for {entries}");
    let flat = many.abs_diff(few) < ALLOWED_KIB;
    if !flat {
        println!("the memory grows with the journal");
    }
    Ok(flat)
}

/// The peak of a program's memory for a journal of so many entries and the image
/// that it comes to; none if it writes another result than ours.
fn peak_of(program: &Path, entries: u64) -> Result<Option<u64>, String> {
    let image = shown(&mut LongJournal::of(entries)).ok_or("a long journal is refused")?;
    let input = || io::Cursor::new(bytes(&image)).chain(LongJournal::of(entries));
    let ours = replay(&mut input()).map_err(|error| error.to_string())?;
    let theirs = streamed(program, input(), entries);
    match theirs {
        Ok((theirs, peak)) if theirs == ours => return Ok(Some(peak)),
        theirs => {
            println!("a journal of {entries} entries in pieces");
            println!("reference: {}", told(&Ok(ours)));
            println!("program:   {}", told(&theirs.map(|(output, _)| output)));
        }
    }
    Ok(None)
}

/// What a program writes for an input in uneven pieces, and the peak of its memory
/// in KiB once it has read all and waits for more.
fn streamed(
    program: &Path,
    input: impl Read + Send + 'static,
    seed: u64,
) -> Result<(Vec<u8>, u64), String> {
    let mut child = started(program)?;
    let to = child.stdin.take().expect("standard input is a pipe");
    let (sender, receiver) = mpsc::channel();
    let writer = thread::spawn(move || drop(sender.send(send(to, input, seed))));
    let sent = receiver.recv_timeout(PATIENCE);
    let sent = sent.unwrap_or_else(|_| Err("the program does not read its input".into()));
    // The input stays open while the memory is looked at.
    let peak = sent.and_then(|(_open, bytes)| peak_once_read(&child, bytes));
    if peak.is_err() {
        drop(child.kill());
    }
    let output = output_of(child);
    drop(writer.join());
    Ok((output?, peak?))
}

/// Sends all of an input; then what it was sent to, still open, and how many bytes
/// it had.
fn send<W: Write>(mut to: W, mut input: impl Read, seed: u64) -> Result<(W, u64), String> {
    let mut random = Random::from_seed(seed);
    let mut sent = 0;
    loop {
        let length = random.between(1, PIECE_BYTES) >> random.below(16);
        let mut piece = Vec::new();
        let mut part = input.by_ref().take(1 + length as u64);
        let read = part.read_to_end(&mut piece);
        let moved = read.and_then(|_| to.write_all(&piece));
        moved.map_err(|error| format!("after {sent} bytes: {error}"))?;
        if piece.is_empty() {
            return Ok((to, sent));
        }
        sent += piece.len() as u64;
    }
}

/// The peak of a program's memory once it has read so many bytes and sleeps,
/// without the pages of files, which come and go by chance.
fn peak_once_read(child: &Child, bytes: u64) -> Result<u64, String> {
    let begun = Instant::now();
    while begun.elapsed() < PATIENCE {
        let read = Facts::of(child, "io")?.number("rchar")?;
        let status = Facts::of(child, "status")?;
        if read >= bytes && status.text("State")?.starts_with('S') {
            let (peak, files) = (status.number("VmHWM")?, status.number("RssFile")?);
            return Ok(peak.saturating_sub(files));
        }
        thread::sleep(Duration::from_millis(5));
    }
    Err("the program does not read its input".into())
}

/// A file of /proc, a name and a value to a line.
struct Facts(String);

impl Facts {
    fn of(child: &Child, file: &str) -> Result<Facts, String> {
        let path = format!("/proc/{}/{file}", child.id());
        let read = fs::read_to_string(&path);
        read.map(Facts).map_err(|error| format!("{path}: {error}"))
    }

    fn text(&self, name: &str) -> Result<&str, String> {
        let mut pairs = self.0.lines().filter_map(|line| line.split_once(':'));
        let value = pairs
            .find(|(of, _)| *of == name)
            .map(|(_, value)| value.trim());
        value.ok_or_else(|| format!("/proc does not tell {name}"))
    }

    fn number(&self, name: &str) -> Result<u64, String> {
        let text = self.text(name)?;
        let digits = text.split_whitespace().next().unwrap_or_default();
        digits.parse().map_err(|_| format!("{name} is {text}"))
    }
}
