//! `inspector REPLAY ENTRIES PAGE IMAGE JOURNAL`, as the script `./inspect` calls it.
//!
//! REPLAY is the program that judges, ENTRIES how many of the first and of the last entries are shown, PAGE
//! the file for the page or an empty word. IMAGE or JOURNAL may be `-`, standard input.

use std::ffi::{OsStr, OsString};
use std::fs::File;
use std::io::{self, IsTerminal, Read, Write};
use std::path::Path;
use std::process::ExitCode;

use inspector::html::html;
use inspector::image::{self, Image};
use inspector::judge::Judge;
use inspector::output;
use inspector::report::{status, Names, Report};
use inspector::survey::Survey;
use inspector::text::{text, Paint};
use inspector::words;

/// The bytes of a journal that are used.
const JOURNAL_BYTES: u64 = 1 << 32;
const PIECE: usize = 1 << 16;

fn main() -> ExitCode {
    let words: Vec<OsString> = std::env::args_os().skip(1).collect();
    let [replay, entries, page, image, journal] = words.as_slice() else {
        complain("run ./inspect, which knows the words");
        return ExitCode::from(status::FAILED);
    };
    let asked = Asked {
        replay: Path::new(replay),
        entries: entries.to_str().and_then(|n| n.parse().ok()).unwrap_or(200),
        page: (!page.is_empty()).then(|| Path::new(page)),
        image,
        journal,
    };
    match asked.inspect() {
        Ok(status) => ExitCode::from(status),
        Err(why) => {
            complain(&why);
            ExitCode::from(status::FAILED)
        }
    }
}

/// A line on the error stream; if that takes none, the exit status has to do.
fn complain(why: &str) {
    let _ = writeln!(io::stderr(), "inspect: {why}");
}

struct Asked<'a> {
    replay: &'a Path,
    entries: usize,
    page: Option<&'a Path>,
    image: &'a OsStr,
    journal: &'a OsStr,
}

impl Asked<'_> {
    fn inspect(&self) -> Result<u8, String> {
        let bytes = self.image_bytes()?;
        let mut judge = Judge::start(self.replay)?;
        judge.feed(&bytes)?;
        // A cut image is judged alone: the journal's bytes would fill it up.
        let Some(image) = Image::from_bytes(&bytes) else {
            let judgement = judge.finish()?;
            let report = Report::of_cut_image(self.names(), bytes.len(), judgement);
            return self.show(&report);
        };
        let mut survey = Survey::new(&image, self.entries);
        let goes_on = self.read_journal(&mut judge, &mut survey)?;
        let judgement = judge.finish()?;
        let report = Report::new(self.names(), &image, &survey, goes_on, judgement);
        self.show(&report)
    }

    fn names(&self) -> Names {
        Names {
            image: words::name(self.image),
            journal: words::name(self.journal),
        }
    }

    /// The image's bytes, as many as there are. More than an image has cannot be judged.
    fn image_bytes(&self) -> Result<Vec<u8>, String> {
        let name = words::name(self.image);
        let mut bytes = Vec::new();
        opened(self.image)
            .and_then(|file| file.take(image::BYTES as u64 + 1).read_to_end(&mut bytes))
            .map_err(|error| format!("the image, {name}, cannot be read: {error}"))?;
        match bytes.len() > image::BYTES {
            true => Err(format!(
                "{name} has more than {} bytes and is no saved image: are the two files exchanged?",
                words::grouped(image::BYTES as u64)
            )),
            false => Ok(bytes),
        }
    }

    /// Reads the journal once, for the judge and for display; whether it goes on past what is used.
    fn read_journal(&self, judge: &mut Judge, survey: &mut Survey) -> Result<bool, String> {
        let name = words::name(self.journal);
        let told = |error| format!("the journal, {name}, cannot be read: {error}");
        let mut journal = opened(self.journal).map_err(told)?;
        let mut piece = vec![0; PIECE];
        let mut used = journal.by_ref().take(JOURNAL_BYTES);
        loop {
            let length = read_some(&mut used, &mut piece).map_err(told)?;
            if length == 0 {
                break;
            }
            judge.feed(&piece[..length])?;
            survey.feed(&piece[..length]);
        }
        survey.finish();
        let full = survey.bytes() == JOURNAL_BYTES;
        Ok(full && read_some(&mut journal, &mut piece[..1]).map_err(told)? > 0)
    }

    /// Writes text and page; both are tried.
    fn show(&self, report: &Report) -> Result<u8, String> {
        if let Some(disagreement) = &report.disagreement {
            complain(&format!(
                "the display disagrees with the judgement: {disagreement}"
            ));
        }
        let printed = output::print(&text(report, paint()));
        let paged = self
            .page
            .map_or(Ok(()), |page| output::write_file(page, &html(report)));
        paged.map_err(|error| {
            let name = self.page.map(|page| words::name(page.as_os_str()));
            let name = name.unwrap_or_default();
            format!("the page, {name}, cannot be written: {error}")
        })?;
        printed.map_err(|error| format!("the output cannot be written: {error}"))?;
        Ok(report.status())
    }
}

/// A file, or standard input.
fn opened(name: &OsStr) -> io::Result<Box<dyn Read>> {
    match name == "-" {
        true => Ok(Box::new(io::stdin())),
        false => Ok(Box::new(File::open(name)?)),
    }
}

/// At least one byte, or none at the end.
fn read_some(from: &mut impl Read, piece: &mut [u8]) -> io::Result<usize> {
    loop {
        match from.read(piece) {
            Err(error) if error.kind() == io::ErrorKind::Interrupted => {}
            read => return read,
        }
    }
}

/// Colours only on a terminal, and not where NO_COLOR asks for none.
fn paint() -> Paint {
    let unwanted = std::env::var_os("NO_COLOR").is_some_and(|value| !value.is_empty());
    let dumb = std::env::var_os("TERM").is_some_and(|term| term == "dumb");
    Paint {
        colours: io::stdout().is_terminal() && !unwanted && !dumb,
    }
}
