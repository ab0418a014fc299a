//! The second program: plays scripts, makes them, and compares with others.

use reference::book::replay::wrong::REPLAYERS;
use reference::book::replay::{self, replay, Inspector, Replays};
use reference::campaign::replay::{replay_campaign, Replaying};
use reference::campaign::{campaign, mailbox_campaign, Options};
use reference::generate::{replay_inputs, Inspection};
use reference::{generate, mailbox, player, script, show, wrong};
use std::io::{self, Read, Write};
use std::path::PathBuf;
use std::process::ExitCode;

const USAGE: &str = "usage: reference COMMAND
  play [NAME]              plays the script on standard input, on a wrong engine
                           if one is named
  mailbox                  the small program: code and request on standard input
  replay [NAME]            the inspector's program: a saved image and a journal
                           on standard input; a wrong one if one is named
  script SEED              writes the script of a seed
  show                     the script on standard input as text
  campaign --engine PATH [--from A] [--count N] [--calls M] [--keep FOLDER]
                           compares a driver on N scripts from seed A on, and on
                           as many more as M operations take
  mailbox-campaign --engine PATH [--count N]
                           compares a small program on N inputs
  replay-campaign --engine PATH [--count N] [--entries M] [--keep FOLDER]
                           compares an inspector's program on all inputs or on
                           about N, and on a journal of M entries in pieces
  wrong [--count N]        how many scripts catch each wrong engine
  wrong-replayers          how many inputs tell each wrong replayer
  engines                  a table of all that is wrong on purpose
  help                     this text";

/// For how many scripts the book is kept beside a wrong engine.
const BOOK_SCRIPTS: u64 = 200;

fn main() -> ExitCode {
    let words: Vec<String> = std::env::args().skip(1).collect();
    match command(&words) {
        Ok(true) => ExitCode::SUCCESS,
        Ok(false) => ExitCode::from(1),
        Err(why) => {
            eprintln!("{why}");
            ExitCode::from(2)
        }
    }
}

fn command(words: &[String]) -> Result<bool, String> {
    let (name, rest) = words.split_first().ok_or(USAGE)?;
    match (name.as_str(), rest) {
        ("help" | "--help", []) => write(format!("{USAGE}\n").as_bytes()),
        ("play", []) => write(&player::play(&input(script::INPUT_BYTES)?)),
        ("play", [name]) => {
            let wrong = wrong::named(name).ok_or_else(|| format!("{name} is no wrong engine"))?;
            let input = input(script::INPUT_BYTES)?;
            write(&player::play_unwatched(wrong.engine, &input))
        }
        ("mailbox", []) => write(&mailbox::mailbox(&input(mailbox::INPUT_BYTES)?)),
        ("replay", []) => replayed(replay(&mut io::stdin().lock())),
        ("replay", [name]) => {
            let wrong = replay::wrong::named(name);
            let wrong = wrong.ok_or_else(|| format!("{name} is no wrong replayer"))?;
            replayed(wrong.replays.run(&mut io::stdin().lock()))
        }
        ("show", []) => write(show::script(&input(script::INPUT_BYTES)?).as_bytes()),
        ("script", [seed]) => write(&generate::script(number(seed)?).bytes()),
        ("campaign", rest) => campaign(&options(rest)?),
        ("mailbox-campaign", rest) => {
            let engine: PathBuf = option(rest, "--engine")?.ok_or(USAGE)?.into();
            mailbox_campaign(&engine, some(rest, "--count", 200)?)
        }
        ("replay-campaign", rest) => {
            let options = options(rest)?;
            replay_campaign(&Replaying {
                program: options.engine,
                count: count(rest, "--count", 0)? as usize,
                entries: some(rest, "--entries", 1_000_000)?,
                keep: options.keep,
            })
        }
        ("wrong", rest) => Ok(wrong_engines(some(rest, "--count", 1_000)?)),
        ("wrong-replayers", []) => Ok(wrong_replayers()),
        ("engines", []) => write(wrong::table().as_bytes()),
        _ => Err(USAGE.into()),
    }
}

/// What a campaign is told.
fn options(words: &[String]) -> Result<Options, String> {
    Ok(Options {
        engine: option(words, "--engine")?.ok_or(USAGE)?.into(),
        from: count(words, "--from", 0)?,
        count: some(words, "--count", 1_000)?,
        operations: count(words, "--calls", 0)?,
        keep: option(words, "--keep")?.unwrap_or("target/campaign").into(),
    })
}

fn replayed(output: io::Result<Vec<u8>>) -> Result<bool, String> {
    write(&output.map_err(|error| error.to_string())?)
}

/// At most `most` bytes of standard input.
fn input(most: usize) -> Result<Vec<u8>, String> {
    let mut input = Vec::new();
    let read = io::stdin().take(most as u64).read_to_end(&mut input);
    read.map(|_| input).map_err(|error| error.to_string())
}

fn write(output: &[u8]) -> Result<bool, String> {
    let written = io::stdout().write_all(output);
    written.map(|()| true).map_err(|error| error.to_string())
}

fn number(text: &str) -> Result<u64, String> {
    text.parse().map_err(|_| format!("{text} is not a number"))
}

/// The word after `name` among words that come in pairs.
fn option<'a>(words: &'a [String], name: &str) -> Result<Option<&'a str>, String> {
    let known = [
        "--engine",
        "--from",
        "--count",
        "--calls",
        "--keep",
        "--entries",
    ];
    let mut found = None;
    for pair in words.chunks(2) {
        let [key, value] = pair else {
            return Err(USAGE.into());
        };
        if !known.contains(&key.as_str()) {
            return Err(USAGE.into());
        }
        if key == name {
            found = Some(value.as_str());
        }
    }
    Ok(found)
}

fn count(words: &[String], name: &str, otherwise: u64) -> Result<u64, String> {
    option(words, name)?.map_or(Ok(otherwise), number)
}

/// As `count`; 0 would show nothing.
fn some(words: &[String], name: &str, otherwise: u64) -> Result<u64, String> {
    match count(words, name, otherwise)? {
        0 => Err(format!("{name} 0 shows nothing")),
        number => Ok(number),
    }
}

fn wrong_replayers() -> bool {
    let inputs: Vec<Vec<u8>> = replay_inputs().iter().map(Inspection::input).collect();
    let output = |replays: &dyn Replays, input: &[u8]| replays.run(&mut &input[..]).ok();
    let mut missed = 0;
    println!("inputs  wrong replayer");
    for wrong in REPLAYERS {
        let differs = |input: &&Vec<u8>| output(wrong.replays, input) != output(&Inspector, input);
        let told = inputs.iter().filter(differs).count();
        missed += u64::from(told == 0);
        println!("{told:>6}  {}: {}", wrong.name, wrong.says);
    }
    let (replayers, inputs) = (REPLAYERS.len(), inputs.len());
    println!("{replayers} wrong replayers, {missed} not told by {inputs} inputs");
    missed == 0
}

fn wrong_engines(count: u64) -> bool {
    println!("scripts  book  wrong engine");
    let told = |scripts: Option<u64>| scripts.map_or("-".into(), |n| n.to_string());
    let mut engines = 0;
    let mut missed = 0;
    wrong::caught(count, BOOK_SCRIPTS, |caught| {
        engines += 1;
        missed += u64::from(caught.scripts.is_none());
        println!(
            "{:>7}  {:>4}  {}: {}",
            told(caught.scripts),
            told(caught.book),
            caught.wrong.name,
            caught.wrong.says
        );
    });
    println!("{engines} wrong engines, {missed} not caught within {count} scripts");
    missed == 0
}
