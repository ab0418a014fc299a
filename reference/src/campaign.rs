//! Runs another program on generated inputs and compares byte for byte.

pub mod replay;

use crate::checksum::sealed;
use crate::generate::{fixed_inputs, program_input, script, Script};
use crate::layout::{DISABLE, EXTEND, IDENTITY, IMAGE_WORDS, STASH, VERIFY};
use crate::mailbox::mailbox;
use crate::player::play;
use crate::script::{encode, BootBytes, Mail, Op, INPUT_BYTES, LENT_WORDS};
use crate::show;
use std::fs;
use std::io::{Read, Write};
use std::path::{Path, PathBuf};
use std::process::{Child, Command, Stdio};
use std::sync::mpsc;
use std::thread;
use std::time::{Duration, Instant};

/// How long a program may take for one input.
const PATIENCE: Duration = Duration::from_secs(120);

/// More than any input makes a driver write.
const OUTPUT_BYTES: u64 = 1 << 30;

/// Time between two lines of progress.
const PROGRESS: Duration = Duration::from_secs(3);

/// The most runs of the other program that shrinking takes.
const SHRINKING_RUNS: usize = 2_000;

/// The most operations of a script that is shrunk.
const SHRINKABLE: usize = 100_000;

/// What a program wrote for an input; an error if it failed or did not end.
pub fn run(program: &Path, input: &[u8]) -> Result<Vec<u8>, String> {
    run_in_pieces(program, input, input.len().max(1))
}

/// As `run`; the input comes in pieces of so many bytes, with pauses.
fn run_in_pieces(program: &Path, input: &[u8], piece: usize) -> Result<Vec<u8>, String> {
    let mut child = started(program)?;
    let mut to = child.stdin.take().expect("standard input is a pipe");
    let input = input.to_vec();
    // A program that ends before its input does breaks the pipe: that is fine.
    let writer = thread::spawn(move || {
        for bytes in input.chunks(piece) {
            if to.write_all(bytes).is_err() {
                break;
            }
            if bytes.len() < input.len() {
                thread::sleep(Duration::from_millis(1));
            }
        }
    });
    let output = output_of(child);
    drop(writer.join());
    output
}

fn started(program: &Path) -> Result<Child, String> {
    Command::new(program)
        .stdin(Stdio::piped())
        .stdout(Stdio::piped())
        .stderr(Stdio::null())
        .spawn()
        .map_err(|error| format!("{} does not start: {error}", program.display()))
}

/// What a started program writes to its end.
fn output_of(mut child: Child) -> Result<Vec<u8>, String> {
    let from = child.stdout.take().expect("standard output is a pipe");
    let (sender, receiver) = mpsc::channel();
    let reader = thread::spawn(move || {
        let mut output = Vec::new();
        let read = from.take(OUTPUT_BYTES).read_to_end(&mut output);
        drop(sender.send(read.map(|_| output)));
    });
    let output = receiver.recv_timeout(PATIENCE);
    if output.is_err() {
        drop(child.kill());
    }
    let status = child.wait().map_err(|error| error.to_string())?;
    drop(reader.join());
    match output {
        Err(_) => Err("no end within two minutes".into()),
        Ok(Err(error)) => Err(error.to_string()),
        Ok(Ok(_)) if !status.success() => Err(status.to_string()),
        Ok(Ok(output)) => Ok(output),
    }
}

/// Scripts that are played in one run of the program. Between them the image
/// and the running digest are made as they are at the start.
struct Batch {
    seeds: Vec<u64>,
    input: Vec<u8>,
    expected: Vec<u8>,
    operations: u64,
    /// The last script ends the run.
    closed: bool,
}

impl Batch {
    fn new() -> Batch {
        Batch {
            seeds: Vec::new(),
            input: Vec::new(),
            expected: Vec::new(),
            operations: 0,
            closed: false,
        }
    }

    fn has_room_for(&self, bytes: usize) -> bool {
        !self.closed && self.input.len() + bytes + 8 * IMAGE_WORDS < INPUT_BYTES
    }

    fn add(&mut self, seed: u64, script: &Script) {
        if !self.input.is_empty() {
            Op::Image(vec![0; IMAGE_WORDS]).encode(&mut self.input);
            Op::Begin.encode(&mut self.input);
        }
        let bytes = script.bytes();
        self.seeds.push(seed);
        self.operations += script.ops.len() as u64;
        self.expected.extend(play(&bytes));
        self.input.extend(bytes);
        self.closed = !script.tail.is_empty();
    }
}

pub struct Options {
    pub engine: PathBuf,
    pub from: u64,
    pub count: u64,
    /// Goes on past the count until so many operations are made.
    pub operations: u64,
    /// Where scripts that differ are kept.
    pub keep: PathBuf,
}

/// Inputs that have no seed: longer than what is used of one, operations of the
/// greatest lengths, and those that go through every case.
fn inputs_without_seed() -> Vec<Vec<u8>> {
    let mut inputs = fixed_inputs();
    // The last byte that is used is an operation; then one is cut by the end.
    for before in [INPUT_BYTES - 1, INPUT_BYTES - 2, INPUT_BYTES] {
        let mut input = vec![b'X'; before];
        input.extend_from_slice(b"LLLD");
        inputs.push(input);
    }
    let mut input = vec![b'X'; INPUT_BYTES - 4];
    input.extend(encode(&[Op::Store(1), Op::Left, Op::Dump]));
    inputs.push(input);
    inputs.push(encode(&longest_operations()));
    inputs.push(Vec::new());
    inputs
}

fn longest_operations() -> Vec<Op> {
    let most = usize::from(u16::MAX);
    let boot = |runtime: usize, manifest: usize, secret: usize| {
        Op::Cold(BootBytes {
            runtime: vec![1; runtime],
            manifest: vec![3; manifest],
            secret: vec![2; secret],
        })
    };
    let request = |table: usize, code: u32, length: usize| {
        Op::Request(Mail {
            code,
            caller: 0,
            verdict: 1,
            table: vec![3; table],
            bytes: sealed(code, &vec![0xFF; length - 4]),
            fresh: Vec::new(),
        })
    };
    vec![
        Op::Answer(u16::MAX),
        boot(most, most, most),
        boot(48, most, 48),
        boot(48, 48, most),
        boot(48, 48, 48),
        Op::Store(u32::MAX),
        Op::Answer(u16::MAX),
        request(most, DISABLE, most),
        request(most, IDENTITY, 4),
        request(most, STASH, 60),
        request(4_096, VERIFY, most),
        request(4_096, EXTEND, most),
        request(most, EXTEND, 56),
        Op::Answer(u16::MAX),
        Op::Store(u32::MAX),
        Op::Answer(u16::MAX),
        Op::Image(vec![1; LENT_WORDS]),
        Op::Left,
        boot(48, 48, 48),
        Op::Dump,
    ]
}

/// Scripts from a seed on, until enough of them and of their operations are made.
struct Scripts<'a> {
    options: &'a Options,
    seed: u64,
    /// Made, and too long for the batch before.
    waiting: Option<Script>,
    scripts: u64,
    operations: u64,
}

impl Scripts<'_> {
    fn are_enough_with(&self, batch: &Batch) -> bool {
        self.scripts + batch.seeds.len() as u64 >= self.options.count
            && self.operations + batch.operations >= self.options.operations
    }

    fn next_batch(&mut self) -> Option<Batch> {
        let mut batch = Batch::new();
        while !self.are_enough_with(&batch) {
            let next = self.waiting.take().unwrap_or_else(|| script(self.seed));
            if !batch.has_room_for(next.bytes().len()) {
                self.waiting = Some(next);
                break;
            }
            batch.add(self.seed, &next);
            self.seed += 1;
        }
        self.scripts += batch.seeds.len() as u64;
        self.operations += batch.operations;
        (!batch.seeds.is_empty()).then_some(batch)
    }
}

/// Compares a driver with the player. False if one script differs.
pub fn campaign(options: &Options) -> Result<bool, String> {
    is_program(&options.engine)?;
    if !inputs_without_seed_agree(options) {
        return Ok(false);
    }
    let mut all = Scripts {
        options,
        seed: options.from,
        waiting: None,
        scripts: 0,
        operations: 0,
    };
    let mut shown = Instant::now();
    let mut found = None;
    while let (None, Some(batch)) = (&found, all.next_batch()) {
        if run(&options.engine, &batch.input).as_ref() != Ok(&batch.expected) {
            found = Some(batch);
        } else if shown.elapsed() > PROGRESS {
            println!(
                "{} scripts, {} operations so far",
                all.scripts, all.operations
            );
            shown = Instant::now();
        }
    }
    let differences = match &found {
        None => "0 differences",
        Some(batch) => {
            find_difference(options, batch);
            "differences found"
        }
    };
    println!(
        "{} scripts, {} operations, {differences}",
        all.scripts, all.operations
    );
    Ok(found.is_none())
}

fn inputs_without_seed_agree(options: &Options) -> bool {
    let inputs = inputs_without_seed();
    let different = inputs
        .iter()
        .position(|input| differs(&options.engine, input));
    if let Some(count) = different {
        report(options, &format!("fixed-{count}"), &inputs[count]);
    }
    different.is_none()
}

fn is_program(path: &Path) -> Result<(), String> {
    if path.is_file() {
        return Ok(());
    }
    Err(format!("there is no program {}", path.display()))
}

/// Reports the first script of a batch that differs by itself, or the batch.
fn find_difference(options: &Options, batch: &Batch) {
    let mut found = false;
    for &seed in &batch.seeds {
        let bytes = script(seed).bytes();
        if differs(&options.engine, &bytes) {
            report(options, &seed.to_string(), &bytes);
            found = true;
            break;
        }
    }
    if !found {
        println!("no script of the batch differs by itself");
        report(options, &format!("batch-{}", batch.seeds[0]), &batch.input);
    }
}

fn differs(engine: &Path, input: &[u8]) -> bool {
    run(engine, input) != Ok(play(input))
}

/// Keeps a script that differs, shrinks it and prints it with both outputs.
fn report(options: &Options, name: &str, input: &[u8]) {
    let small = shrunk(&options.engine, input);
    println!("script {name} differs");
    let _ = fs::create_dir_all(&options.keep);
    for (suffix, bytes) in [("script", input), ("small.script", &small[..])] {
        let path = options.keep.join(format!("{name}.{suffix}"));
        match fs::write(&path, bytes) {
            Ok(()) => println!("kept in {}", path.display()),
            Err(error) => println!("not kept in {}: {error}", path.display()),
        }
    }
    let theirs = run(&options.engine, &small);
    let output = theirs.clone().unwrap_or_default();
    print!("{}", show::comparison(&small, &play(&small), &output));
    if let Err(why) = theirs {
        println!("     the engine failed: {why}");
    }
}

/// The script with as many operations dropped as leaves it differing.
fn shrunk(engine: &Path, input: &[u8]) -> Vec<u8> {
    let mut reader = crate::script::Reader::new(input);
    let mut ops: Vec<Op> = reader.by_ref().collect();
    let mut tail = reader.rest().to_vec();
    let mut runs = 0;
    let with_tail = |ops: &[Op], tail: &[u8]| {
        let mut bytes = encode(ops);
        bytes.extend_from_slice(tail);
        bytes
    };
    if !tail.is_empty() && differs(engine, &encode(&ops)) {
        tail.clear();
    }
    if ops.len() > SHRINKABLE {
        return input.to_vec();
    }
    let mut piece = ops.len().div_ceil(2);
    while piece > 0 && runs < SHRINKING_RUNS {
        let mut at = 0;
        while at < ops.len() && runs < SHRINKING_RUNS {
            let mut fewer = ops.clone();
            fewer.drain(at..(at + piece).min(ops.len()));
            runs += 1;
            if differs(engine, &with_tail(&fewer, &tail)) {
                ops = fewer;
            } else {
                at += piece;
            }
        }
        piece /= 2;
    }
    with_tail(&ops, &tail)
}

/// Compares the small program with ours. False if one input differs.
pub fn mailbox_campaign(program: &Path, count: u64) -> Result<bool, String> {
    is_program(program)?;
    let mut shown = Instant::now();
    for seed in 0..count {
        let input = program_input(seed);
        // Every fourth input comes in about twenty pieces.
        let piece = input.len() / if seed % 4 == 3 { 20 } else { 1 };
        let theirs = run_in_pieces(program, &input, piece.max(1));
        let ours = mailbox(&input);
        if theirs.as_ref() != Ok(&ours) {
            println!(
                "input {seed}, {} bytes: {:02x?}",
                input.len(),
                &input[..input.len().min(300)]
            );
            println!("reference: {ours:02x?}");
            println!("program:   {theirs:02x?}");
            return Ok(false);
        }
        if shown.elapsed() > PROGRESS {
            println!("{} inputs so far", seed + 1);
            shown = Instant::now();
        }
    }
    println!("{count} inputs, 0 differences");
    Ok(true)
}
