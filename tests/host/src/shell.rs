//! Running programs: the repository's own and the machine's `sha384sum`.

use std::fs;
use std::io::{ErrorKind, Write};
use std::path::{Path, PathBuf};
use std::process::{Child, Command, Output, Stdio};
use std::thread::sleep;
use std::time::Duration;

/// The program of that name that `./run --build` builds.
pub fn built_program(name: &str) -> PathBuf {
    let path = Path::new(env!("CARGO_MANIFEST_DIR"))
        .join("../../target/bin")
        .join(name);
    assert!(
        path.is_file(),
        "target/bin/{name} is missing: run `./run --build {name}` first"
    );
    path
}

/// How a program's standard input reaches it.
#[derive(Clone, Copy)]
pub enum Feed {
    /// In one write.
    Whole,
    /// In writes of this many bytes with a pause after each, so that the
    /// program's reads come back short.
    Pieces(usize),
}

/// Runs `program` with `input` as its standard input through a pipe.
pub fn run(program: &Path, input: &[u8], feed: Feed) -> Output {
    let mut child = Command::new(program)
        .stdin(Stdio::piped())
        .stdout(Stdio::piped())
        .stderr(Stdio::piped())
        .spawn()
        .unwrap_or_else(|error| panic!("cannot run {}: {error}", program.display()));
    write_input(&mut child, input, feed);
    child.wait_with_output().expect("the program ends")
}

/// Writes all of `input` and closes the pipe. A program may stop reading.
fn write_input(child: &mut Child, input: &[u8], feed: Feed) {
    let mut pipe = child.stdin.take().expect("standard input is a pipe");
    let (size, pause) = match feed {
        Feed::Whole => (input.len().max(1), Duration::ZERO),
        Feed::Pieces(size) => (size, Duration::from_millis(2)),
    };
    for piece in input.chunks(size) {
        match pipe.write_all(piece) {
            Err(error) if error.kind() == ErrorKind::BrokenPipe => return,
            other => other.expect("the pipe takes the input"),
        }
        sleep(pause);
    }
}

/// What the machine's `sha384sum` prints for `input` on standard input.
pub fn machine_line(input: &[u8]) -> Vec<u8> {
    let output = run(Path::new("sha384sum"), input, Feed::Whole);
    assert!(output.status.success(), "sha384sum failed");
    output.stdout
}

/// The digest of each message by one call of the machine's `sha384sum`, as
/// hexadecimal digits. `label` tells the callers' temporary folders apart.
pub fn machine_digests(messages: &[Vec<u8>], label: &str) -> Vec<String> {
    let folder = Folder::new(label);
    let names: Vec<String> = (0..messages.len()).map(|i| format!("{i:04}")).collect();
    for (name, message) in names.iter().zip(messages) {
        fs::write(folder.0.join(name), message).expect("the temporary folder is writable");
    }
    let output = Command::new("sha384sum")
        .args(&names)
        .current_dir(&folder.0)
        .output()
        .expect("sha384sum runs");
    assert!(output.status.success(), "sha384sum failed");
    let text = String::from_utf8(output.stdout).expect("sha384sum prints text");
    let digests: Vec<String> = text.lines().map(|line| line[..96].to_string()).collect();
    assert_eq!(digests.len(), messages.len());
    digests
}

/// A temporary folder that goes when the value does.
struct Folder(PathBuf);

impl Folder {
    fn new(label: &str) -> Folder {
        let name = format!("waggleloft-{label}-{}", std::process::id());
        let path = std::env::temp_dir().join(name);
        fs::create_dir(&path).expect("a new temporary folder");
        Folder(path)
    }
}

impl Drop for Folder {
    fn drop(&mut self) {
        // What is left behind in the temporary folder harms no test.
        let _ = fs::remove_dir_all(&self.0);
    }
}

/// `bytes` as hexadecimal digits.
pub fn hex(bytes: &[u8]) -> String {
    bytes.iter().map(|byte| format!("{byte:02x}")).collect()
}
