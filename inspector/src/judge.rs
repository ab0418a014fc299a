//! The judgement: the program `replay` on the image's bytes and then the journal's.

use std::io::{self, ErrorKind, Read, Write};
use std::path::Path;
use std::process::{Child, ChildStdin, Command, Stdio};
use std::thread::{self, JoinHandle};

use crate::image::{Digest, FIRST_COMPARED, REGISTERS};

/// PCR2 to PCR31 as replayed.
pub type Registers = [Digest; REGISTERS - FIRST_COMPARED];

#[derive(Clone, Debug, PartialEq, Eq)]
pub enum Judgement {
    ImageCut,
    /// The number, and the entry's offset in the journal.
    Refused(u32, u64),
    NoColdBoot,
    /// A disabling after the last cold boot.
    Off,
    Unlike(Box<Registers>),
    Alike(Box<Registers>),
}

impl Judgement {
    pub fn registers(&self) -> Option<&Registers> {
        match self {
            Judgement::Unlike(registers) | Judgement::Alike(registers) => Some(registers),
            _ => None,
        }
    }

    /// The program's output, if it has the form that it must have.
    pub fn from_output(bytes: &[u8]) -> Option<Self> {
        let (number, rest) = bytes.split_first_chunk()?;
        let (offset, rest) = rest.split_first_chunk()?;
        let (number, offset) = (u32::from_le_bytes(*number), u64::from_le_bytes(*offset));
        match (number, offset, rest) {
            (1, 0, []) => Some(Judgement::ImageCut),
            (2.., _, []) => Some(Judgement::Refused(number, offset)),
            (0, 0, [0]) => Some(Judgement::NoColdBoot),
            (0, 0, [1]) => Some(Judgement::Off),
            (0, 0, [2, bytes @ ..]) => registers(bytes).map(Judgement::Unlike),
            (0, 0, [3, bytes @ ..]) => registers(bytes).map(Judgement::Alike),
            _ => None,
        }
    }
}

fn registers(bytes: &[u8]) -> Option<Box<Registers>> {
    let mut registers = Box::new([[0; 48]; REGISTERS - FIRST_COMPARED]);
    if bytes.len() != 48 * registers.len() {
        return None;
    }
    for (register, bytes) in registers.iter_mut().zip(bytes.chunks_exact(48)) {
        register.copy_from_slice(bytes);
    }
    Some(registers)
}

/// More than the program ever writes.
const MOST: u64 = 4096;

/// The program while it reads.
pub struct Judge {
    child: Child,
    input: Option<ChildStdin>,
    output: JoinHandle<io::Result<Vec<u8>>>,
    errors: JoinHandle<io::Result<Vec<u8>>>,
}

impl Judge {
    pub fn start(program: &Path) -> Result<Self, String> {
        let mut child = Command::new(program)
            .stdin(Stdio::piped())
            .stdout(Stdio::piped())
            .stderr(Stdio::piped())
            .spawn()
            .map_err(|error| format!("{} cannot be run: {error}", program.display()))?;
        let input = child.stdin.take();
        let output = gather(child.stdout.take());
        let errors = gather(child.stderr.take());
        Ok(Self {
            child,
            input,
            output,
            errors,
        })
    }

    /// Hands it more bytes. It may have stopped reading: then it knows enough.
    pub fn feed(&mut self, bytes: &[u8]) -> Result<(), String> {
        let Some(input) = &mut self.input else {
            return Ok(());
        };
        match input.write_all(bytes) {
            Err(error) if error.kind() == ErrorKind::BrokenPipe => {
                self.input = None;
                Ok(())
            }
            written => written.map_err(|error| format!("replay cannot be written to: {error}")),
        }
    }

    /// Its judgement, after the last byte.
    pub fn finish(mut self) -> Result<Judgement, String> {
        drop(self.input.take());
        let output = joined(self.output)?;
        let errors = joined(self.errors)?;
        let status = self.child.wait().map_err(|error| error.to_string())?;
        if !errors.is_empty() {
            let text = String::from_utf8_lossy(&errors);
            return Err(format!("replay told a failure: {}", text.trim_end()));
        }
        if !status.success() {
            return Err(format!("replay failed: {status}"));
        }
        Judgement::from_output(&output)
            .ok_or_else(|| "replay's output has not the form that it must have".into())
    }
}

/// Reads a stream to its end beside the rest of the work; of a longer one only the beginning is kept.
fn gather<R: Read + Send + 'static>(stream: Option<R>) -> JoinHandle<io::Result<Vec<u8>>> {
    thread::spawn(move || {
        let mut kept = Vec::new();
        if let Some(mut stream) = stream {
            stream.by_ref().take(MOST).read_to_end(&mut kept)?;
            io::copy(&mut stream, &mut io::sink())?;
        }
        Ok(kept)
    })
}

fn joined(reader: JoinHandle<io::Result<Vec<u8>>>) -> Result<Vec<u8>, String> {
    match reader.join() {
        Ok(read) => read.map_err(|error| format!("replay cannot be read: {error}")),
        Err(_) => Err("replay cannot be read".into()),
    }
}

#[cfg(test)]
mod tests {
    use super::*;

    fn output(number: u32, offset: u64, rest: &[u8]) -> Option<Judgement> {
        let bytes = [&number.to_le_bytes()[..], &offset.to_le_bytes(), rest].concat();
        Judgement::from_output(&bytes)
    }

    #[test]
    fn refusals() {
        assert_eq!(output(1, 0, &[]), Some(Judgement::ImageCut));
        for number in [20, 21, 22, 24] {
            let offset = (1 << 32) - 1;
            let expected = Judgement::Refused(number, offset);
            assert_eq!(output(number, offset, &[]), Some(expected));
        }
    }

    #[test]
    fn verdicts() {
        assert_eq!(output(0, 0, &[0]), Some(Judgement::NoColdBoot));
        assert_eq!(output(0, 0, &[1]), Some(Judgement::Off));
        for verdict in [2, 3] {
            let bytes = [&[verdict][..], &[7; 48], &[0; 29 * 48]].concat();
            let judgement = output(0, 0, &bytes).expect("a verdict");
            let registers = judgement.registers().expect("registers");
            assert_eq!(registers[0], [7; 48]);
            assert_eq!(registers[29], [0; 48]);
            assert_eq!(matches!(judgement, Judgement::Alike(_)), verdict == 3);
        }
    }

    #[test]
    fn outputs_of_another_form() {
        for length in 0..12 {
            assert_eq!(Judgement::from_output(&vec![0; length]), None);
        }
        assert_eq!(output(0, 0, &[]), None, "no verdict");
        assert_eq!(output(0, 0, &[4]), None, "no such verdict");
        assert_eq!(output(0, 1, &[0]), None, "an offset without a refusal");
        assert_eq!(output(1, 1, &[]), None, "an offset with a cut image");
        assert_eq!(output(20, 0, &[0]), None, "a verdict with a refusal");
        assert_eq!(output(0, 0, &[3]), None, "no registers");
        assert_eq!(output(0, 0, &[3; 1440]), None, "a byte too few");
        assert_eq!(output(0, 0, &[3; 1442]), None, "a byte too many");
        assert_eq!(output(0, 0, &[1; 1441]), None, "registers with 1");
    }
}
