//! The small program of 01: one request on a freshly booted image.

use crate::boots::Inputs;
use crate::engine::Engine;
use crate::layout::*;
use crate::requests::Request;
use crate::work::Work;

/// The most bytes of the input that are used.
pub const INPUT_BYTES: usize = 65_000;

/// The inputs of the program's cold boot.
pub const BOOTED_WITH: Inputs = Inputs {
    runtime: &[0x11; 48],
    manifest: &[0x33; 48],
    secret: &[0x22; 48],
};

/// The image after a cold boot with the program's inputs.
pub fn booted() -> Vec<u32> {
    booted_with(BOOTED_WITH)
}

/// The image after a cold boot.
pub fn booted_with(inputs: Inputs) -> Vec<u32> {
    let engine = Engine::PAPER;
    let mut image = vec![0; IMAGE_WORDS];
    let (mut work, _) = engine.open_cold(&image, inputs).expect("a fine cold boot");
    while engine.store(&mut work, &mut image) == 0 {}
    image
}

/// What the program writes for an input.
pub fn mailbox(input: &[u8]) -> Vec<u8> {
    mailbox_on(Engine::PAPER, input).output
}

/// What a run of the program writes, and the image that it leaves.
pub struct Ran {
    pub output: Vec<u8>,
    pub image: Vec<u32>,
}

pub fn mailbox_on(engine: Engine, input: &[u8]) -> Ran {
    let input = &input[..input.len().min(INPUT_BYTES)];
    let mut image = booted_with(engine.program.boots_with());
    let output = run_on(engine, input, &mut image);
    Ran { output, image }
}

fn run_on(engine: Engine, input: &[u8], image: &mut [u32]) -> Vec<u8> {
    let program = engine.program;
    match engine.open_request(image, program.request(input)) {
        Err(number) => program.output(number, &[]),
        Ok(mut work) => {
            program.carry_out(&engine, &mut work, image);
            let mut buffer = [0; ANSWER_MAX];
            match engine.answer(&work, &mut buffer) {
                0 => program.output(0, &buffer[..work.answer_bytes as usize]),
                number => program.output(number, &[]),
            }
        }
    }
}

/// The program's rules, each a method, so that a program can be wrong in just
/// one.
pub trait Program {
    /// The inputs of the cold boot.
    fn boots_with(&self) -> Inputs<'static> {
        BOOTED_WITH
    }

    /// Code and request; fewer than 4 bytes count as code 0.
    fn request<'a>(&self, input: &'a [u8]) -> Request<'a> {
        match input.split_at_checked(4) {
            Some((code, bytes)) => Request::plain(little(code), bytes),
            None => Request::plain(0, &[]),
        }
    }

    /// Makes all stores.
    fn carry_out(&self, engine: &Engine, work: &mut Work, image: &mut [u32]) {
        while engine.store(work, image) == 0 {}
    }

    /// The result, then the answer.
    fn output(&self, number: u32, answer: &[u8]) -> Vec<u8> {
        [&number.to_le_bytes(), answer].concat()
    }
}
