//! Faults of the small program.

use crate::engine::{Engine, Paper};
use crate::layout::*;
use crate::mailbox::Program;
use crate::requests::Request;
use crate::work::Work;

/// A handoff table that is fine.
const LENT: [u8; TABLE_BYTES] = {
    let mut table = [0; TABLE_BYTES];
    let marker = TABLE_MARKER.to_le_bytes();
    let major = TABLE_MAJOR.to_le_bytes();
    let mut at = 0;
    while at < marker.len() {
        table[at] = marker[at];
        at += 1;
    }
    table[TABLE_MAJOR_AT] = major[0];
    table[TABLE_MAJOR_AT + 1] = major[1];
    table
};

super::engines! {

ProgramAnswersRefused: "the program writes four zero bytes after a refusal"
[program: Program] {
    fn output(&self, number: u32, answer: &[u8]) -> Vec<u8> {
        let mut output = Paper.output(number, answer);
        if number != 0 {
            output.extend([0; 4]);
        }
        output
    }
}

ProgramBigEndian: "the program's result is big endian"
[program: Program] {
    fn output(&self, number: u32, answer: &[u8]) -> Vec<u8> {
        Paper.output(number.swap_bytes(), answer)
    }
}

ProgramVerdictYes: "the program's verdict is yes"
[program: Program] {
    fn request<'a>(&self, input: &'a [u8]) -> Request<'a> {
        Request { verdict: true, ..Paper.request(input) }
    }
}

ProgramBeforeStores: "the program takes the answer before the stores"
[program: Program] {
    fn carry_out(&self, _: &Engine, _: &mut Work, _: &mut [u32]) {}
}

ProgramTable: "the program lends a handoff table"
[program: Program] {
    fn request<'a>(&self, input: &'a [u8]) -> Request<'a> {
        Request { table: &LENT, ..Paper.request(input) }
    }
}

}
