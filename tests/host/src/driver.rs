//! A client of the program target/bin/driver: scripts of operations, and what
//! each of them wrote.

use crate::shell::{built_program, run, Feed};
use reference::boots::Inputs;

/// Operations, and how to read what they write.
#[derive(Clone, Default)]
pub struct Script {
    bytes: Vec<u8>,
}

/// What the driver wrote, read from the front.
pub struct Replies {
    bytes: Vec<u8>,
    at: usize,
}

fn put_field(bytes: &mut Vec<u8>, field: &[u8]) {
    let length = u16::try_from(field.len()).expect("a field of at most 65,535 bytes");
    bytes.extend(length.to_le_bytes());
    bytes.extend(field);
}

fn put_inputs(bytes: &mut Vec<u8>, inputs: Inputs) {
    for field in [inputs.runtime, inputs.manifest, inputs.secret] {
        put_field(bytes, field);
    }
}

impl Script {
    pub fn new() -> Self {
        Self::default()
    }

    pub fn cold_boot(mut self, inputs: Inputs) -> Self {
        self.bytes.push(b'C');
        put_inputs(&mut self.bytes, inputs);
        self
    }

    pub fn update_boot(mut self, inputs: Inputs, verdict: bool) -> Self {
        self.bytes.push(b'U');
        put_inputs(&mut self.bytes, inputs);
        self.bytes.push(u8::from(verdict));
        self
    }

    /// A request of caller 7 with verdict yes, no handoff table and no fresh
    /// handle; its checksum is put in front of the arguments.
    pub fn request(mut self, code: u32, arguments: &[u8]) -> Self {
        let sum = reference::checksum::checksum(code, arguments);
        let mut request = sum.to_le_bytes().to_vec();
        request.extend(arguments);
        self.bytes.push(b'R');
        self.bytes.extend(code.to_le_bytes());
        self.bytes.extend(7u32.to_le_bytes());
        self.bytes.push(1);
        for field in [&[], &request[..], &[]] {
            put_field(&mut self.bytes, field);
        }
        self
    }

    pub fn stores(mut self, count: u32) -> Self {
        self.bytes.push(b'S');
        self.bytes.extend(count.to_le_bytes());
        self
    }

    pub fn cut(mut self) -> Self {
        self.bytes.push(b'X');
        self
    }

    pub fn image(mut self) -> Self {
        self.bytes.push(b'D');
        self
    }

    /// Begins a running digest.
    pub fn begin(mut self) -> Self {
        self.bytes.push(b'b');
        self
    }

    /// Feeds the running digest a slice of any length.
    pub fn feed(mut self, slice: &[u8]) -> Self {
        let length = u32::try_from(slice.len()).expect("a slice of fewer than 2^32 bytes");
        self.bytes.push(b'f');
        self.bytes.extend(length.to_le_bytes());
        self.bytes.extend(slice);
        self
    }

    pub fn finish(mut self) -> Self {
        self.bytes.push(b'e');
        self
    }

    /// Sets the counts of the running digest.
    pub fn counts(mut self, total: u64, waiting: u64) -> Self {
        for (field, value) in [(0, total), (1, waiting)] {
            self.bytes.extend([b'w', field]);
            self.bytes.extend(value.to_le_bytes());
        }
        self
    }

    /// Runs the driver on the script.
    pub fn run(&self) -> Replies {
        let output = run(&built_program("driver"), &self.bytes, Feed::Whole);
        assert!(output.status.success(), "{}", output.status);
        Replies {
            bytes: output.stdout,
            at: 0,
        }
    }
}

impl Replies {
    pub fn u8(&mut self) -> u8 {
        self.at += 1;
        self.bytes[self.at - 1]
    }

    pub fn u32(&mut self) -> u32 {
        self.at += 4;
        let field = self.bytes[self.at - 4..self.at]
            .try_into()
            .expect("4 bytes");
        u32::from_le_bytes(field)
    }

    /// An accepted boot's outcome and stores left.
    pub fn boot(&mut self) -> (u8, u32) {
        assert_eq!(self.u32(), 0, "the boot was refused");
        (self.u8(), self.u32())
    }

    /// An accepted request's stores left.
    pub fn request(&mut self) -> u32 {
        assert_eq!(self.u32(), 0, "the request was refused");
        self.u32()
    }

    /// How many stores were made.
    pub fn stores(&mut self) -> u32 {
        let made = self.u32();
        self.u32();
        made
    }

    pub fn image(&mut self) -> Vec<u32> {
        (0..self.u32()).map(|_| self.u32()).collect()
    }

    /// The number of a finish, and its 48 bytes.
    pub fn digest(&mut self) -> (u32, Vec<u8>) {
        let number = self.u32();
        (number, (0..48).map(|_| self.u8()).collect())
    }

    /// Whether everything that was written has been read.
    pub fn are_read(&self) -> bool {
        self.at == self.bytes.len()
    }
}
