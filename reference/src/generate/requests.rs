//! Requests, sound and damaged.

use super::extensions::set_register;
use super::trees::{any_call, data, near, set_size};
use super::Maker;
use crate::checksum::{checksum, sealed};
use crate::layout::*;
use crate::mailbox::booted;
use crate::random::Random;
use crate::script::{Mail, Op};
use crate::tree::Act;

/// A code that no command has, most of them near one.
fn unknown_code(random: &mut Random) -> u32 {
    let near = random.pick(&COMMANDS).code;
    let bit = random.below(32);
    let any = random.half();
    let code = random.pick(&[
        0,
        u32::MAX,
        near.swap_bytes(),
        near ^ (1 << bit),
        near ^ (1 << bit),
        near.wrapping_add(1),
        near & 0xFFFF,
        0x4944_4543,
        any,
    ]);
    command(code).map_or(code, |_| 0)
}

/// A checksum that is wrong in a way that somebody could accept.
pub(super) fn spoil(random: &mut Random, code: u32, bytes: &mut [u8]) {
    if bytes.len() < 4 {
        return;
    }
    let right = little(bytes);
    let body = &bytes[4..];
    let shorter = &body[..body.len().saturating_sub(4)];
    let bit = random.below(32);
    let wrong = match random.below(12) {
        0 => 0,
        1 => right.wrapping_neg(),
        2 => checksum(0, body),
        3 => checksum(code, shorter),
        4 => right.swap_bytes(),
        5 => right & 0xFFFF,
        6 => right & 0xFF,
        7 => right.wrapping_add(1),
        8 => right.wrapping_sub(1),
        9 => !right,
        _ => right ^ (1 << bit),
    };
    bytes[..4].copy_from_slice(&wrong.to_le_bytes());
}

/// What is behind the checksum in a request of so many bytes: random, but for an
/// extension's register and the size of a tree command's data.
fn body(random: &mut Random, code: u32, length: usize) -> Vec<u8> {
    let mut body = random.bytes(length - CHECKSUM_BYTES);
    set_register(random, code, &mut body);
    set_size(random, code, &mut body);
    body
}

impl Maker {
    /// A request of any caller, as it is.
    pub(super) fn push_mail(&mut self, code: u32, bytes: Vec<u8>, table: Vec<u8>, yes: bool) {
        let mail = Mail {
            code,
            caller: self.word(),
            verdict: self.verdict(yes),
            table,
            bytes,
            fresh: Vec::new(),
        };
        self.push(Op::Request(mail));
    }

    pub(super) fn push_request(&mut self, code: u32, body: &[u8], table: Vec<u8>, yes: bool) {
        self.push_mail(code, sealed(code, body), table, yes);
    }

    /// A signature of any bytes.
    pub(super) fn push_verify(&mut self, yes: bool) {
        let body = self.random.bytes(192);
        self.push_request(VERIFY, &body, Vec::new(), yes);
    }

    pub(super) fn push_stash(&mut self) {
        let stash = self.stash();
        self.caller = stash.caller;
        let table = self.idle_table();
        let yes = self.random.once_in(2);
        let verdict = self.verdict(yes);
        self.push(Op::Request(Mail {
            verdict,
            table,
            ..super::svns::mail(&stash)
        }));
    }

    pub(super) fn push_disable(&mut self) {
        let table = self.idle_table();
        let yes = self.random.once_in(2);
        self.push_request(DISABLE, &[], table, yes);
    }

    /// A table that no rule looks at: mostly short, now and then like a real one.
    fn idle_table(&mut self) -> Vec<u8> {
        if self.size < super::ENOUGH && self.random.once_in(60) {
            return self.any_table();
        }
        let length = self.random.pick(&[0, 0, 0, 0, 1, 8]);
        self.random.bytes(length)
    }

    pub(super) fn good_table(&mut self) -> Vec<u8> {
        let mut table = self.random.bytes(TABLE_BYTES);
        table[..4].copy_from_slice(&TABLE_MARKER.to_le_bytes());
        table[4..6].copy_from_slice(&TABLE_MAJOR.to_le_bytes());
        table
    }

    fn any_table(&mut self) -> Vec<u8> {
        match self.random.below(3) {
            0 => self.good_table(),
            _ => self.bad_table(),
        }
    }

    fn bad_table(&mut self) -> Vec<u8> {
        let mut table = self.good_table();
        match self.random.below(12) {
            0 => table.truncate(0),
            1 => table.truncate(1),
            2 => table.truncate(self.random.between(2, 600)),
            3 => table.truncate(TABLE_BYTES - 1),
            4 => table.push(0),
            5 | 6 => {
                let at = self.random.below(6);
                table[at] ^= 1 << self.random.below(8);
            }
            7 => {
                let at = self.random.below(4);
                table[at] ^= self.random.between(1, 255) as u8;
            }
            8 => table[..4].reverse(),
            9 => table[4..6].copy_from_slice(&[0, 1]),
            10 => table[4..6].copy_from_slice(&[1, 1]),
            _ => table[4] = 0,
        }
        table
    }

    /// A request of any command, accepted if the unit is ready for it.
    pub(super) fn push_any_request(&mut self) {
        match self.random.below(10) {
            0..=2 => self.push_stash(),
            3 => self.push_disable(),
            4 => self.push_verify(true),
            5 | 6 => self.push_extension(),
            7 | 8 => self.push_call(),
            _ => self.push_request(IDENTITY, &[], Vec::new(), true),
        }
    }

    /// A request that is refused whatever the image holds.
    pub(super) fn push_refused_request(&mut self) {
        let command = self.random.pick(&COMMANDS);
        let body = body(&mut self.random, command.code, command.request_bytes);
        let yes = self.random.once_in(2);
        match self.random.below(7) {
            0 => {
                let code = unknown_code(&mut self.random);
                self.push_request(code, &body, Vec::new(), yes);
            }
            1 => self.push_wrong_length(command.code, yes),
            2 | 3 => {
                let mut bytes = sealed(command.code, &body);
                spoil(&mut self.random, command.code, &mut bytes);
                self.push_mail(command.code, bytes, Vec::new(), yes);
            }
            4 => {
                let table = self.random.bytes(7);
                self.push_request(IDENTITY, &[], table, true);
            }
            5 => self.push_outside(),
            _ => self.push_verify(false),
        }
    }

    /// A request that is too short or too long.
    fn push_wrong_length(&mut self, code: u32, yes: bool) {
        let length = self
            .random
            .pick(&[0, 3, 5, 8, 55, 57, 59, 61, 195, 197, 260]);
        let bytes = match length {
            // The size is larger than any.
            INVOKE_DATA.. if code == INVOKE => sealed(code, &vec![0xFF; length - CHECKSUM_BYTES]),
            _ => self.of_length(code, length),
        };
        self.push_mail(code, bytes, Vec::new(), yes);
    }

    /// A request of so many bytes, its checksum right for them.
    fn of_length(&mut self, code: u32, length: usize) -> Vec<u8> {
        if length < CHECKSUM_BYTES {
            return self.random.bytes(length);
        }
        let body = body(&mut self.random, code, length);
        sealed(code, &body)
    }

    /// Many requests on one image: every length, every fault.
    pub(super) fn requests(&mut self) {
        self.ready_unit();
        for turn in 0..self.random.between(20, 30) {
            // Every second one goes through all lengths from seed to seed.
            let length = (self.seed as usize / 8 * 10 + turn / 2) % 261;
            self.push_of_length((turn % 2 == 0).then_some(length));
            if self.random.once_in(6) {
                self.peek();
            }
        }
        for _ in 0..self.random.between(2, 10) {
            self.push_refused_request();
            self.push(Op::Left);
        }
        for _ in 0..self.random.between(2, 4) {
            self.push_identity();
            self.push(Op::Left);
            let most = ANSWER_MAX as u16;
            let size = self
                .random
                .pick(&[most - 1, most, most, most, most + 1, 200]);
            self.push(Op::Answer(size));
        }
        for _ in 0..self.random.between(0, 4) {
            self.push_bad_boot();
        }
        self.push_signature();
        self.push(Op::Answer(9));
        self.push_any_request();
        self.finish();
        self.push_answer();
        self.push_answer();
        self.push(Op::Dump);
    }

    /// An image that requests can be tried on: on, off or unfinished.
    fn ready_unit(&mut self) {
        self.push_booted();
        match self.random.below(4) {
            0 => {
                self.push_disable();
                self.push_stores(DISABLING_STORES);
            }
            1 if self.random.once_in(3) => {
                self.push_stash();
                self.push_stores(20);
            }
            _ => {
                self.push_stash();
                self.push_stores(STASH_STORES);
            }
        }
    }

    /// A request of a given length, or of about the right one; its checksum is
    /// mostly right for that length.
    fn push_of_length(&mut self, length: Option<usize>) {
        let command = self.random.pick(&COMMANDS);
        let mut code = command.code;
        if self.random.once_in(8) {
            code = unknown_code(&mut self.random);
        }
        let right = command.request_bytes;
        let near = self.random.pick(&[right, right, right - 1, right + 1]);
        let mut bytes = self.of_length(code, length.unwrap_or(near));
        if self.random.once_in(3) {
            spoil(&mut self.random, code, &mut bytes);
        }
        let yes = self.random.once_in(2);
        let table = self.idle_table();
        self.push_mail(code, bytes, table, yes);
    }

    /// An identity key with a table that may be damaged, as may its checksum.
    fn push_identity(&mut self) {
        let table = self.any_table();
        let mut bytes = sealed(IDENTITY, &[]);
        if self.random.once_in(6) {
            spoil(&mut self.random, IDENTITY, &mut bytes);
        }
        self.push_mail(IDENTITY, bytes, table, true);
    }

    /// A signature with any verdict, whose checksum may be damaged.
    fn push_signature(&mut self) {
        let mut bytes = sealed(VERIFY, &self.random.bytes(192));
        if self.random.once_in(3) {
            spoil(&mut self.random, VERIFY, &mut bytes);
        }
        let yes = self.random.once_in(2);
        self.push_mail(VERIFY, bytes, Vec::new(), yes);
    }
}

/// What is behind the checksum in a tree command for the small program: at a node
/// of its unit, mostly.
fn program_call(random: &mut Random) -> Vec<u8> {
    let mut call = any_call(random, &booted());
    if random.once_in(4) {
        call.handle = near(random, &call.handle);
    }
    if random.once_in(4) {
        call.act = random.pick(&[Act::Rotate, Act::Destroy, Act::Extend { digest: ZERO }]);
    }
    let mut data = data(&call);
    if random.once_in(4) {
        data.truncate(random.below(data.len()));
    }
    [&(data.len() as u32).to_le_bytes()[..], &data].concat()
}

/// An input of the small program.
pub fn program_input(seed: u64) -> Vec<u8> {
    let mut random = Random::from_seed(seed ^ 0x6D61_696C_626F_7800);
    let Command {
        code,
        request_bytes,
        ..
    } = random.pick(&COMMANDS);
    let mut body = body(&mut random, code, request_bytes);
    if random.once_in(3) {
        body.fill(0);
    }
    if code == INVOKE && !random.once_in(4) {
        body = program_call(&mut random);
    }
    let mut bytes = sealed(code, &body);
    let mut first = code;
    match random.below(12) {
        0 | 1 => spoil(&mut random, code, &mut bytes),
        2 => first = unknown_code(&mut random),
        3 => bytes.push(0),
        4 => {
            let length = random.below(260);
            bytes = sealed(code, &random.bytes(length));
        }
        5 => {
            let length = random.pick(&[64_991, 64_992, 64_993, 65_000, 70_000, 200_000]);
            bytes = sealed(code, &random.bytes(length));
        }
        6 => {
            bytes.truncate(random.below(request_bytes + 1));
        }
        7 => {
            // Shorter than a code.
            let length = random.below(4);
            return code.to_le_bytes()[..length].to_vec();
        }
        _ => {}
    }
    let mut input = first.to_le_bytes().to_vec();
    input.extend(bytes);
    input
}
