//! The program target/bin/mailbox: what it writes for what it reads, and how much it reads.

use std::fs::{self, File};
use std::io::{Read, Seek, Write};
use std::process::{Child, Command, Stdio};
use std::thread::sleep;
use std::time::{Duration, Instant};

use host::random::Random;
use host::shell::{built_program, hex, run, Feed};

/// The bytes of an input that are used.
const USED: usize = 65_000;

const UNKNOWN_CODE: [u8; 4] = [3, 0, 0, 0];
const WRONG_LENGTH: [u8; 4] = [4, 0, 0, 0];
const HANDOFF_WRONG: [u8; 4] = [5, 0, 0, 0];
const WRONG_REGISTER: [u8; 4] = [12, 0, 0, 0];
/// 0x4243484B, lowest byte first.
const BAD_CHECKSUM: [u8; 4] = *b"KHCB";
/// 0x42534947, lowest byte first.
const VERDICT_NO: [u8; 4] = *b"GISB";

/// Command codes, lowest byte first.
const STASH: [u8; 4] = *b"SAEM";
const DISABLE: [u8; 4] = *b"LBSD";
const IDENTITY_KEY: [u8; 4] = *b"IEDI";
const VERIFY: [u8; 4] = *b"VGIS";
const EXTEND: [u8; 4] = *b"ERCP";
const INVOKE: [u8; 4] = *b"CEPD";

/// Card 10.
const CARD_10: [u8; 8] = [0x4C, 0x42, 0x53, 0x44, 0xDB, 0xFE, 0xFF, 0xFF];
const CARD_10_OUTPUT: [u8; 12] = [0; 12];

/// What every accepted stash writes: result 0, and the answer with dpe result 0, whose checksum is 0.
const STASHED: [u8; 16] = [0; 16];

/// Code, checksum and the bytes after it.
fn request(code: [u8; 4], checksum: u32, rest: &[u8]) -> Vec<u8> {
    [&code[..], &checksum.to_le_bytes(), rest].concat()
}

/// The same with the right checksum.
fn sealed(code: [u8; 4], rest: &[u8]) -> Vec<u8> {
    let checksum = reference::checksum::checksum(u32::from_le_bytes(code), rest);
    request(code, checksum, rest)
}

/// The program's whole output is `expected`, with no message and status 0.
fn fed(input: &[u8], expected: &[u8], feed: Feed) {
    let output = run(&built_program("mailbox"), input, feed);
    assert_eq!(hex(&output.stdout), hex(expected));
    assert_eq!(String::from_utf8_lossy(&output.stderr), "");
    assert!(output.status.success(), "{}", output.status);
}

fn writes(input: &[u8], expected: &[u8]) {
    fed(input, expected, Feed::Whole);
}

// ---- the result and the answer

#[test]
fn card_10() {
    writes(&CARD_10, &CARD_10_OUTPUT);
}

#[test]
fn no_input_is_code_0() {
    writes(&[], &UNKNOWN_CODE);
}

#[test]
fn fewer_than_4_bytes_are_code_0() {
    for count in 1..4 {
        writes(&DISABLE[..count], &UNKNOWN_CODE);
        writes(&[0xFF; 3][..count], &UNKNOWN_CODE);
    }
}

#[test]
fn code_alone_has_an_empty_request() {
    writes(&DISABLE, &WRONG_LENGTH);
}

#[test]
fn code_is_little_endian() {
    let mut code = DISABLE;
    code.reverse();
    writes(&sealed(code, &[]), &UNKNOWN_CODE);
}

#[test]
fn request_one_byte_too_short() {
    writes(&CARD_10[..7], &WRONG_LENGTH);
}

#[test]
fn request_one_byte_too_long() {
    writes(&sealed(DISABLE, &[0]), &WRONG_LENGTH);
}

#[test]
fn identity_key_has_no_handoff_table() {
    let input = request(IDENTITY_KEY, 0xFFFF_FEE5, &[]);
    assert_eq!(hex(&input), "49454449e5feffff");
    writes(&input, &HANDOFF_WRONG);
}

#[test]
fn verify_has_verdict_no() {
    let input = request(VERIFY, 0xFFFF_FEC7, &[0; 192]);
    assert_eq!(hex(&input[..8]), "56474953c7feffff");
    writes(&input, &VERDICT_NO);
}

#[test]
fn disable_with_checksum_0() {
    writes(&request(DISABLE, 0, &[]), &BAD_CHECKSUM);
}

#[test]
fn stash_of_zero_bytes() {
    let input = request(STASH, 0xFFFF_FEDA, &[0; 56]);
    assert_eq!(hex(&input[..8]), "5341454ddafeffff");
    writes(&input, &STASHED);
}

#[test]
fn stash_of_any_bytes() {
    let mut random = Random::from_seed(1);
    for _ in 0..20 {
        writes(&sealed(STASH, &random.bytes(56)), &STASHED);
    }
}

#[test]
fn stash_with_one_bit_changed() {
    let mut random = Random::from_seed(2);
    for _ in 0..20 {
        let mut input = sealed(STASH, &random.bytes(56));
        let at = random.between(4, input.len() - 1);
        input[at] ^= 1 << random.between(0, 7);
        writes(&input, &BAD_CHECKSUM);
    }
}

/// Result 0, and the answer of 8 bytes, whose checksum is 0.
const EXTENDED: [u8; 12] = [0; 12];

/// An extension of a register by a digest, with the right checksum.
fn extension(register: u32, digest: &[u8]) -> Vec<u8> {
    sealed(EXTEND, &[&register.to_le_bytes()[..], digest].concat())
}

#[test]
fn extension_of_register_4() {
    let input = request(EXTEND, 0xFFFF_FED2, &[&[4, 0, 0, 0][..], &[0; 48]].concat());
    assert_eq!(hex(&input[..12]), "45524350d2feffff04000000");
    writes(&input, &EXTENDED);
}

#[test]
fn extension_of_every_register() {
    let mut random = Random::from_seed(3);
    for register in 0..40 {
        let expected: &[u8] = match register {
            4..=30 => &EXTENDED,
            _ => &WRONG_REGISTER,
        };
        writes(&extension(register, &random.bytes(48)), expected);
    }
}

#[test]
fn register_is_the_whole_number() {
    for register in [0x104, 0x10004, 0x0400_0000, 0x8000_0004, u32::MAX] {
        writes(&extension(register, &[9; 48]), &WRONG_REGISTER);
    }
}

#[test]
fn extension_with_a_digest_of_another_length() {
    for length in [0, 47, 49, 52] {
        writes(&extension(31, &vec![9; length]), &WRONG_LENGTH);
    }
}

#[test]
fn extension_with_one_bit_changed() {
    let mut random = Random::from_seed(4);
    for register in [3, 4, 30, 31] {
        let mut input = extension(register, &random.bytes(48));
        let at = random.between(4, input.len() - 1);
        input[at] ^= 1 << random.between(0, 7);
        writes(&input, &BAD_CHECKSUM);
    }
}

/// A command to the tree, with the right checksum.
fn invoke(data: &[u8]) -> Vec<u8> {
    let size = u32::try_from(data.len()).expect("a size").to_le_bytes();
    sealed(INVOKE, &[&size, data].concat())
}

/// Result 0, and the answer of 12 bytes with that dpe result.
fn declined(data: &[u8], result: u32) {
    let checksum = 0u32.wrapping_sub(result);
    let output = [0, checksum, 0, result].map(u32::to_le_bytes).concat();
    writes(&invoke(data), &output);
}

/// The program's caller is the root's, which holds the default handle, and it lends no fresh handle.
#[test]
fn tree_commands_without_a_fresh_handle() {
    let (root, other) = ([0; 20], [1; 20]);
    let derive = |handle: &[u8], retain| [&[1][..], handle, &[retain, 7], &[0x66; 48]].concat();
    let extend = |handle: &[u8]| [&[2][..], handle, &[0x66; 48]].concat();
    let named = |command, handle: &[u8]| [&[command][..], handle].concat();
    for retain in [0, 1] {
        declined(&derive(&root, retain), 8);
        declined(&derive(&other, retain), 6);
    }
    declined(&derive(&root, 2), 5);
    declined(&extend(&root), 9);
    declined(&extend(&other), 6);
    declined(&named(3, &root), 8);
    declined(&named(3, &[0xFF; 20]), 6);
    declined(&named(4, &root), 9);
    declined(&named(4, &other), 6);
    declined(&named(5, &root), 5);
    declined(&[], 5);
    declined(&[0; 1024], 5);
}

#[test]
fn tree_commands_of_other_lengths() {
    let whole = invoke(&[0; 21]);
    for end in 4..whole.len() {
        writes(&whole[..end], &WRONG_LENGTH);
    }
    writes(&invoke(&[0; 1025]), &WRONG_LENGTH);
    let mut changed = whole.clone();
    changed[20] ^= 1;
    writes(&changed, &BAD_CHECKSUM);
}

// ---- short reads

#[test]
fn card_10_byte_by_byte() {
    fed(&CARD_10, &CARD_10_OUTPUT, Feed::Pieces(1));
}

#[test]
fn stash_in_pieces() {
    fed(&sealed(STASH, &[9; 56]), &STASHED, Feed::Pieces(7));
}

#[test]
fn stash_with_long_pauses() {
    let input = sealed(STASH, &[9; 56]);
    let mut program = started(Stdio::piped());
    let mut pipe = program.child.stdin.take().expect("a pipe");
    for piece in [&input[..2], &input[2..7], &input[7..40], &input[40..]] {
        sleep(Duration::from_millis(100));
        assert!(program.is_running(), "it ended before its input did");
        pipe.write_all(piece).expect("the pipe takes the input");
    }
    drop(pipe);
    assert_eq!(hex(&program.output()), hex(&STASHED));
}

#[test]
fn long_input_in_pieces() {
    fed(&long_input(USED + 1), &WRONG_LENGTH, Feed::Pieces(4_000));
}

// ---- long inputs

/// A disable command of that many bytes: too long, with the right checksum.
fn long_input(length: usize) -> Vec<u8> {
    let input = sealed(DISABLE, &vec![0xA5; length - 8]);
    assert_eq!(input.len(), length);
    input
}

/// A running program that is killed when the value goes.
struct Program {
    child: Child,
}

fn started(stdin: Stdio) -> Program {
    let child = Command::new(built_program("mailbox"))
        .stdin(stdin)
        .stdout(Stdio::piped())
        .spawn()
        .expect("the program starts");
    Program { child }
}

impl Program {
    fn is_running(&mut self) -> bool {
        self.child
            .try_wait()
            .expect("its status is known")
            .is_none()
    }

    /// What it has written, once it has ended; it may not go on for ever.
    fn output(&mut self) -> Vec<u8> {
        let begun = Instant::now();
        while self.is_running() {
            assert!(begun.elapsed() < Duration::from_secs(30), "it does not end");
            sleep(Duration::from_millis(5));
        }
        assert!(self.child.wait().expect("it has ended").success());
        let mut bytes = Vec::new();
        let mut pipe = self.child.stdout.take().expect("a pipe");
        pipe.read_to_end(&mut bytes).expect("its output is read");
        bytes
    }
}

impl Drop for Program {
    fn drop(&mut self) {
        // Both fail where it has ended, as it should.
        let _ = self.child.kill();
        let _ = self.child.wait();
    }
}

/// Runs the program on a file of that many bytes, and tells how many it read.
fn bytes_read(length: usize, label: &str) -> u64 {
    let name = format!("waggleloft-{label}-{}", std::process::id());
    let path = std::env::temp_dir().join(name);
    fs::write(&path, long_input(length)).expect("the temporary folder is writable");
    let mut file = File::open(&path).expect("the file is there");
    fs::remove_file(&path).expect("the file can go");
    // The program's standard input shares this file's position.
    let shared = file.try_clone().expect("a second handle");
    let output = started(Stdio::from(shared)).output();
    assert_eq!(hex(&output), hex(&WRONG_LENGTH));
    file.stream_position().expect("a position")
}

#[test]
fn reads_all_of_64_999_bytes() {
    assert_eq!(bytes_read(64_999, "mailbox-64999"), 64_999);
}

#[test]
fn reads_all_of_65_000_bytes() {
    assert_eq!(bytes_read(65_000, "mailbox-65000"), 65_000);
}

#[test]
fn reads_65_000_of_65_001_bytes() {
    assert_eq!(bytes_read(65_001, "mailbox-65001"), 65_000);
}

#[test]
fn reads_65_000_of_70_000_bytes() {
    assert_eq!(bytes_read(70_000, "mailbox-70000"), 65_000);
}

#[test]
fn long_inputs_through_a_pipe() {
    for length in [64_999, 65_000, 65_001, 70_000] {
        writes(&long_input(length), &WRONG_LENGTH);
    }
}

/// It waits for byte 65,000 and for no more, though the pipe stays open.
#[test]
fn ends_with_byte_65_000() {
    let input = long_input(USED);
    let mut program = started(Stdio::piped());
    let mut pipe = program.child.stdin.take().expect("a pipe");
    pipe.write_all(&input[..USED - 1])
        .expect("the pipe takes the input");
    sleep(Duration::from_millis(300));
    assert!(program.is_running(), "it ended before byte 65,000");
    pipe.write_all(&input[USED - 1..])
        .expect("the pipe takes the input");
    assert_eq!(hex(&program.output()), hex(&WRONG_LENGTH));
}

/// A writer that never ends, killed when the value goes.
struct EndlessWriter(Child);

impl Drop for EndlessWriter {
    fn drop(&mut self) {
        // It may have ended by itself, since nobody reads its pipe any more.
        let _ = self.0.kill();
        let _ = self.0.wait();
    }
}

#[test]
fn endless_input_ends() {
    let mut writer = EndlessWriter(
        Command::new("sh")
            .args(["-c", "printf LBSD && exec cat /dev/zero"])
            .stdout(Stdio::piped())
            .spawn()
            .expect("a shell"),
    );
    let pipe = writer.0.stdout.take().expect("a pipe");
    let mut program = started(Stdio::from(pipe));
    assert_eq!(hex(&program.output()), hex(&WRONG_LENGTH));
}
