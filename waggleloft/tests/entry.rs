//! Journal entries through the crate: each kind of work's, byte by byte, and what is refused.

mod common;

use common::{fresh, run, INPUTS};
use waggleloft::{
    checksum, code, tree, BootInputs, Outcome, Refusal, Request, Work, ENTRY_LONGEST, HANDLE_BYTES,
    IMAGE_WORDS, NODES, WORK_WORDS,
};

/// Bytes of a boot's entry.
const BOOT: usize = 97;

fn open_from(
    work: &mut Work,
    image: &[u32],
    caller: u32,
    code: u32,
    arguments: &[u8],
) -> Result<(), Refusal> {
    let bytes = [&checksum(code, arguments).to_le_bytes(), arguments].concat();
    let request = Request {
        code,
        bytes: &bytes,
        caller,
        verdict: true,
        ..Request::default()
    };
    work.open_request(image, &request)
}

/// Opens a command to the tree.
fn open_tree(
    work: &mut Work,
    image: &[u32],
    caller: u32,
    data: &[u8],
    fresh: &[u8],
) -> Result<(), Refusal> {
    let code = code::INVOKE_DPE_COMMAND;
    let size = u32::try_from(data.len()).expect("a size").to_le_bytes();
    let arguments = [&size, data].concat();
    let request = Request {
        code,
        bytes: &[&checksum(code, &arguments).to_le_bytes()[..], &arguments].concat(),
        caller,
        fresh,
        ..Request::default()
    };
    work.open_request(image, &request)
}

/// A stash of 48 bytes 0x66.
fn stash(kind: u32, svn: u32) -> Vec<u8> {
    [&kind.to_le_bytes()[..], &[0x66; 48], &svn.to_le_bytes()].concat()
}

/// An extension by 48 bytes 0x77.
fn extension(register: u32) -> Vec<u8> {
    [&register.to_le_bytes()[..], &[0x77; 48]].concat()
}

/// Groups of seven bits, the lowest first.
fn groups(mut number: u32) -> Vec<u8> {
    let mut bytes = Vec::new();
    while number > 0x7F {
        bytes.push(number as u8 & 0x7F | 0x80);
        number >>= 7;
    }
    bytes.push(number as u8);
    bytes
}

/// The finished work has that entry: in a buffer that is too short by one, just long enough, and longer.
#[track_caller]
fn assert_entry(work: &Work, expected: &[u8]) {
    let before = work.clone();
    let mut buffer = [0xEE; ENTRY_LONGEST + 3];
    if let Some(short) = expected.len().checked_sub(1) {
        for length in [0, short] {
            let taken = work.entry(&mut buffer[..length]);
            assert_eq!(taken, Err(Refusal::ShortForEntry));
        }
    }
    assert_eq!(buffer, [0xEE; ENTRY_LONGEST + 3], "refused, and written");
    for length in [expected.len(), buffer.len()] {
        buffer.fill(0xEE);
        assert_eq!(work.entry(&mut buffer[..length]), Ok(expected.len()));
        assert_eq!(buffer[..expected.len()], *expected);
        assert!(buffer[expected.len()..].iter().all(|&byte| byte == 0xEE));
    }
    assert_eq!(*work, before);
}

/// Before each of its stores a work has no entry, whatever the buffer; after the last it has that one.
#[track_caller]
fn assert_entry_at_last(work: &mut Work, image: &mut [u32], expected: &[u8]) {
    while work.left() > 0 {
        for length in [0, ENTRY_LONGEST] {
            let mut buffer = vec![0xEE; length];
            assert_eq!(work.entry(&mut buffer), Err(Refusal::StoresLeft));
            assert!(buffer.iter().all(|&byte| byte == 0xEE));
        }
        work.store(image).expect("a store is left");
    }
    assert_entry(work, expected);
}

#[test]
fn boots() {
    let mut image = vec![0; IMAGE_WORDS];
    let mut work = Work::new();
    let digests = [[0x11; 48], [0x33; 48]].concat();
    assert_eq!(work.open_cold_boot(&image, &INPUTS), Ok(Outcome::Cold));
    let cold = [&[1][..], &digests].concat();
    assert_eq!(cold.len(), BOOT);
    assert_entry_at_last(&mut work, &mut image, &cold);
    let updated = work.open_update_boot(&image, &INPUTS, true);
    assert_eq!(updated, Ok(Outcome::Updated));
    assert_entry_at_last(&mut work, &mut image, &[&[2][..], &digests].concat());
}

/// The secret changes nothing.
#[test]
fn secret_is_not_told() {
    for secret in [[0x22; 48], [0x99; 48]] {
        let mut image = vec![0; IMAGE_WORDS];
        let mut work = Work::new();
        let inputs = BootInputs {
            secret: &secret,
            ..INPUTS
        };
        assert_eq!(work.open_cold_boot(&image, &inputs), Ok(Outcome::Cold));
        run(&mut work, &mut image, usize::MAX);
        let mut entry = [0; ENTRY_LONGEST];
        assert_eq!(work.entry(&mut entry), Ok(BOOT));
        assert!(!entry.contains(&secret[0]), "{entry:02x?}");
    }
}

/// Type, svn and caller at every length of a number.
#[test]
fn stashes() {
    let numbers = [
        0,
        0x7F,
        0x80,
        300,
        0x3FFF,
        0x4000,
        0x1F_FFFF,
        0x20_0000,
        0xFFF_FFFF,
        u32::MAX,
    ];
    for number in numbers {
        for (kind, svn, caller) in [(number, 6, 7), (5, number, 7), (5, 6, number)] {
            let mut image = fresh();
            let mut work = Work::new();
            let arguments = stash(kind, svn);
            let code = code::STASH_MEASUREMENT;
            assert_eq!(
                open_from(&mut work, &image, caller, code, &arguments),
                Ok(())
            );
            let digest = vec![0x66; 48];
            let fields = [vec![4], groups(kind), digest, groups(svn), groups(caller)];
            assert_entry_at_last(&mut work, &mut image, &fields.concat());
        }
    }
}

/// The papers' example: the caller 300 is `AC 02`.
#[test]
fn caller_300() {
    let mut image = fresh();
    let mut work = Work::new();
    let code = code::STASH_MEASUREMENT;
    open_from(&mut work, &image, 300, code, &stash(1, 2)).expect("accepted");
    run(&mut work, &mut image, usize::MAX);
    let mut entry = [0; ENTRY_LONGEST];
    let length = work.entry(&mut entry).expect("an entry");
    assert_eq!(entry[length - 3..length], [2, 0xAC, 2]);
}

#[test]
fn extensions() {
    for register in 4..=30 {
        let mut image = fresh();
        let mut work = Work::new();
        let arguments = extension(register);
        open_from(&mut work, &image, 1, code::EXTEND_PCR, &arguments).expect("accepted");
        let expected = [vec![5], groups(register), vec![0x77; 48]].concat();
        assert_entry_at_last(&mut work, &mut image, &expected);
    }
}

/// A stash's node is the caller's, so that he may derive below it and go on with the child: the data behind its first
/// byte, the fresh handle of a derive and of a rotate, the caller.
#[test]
fn tree_commands() {
    let handle = |byte| vec![byte; HANDLE_BYTES];
    for caller in [0, 0x7F, 300, u32::MAX] {
        for retain in [0, 1] {
            let mut image = fresh();
            let mut work = Work::new();
            let code = code::STASH_MEASUREMENT;
            open_from(&mut work, &image, caller, code, &stash(5, 6)).expect("accepted");
            run(&mut work, &mut image, usize::MAX);
            let derive = [handle(0), vec![retain], groups(caller), vec![0x66; 48]].concat();
            let extend = [handle(0xA1), vec![0x77; 48]].concat();
            let commands = [
                (6, tree::DERIVE, derive, handle(0xA1)),
                (7, tree::EXTEND, extend, vec![]),
                (8, tree::ROTATE, handle(0xA1), handle(0xA2)),
                (9, tree::DESTROY, handle(0xA2), vec![]),
            ];
            for (kind, command, rest, fresh) in commands {
                let data = [&[command], &rest[..]].concat();
                open_tree(&mut work, &image, caller, &data, &fresh).expect("accepted");
                let expected = [vec![kind], rest, fresh, groups(caller)].concat();
                assert_entry_at_last(&mut work, &mut image, &expected);
            }
        }
    }
}

/// A derive with type and caller of five groups: [`ENTRY_LONGEST`] has room for a retain of five groups too, which no
/// unit writes.
#[test]
fn longest_entry() {
    let mut image = fresh();
    let mut work = Work::new();
    let code = code::STASH_MEASUREMENT;
    open_from(&mut work, &image, u32::MAX, code, &stash(5, 6)).expect("accepted");
    run(&mut work, &mut image, usize::MAX);
    let rest = [
        vec![0; HANDLE_BYTES],
        vec![1],
        groups(u32::MAX),
        vec![0; 48],
    ]
    .concat();
    let data = [&[tree::DERIVE], &rest[..]].concat();
    open_tree(&mut work, &image, u32::MAX, &data, &[0xA1; HANDLE_BYTES]).expect("accepted");
    run(&mut work, &mut image, usize::MAX);
    assert_eq!(work.entry(&mut [0; ENTRY_LONGEST]), Ok(100));
}

/// By a command and by a boot: the byte 03.
#[test]
fn disablings() {
    let mut image = fresh();
    let mut work = Work::new();
    open_from(&mut work, &image, 1, code::DISABLE_ATTESTATION, &[]).expect("accepted");
    assert_entry_at_last(&mut work, &mut image, &[3]);
    let disabled = work.open_update_boot(&image, &INPUTS, true);
    assert_eq!(disabled, Ok(Outcome::Disabled));
    assert_entry_at_last(&mut work, &mut image, &[3]);
}

/// What has nothing to store has an entry of no bytes.
#[test]
fn nothing_to_store() {
    let mut image = fresh();
    let mut work = Work::new();
    assert_entry(&work, &[]);
    assert_eq!(
        work.open_update_boot(&image, &INPUTS, false),
        Ok(Outcome::Kept)
    );
    assert_entry(&work, &[]);
    open_from(&mut work, &image, 1, code::VERIFY_SIGNATURE, &[0; 192]).expect("accepted");
    assert_entry(&work, &[]);
    for _ in 1..NODES {
        open_from(&mut work, &image, 1, code::STASH_MEASUREMENT, &stash(1, 1)).expect("accepted");
        run(&mut work, &mut image, usize::MAX);
    }
    open_from(&mut work, &image, 1, code::STASH_MEASUREMENT, &stash(1, 1)).expect("accepted");
    assert_entry(&work, &[]);
}

#[test]
fn damaged_works_have_no_entry() {
    let work = Work::from_words([u32::MAX; WORK_WORDS]);
    let mut buffer = [0xEE; ENTRY_LONGEST];
    assert_eq!(work.entry(&mut buffer), Err(Refusal::StoresLeft));
    assert_eq!(buffer, [0xEE; ENTRY_LONGEST]);
}
