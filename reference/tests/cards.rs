//! 01's bench cards as 02 leaves them, the small program and the two odd
//! images; 02's cards of the running digest.

use reference::boots::Inputs;
use reference::checksum::{checksum, sealed};
use reference::engine::{Engine, Paper};
use reference::generate::{odd_image_1, odd_image_2};
use reference::layout::*;
use reference::mailbox::{booted, mailbox, BOOTED_WITH};
use reference::memory::Memory;
use reference::player::Player;
use reference::requests::Request;
use reference::running::Running;
use reference::script::{encode, BootBytes, Mail, Op, TOTAL, WAITING};
use reference::sha384::digest;
use reference::work::{Kind, Work};

const ENGINE: Engine = Engine::PAPER;

const NO_INPUTS: Inputs = Inputs {
    runtime: &[],
    manifest: &[],
    secret: &[],
};

const UPDATED_WITH: Inputs = Inputs {
    runtime: &[0x44; 48],
    manifest: &[0x55; 48],
    secret: &[0x66; 48],
};

fn well_formed(image: &[u32]) -> bool {
    Paper.well_formed(image)
}

fn open(image: &[u32], code: u32, body: &[u8]) -> Result<Work, u32> {
    ENGINE.open_request(image, Request::plain(code, &sealed(code, body)))
}

fn stash(image: &[u32], filling: u8) -> Result<Work, u32> {
    open(image, STASH, &[filling; 56])
}

fn store(work: &mut Work, image: &mut [u32], count: usize) {
    for _ in 0..count {
        assert_eq!(ENGINE.store(work, image), 0);
    }
}

fn run(mut work: Work, image: &mut [u32]) -> Work {
    while ENGINE.left(&work) > 0 {
        store(&mut work, image, 1);
    }
    work
}

fn update(image: &[u32], verdict: bool) -> (Work, u8) {
    ENGINE
        .open_update(image, UPDATED_WITH, verdict)
        .expect("a fine update boot")
}

fn dpe(work: &Work) -> u32 {
    assert_eq!(work.answer_bytes, 12);
    little(&work.answer[8..])
}

/// An image with this many nodes in use.
fn filled(nodes: usize) -> Vec<u32> {
    let mut image = booted();
    for _ in 1..nodes {
        let work = stash(&image, 7).expect("a free node");
        run(work, &mut image);
    }
    image
}

#[test]
fn cards_1_to_5_checksums() {
    assert_eq!(checksum(DISABLE, &[]), 0xFFFF_FEDB);
    assert_eq!(checksum(IDENTITY, &[]), 0xFFFF_FEE5);
    assert_eq!(checksum(STASH, &[0; 56]), 0xFFFF_FEDA);
    assert_eq!(checksum(0, &[0, 0, 0, 0, 2, 0, 0, 0]), 0xFFFF_FFFE);
    assert_eq!(checksum(0, &[]), 0);
}

#[test]
fn card_4_in_the_answer() {
    let mut image = booted();
    image[ATTESTATION] = 0;
    let work = stash(&image, 0).unwrap();
    assert_eq!(work.kind, Kind::Nothing);
    assert_eq!(little(&work.answer), 0xFFFF_FFFE);
    assert_eq!(dpe(&work), DPE_OFF);
}

/// X of bytes 1 and Y of bytes 2: 48 and 96 make 144.
#[test]
fn an_identity_keys_answer_sums_the_key_alone() {
    let mut table = [0xFF; TABLE_BYTES];
    table[..4].copy_from_slice(&TABLE_MARKER.to_le_bytes());
    table[TABLE_MAJOR_AT..][..2].copy_from_slice(&TABLE_MAJOR.to_le_bytes());
    table[KEY_AT..][..KEY_BYTES / 2].fill(1);
    table[KEY_AT + KEY_BYTES / 2..][..KEY_BYTES / 2].fill(2);
    let bytes = sealed(IDENTITY, &[]);
    let request = Request {
        table: &table,
        ..Request::plain(IDENTITY, &bytes)
    };
    let work = ENGINE.open_request(&booted(), request).unwrap();
    assert_eq!(little(&work.answer), 144u32.wrapping_neg());
    assert_eq!(work.answer[4..8], [0; 4]);
    assert_eq!(work.answer[8..56], [1; 48]);
    assert_eq!(work.answer[56..], [2; 48]);
}

#[test]
fn card_6_images_of_other_lengths() {
    let near = [1_519, 1_521];
    assert_eq!(near, [IMAGE_WORDS - 1, IMAGE_WORDS + 1]);
    for length in [0, 1].into_iter().chain(near) {
        let mut image = booted();
        let mut work = open(&image, DISABLE, &[]).unwrap();
        image.resize(length, 1);
        let before = image.clone();
        assert_eq!(stash(&image, 0).unwrap_err(), 1);
        assert_eq!(open(&image, 0, &[]).unwrap_err(), 1);
        assert_eq!(ENGINE.open_cold(&image, NO_INPUTS).unwrap_err(), 1);
        assert_eq!(ENGINE.open_update(&image, NO_INPUTS, true).unwrap_err(), 1);
        assert_eq!(ENGINE.store(&mut work, &mut image), 1);
        // 1 comes before 9, whatever the work is.
        let number = DISABLING_STORES as u64;
        for position in [number, number + 1, u64::MAX] {
            work.position = position;
            assert_eq!(ENGINE.store(&mut work, &mut image), 1);
            assert_eq!(work.position, position);
        }
        assert_eq!(image, before);
    }
}

#[test]
fn card_7_and_the_booted() {
    let image = booted();
    let root = node_of(&image, 0);
    let journey = &image[register(JOURNEY)..][..DIGEST_WORDS];
    assert_eq!(root[0], 0x00FF_0001);
    assert_eq!(image[register(CURRENT)], 0x8A87_207C);
    assert_eq!(image[..SECRET], [1, 1, 0, 0]);
    assert_eq!(image[SECRET..REGISTERS_AT], [0x2222_2222; 12]);
    assert_eq!(image[register(CURRENT)..][..DIGEST_WORDS], *journey);
    assert_eq!(root[NODE_CURRENT..][..DIGEST_WORDS], *journey);
    assert_eq!(root[FLAGS], 0x8000_0000);
    assert_eq!(root[TYPE], RTJM);
    assert_eq!(root[SVN], 0);
    assert!(image[node(1)..].iter().all(|&word| word == 0));
    assert!(well_formed(&image));
}

#[test]
fn card_8_a_node_that_is_its_own_parent() {
    let mut image = filled(3);
    assert!(well_formed(&image));
    image[node(2)] = 2 << 16 | 1;
    assert!(!well_formed(&image));
}

#[test]
fn card_9_the_last_free_node() {
    let (one_free, full) = (31, 32);
    assert_eq!((one_free, full), (NODES - 1, NODES));
    let mut image = filled(one_free);
    let work = stash(&image, 0).unwrap();
    assert_eq!(
        (dpe(&work), ENGINE.left(&work)),
        (DPE_DONE, STASH_STORES as u32)
    );
    run(work, &mut image);
    assert!((0..full).all(|index| Paper.is_used(&image, index)));
    let work = stash(&image, 0).unwrap();
    assert_eq!((dpe(&work), ENGINE.left(&work)), (DPE_FULL, 0));
    assert_eq!(work.kind, Kind::Nothing);
    assert_eq!(little(&work.answer), 0xFFFF_FFFF);
}

#[test]
fn card_10_and_the_programs_other_cases() {
    let of = |code: [u8; 4], field: [u8; 4], zeros: usize| {
        let mut input = [code, field].concat();
        input.resize(8 + zeros, 0);
        mailbox(&input)
    };
    let disable = [0x4C, 0x42, 0x53, 0x44];
    assert_eq!(of(disable, [0xDB, 0xFE, 0xFF, 0xFF], 0), [0; 12]);
    assert_eq!(of(disable, [0; 4], 0), [0x4B, 0x48, 0x43, 0x42]);
    assert_eq!(mailbox(&disable), [4, 0, 0, 0]);
    for length in 0..4 {
        assert_eq!(mailbox(&disable[..length]), [3, 0, 0, 0]);
    }
    assert_eq!(
        of([0x49, 0x45, 0x44, 0x49], [0xE5, 0xFE, 0xFF, 0xFF], 0),
        [5, 0, 0, 0]
    );
    assert_eq!(
        of([0x56, 0x47, 0x49, 0x53], [0xC7, 0xFE, 0xFF, 0xFF], 192),
        [0x47, 0x49, 0x53, 0x42]
    );
    assert_eq!(
        of([0x53, 0x41, 0x45, 0x4D], [0xDA, 0xFE, 0xFF, 0xFF], 56),
        [0; 16]
    );
    assert_eq!(mailbox(&[0x4C; 70_000]), [3, 0, 0, 0]);
}

#[test]
fn card_11_digests() {
    // Known to the machine's sha384sum; the limit is the entry's, not ours.
    let hex = |length: usize| -> String {
        digest(&vec![0; length])[..4]
            .iter()
            .map(|byte| format!("{byte:02x}"))
            .collect()
    };
    assert_eq!(hex(0), "38b060a7");
    assert_eq!(hex(111), KNOWN[0]);
    assert_eq!(hex(112), KNOWN[1]);
    assert_eq!(hex(65_535), KNOWN[2]);
}

/// The first four bytes of the digests of 111, 112 and 65,535 zero bytes.
const KNOWN: [&str; 3] = ["43577071", "3e0cbf3a", "fb84751f"];

#[test]
fn card_12_a_stash_that_is_cut() {
    for (made, on) in [(0, true), (1, false), (53, false), (54, true)] {
        let mut image = booted();
        let mut work = stash(&image, 9).unwrap();
        store(&mut work, &mut image, made);
        drop(work);
        let (work, outcome) = update(&image, true);
        assert_eq!(outcome, if on { UPDATED } else { DISABLED });
        run(work, &mut image);
        assert_eq!(image[ATTESTATION] == ON, on);
        assert_eq!(image[SECRET] == 0, !on);
        assert_eq!(image[node(1)] == 1, made > 1 + DIGEST_WORDS);
        assert_eq!(image[node(1) + SVN] == 0x0909_0909, made > BEFORE_SVN);
    }
}

/// The word that a store changes: every word is odd before.
fn touched(work: &Work, position: u64) -> (usize, u32) {
    let mut image = vec![0x5A5A_5A5A; IMAGE_WORDS];
    let mut work = work.clone();
    work.position = position;
    assert_eq!(ENGINE.store(&mut work, &mut image), 0);
    assert_eq!(work.position, position + 1);
    let words: Vec<usize> = (0..IMAGE_WORDS)
        .filter(|&word| image[word] != 0x5A5A_5A5A)
        .collect();
    let [word] = words[..] else {
        panic!("{} words changed", words.len())
    };
    (word, image[word])
}

#[test]
fn odd_image_1_is_well_formed_and_used_as_it_stands() {
    let image = odd_image_1();
    assert!(well_formed(&image));
    let work = stash(&image, 3).unwrap();
    assert_eq!(work.kind, Kind::Stash { node: 0, holder: 2 });
    let (work, outcome) = update(&image, true);
    assert_eq!((work.kind, outcome), (Kind::Update { root: 5 }, UPDATED));
}

#[test]
fn odd_image_2_is_well_formed_and_full() {
    let mut image = odd_image_2();
    assert!(well_formed(&image));
    assert_eq!(dpe(&stash(&image, 0).unwrap()), DPE_FULL);
    let root = NODES as u64 - 1;
    assert_eq!(update(&image, true).0.kind, Kind::Update { root });
    // Two nodes that point at each other.
    image[node(7)] = 6 << 16 | 1;
    assert!(!well_formed(&image));
    assert_eq!(stash(&image, 0).unwrap_err(), number::TREE);
    assert_eq!(update(&image, true).1, DISABLED);
    image[ATTESTATION] = 2;
    assert_eq!(dpe(&stash(&image, 0).unwrap()), DPE_OFF);
}

#[test]
fn damage_that_is_not_well_formed() {
    let (root, second) = (node(0), node(1));
    let cases: [(usize, u32); 18] = [
        (second, 0x0005_0000),
        (IMAGE_WORDS - 1, 1),
        (second + SVN, 1),
        (second + SVN, 0x8000_0000),
        (second, 2),
        (root, 0xFFFF_0001),
        (root, 0x01FF_0001),
        (root, 0x00FF_0002),
        (root, 0x00FF_8001),
        (root, 0x0000_0001),
        (root, (NODES as u32) << 16 | 1),
        (root + FLAGS, 0),
        (root + FLAGS, 0xC000_0000),
        (root + FLAGS, 0x8000_0001),
        (root + TYPE, 0),
        (second + FLAGS, 0x8000_0000),
        (second, 1),
        (second, 0x00FF_0001),
    ];
    for (word, value) in cases {
        let mut image = booted();
        image[word] = value;
        assert!(!well_formed(&image), "word {word} = {value:#x}");
        assert_eq!(update(&image, true).1, DISABLED);
    }
}

#[test]
fn what_does_not_count() {
    for (word, value) in [
        (SPARE, 5),
        (SPARE + 1, 5),
        (SECRET, 0),
        (register(0), 1),
        (register(CURRENT), 0),
        (node(0) + TAG, 9),
        (node(0) + LOCALITY, 9),
        (node(0) + SVN, 9),
        // A handle that is nobody else's.
        (node(0) + HANDLE, u32::MAX),
        (node(0) + HANDLE + 4, 1),
    ] {
        let mut image = booted();
        image[word] = value;
        assert!(well_formed(&image));
        assert_eq!(update(&image, true).1, UPDATED);
    }
    for word in register(JOURNEY)..register(JOURNEY + 1) {
        let mut image = booted();
        image[word] ^= 1;
        assert!(well_formed(&image));
        assert_eq!(update(&image, true).1, DISABLED);
    }
}

#[test]
fn damaged_works_report_0_and_get_9_and_7() {
    let mut image = booted();
    let disabling = open(&image, DISABLE, &[]).unwrap();
    let stash = stash(&image, 1).unwrap();
    let (update, _) = update(&image, true);
    let mut damaged = Vec::new();
    let number = DISABLING_STORES as u64;
    for position in [number + 1, 1 << 32, 1 << 63, u64::MAX] {
        let mut work = disabling.clone();
        work.position = position;
        damaged.push(work);
    }
    for index in [NODES as u64, NODES as u64 + 1, 1 << 32, u64::MAX] {
        let mut work = stash.clone();
        work.kind = Kind::Stash {
            node: index,
            holder: 0,
        };
        damaged.push(work.clone());
        work.kind = Kind::Stash {
            node: 1,
            holder: index,
        };
        work.position = STASH_STORES as u64;
        damaged.push(work);
        let mut work = update.clone();
        work.kind = Kind::Update { root: index };
        damaged.push(work);
    }
    for length in [ANSWER_MAX as u64 + 1, 1 << 32, u64::MAX] {
        for position in [0, number] {
            let mut work = disabling.clone();
            (work.answer_bytes, work.position) = (length, position);
            damaged.push(work);
        }
    }
    let before = image.clone();
    for mut work in damaged {
        assert_eq!(ENGINE.left(&work), 0);
        let same = work.clone();
        assert_eq!(ENGINE.store(&mut work, &mut image), 9);
        assert_eq!(work, same);
        let mut buffer = [0xA5; 200];
        assert_eq!(ENGINE.answer(&work, &mut buffer), 7);
        assert_eq!(ENGINE.answer(&work, &mut []), 7);
        assert_eq!(buffer, [0xA5; 200]);
    }
    assert_eq!(image, before);
}

#[test]
fn the_answer_waits_and_keeps_the_rest_of_the_buffer() {
    let mut image = booted();
    let mut work = open(&image, DISABLE, &[]).unwrap();
    store(&mut work, &mut image, DISABLING_STORES - 1);
    assert_eq!(ENGINE.answer(&work, &mut []), 7);
    store(&mut work, &mut image, 1);
    assert_eq!(ENGINE.store(&mut work, &mut image), 9);
    let mut buffer = [0xA5; 9];
    assert_eq!(ENGINE.answer(&work, &mut buffer[..7]), 8);
    assert_eq!(buffer, [0xA5; 9]);
    for _ in 0..2 {
        assert_eq!(ENGINE.answer(&work, &mut buffer), 0);
        assert_eq!(buffer, [0, 0, 0, 0, 0, 0, 0, 0, 0xA5]);
    }
}

#[test]
fn a_request_over_a_half_stored_work_leaves_it_in_hand() {
    let stash = |filling: u8| {
        Op::Request(Mail {
            code: STASH,
            caller: 1,
            verdict: 0,
            table: vec![],
            bytes: sealed(STASH, &[filling; 56]),
            fresh: Vec::new(),
        })
    };
    let boot = |filling: u8| BootBytes {
        runtime: vec![filling; 48],
        manifest: vec![filling; 48],
        secret: vec![filling; 48],
    };
    let script = encode(&[
        Op::Cold(boot(1)),
        Op::Store(COLD_STORES as u32),
        stash(1),
        Op::Store(20),
        stash(2),
        Op::Store(STASH_STORES as u32 - 20),
        Op::Answer(12),
        Op::Update(boot(3), 0),
    ]);
    let mut player = Player::new(ENGINE);
    player.run(&script).expect("the book agrees");
    assert_eq!(player.image()[ATTESTATION], ON);
    assert_eq!(player.image()[node(1) + TYPE], 0x0101_0101);
    assert_eq!(player.seen.looks, 1);
}

/// Compares every store of a work with the words and values of a table's row,
/// the fields between the marks.
fn has_row(work: &Work, row: &[(usize, &[u32])]) {
    let fields = row
        .iter()
        .flat_map(|&(from, values)| (from..).zip(values.iter().copied()));
    let mut stores = vec![(MARK, 0)];
    stores.extend(fields);
    stores.push((MARK, 1));
    assert_eq!(ENGINE.left(work) as usize, stores.len());
    for (position, store) in stores.into_iter().enumerate() {
        assert_eq!(touched(work, position as u64), store, "store {position}");
    }
}

#[test]
fn every_store_goes_where_the_table_says() {
    let image = odd_image_1();
    let old = |word: usize| bytes_of(&image[word..]);

    let stashed = words_of(&extended(&old(register(STASHED)), &[3; 48]));
    let cumulative = words_of(&extended(&ZERO, &[3; 48]));
    let mut new = [0; NODE_WORDS];
    new[0] = 0x0002_0001;
    new[NODE_CURRENT..NODE_CUMULATIVE].fill(0x0303_0303);
    new[NODE_CUMULATIVE..TYPE].copy_from_slice(&cumulative);
    new[TYPE] = 0x0303_0303;
    new[SVN] = 0x0303_0303;
    has_row(
        &stash(&image, 3).unwrap(),
        &[
            (register(STASHED), &stashed),
            (node(0), &new),
            (node(2) + HANDLE, &[u32::MAX; HANDLE_WORDS]),
        ],
    );

    has_row(
        &open(&image, DISABLE, &[]).unwrap(),
        &[(ATTESTATION, &[0]), (SECRET, &[0; DIGEST_WORDS])],
    );

    let both = |from: &Digest| extended(&extended(from, &[0x44; 48]), &[0x55; 48]);
    let current = words_of(&both(&ZERO));
    let journey = both(&old(register(JOURNEY)));
    let cumulative = words_of(&extended(&old(node(5) + NODE_CUMULATIVE), &journey));
    let journey = words_of(&journey);
    has_row(
        &update(&image, true).0,
        &[
            (register(CURRENT), &current),
            (register(JOURNEY), &journey),
            (SECRET, &[0x6666_6666; DIGEST_WORDS]),
            (node(5) + NODE_CURRENT, &journey),
            (node(5) + NODE_CUMULATIVE, &cumulative),
        ],
    );

    let (cold, outcome) = ENGINE.open_cold(&image, BOOTED_WITH).unwrap();
    assert_eq!(outcome, COLD);
    has_row(&cold, &[(ATTESTATION, &booted()[ATTESTATION..])]);
}

#[test]
fn a_kept_boot_stores_nothing() {
    let (kept, outcome) = update(&booted(), false);
    assert_eq!((kept.kind, outcome), (Kind::Nothing, KEPT));
    assert_eq!((ENGINE.works.number(&kept), ENGINE.left(&kept)), (0, 0));
}

// The running digest.

static LONG: [u8; 65_536] = [6; 65_536];

/// A digest begun and fed letters, its counts then set from outside.
fn bent(letters: usize, total: u64, waiting: u64) -> Running {
    let mut running = Running::begun();
    assert_eq!(ENGINE.feed(&mut running, &vec![b'a'; letters]), 0);
    (running.total, running.waiting) = (total, waiting);
    running
}

/// A feed with that number, which leaves a refused digest as it stood.
fn gives(running: &Running, slice: &[u8], number: u32) {
    let mut after = running.clone();
    assert_eq!(ENGINE.feed(&mut after, slice), number);
    assert_eq!(after == *running, number != 0 || slice.is_empty());
}

/// Every feed and a finish get 27, the finish with zeros.
fn disagrees(running: &Running) {
    for slice in [&[][..], &[1], &LONG[..65_535], &LONG] {
        gives(running, slice, 27);
    }
    assert_eq!(ENGINE.finish(running), (27, [0; 48]));
}

#[test]
fn counts_that_disagree() {
    assert_eq!(ENGINE.finish(&bent(128, 128, 0)).0, 0);
    disagrees(&bent(128, 128, 128));
    disagrees(&bent(0, 0, 128));
    disagrees(&bent(130, 130, 1));
    disagrees(&bent(130, 130, 3));
    disagrees(&bent(130, 131, 2));
    disagrees(&bent(130, 130, 130));
    disagrees(&bent(130, 130, 2 + 64));
    disagrees(&bent(130, 130, (1 << 32) + 2));
    disagrees(&bent(130, 130, u64::MAX));
}

#[test]
fn totals_up_to_the_greatest_and_beyond() {
    let full = bent(255, u64::from(u32::MAX), 127);
    assert_eq!(ENGINE.finish(&full).0, 0);
    gives(&full, &[], 0);
    gives(&full, &[1], 16);
    gives(&full, &LONG[..65_535], 16);
    disagrees(&bent(256, 1 << 32, 0));
    disagrees(&bent(130, (1 << 32) + 2, 2));
    disagrees(&bent(255, u64::MAX, 127));
    // The last slice may be of any length that fits.
    let near = bent(128, (1 << 32) - 65_536, 0);
    gives(&near, &LONG[..65_535], 0);
    let nearer = bent(129, (1 << 32) - 65_535, 1);
    gives(&nearer, &LONG[..65_534], 0);
    gives(&nearer, &LONG[..65_535], 16);
}

#[test]
fn twenty_seven_before_ten_before_sixteen() {
    let full = u64::from(u32::MAX);
    // Each line has the faults of the one below it, and one more.
    gives(&bent(255, full, 126), &LONG, 27);
    gives(&bent(255, full, 127), &LONG, 10);
    gives(&bent(255, full, 127), &LONG[..65_535], 16);
    // Two of the three.
    gives(&bent(130, 130, 3), &LONG, 27);
    gives(&bent(255, full, 126), &[1], 27);
    gives(&bent(130, 130, 2), &LONG, 10);
    gives(&bent(130, 130, 2), &LONG[..65_535], 0);
}

/// What a script writes; the books have to agree.
fn played(script: &[u8]) -> Vec<u8> {
    let mut player = Player::new(ENGINE);
    player.run(script).expect("the books agree");
    player.output().to_vec()
}

fn hex(bytes: &[u8]) -> String {
    bytes.iter().map(|byte| format!("{byte:02x}")).collect()
}

/// Digests of a finish, as FIPS 180-4 and the machine's `sha384sum` give them.
const ABC: &str = "cb00753f45a35e8bb5a03d699ac65007272c32ab0eded163\
                   1a8b605a43ff5bed8086072ba1e7cc2358baeca134c825a7";
const EMPTY: &str = "38b060a751ac96384cd9327eb1b1e36a21fdb71114be0743\
                     4c0cc7bf63f6e1da274edebfe76f65fbd51ad2f14898b95b";
const AB: &str = "c7be03ba5bcaa384727076db0018e99248e1a6e8bd1b9ef5\
                  8a9ec9dd4eeebb3f48b836201221175befa74ddc3d35afdd";
const ABC_AND_A_ZERO: &str = "eba81f2dfba4ec60d3f786c89d91b08e6c0b63d559868743\
                              78e385e6fac587cce7a520ca9437290fe626cbf75c855e17";
const LETTERS_AND_ZEROS: &str = "7a3670fee0054a0b9e5b60f94c39e00a5b7a6956784bfc7a\
                                 57ee9e213c819c7a1a1da22a44669b9094163985ce5170de";

const FINE: &str = "00000000";

#[test]
fn the_operations_of_the_running_digest() {
    // One just begun at the start; finished twice; begun again.
    let script = b"ef\x02\0\0\0abeef\0\0\0\0f\x01\0\0\0cebe";
    let expected = [
        FINE, EMPTY, FINE, FINE, AB, FINE, AB, FINE, FINE, FINE, ABC, FINE, EMPTY,
    ];
    assert_eq!(hex(&played(script)), expected.concat());
}

#[test]
fn nothing_else_touches_the_running_digest() {
    let boot = BootBytes::from(BOOTED_WITH);
    let feed = |slice: &[u8]| Op::Feed(slice.to_vec());
    let mut player = Player::new(ENGINE);
    let others = [
        Op::Image(vec![7; IMAGE_WORDS]),
        Op::Cold(boot.clone()),
        Op::Store(5),
        Op::Cut,
        Op::Update(boot, 1),
        Op::Store(3),
        Op::Image(vec![]),
    ];
    player.operate(feed(b"ab")).unwrap();
    for other in others {
        let (running, image) = (player.running().clone(), player.image().to_vec());
        let work = player.work().cloned();
        for op in [feed(b""), Op::Finish] {
            player.operate(op).unwrap();
        }
        assert_eq!((player.image(), player.work()), (&image[..], work.as_ref()));
        player.operate(other).unwrap();
        assert_eq!(*player.running(), running);
    }
    for op in [feed(b"c"), Op::Finish] {
        player.operate(op).unwrap();
    }
    assert_eq!(hex(&player.output()[player.output().len() - 48..]), ABC);
}

/// What a finish writes after letters were fed and counts set.
fn finished(letters: &[u8], counts: &[(u8, u64)]) -> String {
    let mut script = vec![Op::Feed(letters.to_vec())];
    let sets = counts.iter().copied();
    script.extend(sets.map(|(field, value)| Op::SetCount { field, value }));
    script.push(Op::Finish);
    hex(&played(&encode(&script)))
}

#[test]
fn counts_that_are_set() {
    let abc = [FINE, FINE, ABC].concat();
    assert_eq!(finished(b"abc", &[(2, 9), (255, 9)]), abc);
    assert_eq!(finished(b"abc", &[(TOTAL, 3), (WAITING, 3)]), abc);
    let refused = [FINE, "1b000000", &"00".repeat(48)].concat();
    assert_eq!(finished(b"abc", &[(TOTAL, 4)]), refused);
    assert_eq!(finished(b"abc", &[(WAITING, 4)]), refused);
    assert_eq!(finished(b"abc", &[(TOTAL, (1 << 32) + 3)]), refused);
    // The bytes behind the waiting ones are zeros.
    assert_eq!(
        finished(b"abc", &[(TOTAL, 4), (WAITING, 4)]),
        [FINE, FINE, ABC_AND_A_ZERO].concat()
    );
    assert_eq!(
        finished(&[b'a'; 130], &[(WAITING, 7), (TOTAL, 135)]),
        [FINE, FINE, LETTERS_AND_ZEROS].concat()
    );
}
