//! 02's register extension: what each rule and each store comes to.

use reference::checksum::sealed;
use reference::engine::{Engine, Paper};
use reference::generate::odd_image_2;
use reference::layout::*;
use reference::mailbox::{booted, mailbox, BOOTED_WITH};
use reference::memory::Memory;
use reference::player::Player;
use reference::requests::Request;
use reference::script::{BootBytes, Mail, Op};
use reference::sha384::digest;
use reference::work::{Kind, Work};

const ENGINE: Engine = Engine::PAPER;

/// The code and a request's bytes behind the checksum, typed from 02.
const CODE: u32 = 0x5043_5245;

fn body(register: u32, filling: u8) -> Vec<u8> {
    [&register.to_le_bytes()[..], &[filling; 48]].concat()
}

fn open(image: &[u32], bytes: &[u8]) -> Result<Work, u32> {
    ENGINE.open_request(image, Request::plain(CODE, bytes))
}

fn extend(image: &[u32], register: u32, filling: u8) -> Result<Work, u32> {
    open(image, &sealed(CODE, &body(register, filling)))
}

fn refused(image: &[u32], register: u32) -> u32 {
    extend(image, register, 7).expect_err("a refusal")
}

fn run(work: &mut Work, image: &mut [u32]) {
    while ENGINE.store(work, image) == 0 {}
}

/// A booted unit whose registers from PCR4 on have values of their own.
fn valued() -> Vec<u32> {
    let mut image = booted();
    for (word, value) in (register(4)..NODES_AT).zip(0x0A0B_0C01..) {
        image[word] = value;
    }
    image
}

/// 48 bytes as twelve words, the first byte lowest.
fn packed(bytes: &[u8]) -> Vec<u32> {
    let word = |four: &[u8]| u32::from_le_bytes([four[0], four[1], four[2], four[3]]);
    bytes.chunks_exact(4).map(word).collect()
}

fn unpacked(words: &[u32]) -> Vec<u8> {
    words.iter().flat_map(|word| word.to_le_bytes()).collect()
}

/// The words of a register.
fn pcr(image: &[u32], index: usize) -> &[u32] {
    &image[register(index)..][..DIGEST_WORDS]
}

/// The digest of a register's old 48 bytes and of 48 equal ones.
fn value(image: &[u32], register: usize, filling: u8) -> Vec<u32> {
    let old = unpacked(pcr(image, register));
    packed(&digest(&[&old[..], &[filling; 48]].concat()))
}

fn answer(work: &Work) -> (u32, Vec<u8>) {
    let mut buffer = vec![0xA5; 9];
    (ENGINE.answer(work, &mut buffer), buffer)
}

const ANSWERED: (u32, [u8; 9]) = (0, [0, 0, 0, 0, 0, 0, 0, 0, 0xA5]);
const WAITS: (u32, [u8; 9]) = (7, [0xA5; 9]);

fn answers(work: &Work, expected: (u32, [u8; 9])) {
    assert_eq!(answer(work), (expected.0, expected.1.to_vec()));
}

/// One store changes the word to the value and no other.
fn stores_one(work: &mut Work, image: &mut [u32], word: usize, value: u32) {
    let mut expected = image.to_vec();
    expected[word] = value;
    assert_eq!(ENGINE.store(work, image), 0);
    assert_eq!(image, expected);
}

#[test]
fn every_register_takes_fourteen_stores() {
    for named in 4..=30 {
        let mut image = valued();
        let twelve = value(&image, named, 0x77);
        let mut work = extend(&image, named as u32, 0x77).expect("a fine register");
        let kind = Kind::Extension {
            register: named as u64,
        };
        assert_eq!(work.kind, kind);
        assert_eq!(ENGINE.left(&work), EXTENSION_STORES as u32);
        answers(&work, WAITS);
        stores_one(&mut work, &mut image, MARK, 0);
        for (word, &value) in (register(named)..).zip(&twelve) {
            stores_one(&mut work, &mut image, word, value);
        }
        assert_eq!(ENGINE.left(&work), 1);
        answers(&work, WAITS);
        stores_one(&mut work, &mut image, MARK, 1);
        assert_eq!(ENGINE.store(&mut work, &mut image), 9);
        for _ in 0..2 {
            answers(&work, ANSWERED);
        }
        assert_eq!(ENGINE.answer(&work, &mut [0; 7]), 8);
    }
}

/// Zero extended by 48 bytes 0x77, then by 48 bytes 0x88, as GNU `sha384sum`
/// has them.
const ONCE: &str = "78c9387ac5f53c5077fec824e9180f5dc1a8df3fef4637a7\
                    b183f88273957fb042062b74328f9f36d5ed21fcffaab78c";
const TWICE: &str = "bfe941ec6eef768ab56b5107adbdc5d368baf06dc5d8f6fb\
                     cf7e5843f1e63e58d1845917d884d894588d526ba6e013bd";

fn hex(words: &[u32]) -> String {
    let bytes = unpacked(words);
    bytes.iter().map(|byte| format!("{byte:02x}")).collect()
}

#[test]
fn two_extensions_by_hand() {
    let mut image = booted();
    for (filling, expected) in [(0x77, ONCE), (0x88, TWICE)] {
        let mut work = extend(&image, 30, filling).expect("a fine register");
        run(&mut work, &mut image);
        assert_eq!(hex(pcr(&image, 30)), expected);
    }
    // All else is as the cold boot left it.
    image[register(30)..][..DIGEST_WORDS].fill(0);
    assert_eq!(image, booted());
}

/// Registers outside 4 to 30; the whole number counts.
const OUTSIDE: [u32; 11] = [
    0,
    3,
    31,
    32,
    36,
    0x104,
    0x11E,
    0x1_0004,
    0x0400_0000,
    0x8000_0004,
    u32::MAX,
];

#[test]
fn twelve_before_thirteen() {
    let mut image = valued();
    for register in OUTSIDE {
        assert_eq!(refused(&image, register), 12);
    }
    for off in [0, 2, u32::MAX] {
        image[ATTESTATION] = off;
        assert!(OUTSIDE
            .iter()
            .all(|&outside| refused(&image, outside) == 12));
        assert!((4..=30).all(|register| refused(&image, register) == 13));
    }
}

#[test]
fn the_other_numbers_come_first() {
    let mut image = valued();
    image[ATTESTATION] = 0;
    // With a register outside, on a unit that is off.
    for length in [0, 3, 4, 8, 55, 57, 60, 100] {
        let mut bytes = sealed(CODE, &[0xFF; 96][..length.max(4) - 4]);
        bytes.truncate(length);
        assert_eq!(open(&image, &bytes).unwrap_err(), 4);
    }
    let mut bytes = sealed(CODE, &body(3, 7));
    bytes[55] ^= 1;
    assert_eq!(open(&image, &bytes).unwrap_err(), 0x4243_484B);
    image[MARK] = 0;
    assert_eq!(open(&image, &[]).unwrap_err(), 2);
    image.pop();
    assert_eq!(open(&image, &[]).unwrap_err(), 1);
}

#[test]
fn the_tree_does_not_count() {
    let mut malformed = valued();
    malformed[node(1)] = 1 << 16 | 1;
    assert!(!Paper.well_formed(&malformed));
    let full = odd_image_2();
    assert_eq!(Paper.free_node(&full), None);
    for mut image in [malformed, full] {
        let twelve = value(&image, 4, 5);
        let mut work = extend(&image, 4, 5).expect("a fine register");
        run(&mut work, &mut image);
        assert_eq!(pcr(&image, 4), twelve);
        image[ATTESTATION] = 0;
        assert_eq!(refused(&image, 4), 13);
    }
}

/// The words of the register that so many stores have made.
fn stored(made: usize) -> usize {
    made.saturating_sub(1).min(DIGEST_WORDS)
}

/// The update boot after a cut: its outcome, and the image that it leaves.
fn booted_after(image: &mut [u32]) -> u8 {
    let (mut work, outcome) = ENGINE
        .open_update(image, BOOTED_WITH, true)
        .expect("a fine update boot");
    run(&mut work, image);
    outcome
}

#[test]
fn a_torn_extension_disables() {
    for made in 0..=EXTENSION_STORES {
        let mut image = valued();
        let (old, new) = (pcr(&image, 4).to_vec(), value(&image, 4, 5));
        let mut work = extend(&image, 4, 5).expect("a fine register");
        for _ in 0..made {
            assert_eq!(ENGINE.store(&mut work, &mut image), 0);
        }
        let torn = (1..EXTENSION_STORES).contains(&made);
        let outcome = booted_after(&mut image);
        assert_eq!(outcome, if torn { DISABLED } else { UPDATED });
        assert_eq!(image[ATTESTATION] == 1, !torn);
        assert_eq!(image[SECRET..REGISTERS_AT] == [0; DIGEST_WORDS], torn);
        let stored = stored(made);
        let expected = [&new[..stored], &old[stored..]].concat();
        assert_eq!(pcr(&image, 4), expected);
        assert_eq!(refused(&image, 3), 12);
        assert_eq!(extend(&image, 4, 5).is_err(), torn);
    }
}

#[test]
fn an_update_keeps_the_registers_and_a_cold_boot_does_not() {
    let mut image = valued();
    let extendable = register(4)..register(31);
    let before = image[extendable.clone()].to_vec();
    assert_eq!(booted_after(&mut image), UPDATED);
    assert_eq!(image[extendable], before);
    let (mut work, _) = ENGINE.open_cold(&image, BOOTED_WITH).expect("a cold boot");
    run(&mut work, &mut image);
    assert_eq!(image, booted());
}

/// A driver that has the second extension of PCR17 in hand, stored so far.
fn driven(made: usize) -> Player {
    let mut player = Player::new(ENGINE);
    let extension = |filling: u8| {
        Op::Request(Mail {
            code: CODE,
            caller: 3,
            verdict: 0,
            table: vec![],
            bytes: sealed(CODE, &body(17, filling)),
            fresh: Vec::new(),
        })
    };
    let boot = BootBytes::from(BOOTED_WITH);
    for (opening, stores) in [
        (Op::Cold(boot), COLD_STORES),
        (extension(0x77), EXTENSION_STORES),
        (extension(0x88), made),
    ] {
        for op in [opening, Op::Store(stores as u32)] {
            player.operate(op).expect("the book agrees");
        }
    }
    player
}

fn set(player: &mut Player, field: u8, value: u64) {
    let set = player.operate(Op::Set { field, value });
    set.expect("no book looks at a work that is set");
}

fn in_hand(player: &Player) -> Work {
    player.work().expect("a work in hand").clone()
}

fn left(player: &Player) -> usize {
    ENGINE.left(&in_hand(player)) as usize
}

#[test]
fn a_register_set_within_takes_the_prepared_value() {
    let prepared = value(driven(0).image(), 17, 0x88);
    for made in 0..=EXTENSION_STORES {
        for to in [4, 16, 18, 30] {
            let mut player = driven(made);
            let before = player.image().to_vec();
            set(&mut player, 1, to as u64);
            assert_eq!(left(&player), EXTENSION_STORES - made);
            let rest = Op::Store(EXTENSION_STORES as u32);
            player.operate(rest).expect("no book");
            let mut expected = before;
            expected[MARK] = 1;
            let stored = stored(made);
            expected[register(to)..][..DIGEST_WORDS][stored..].copy_from_slice(&prepared[stored..]);
            assert_eq!(player.image(), expected);
            answers(&in_hand(&player), ANSWERED);
        }
    }
}

#[test]
fn a_register_set_outside_is_beyond() {
    let outside = [0, 3, 31, 32, 36, (1 << 32) + 4, (1 << 63) + 4, u64::MAX];
    for made in 0..=EXTENSION_STORES {
        for to in outside {
            let mut player = driven(made);
            set(&mut player, 1, to);
            let mut work = in_hand(&player);
            assert_eq!(ENGINE.left(&work), 0);
            answers(&work, WAITS);
            let mut image = player.image().to_vec();
            assert_eq!(ENGINE.store(&mut work, &mut image), 9);
            assert_eq!((&image[..], &work), (player.image(), &in_hand(&player)));
            // Set back, it is as good as before.
            set(&mut player, 1, 17);
            assert_eq!(left(&player), EXTENSION_STORES - made);
        }
    }
}

#[test]
fn an_extension_has_no_second_index() {
    for value in [0, 5, NODES as u64, u64::MAX] {
        let mut player = driven(3);
        let before = in_hand(&player);
        set(&mut player, 2, value);
        assert_eq!(in_hand(&player), before);
    }
}

#[test]
fn the_book_follows_an_extension() {
    let mut player = driven(EXTENSION_STORES);
    let update = Op::Update(BOOTED_WITH.into(), 1);
    for op in [update, Op::Store(UPDATE_STORES as u32)] {
        player.operate(op).expect("the book agrees");
    }
    assert_eq!(player.seen.looks, 1);
    assert_eq!(hex(pcr(player.image(), 17)), TWICE);
}

#[test]
fn the_small_program() {
    let input = |register: u32| {
        let request = sealed(CODE, &body(register, 0x77));
        [&b"ERCP"[..], &request].concat()
    };
    for register in [4, 17, 30] {
        assert_eq!(mailbox(&input(register)), [0; 12]);
    }
    for register in OUTSIDE {
        assert_eq!(mailbox(&input(register)), [12, 0, 0, 0]);
    }
    let mut bent = input(3);
    bent[4] ^= 1;
    assert_eq!(mailbox(&bent), *b"KHCB");
    assert_eq!(mailbox(&input(3)[..59]), [4, 0, 0, 0]);
}
