//! 02's journal entry through the driver's operation `J`, byte by byte.

use reference::checksum::sealed;
use reference::engine::Engine;
use reference::layout::*;
use reference::mailbox::BOOTED_WITH;
use reference::player::Player;
use reference::script::{encode, Mail, Op};
use reference::show;
use reference::wrong;

/// What the last operation of a list writes.
fn last(ops: &[Op]) -> Vec<u8> {
    let played = |ops: &[Op]| {
        let mut player = Player::new(Engine::PAPER);
        player.run(&encode(ops)).expect("the book agrees");
        player.output().to_vec()
    };
    let before = played(&ops[..ops.len() - 1]).len();
    played(ops).split_off(before)
}

/// Number, length and buffer.
fn written(number: u32, length: u32, buffer: &[u8]) -> Vec<u8> {
    [&number.to_le_bytes()[..], &length.to_le_bytes(), buffer].concat()
}

fn request(code: u32, body: &[u8]) -> Op {
    Op::Request(Mail {
        code,
        caller: 300,
        verdict: 1,
        table: vec![],
        bytes: sealed(code, body),
        fresh: Vec::new(),
    })
}

fn stash() -> Op {
    request(
        STASH,
        &[&[1, 0, 0, 0][..], &[9; 48], &[0, 1, 0, 0]].concat(),
    )
}

fn extend(register: u8) -> Op {
    request(EXTEND, &[&[register, 0, 0, 0][..], &[8; 48]].concat())
}

fn all() -> Op {
    Op::Store(COLD_STORES as u32)
}

fn set(field: u8, value: u64) -> Op {
    Op::Set { field, value }
}

fn booted(ops: &[Op]) -> Vec<Op> {
    [&[Op::Cold(BOOTED_WITH.into()), all()], ops].concat()
}

#[test]
fn none_in_hand() {
    assert_eq!(last(&[Op::Entry(0)]), written(u32::MAX, 0, &[]));
    let untouched = written(u32::MAX, 0, &[0xA5; 3]);
    assert_eq!(last(&[Op::Entry(3)]), untouched);
    assert_eq!(last(&booted(&[Op::Cut, Op::Entry(3)])), untouched);
    let lent = Op::Image(vec![0; IMAGE_WORDS]);
    assert_eq!(last(&booted(&[lent, Op::Entry(3)])), untouched);
}

#[test]
fn a_cold_boot() {
    let entry = [&[1][..], &[0x11; 48], &[0x33; 48]].concat();
    assert_eq!(last(&booted(&[Op::Entry(97)])), written(0, 97, &entry));
    let longer = [&entry[..], &[0xA5; 3]].concat();
    assert_eq!(last(&booted(&[Op::Entry(100)])), written(0, 97, &longer));
    let short = written(23, 0, &[0xA5; 96]);
    assert_eq!(last(&booted(&[Op::Entry(96)])), short);
    let half = [Op::Cold(BOOTED_WITH.into()), Op::Store(1_520)];
    for size in [0, 96, 97] {
        let ops = [&half[..], &[Op::Entry(size)]].concat();
        let left = written(7, 0, &vec![0xA5; usize::from(size)]);
        assert_eq!(last(&ops), left);
    }
}

/// Type 1, svn 256 and caller 300.
#[test]
fn a_stash_as_often_as_wished() {
    let entry = [&[4, 1][..], &[9; 48], &[0x80, 0x02, 0xAC, 0x02]].concat();
    let mut ops = booted(&[stash(), all()]);
    for _ in 0..3 {
        ops.extend([Op::Answer(12), Op::Entry(53), Op::Entry(54)]);
        assert_eq!(last(&ops), written(0, 54, &entry));
    }
    ops.extend([Op::Store(1), extend(3), Op::Entry(54)]);
    assert_eq!(last(&ops), written(0, 54, &entry));
}

#[test]
fn an_extensions_register_as_it_stands() {
    let entry = |register: u8| written(0, 50, &[&[5, register][..], &[8; 48]].concat());
    let ops = booted(&[extend(4), all()]);
    let then = |more: &[Op]| last(&[&ops[..], more, &[Op::Entry(50)]].concat());
    assert_eq!(then(&[]), entry(4));
    assert_eq!(then(&[set(1, 30)]), entry(30));
    assert_eq!(then(&[set(1, 30), set(1, 4), set(2, 99)]), entry(4));
    let malformed = written(7, 0, &[0xA5; 50]);
    for register in [0, 3, 31, 36, (1 << 32) + 4] {
        assert_eq!(then(&[set(1, register)]), malformed);
    }
    assert_eq!(then(&[set(3, 105)]), malformed);
    assert_eq!(then(&[set(3, 104)]), entry(4));
    assert_eq!(then(&[set(0, 13)]), malformed);
    assert_eq!(then(&[set(0, 15)]), malformed);
}

#[test]
fn a_disabling_by_either() {
    let disabled = booted(&[request(DISABLE, &[]), all()]);
    let by_boot = [Op::Update(BOOTED_WITH.into(), 0), all()];
    for before in [disabled.clone(), [&disabled[..], &by_boot].concat()] {
        let size = |size: u16| last(&[&before[..], &[Op::Entry(size)]].concat());
        assert_eq!(size(0), written(23, 0, &[]));
        assert_eq!(size(1), written(0, 1, &[3]));
    }
}

#[test]
fn nothing_to_store() {
    let kept = Op::Update(BOOTED_WITH.into(), 0);
    let verified = request(VERIFY, &[0; 192]);
    let off = [request(DISABLE, &[]), all(), stash()];
    for open in [&[kept][..], &[verified], &off] {
        for size in [0, 2] {
            let ops = booted(&[open, &[Op::Entry(size)]].concat());
            let none = written(0, 0, &vec![0xA5; usize::from(size)]);
            assert_eq!(last(&ops), none);
        }
    }
}

/// No part of a secret is in any entry.
#[test]
fn no_secret_is_told() {
    let entry = last(&booted(&[
        Op::Update(BOOTED_WITH.into(), 1),
        all(),
        Op::Entry(97),
    ]));
    assert_eq!(entry.len(), 8 + 97);
    assert!(!entry.contains(&0x22));
}

#[test]
fn an_entry_is_shown() {
    let ops = booted(&[request(DISABLE, &[]), all(), Op::Entry(2)]);
    let input = encode(&ops);
    let played = |engine: Engine| reference::player::play_unwatched(engine, &input);
    let right = played(Engine::PAPER);
    let shown = show::comparison(&input, &right, &right);
    assert!(
        shown.contains("J 2\n       number 0, entry of 1 bytes, buffer 03a5"),
        "{shown}"
    );
    let wrong = wrong::named("EntryKindFromZero").expect("a wrong engine");
    let shown = show::comparison(&input, &right, &played(wrong.engine));
    assert!(
        shown.contains("!! engine:    number 0, entry of 1 bytes, buffer 02a5"),
        "{shown}"
    );
}

#[test]
fn the_book_tells_a_wrong_entry() {
    let names = ["EntryCallerIsSvn", "EntryBeforeMark", "EntryBufferIs8"];
    let ops = booted(&[
        stash(),
        Op::Store(53),
        Op::Entry(54),
        all(),
        Op::Entry(53),
        Op::Entry(54),
    ]);
    for name in names {
        let wrong = wrong::named(name).expect("a wrong engine");
        let why = Player::new(wrong.engine).run(&encode(&ops)).unwrap_err();
        assert!(why.contains("and the book says"), "{name}: {why}");
    }
}
