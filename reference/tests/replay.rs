//! 02's journal: entries and the program `replay` on inputs worked out by hand,
//! and what its generated inputs hold and tell.

use reference::book::replay::wrong::{HOARDER, REPLAYERS};
use reference::book::replay::{bytes, replay, shown, Inspector, Replays};
use reference::book::Event;
use reference::boots::Boot;
use reference::checksum::sealed;
use reference::engine::Engine;
use reference::generate::{replay_inputs, Inspection, LongJournal, Unit};
use reference::journal::read::{Bytes, Reads};
use reference::layout::*;
use reference::mailbox::booted;
use reference::requests::{Extension, Request, Stash};
use reference::tree::{Act, TreeCall};
use reference::work::Work;
use std::collections::{BTreeMap, BTreeSet};

const ENGINE: Engine = Engine::PAPER;

fn output(replays: &dyn Replays, input: &[u8]) -> Vec<u8> {
    replays.run(&mut &input[..]).expect("a slice is read")
}

/// What the program writes for a journal and the image after the small program's
/// boot.
fn found(journal: &[u8]) -> Vec<u8> {
    found_with(&booted(), journal)
}

fn found_with(image: &[u32], journal: &[u8]) -> Vec<u8> {
    output(&Inspector, &[&bytes(image), journal].concat())
}

/// Number and offset, and nothing else.
fn refused(number: u32, offset: u64) -> Vec<u8> {
    [&number.to_le_bytes()[..], &offset.to_le_bytes()].concat()
}

/// No number, no offset, and that verdict.
fn verdict(verdict: u8) -> Vec<u8> {
    [&[0; 12][..], &[verdict]].concat()
}

/// The small program's cold boot, and an update on top of it.
fn cold() -> Vec<u8> {
    [&[1][..], &[0x11; 48], &[0x33; 48]].concat()
}

fn update() -> Vec<u8> {
    [&[2][..], &[0x44; 48], &[0x55; 48]].concat()
}

/// A stash of type 300 with svn 0 and caller 128, by hand.
fn stash() -> Vec<u8> {
    [&[4, 0xAC, 0x02][..], &[0x66; 48], &[0x00, 0x80, 0x01]].concat()
}

fn extension(register: u8) -> Vec<u8> {
    [&[5, register][..], &[0x77; 48]].concat()
}

#[test]
fn an_empty_journal_has_no_cold_boot() {
    assert_eq!(found(&[]), [0; 13]);
}

#[test]
fn an_image_that_is_cut_short_is_1() {
    let image = bytes(&booted());
    assert_eq!(image.len(), 6_080);
    for length in [0, 1, 6_079] {
        assert_eq!(output(&Inspector, &image[..length]), refused(1, 0));
    }
    assert_eq!(output(&Inspector, &image), verdict(0));
}

/// The registers of the boots are those of docs/TESTING.md, by `sha384sum`.
#[test]
fn registers_by_hand() {
    let ends = |output: &[u8], index: usize| {
        let at = 13 + 48 * (index - 2);
        let end = |at: usize| u32::from_be_bytes(std::array::from_fn(|i| output[at + i]));
        (end(at), end(at + 44))
    };
    let booted = found(&cold());
    assert_eq!(booted.len(), 13 + 1_440);
    assert_eq!(booted[..13], verdict(3));
    assert_eq!(ends(&booted, 2), (0x7c20_878a, 0x03c6_f486));
    assert_eq!(ends(&booted, 3), (0x7c20_878a, 0x03c6_f486));
    assert!(booted[13 + 96..].iter().all(|&byte| byte == 0));
    let updated = found(&[cold(), update()].concat());
    assert_eq!(updated[..13], verdict(2));
    assert_eq!(ends(&updated, 2), (0x04e1_7874, 0xb96a_8092));
    assert_eq!(ends(&updated, 3), (0x577b_7580, 0x907e_221a));
    let extended = found(&[cold(), extension(30), extension(30)].concat());
    let twice = extended_by(&ZERO, &[[0x77; 48]; 2]);
    assert_eq!(extended[13 + 48 * 28..][..48], twice);
    let stashed = found(&[cold(), stash(), stash()].concat());
    let twice = extended_by(&ZERO, &[[0x66; 48]; 2]);
    assert_eq!(stashed[13 + 48 * 29..], twice);
}

/// What could not have been counted, at the offset of its kind.
#[test]
fn orders_that_cannot_be() {
    for first in [update(), vec![3], stash(), extension(4)] {
        assert_eq!(found(&first), refused(24, 0));
        assert_eq!(found(&[first, cold()].concat()), refused(24, 0));
    }
    let off = [cold(), vec![3]].concat();
    for next in [update(), stash(), extension(4)] {
        assert_eq!(
            found(&[off.clone(), next.clone()].concat()),
            refused(24, 98)
        );
        let twice = [off.clone(), vec![3], next.clone()].concat();
        assert_eq!(found(&twice), refused(24, 99));
        let again = [off.clone(), cold(), next].concat();
        assert_eq!(found(&again)[..4], [0; 4]);
    }
    assert_eq!(found(&[off.clone(), vec![3, 3]].concat()), verdict(1));
    for register in [0, 1, 2, 3, 31, 32, 36] {
        let journal = [cold(), extension(register)].concat();
        assert_eq!(found(&journal), refused(24, 97));
    }
    for register in 4..=30 {
        let journal = [cold(), extension(register)].concat();
        assert_eq!(found(&journal)[..13], verdict(2));
    }
    let full = [cold(), stash().repeat(31)].concat();
    assert_eq!(found(&full)[..13], verdict(2));
    let one_more = [full.clone(), stash()].concat();
    assert_eq!(found(&one_more), refused(24, full.len() as u64));
    let anew = [full, cold(), stash()].concat();
    assert_eq!(found(&anew)[..13], verdict(2));
}

/// A handle of its own.
const A: [u8; 20] = [0xA1; 20];
const B: [u8; 20] = [0xB2; 20];

/// The root's children and what is done with them, of caller 0, by hand.
fn derive(handle: &[u8], retain: &[u8], fresh: &[u8]) -> Vec<u8> {
    let parts = [
        &[6][..],
        handle,
        retain,
        &[0xAC, 0x02],
        &[0x88; 48],
        fresh,
        &[0],
    ];
    parts.concat()
}

fn extend(handle: &[u8]) -> Vec<u8> {
    [&[7][..], handle, &[0x99; 48], &[0]].concat()
}

fn rotate(handle: &[u8], fresh: &[u8]) -> Vec<u8> {
    [&[8][..], handle, fresh, &[0]].concat()
}

fn destroy(handle: &[u8]) -> Vec<u8> {
    [&[9][..], handle, &[0]].concat()
}

/// What a unit would decline is 24, each ground by itself.
#[test]
fn tree_commands_that_cannot_be() {
    let (default, retired) = ([0; 20], [0xFF; 20]);
    let child = derive(&default, &[1], &A);
    let before = [cold(), child.clone()].concat();
    let after = |bytes: &[u8]| found(&[&before, bytes].concat());
    let at = before.len() as u64;
    for fine in [
        derive(&A, &[1], &B),
        derive(&A, &[0], &B),
        derive(&default, &[0], &B),
        extend(&A),
        rotate(&A, &B),
        rotate(&default, &B),
        destroy(&A),
        [destroy(&A), child.clone()].concat(),
        [derive(&A, &[0], &B), destroy(&B), child.clone()].concat(),
        [rotate(&default, &B), derive(&B, &[1], &[7; 20])].concat(),
    ] {
        assert_eq!(after(&fine)[..12], [0; 12], "{fine:02x?}");
    }
    for declined in [
        // 6
        derive(&B, &[1], &[7; 20]),
        extend(&retired),
        rotate(&B, &[7; 20]),
        destroy(&retired),
        // 8
        derive(&A, &[1], &default),
        derive(&A, &[1], &retired),
        derive(&A, &[1], &A),
        rotate(&A, &A),
        rotate(&A, &default),
        // 9 and 10
        extend(&default),
        destroy(&default),
        // Retain above 1.
        derive(&A, &[2], &B),
        derive(&A, &[0x80, 1], &B),
        derive(&A, &[0xFF, 0xFF, 0xFF, 0xFF, 0x0F], &B),
    ] {
        assert_eq!(after(&declined), refused(24, at), "{declined:02x?}");
        let cut = &declined[..declined.len() - 1];
        assert_eq!(after(cut), refused(22, at), "{declined:02x?}");
    }
    // 7
    for mut other in [
        derive(&A, &[1], &B),
        extend(&A),
        rotate(&A, &B),
        destroy(&A),
    ] {
        *other.last_mut().expect("a caller") = 1;
        assert_eq!(after(&other), refused(24, at));
    }
    assert_eq!(after(&derive(&A, &[0x80, 0], &B)), refused(21, at));
    assert_eq!(after(&derive(&A, &[0x81, 0], &B)), refused(21, at));
    // 2, and before a cold boot.
    let off = [before.clone(), vec![3]].concat();
    assert_eq!(found(&[off, extend(&A)].concat()), refused(24, at + 1));
    assert_eq!(found(&child), refused(24, 0));
    // 10: node A has a child.
    let deep = [before.clone(), derive(&A, &[1], &B)].concat();
    let journal = [&deep[..], &destroy(&A)].concat();
    assert_eq!(found(&journal), refused(24, deep.len() as u64));
    // 1
    let full = (1..=31).map(|number| derive(&default, &[1], &[number; 20]));
    let full = [cold(), full.collect::<Vec<_>>().concat()].concat();
    assert_eq!(found(&full)[..13], verdict(2));
    let more = [full.clone(), derive(&default, &[1], &A)].concat();
    assert_eq!(found(&more), refused(24, full.len() as u64));
    // 3: no holder of the default handle.
    let unheld = [before.clone(), rotate(&default, &B)].concat();
    let journal = [unheld.clone(), stash()].concat();
    assert_eq!(found(&journal), refused(24, unheld.len() as u64));
    let anew = [unheld, cold(), stash()].concat();
    assert_eq!(found(&anew)[..13], verdict(2));
}

/// 20, 21 and 22, decided by the first byte that no entry could have there.
#[test]
fn faults_of_form() {
    let after_boot = |bytes: &[u8]| found(&[&cold(), bytes].concat());
    for kind in [0, 10, 16, 0x81, 0x86, 0xFF] {
        assert_eq!(found(&[kind]), refused(20, 0));
        assert_eq!(after_boot(&[kind, 4, 4]), refused(20, 97));
    }
    for (bytes, number) in [
        (&[0x05][..], 22),
        (&[0x05, 0x80], 22),
        (&[0x05, 0x80, 0x00], 21),
        (&[0x05, 0x84, 0x00], 21),
        (&[0x05, 0xFF, 0xFF, 0xFF, 0xFF], 22),
        (&[0x05, 0xFF, 0xFF, 0xFF, 0xFF, 0x10], 21),
        (&[0x05, 0xFF, 0xFF, 0xFF, 0xFF, 0x80], 21),
        (&[0x05, 0xFF, 0xFF, 0xFF, 0xFF, 0x0F], 22),
        (&[0x04], 22),
        (&[0x04, 0x81, 0x80, 0x00], 21),
        (&[0x01], 22),
        (&[0x02, 7, 7], 22),
    ] {
        assert_eq!(after_boot(bytes), refused(number, 97), "{bytes:02x?}");
    }
    for (entry, from) in [
        (cold(), 0),
        (update(), 97),
        (stash(), 97),
        (extension(9), 97),
        (derive(&[0; 20], &[1], &A), 97),
        (extend(&A), 97),
        (rotate(&A, &B), 97),
        (destroy(&A), 97),
    ] {
        let before = &cold()[..from];
        for end in 1..entry.len() {
            let journal = [before, &entry[..end]].concat();
            assert_eq!(found(&journal), refused(22, from as u64), "{end} bytes");
        }
    }
}

/// Form is looked at first in an entry, and entries one after the other.
#[test]
fn form_and_order() {
    let register = [&cold(), &extension(3)[..]].concat();
    assert_eq!(found(&register), refused(24, 97));
    assert_eq!(found(&register[..register.len() - 1]), refused(22, 97));
    for later in [&[0][..], &[5, 0x80, 0], &[1]] {
        assert_eq!(found(&[&register, later].concat()), refused(24, 97));
    }
    assert_eq!(found(&[4, 0x80, 0]), refused(21, 0));
    assert_eq!(found(&update()[..50]), refused(22, 0));
}

/// What is compared, and what is not.
#[test]
fn every_word_from_pcr2_on_is_compared() {
    for word in 0..IMAGE_WORDS {
        let mut image = booted();
        image[word] ^= 1 << (word % 32);
        let expected = verdict(if word < 40 { 3 } else { 2 });
        let found = found_with(&image, &cold());
        assert_eq!(found[..13], expected, "word {word}");
        assert_eq!(found[13..], self::found(&cold())[13..]);
        let off = [cold(), vec![3]].concat();
        assert_eq!(found_with(&image, &off), verdict(1));
    }
}

/// A work's entry, its stores made.
fn entry(image: &mut [u32], mut work: Work) -> Vec<u8> {
    while ENGINE.store(&mut work, image) == 0 {}
    let mut buffer = [0; 128];
    let length = ENGINE.entry(&work, &mut buffer).expect("no store left");
    buffer[..length].to_vec()
}

fn request(image: &mut [u32], code: u32, body: &[u8], caller: u32) -> Vec<u8> {
    let bytes = sealed(code, body);
    let request = Request {
        caller,
        ..Request::plain(code, &bytes)
    };
    let work = ENGINE.open_request(image, request);
    entry(image, work.expect("a fine request"))
}

#[test]
fn entries_by_hand() {
    let mut image = booted();
    let body = [
        &[0x45, 0x23, 0x01, 0x00][..],
        &[0x66; 48],
        &[0x2C, 0x01, 0, 0],
    ]
    .concat();
    let expected = [
        &[0x04, 0xC5, 0xC6, 0x04][..],
        &[0x66; 48],
        &[0xAC, 0x02],
        &[0xEE, 0xFF, 0x83, 0x06],
    ];
    let found = request(&mut image, STASH, &body, 0x00C0_FFEE);
    assert_eq!(found, expected.concat());
    let body = [&[17, 0, 0, 0][..], &[0x77; 48]].concat();
    assert_eq!(request(&mut image, EXTEND, &body, 5), extension(17));
    let boot = Boot {
        runtime: [0x44; 48],
        manifest: [0x55; 48],
        secret: [0x22; 48],
    };
    let open = |image: &[u32], verdict: bool| {
        let opened = ENGINE.open_update(image, boot.inputs(), verdict);
        opened.expect("a fine boot").0
    };
    let work = open(&image, true);
    assert_eq!(entry(&mut image, work), update());
    let work = open(&image, false);
    assert_eq!(entry(&mut image, work), []);
    assert_eq!(request(&mut image, DISABLE, &[], 0), [3]);
    let work = open(&image, true);
    assert_eq!(entry(&mut image, work), [3]);
    assert_eq!(request(&mut image, STASH, &[0; 56], 0), []);
}

/// Reading gives the list back.
#[test]
fn what_is_written_is_read() {
    let number = |bit: u32| (1u64 << bit) as u32;
    for bit in 0..=32 {
        let tree = |act: Act| Event::Tree(TreeCall::new(A, act, &B, number(bit)));
        let events = [
            Event::Stash(Stash {
                kind: number(bit),
                digest: [bit as u8; 48],
                svn: number(bit).wrapping_sub(1),
                caller: !number(bit),
            }),
            Event::Extension(Extension {
                register: number(bit),
                digest: [0x80 | bit as u8; 48],
            }),
            Event::DisableCommand,
            tree(Act::Derive {
                retain: number(bit),
                kind: !number(bit),
                digest: [bit as u8; 48],
            }),
            tree(Act::Extend {
                digest: [!bit as u8; 48],
            }),
            tree(Act::Rotate),
            tree(Act::Destroy),
        ];
        let journal: Vec<u8> = events.iter().flat_map(Event::entry).collect();
        let mut bytes = Bytes::new(&journal[..]);
        for event in &events {
            let entry = Inspector.entry(&mut bytes).expect("an entry's form");
            let entry = entry.expect("one entry for each event");
            assert_eq!(Inspector.event(&entry), *event);
        }
        assert_eq!(Inspector.entry(&mut bytes), Ok(None));
    }
}

/// The journal that a unit writes fits the image that it leaves.
#[test]
fn honest_journals_are_alike_or_off() {
    let mut verdicts = BTreeMap::new();
    for Inspection {
        name,
        image,
        journal,
    } in replay_inputs()
    {
        if name == "honest" {
            let found = output(&Inspector, &[&image[..], &journal].concat());
            assert_eq!(found[..12], [0; 12]);
            *verdicts.entry(found[12]).or_insert(0) += 1;
        }
    }
    assert_eq!(verdicts.keys().collect::<Vec<_>>(), [&1, &3]);
    assert!(verdicts.values().all(|&count| count > 50), "{verdicts:?}");
}

#[test]
fn a_long_journal_is_alike() {
    let image = shown(&mut LongJournal::of(3_000)).expect("it is not refused");
    let input =
        || std::io::Read::chain(std::io::Cursor::new(bytes(&image)), LongJournal::of(3_000));
    let found = replay(&mut input()).expect("it is read");
    assert_eq!(found[..13], verdict(3));
}

#[test]
fn a_journals_image_is_the_units() {
    let mut unit = Unit::booted();
    unit.extend(&Extension {
        register: 4,
        digest: [1; 48],
    });
    let image = shown(&mut &unit.journal[..]).expect("it is not refused");
    assert_eq!(image[16..], unit.image[16..]);
}

#[test]
fn the_inputs_hold_every_number_and_verdict() {
    let mut found = BTreeMap::new();
    let mut names = BTreeSet::new();
    let inputs = replay_inputs();
    for inspection in &inputs {
        names.insert(inspection.name);
        let output = output(&Inspector, &inspection.input());
        let key = (little(&output), output.get(12).copied());
        *found.entry(key).or_insert(0) += 1;
    }
    // As docs/TESTING.md says.
    assert_eq!(inputs.len(), 19_452);
    let at_least = [
        ((0, Some(0)), 10),
        ((0, Some(1)), 500),
        ((0, Some(2)), 500),
        ((0, Some(3)), 200),
        ((1, None), 10),
        ((20, None), 500),
        ((21, None), 500),
        ((22, None), 500),
        ((24, None), 500),
    ];
    assert!(
        found.keys().eq(at_least.iter().map(|(key, _)| key)),
        "{found:?}"
    );
    for (key, least) in at_least {
        assert!(found[&key] >= least, "{key:?} {}", found[&key]);
    }
    assert_eq!(names.len(), 16, "{names:?}");
}

#[test]
fn the_inputs_tell_every_wrong_replayer() {
    let right = |inspection: &Inspection| {
        let input = inspection.input();
        let right = output(&Inspector, &input);
        (input, right)
    };
    let inputs: Vec<(Vec<u8>, Vec<u8>)> = replay_inputs().iter().map(right).collect();
    let tells = |replays: &dyn Replays| {
        let mut inputs = inputs.iter();
        inputs.any(|(input, right)| output(replays, input) != *right)
    };
    let untold = REPLAYERS.iter().filter(|wrong| !tells(wrong.replays));
    let untold: Vec<&str> = untold.map(|wrong| wrong.name).collect();
    assert_eq!(untold, [""; 0]);
    assert!(!tells(HOARDER.replays));
    let names: BTreeSet<&str> = REPLAYERS.iter().map(|wrong| wrong.name).collect();
    assert_eq!(names.len(), REPLAYERS.len());
}
