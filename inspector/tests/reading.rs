//! What is read for display: registers and nodes after a journal, refusals, and pieces.

mod common;

use common::{number, some_tree, some_unit, Unit};
use inspector::image::Image;
use inspector::survey::Survey;

fn image(unit: &Unit) -> Image {
    Image::from_bytes(&unit.image_bytes()).expect("an image")
}

/// Reads a journal in pieces of that length, and hands what was found on.
fn surveyed<T>(image: &Image, journal: &[u8], piece: usize, look: impl Fn(&Survey) -> T) -> T {
    let mut survey = Survey::new(image, 200);
    for piece in journal.chunks(piece) {
        survey.feed(piece);
    }
    survey.finish();
    look(&survey)
}

/// The refusal of a journal: number, offset, order, the bytes that decide, and why.
fn refusal(journal: &[u8]) -> (u32, u64, u64, Vec<u8>, String) {
    surveyed(&Image::zero(), journal, usize::MAX, |survey| {
        let refusal = survey.refusal().expect("a refusal");
        let marked = refusal.bytes[refusal.marked.clone()].to_vec();
        (
            refusal.number,
            refusal.offset,
            refusal.order,
            marked,
            refusal.why.clone(),
        )
    })
}

#[test]
fn an_image_is_read_and_written_back() {
    let bytes: Vec<u8> = (0..6080u32).map(|i| (i * 7 % 251) as u8).collect();
    let image = Image::from_bytes(&bytes).expect("an image");
    assert_eq!(image.to_bytes(), bytes);
    assert_eq!(image.register(2), bytes[160..208]);
    assert_eq!(image.node(1).current(), bytes[1772..1820]);
    assert!(Image::from_bytes(&bytes[1..]).is_none());
    assert!(Image::from_bytes(&[&bytes[..], &[0]].concat()).is_none());
}

/// Every kind of entry, one after the other: after each the registers and nodes are the unit's.
#[test]
fn every_kind_of_entry() {
    let steps: [fn(Unit) -> Unit; 16] = [
        |unit| unit.stash(b"HOUR", 0x66, 3, 1),
        |unit| unit.extension(4, 0x77),
        |unit| unit.extension(30, 0x88),
        |unit| unit.extension(4, 0x99),
        |unit| unit.update(0x44, 0x55),
        |unit| unit.stash(b"RTJM", 0xAA, u32::MAX, 300),
        |unit| unit.update(0x44, 0x55),
        |unit| unit.derive((2, 1), 3, (b"KEPT", 0x21, 0xA1)),
        |unit| unit.derive((3, 0), 4, (b"RTJM", 0x22, 0xA2)),
        |unit| unit.extend(2, 0x23),
        |unit| unit.extend(2, 0x23),
        |unit| unit.rotate(4, 0xA3),
        |unit| unit.update(0x44, 0x55),
        |unit| unit.destroy(&[4, 3]),
        |unit| unit.rotate(2, 0xA1),
        |unit| unit.cold_boot(0x44, 0x55),
    ];
    replays(&steps);
}

/// After a cold boot and each of these steps the replayed registers and nodes are the unit's.
#[track_caller]
fn replays(steps: &[fn(Unit) -> Unit]) {
    let mut unit = Unit::new().cold_boot(0x11, 0x33);
    for (order, step) in (2..).zip(steps) {
        unit = step(unit);
        let image = image(&unit);
        surveyed(&image, &unit.journal, 7, |survey| {
            assert!(survey.refusal().is_none(), "{:?}", survey.refusal());
            assert!(survey.replayed().image().alike(&image), "entry {order}");
            assert!(survey.replayed().is_on());
            assert_eq!(survey.count(), order);
            assert_eq!(survey.matched(), Some(order));
        });
    }
}

/// What a destroy frees: retired ancestors, as far as nothing else hangs on them, never the root. Freed nodes
/// serve again, the lowest first.
#[test]
fn freed_nodes() {
    let steps: [fn(Unit) -> Unit; 14] = [
        // A chain of retired nodes, to the root, which is retired and stays.
        |unit| unit.derive((0, 0), 1, (b"NODE", 1, 0xA1)),
        |unit| unit.derive((1, 0), 2, (b"NODE", 2, 0xA2)),
        |unit| unit.derive((2, 1), 3, (b"NODE", 3, 0xA3)),
        |unit| unit.derive((2, 0), 4, (b"NODE", 4, 0xA4)),
        // The other child holds 2; after it all go.
        |unit| unit.destroy(&[3]),
        |unit| unit.derive((4, 1), 3, (b"NODE", 5, 0xA3)),
        // 4 is live, and stays.
        |unit| unit.destroy(&[3]),
        |unit| unit.destroy(&[4, 2, 1]),
        // Nothing is live any more; the unit goes on.
        |unit| unit.update(7, 8),
        |unit| unit.extension(5, 9),
        |unit| unit.cold_boot(1, 2),
        |unit| unit.derive((0, 1), 1, (b"NODE", 1, 0xA1)),
        |unit| unit.derive((1, 0), 2, (b"NODE", 2, 0xA2)),
        |unit| unit.stash_at(0, 3, (b"NODE", 3, 4, 5)),
    ];
    replays(&steps);
}

/// Which nodes an entry was about.
#[test]
fn places() {
    let unit = some_tree();
    surveyed(&image(&unit), &unit.journal, 64, |survey| {
        let places: Vec<_> = survey
            .first()
            .iter()
            .map(|shown| {
                let places = &shown.places;
                (places.named, places.taken, places.freed.clone())
            })
            .collect();
        let none: Vec<usize> = Vec::new();
        let expected = [
            (None, None, none.clone()),
            (Some(0), Some(1), none.clone()),
            (Some(0), Some(2), none.clone()),
            (Some(1), Some(3), none.clone()),
            (Some(2), Some(4), none.clone()),
            (Some(3), None, none.clone()),
            (Some(1), None, none.clone()),
            (Some(4), None, vec![4, 2]),
            (Some(0), Some(2), none.clone()),
            (Some(0), Some(4), none),
        ];
        assert_eq!(places, expected);
    });
}

#[test]
fn a_chain_of_all_nodes_and_one_more() {
    let mut unit = Unit::new().cold_boot(1, 2);
    for i in 1..32 {
        unit = unit.stash(b"NODE", i, u32::from(i), 7);
    }
    let image = image(&unit);
    surveyed(&image, &unit.journal, 1000, |survey| {
        assert!(survey.replayed().image().alike(&image));
        assert_eq!(survey.first()[31].places.taken, Some(31));
    });
    let end = unit.journal.len();
    let one_more = [&unit.journal[..], &unit.journal[97..153]].concat();
    let (number, offset, order, marked, why) = refusal(&one_more);
    assert_eq!((number, offset, order), (24, end as u64, 33));
    assert_eq!(marked, [4]);
    assert_eq!(why, "all 32 nodes are in use: none is free for it");
}

/// One word of the image changed: alike no more, if the word is compared.
#[test]
fn every_word_that_is_compared() {
    let unit = some_unit();
    for at in 0..1520 {
        let mut changed = unit.clone();
        changed.image[at] ^= 0x0100_0000;
        let image = image(&changed);
        surveyed(&image, &unit.journal, usize::MAX, |survey| {
            assert_eq!(
                survey.replayed().image().alike(&image),
                at < 40,
                "word {at}"
            );
            assert_eq!(survey.matched().is_some(), at < 40, "word {at}");
        });
    }
}

#[test]
fn an_image_from_earlier_is_found() {
    let earlier = some_unit();
    let later = earlier.clone().extension(5, 1).stash(b"LATE", 2, 2, 2);
    surveyed(&image(&earlier), &later.journal, 50, |survey| {
        assert_eq!(survey.matched(), Some(5));
        assert_eq!(survey.count(), 7);
    });
    surveyed(&image(&later), &earlier.journal, 50, |survey| {
        assert_eq!(survey.matched(), None);
    });
}

/// A disabling changes no register and no node: what counts is the entry before it.
#[test]
fn an_image_from_before_a_disabling() {
    let earlier = some_unit();
    let later = earlier.clone().disabling().cold_boot(1, 2);
    surveyed(&image(&earlier), &later.journal, 50, |survey| {
        assert_eq!(survey.matched(), Some(5));
    });
}

// ---- refusals

#[test]
fn kinds_that_are_not_listed() {
    let unit = Unit::new().cold_boot(1, 2);
    for kind in (0..=255).filter(|kind| !(1..=9).contains(kind)) {
        let journal = [&unit.journal[..], &[kind, 1, 2, 3]].concat();
        let (number, offset, order, marked, why) = refusal(&journal);
        assert_eq!((number, offset, order), (20, 97, 2));
        assert_eq!(marked, [kind]);
        assert!(why.starts_with(&format!("{kind:02x} is no kind of entry")));
    }
}

#[test]
fn numbers_that_are_none() {
    let unit = Unit::new().cold_boot(1, 2);
    let stash = |kind: &[u8], svn: &[u8], caller: &[u8]| {
        [&unit.journal[..], &[4], kind, &[9; 48], svn, caller].concat()
    };
    let longer = "is not in the shortest form: a number's last group may not be zero";
    let (told, offset, _, marked, why) = refusal(&stash(&[0x80, 0], &[1], &[1]));
    assert_eq!((told, offset, marked), (21, 97, vec![0]));
    assert_eq!(why, format!("its type {longer}"));
    let (told, _, _, marked, why) = refusal(&stash(&[1], &[0xFF, 0xFF, 0xFF, 0xFF, 0x10], &[1]));
    assert_eq!((told, marked), (21, vec![0x10]));
    assert_eq!(why, "its svn has more than 32 bits");
    let (told, _, _, marked, why) = refusal(&stash(&[1], &[1], &[0x81, 0x80, 0]));
    assert_eq!((told, marked), (21, vec![0]));
    assert_eq!(why, format!("its caller {longer}"));
}

/// Cut anywhere, a journal is refused with 22 at its last entry, or whole.
#[test]
fn every_cut() {
    check_cuts(&some_unit(), &[0, 97, 153, 213, 263, 360]);
    let ends = [0, 97, 193, 289, 385, 481, 551, 593, 615, 711, 768];
    check_cuts(&some_tree(), &ends);
}

fn check_cuts(unit: &Unit, ends: &[usize]) {
    assert_eq!(ends.last(), Some(&unit.journal.len()));
    for end in 0..unit.journal.len() {
        surveyed(&Image::zero(), &unit.journal[..end], 64, |survey| {
            assert_eq!(survey.bytes(), end as u64);
            let Some(refusal) = survey.refusal() else {
                assert!(ends.contains(&end), "{end}");
                return;
            };
            let begun = ends
                .iter()
                .rfind(|&&begun| begun <= end)
                .expect("0 is there");
            assert_eq!((refusal.number, refusal.offset), (22, *begun as u64));
            assert_eq!(refusal.bytes, unit.journal[*begun..end]);
            assert_eq!(refusal.marked, refusal.bytes.len()..refusal.bytes.len());
        });
    }
}

#[test]
fn what_the_unit_could_not_have_counted() {
    let booted = Unit::new().cold_boot(1, 2).journal;
    let update = [&[2][..], &[7; 96]].concat();
    let stash = [&[4, 1][..], &[7; 48], &[1, 1]].concat();
    let extension = |register: u32| [&[5][..], &number(register), &[7; 48]].concat();
    for entry in [&update, &stash, &extension(4), &extension(3), &vec![3]] {
        let (number, offset, order, marked, why) = refusal(entry);
        assert_eq!((number, offset, order), (24, 0, 1));
        assert_eq!(marked, entry[..1]);
        assert_eq!(why, "nothing is counted before the first cold boot");
    }
    for entry in [&update, &stash, &extension(4)] {
        let (number, offset, order, marked, why) = refusal(&[&booted[..], &[3, 3], entry].concat());
        assert_eq!((number, offset, order), (24, 99, 4));
        assert_eq!(marked, entry[..1]);
        assert!(
            why.ends_with("no cold boot since; the last disabling is entry 3"),
            "{why}"
        );
    }
    for register in [0, 3, 31, 32, 0x104, u32::MAX] {
        let entry = extension(register);
        let (told, offset, _, marked, why) = refusal(&[&booted[..], &entry].concat());
        assert_eq!((told, offset), (24, 97));
        assert_eq!(marked, number(register));
        assert!(why.starts_with(&format!("register {register} is none of")));
    }
}

/// Each ground on which a tree command is declined, in the order in which they are looked for: what decides is
/// marked, and why is told.
#[test]
fn tree_commands_that_are_declined() {
    let unit = some_tree();
    let (caller, other) = (&number(0)[..], &number(300)[..]);
    let derive = |handle: u8, retain: u32, fresh: u8, caller: &[u8]| {
        let (handle, fresh) = ([handle; 20], [fresh; 20]);
        [
            &[6][..],
            &handle,
            &number(retain),
            &[7],
            &[9; 48],
            &fresh,
            caller,
        ]
        .concat()
    };
    let extend = |handle: u8, caller: &[u8]| [&[7][..], &[handle; 20], &[9; 48], caller].concat();
    let rotate = |handle: u8, fresh: u8, caller: &[u8]| {
        [&[8][..], &[handle; 20], &[fresh; 20], caller].concat()
    };
    let destroy = |handle: u8, caller: &[u8]| [&[9][..], &[handle; 20], caller].concat();
    let retired = "a retired handle names no node";
    let unknown = "no node has the handle cccccccc..cccc";
    let foreign = "node 3 has locality 0: caller 300 may not use it";
    let in_use = "its fresh handle is in use: node 1 has it";
    let no_default = "its fresh handle is the default one, which no node is given";
    let no_retired = "its fresh handle is the retired one, which no node is given";
    let cases: [(Vec<u8>, &[u8], &str); 24] = [
        (
            derive(0xFF, 2, 0, other),
            &[2],
            "its retain is 2 and not 0 or 1",
        ),
        (
            derive(0xA3, 128, 0xC1, caller),
            &[128, 1],
            "its retain is 128 and not 0 or 1",
        ),
        (derive(0xFF, 1, 0, other), &[0xFF; 20], retired),
        (derive(0xCC, 1, 0, other), &[0xCC; 20], unknown),
        (derive(0xA3, 0, 0, other), other, foreign),
        (derive(0xA3, 0, 0, caller), &[0; 20], no_default),
        (derive(0xA3, 0, 0xFF, caller), &[0xFF; 20], no_retired),
        (derive(0xA3, 0, 0xB1, caller), &[0xB1; 20], in_use),
        (extend(0xFF, other), &[0xFF; 20], retired),
        (extend(0xCC, other), &[0xCC; 20], unknown),
        // A handle that was rotated away, and one whose node was destroyed.
        (
            extend(0xA1, caller),
            &[0xA1; 20],
            "no node has the handle a1a1a1a1..a1a1",
        ),
        (
            extend(0xA4, caller),
            &[0xA4; 20],
            "no node has the handle a4a4a4a4..a4a4",
        ),
        (extend(0xA3, other), other, foreign),
        (rotate(0xFF, 0, other), &[0xFF; 20], retired),
        (rotate(0xCC, 0, other), &[0xCC; 20], unknown),
        (rotate(0xA3, 0, other), other, foreign),
        (rotate(0xA3, 0, caller), &[0; 20], no_default),
        (rotate(0xA3, 0xFF, caller), &[0xFF; 20], no_retired),
        (rotate(0xA3, 0xB1, caller), &[0xB1; 20], in_use),
        // Its own handle is in use too.
        (rotate(0xB1, 0xB1, caller), &[0xB1; 20], in_use),
        (destroy(0xFF, other), &[0xFF; 20], retired),
        (destroy(0xCC, other), &[0xCC; 20], unknown),
        (destroy(0xA3, other), other, foreign),
        (
            destroy(0xB1, caller),
            &[0xB1; 20],
            "node 1 has children: node 3",
        ),
    ];
    for (entry, deciding, why) in cases {
        let told = refusal(&[&unit.journal[..], &entry].concat());
        let expected = (24, 768, 11, deciding.to_vec(), why.into());
        assert_eq!(told, expected, "{entry:02x?}");
    }
    let while_off = [&unit.journal[..], &[3], &derive(0xFF, 2, 0, other)].concat();
    let (number, offset, order, marked, why) = refusal(&while_off);
    assert_eq!((number, offset, order, marked), (24, 769, 12, vec![6]));
    assert!(why.starts_with("attestation is off"), "{why}");
}

#[test]
fn the_root_stays() {
    let unit = Unit::new().cold_boot(1, 2);
    let why = "node 0 is the root, which can be neither extended by a command nor destroyed";
    // Also if it has children.
    for unit in [unit.clone(), unit.derive((0, 1), 1, (b"NODE", 1, 1))] {
        let extend = [&[7][..], &[0; 20], &[9; 48], &[0]].concat();
        let destroy = [&[9][..], &[0; 20], &[0]].concat();
        for entry in [extend, destroy] {
            let (number, _, _, marked, told) = refusal(&[&unit.journal[..], &entry].concat());
            assert_eq!((number, marked, told.as_str()), (24, vec![0; 20], why));
        }
    }
}

#[test]
fn no_default_handle() {
    let unit = Unit::new().cold_boot(1, 2).rotate(0, 0xA1);
    let stash = [&[4, 1][..], &[7; 48], &[1, 1]].concat();
    let (number, _, _, marked, why) = refusal(&[&unit.journal[..], &stash].concat());
    assert_eq!((number, marked), (24, vec![4]));
    assert_eq!(
        why,
        "no node has the default handle, so there is none to hang on"
    );
    let rotate = [&[8][..], &[0; 20], &[0xA2; 20], &[0]].concat();
    let (number, _, _, marked, why) = refusal(&[&unit.journal[..], &rotate].concat());
    assert_eq!((number, marked), (24, vec![0; 20]));
    assert_eq!(why, "no node has the default handle");
}

/// A derive with all nodes in use; the fresh handle is looked at before.
#[test]
fn no_free_node_to_derive() {
    let mut unit = Unit::new().cold_boot(1, 2);
    for place in 1..32 {
        unit = unit.derive((0, 1), place, (b"NODE", 1, place as u8));
    }
    let derive = |fresh: u8| {
        let entry = [&[6][..], &[5; 20], &[1, 7], &[9; 48], &[fresh; 20], &[0]].concat();
        refusal(&[&unit.journal[..], &entry].concat())
    };
    let (number, _, order, marked, why) = derive(32);
    assert_eq!((number, order, marked), (24, 33, vec![6]));
    assert_eq!(why, "all 32 nodes are in use: none is free for it");
    let (_, _, _, marked, why) = derive(31);
    assert_eq!(marked, [31; 20]);
    assert_eq!(why, "its fresh handle is in use: node 31 has it");
}

/// Form comes first, entry by entry: an impossible entry is told before a malformed one behind it.
#[test]
fn the_first_refusal_is_told() {
    let booted = Unit::new().cold_boot(1, 2).journal;
    let cut = [&booted[..], &[5, 3], &[7; 47]].concat();
    assert_eq!(refusal(&cut).0, 22, "register 3 with a cut digest");
    let derive = |retain: &[u8], behind: &[u8]| {
        refusal(&[&booted[..], &[6], &[0xFF; 20], retain, &[7], behind].concat()).0
    };
    assert_eq!(derive(&[2], &[9; 68]), 22, "retain 2 with no caller");
    assert_eq!(derive(&[2], &[9; 69]), 24, "retain 2");
    assert_eq!(
        derive(&[0x81, 0], &[9; 69]),
        21,
        "a retain in a longer form"
    );
    let then_unknown = [&booted[..], &[5, 3], &[7; 48], &[99]].concat();
    assert_eq!(refusal(&then_unknown).0, 24);
    let disabled = [&booted[..], &[3], &booted].concat();
    surveyed(&Image::zero(), &disabled, 10, |survey| {
        assert!(survey.refusal().is_none());
        assert!(survey.replayed().is_on(), "a cold boot switches on again");
        assert_eq!(survey.last_cold_boot(), Some(3));
    });
}

// ---- pieces and bounds

/// In whatever pieces a journal comes, the same is found.
#[test]
fn pieces() {
    let unit = some_unit().disabling().cold_boot(5, 6);
    let broken = [&unit.journal[..], &[4, 0x80, 0], &[1; 40]].concat();
    let whole = check_pieces(&broken);
    let shown = broken[458..469].to_vec();
    assert_eq!(
        whole, shown,
        "the entry to the byte that decides, and 8 behind"
    );
    let unit = some_tree();
    let broken = [&unit.journal[..], &[8], &[0xCC; 20], &[1; 40]].concat();
    assert_eq!(
        check_pieces(&broken),
        broken[768..818],
        "the entry, and 8 behind"
    );
}

/// The bytes shown of the refused entry, which are the same in whatever pieces the journal comes.
fn check_pieces(broken: &[u8]) -> Vec<u8> {
    let found = |piece: usize| {
        surveyed(&Image::zero(), broken, piece, |survey| {
            let refusal = survey.refusal().expect("a refusal");
            let entries: Vec<_> = survey
                .first()
                .iter()
                .map(|shown| (shown.order, shown.offset, shown.entry, shown.places.clone()))
                .collect();
            let registers = survey.replayed().image().to_bytes();
            (
                entries,
                (refusal.number, refusal.offset, refusal.bytes.clone()),
                survey.bytes(),
                registers,
            )
        })
    };
    let whole = found(usize::MAX);
    for piece in 1..=broken.len() {
        assert_eq!(found(piece), whole, "pieces of {piece}");
    }
    whole.1 .2
}

#[test]
fn first_and_last_entries() {
    let image = Image::zero();
    let mut journal = Unit::new().cold_boot(1, 2).journal;
    journal.extend([3; 1000]);
    for most in [1, 10, 500, 501, 1001] {
        let mut survey = Survey::new(&image, most);
        survey.feed(&journal);
        survey.finish();
        let orders: Vec<u64> = survey
            .first()
            .iter()
            .chain(survey.last())
            .map(|shown| shown.order)
            .collect();
        let shown = (2 * most).min(1001) as u64;
        assert_eq!(orders.len() as u64 + survey.left_out(), 1001);
        assert_eq!(orders.len() as u64, shown, "{most}");
        assert_eq!(orders[0], 1);
        assert_eq!(*orders.last().expect("one"), 1001);
        assert!(orders.windows(2).all(|pair| pair[0] < pair[1]));
        assert_eq!(
            survey.last().last().map_or(1096, |shown| shown.offset),
            1096
        );
    }
}
