//! Journals with faults of every sort, and images that do not fit.

use super::entries::BORDERS;
use super::journals::{any_extension, any_stash, any_unit, boot, Inspection, LongJournal, Unit};
use crate::book::replay::{bytes, Inspector, COMPARED_FROM, IMAGE_BYTES};
use crate::book::Event;
use crate::journal::read::{Bytes, Reads};
use crate::journal::{
    groups, DERIVE_ENTRY, DESTROY_ENTRY, EXTENSION_ENTRY, GROUP_BITS, MORE, NUMBER_BYTES,
    STASH_ENTRY,
};
use crate::layout::*;
use crate::random::Random;
use crate::requests::{Extension, Stash};
use crate::sha384::DIGEST_BYTES;
use crate::tree::{Act, TreeCall, DEFAULT, RETIRED};
use std::io::Read;
use std::rc::Rc;

pub(super) fn dishonest() -> Vec<Inspection> {
    [
        lists(),
        torn(),
        edited(),
        cut(),
        damaged(),
        numbers(),
        strings(),
        kinds(),
        of_others(),
        words(),
        wild_images(),
        orders(),
        calls(),
        short_images(),
        long(),
    ]
    .into_iter()
    .flatten()
    .collect()
}

/// Inputs of one name with the same image.
struct On {
    name: &'static str,
    image: Rc<[u8]>,
}

impl On {
    fn unit(name: &'static str, unit: &Unit) -> On {
        On {
            name,
            image: unit.saved(),
        }
    }

    fn journal(&self, journal: Vec<u8>) -> Inspection {
        Inspection {
            name: self.name,
            image: self.image.clone(),
            journal,
        }
    }
}

fn stash(number: u32) -> Stash {
    Stash {
        kind: number,
        digest: std::array::from_fn(|i| 0x40 + i as u8),
        svn: number >> 3,
        caller: number.rotate_right(5),
    }
}

fn extension(register: u32) -> Extension {
    Extension {
        register,
        digest: std::array::from_fn(|i| 0xC0 ^ i as u8),
    }
}

/// The caller of the last stash of a busy unit, and the handle of its last node.
const BUSY_CALLER: u32 = 300u32.rotate_right(5);
const BUSY_HANDLE: Handle = [3; HANDLE_BYTES];

fn derive(retain: u32) -> Act {
    Act::Derive {
        retain,
        kind: 300,
        digest: std::array::from_fn(|i| 0x80 ^ i as u8),
    }
}

/// A tree command of that caller.
fn call(of: Handle, act: Act, fresh: u8, caller: u32) -> TreeCall {
    TreeCall::new(of, act, &[fresh; HANDLE_BYTES], caller)
}

/// A unit with boots, stashes and an extension in its journal; the numbers have
/// one, two and five bytes.
fn stashes() -> Unit {
    let mut unit = Unit::booted();
    unit.stash(&stash(0xF234_5678));
    unit.extend(&extension(17));
    unit.update(&boot(2), true);
    unit.stash(&stash(300));
    unit
}

/// The same with every kind of tree command.
fn busy() -> Unit {
    let mut unit = stashes();
    let handle = |first: u8| [first; HANDLE_BYTES];
    let digest = [0x6D; DIGEST_BYTES];
    for (of, act, fresh) in [
        (DEFAULT, derive(1), 1),
        (handle(1), derive(0), 2),
        (handle(2), Act::Extend { digest }, 0),
        (handle(2), derive(1), 4),
        (handle(2), Act::Rotate, 3),
        (handle(4), Act::Destroy, 0),
    ] {
        unit.call(&call(of, act, fresh, BUSY_CALLER));
    }
    unit
}

/// The same, and then off.
fn busy_and_off() -> Unit {
    let mut unit = busy();
    unit.disable();
    unit
}

/// A unit with so many nodes in use.
fn with_nodes(count: usize) -> Unit {
    let mut unit = Unit::booted();
    for number in 1..count {
        unit.stash(&stash(number as u32));
    }
    unit
}

/// What can have happened before an entry.
fn units() -> Vec<Unit> {
    let mut units = vec![Unit::blank(), Unit::booted(), busy(), busy_and_off()];
    let then = |unit: &Unit, act: &dyn Fn(&mut Unit)| {
        let mut unit = unit.clone();
        act(&mut unit);
        unit
    };
    let off = busy_and_off();
    units.push(then(&off, &|unit| unit.disable()));
    units.push(then(&off, &|unit| unit.update(&boot(3), true)));
    units.push(then(&off, &|unit| unit.cold(&boot(4))));
    units.push(then(&off, &|unit| {
        unit.cold(&boot(5));
        unit.disable();
    }));
    units.push(then(&busy(), &|unit| unit.cold(&boot(6))));
    units.extend([NODES - 9, NODES - 8, NODES - 1].map(with_nodes));
    let full = with_nodes(NODES);
    units.extend(grown());
    units.push(then(&full, &|unit| unit.update(&boot(7), true)));
    units.push(then(&full, &|unit| unit.extend(&extension(30))));
    units.push(then(&full, &|unit| unit.cold(&boot(8))));
    units.push(full);
    units
}

/// A unit full of derived nodes, one without a holder of the default handle, and
/// one without a live handle.
fn grown() -> [Unit; 3] {
    let mut full = Unit::booted();
    for number in 1..NODES as u8 {
        full.call(&call(DEFAULT, derive(1), number, 0));
    }
    let mut unheld = Unit::booted();
    unheld.call(&call(DEFAULT, derive(0), 1, 0));
    let mut dead = unheld.clone();
    dead.call(&call([1; HANDLE_BYTES], Act::Destroy, 0, 0));
    [full, unheld, dead]
}

/// Every one of them with its own image.
fn lists() -> Vec<Inspection> {
    let mut inputs = Vec::new();
    for unit in units() {
        inputs.push(On::unit("list", &unit).journal(unit.journal));
    }
    inputs
}

/// A unit whose last work was cut after every number of stores.
fn torn() -> Vec<Inspection> {
    let after = |stores: usize| {
        let mut unit = busy();
        unit.tear(stores);
        On::unit("torn", &unit).journal(unit.journal)
    };
    (0..=STASH_STORES).map(after).collect()
}

/// The entries of a journal.
fn entries(journal: &[u8]) -> Vec<&[u8]> {
    let mut bytes = Bytes::new(journal);
    let mut entries = Vec::new();
    let mut from = 0;
    while let Ok(Some(_)) = Inspector.entry(&mut bytes) {
        let to = bytes.taken as usize;
        entries.push(&journal[from..to]);
        from = to;
    }
    entries
}

/// Journals of which one entry was taken out, comes twice, or comes after the
/// next.
fn edited() -> Vec<Inspection> {
    let mut inputs = Vec::new();
    for unit in (0..24).map(any_unit) {
        let on = On::unit("edited", &unit);
        let right = entries(&unit.journal);
        for at in 0..right.len() {
            let (before, behind) = right.split_at(at);
            inputs.push(on.journal([before, &behind[1..]].concat().concat()));
            inputs.push(on.journal([before, &behind[..1], behind].concat().concat()));
            let mut other = right.clone();
            other[at..(at + 2).min(right.len())].reverse();
            inputs.push(on.journal(other.concat()));
        }
    }
    inputs
}

/// A journal that ends after every number of bytes.
fn cut() -> Vec<Inspection> {
    let ends = |unit: Unit| {
        let on = On::unit("cut", &unit);
        let all = 0..=unit.journal.len();
        all.map(move |end| on.journal(unit.journal[..end].to_vec()))
    };
    [busy(), busy_and_off()]
        .into_iter()
        .flat_map(ends)
        .collect()
}

/// A journal with every byte changed, to a few values each; fewer in the entries of
/// tree commands.
fn damaged() -> Vec<Inspection> {
    let unit = busy_and_off();
    let on = On::unit("damaged", &busy());
    let calls = stashes().journal.len()..busy().journal.len();
    let mut inputs = Vec::new();
    for at in 0..unit.journal.len() {
        let right = unit.journal[at];
        let wrong = [right ^ 1, right ^ 0x80, 0xFF, 0, right.wrapping_add(1)];
        let few = if calls.contains(&at) { 2 } else { wrong.len() };
        for &wrong in &wrong[..few] {
            let mut journal = unit.journal.clone();
            journal[at] = wrong;
            inputs.push(on.journal(journal));
        }
        let mut shorter = unit.journal.clone();
        shorter.remove(at);
        inputs.push(on.journal(shorter));
        let mut longer = unit.journal.clone();
        longer.insert(at, 0x05);
        inputs.push(on.journal(longer));
    }
    inputs
}

/// So many groups of a number, the last with these bits besides.
fn in_groups(number: u32, count: u32, bits: u8) -> Vec<u8> {
    let group = |place: u32| (u64::from(number) >> (GROUP_BITS * place)) as u8 & !MORE;
    let mut all: Vec<u8> = (0..count).map(|place| group(place) | MORE).collect();
    if let Some(last) = all.last_mut() {
        *last = *last & !MORE | bits;
    }
    all
}

/// A number in its shortest form and in every other.
pub(super) fn forms(number: u32) -> Vec<Vec<u8>> {
    let shortest = groups(number).len() as u32;
    let mut forms = vec![groups(number), in_groups(number, shortest, MORE)];
    forms.extend((shortest..=NUMBER_BYTES + 2).map(|count| in_groups(number, count, 0)));
    for bits in [0x10, 0x20, 0x40, 0x70, MORE, MORE | 0x10] {
        forms.push(in_groups(number, NUMBER_BYTES, bits));
    }
    forms
}

/// An entry with these bytes for one of its numbers: a stash's type, svn or
/// caller, an extension's register, a derive's retain, type or caller, or a
/// destroy's caller. Then the place behind those bytes.
fn with_number(place: usize, number: &[u8]) -> (Vec<u8>, usize) {
    let digest = [0x5A; DIGEST_BYTES];
    let (fresh, caller) = ([9; HANDLE_BYTES], groups(BUSY_CALLER));
    let (before, behind): (&[&[u8]], &[&[u8]]) = match place {
        0 => (&[&[STASH_ENTRY]], &[&digest, &[7, 8]]),
        1 => (&[&[STASH_ENTRY, 6], &digest], &[&[8]]),
        2 => (&[&[STASH_ENTRY, 6], &digest, &[7]], &[]),
        3 => (&[&[EXTENSION_ENTRY]], &[&digest]),
        4 => (
            &[&[DERIVE_ENTRY], &BUSY_HANDLE],
            &[&[5], &digest, &fresh, &caller],
        ),
        5 => (
            &[&[DERIVE_ENTRY], &BUSY_HANDLE, &[1]],
            &[&digest, &fresh, &caller],
        ),
        6 => (
            &[&[DERIVE_ENTRY], &BUSY_HANDLE, &[1, 5], &digest, &fresh],
            &[],
        ),
        _ => (&[&[DESTROY_ENTRY], &BUSY_HANDLE], &[]),
    };
    let start = [&before.concat(), number].concat();
    let entry = [&start[..], &behind.concat()].concat();
    (entry, start.len())
}

/// Numbers at every border in every form, at every place: in an entry that is
/// whole with another behind it, and cut around the number's end.
fn numbers() -> Vec<Inspection> {
    // Only a tree command needs a unit with its node.
    let units = [stashes(), busy()].map(|unit| (On::unit("number", &unit), unit));
    let mut inputs = Vec::new();
    let others = [1, 3, 4, 30, 31, 300];
    let of_call = [0, 1, 2, 127, 128, BUSY_CALLER, u32::MAX];
    let places = |number: u32| {
        if of_call.contains(&number) {
            0..8
        } else {
            0..4
        }
    };
    for number in BORDERS.into_iter().chain(others).chain([2, BUSY_CALLER]) {
        for form in forms(number) {
            for place in places(number) {
                let (on, unit) = &units[usize::from(place >= 4)];
                let (entry, behind) = with_number(place, &form);
                let journal = [&unit.journal[..], &entry, &[3]].concat();
                let behind = unit.journal.len() + behind;
                inputs.push(on.journal(journal[..behind - 1].to_vec()));
                inputs.push(on.journal(journal[..behind].to_vec()));
                inputs.push(on.journal(journal));
            }
        }
    }
    inputs
}

/// Short strings of bytes, all of them, and some long ones in a number's place,
/// with and without the entry's rest.
fn strings() -> Vec<Inspection> {
    let unit = Unit::booted();
    let on = On::unit("string", &unit);
    let bytes = [0x00, 0x01, 0x04, 0x1E, 0x7F, 0x80, 0x84, 0xFF];
    let mut strings: Vec<Vec<u8>> = Vec::new();
    for one in bytes {
        strings.push(vec![one]);
        for two in bytes {
            strings.push(vec![one, two]);
            strings.extend(bytes.map(|three| vec![one, two, three]));
        }
    }
    let mut random = Random::from_seed(9);
    let ends = [0x00, 0x01, 0x0F, 0x10, 0x1F, 0x7F, 0x80, 0x81, 0xFF];
    for _ in 0..200 {
        let length = random.between(4, 6);
        let mut string: Vec<u8> = (0..length).map(|_| random.pick(&ends) | MORE).collect();
        string[length - 1] = random.pick(&ends);
        strings.push(string);
    }
    let in_place = |string: Vec<u8>| {
        let start = [&unit.journal[..], &[EXTENSION_ENTRY], &string].concat();
        let whole = [&start[..], &[9; DIGEST_BYTES]].concat();
        [on.journal(start), on.journal(whole)]
    };
    strings.into_iter().flat_map(in_place).collect()
}

/// Every kind at the start and after a cold boot, with bytes behind it that would
/// be an entry's.
fn kinds() -> Vec<Inspection> {
    let unit = Unit::booted();
    let on = On::unit("kind", &unit);
    let kind = |kind: u8| {
        let rest = [4; 2 * DIGEST_BYTES];
        [
            on.journal(vec![kind]),
            on.journal([&unit.journal[..], &[kind]].concat()),
            on.journal([&unit.journal[..], &[kind], &rest].concat()),
        ]
    };
    (0..=255).flat_map(kind).collect()
}

/// Journals with the images of other units.
fn of_others() -> Vec<Inspection> {
    let units = units();
    let with = |unit: &Unit, of: &Unit| On::unit("of another", unit).journal(of.journal.clone());
    let pairs = units
        .iter()
        .flat_map(|unit| units.iter().map(move |of| (unit, of)));
    pairs.map(|(unit, of)| with(unit, of)).collect()
}

/// An image with one word changed: every word, by a bit that goes round; every
/// seventh with a journal that ends in a disabling; and zero before PCR2.
fn words() -> Vec<Inspection> {
    let (on, off) = (busy(), busy_and_off());
    let with = |unit: &Unit, word: usize, bits: u32| {
        let mut image = unit.image.clone();
        image[word] ^= bits;
        Inspection {
            name: "word",
            image: bytes(&image).into(),
            journal: unit.journal.clone(),
        }
    };
    let all = (0..IMAGE_WORDS).map(|word| with(&on, word, 1 << (word % 32)));
    let when_off = (0..IMAGE_WORDS).step_by(7);
    let when_off = when_off.map(|word| with(&off, word, u32::MAX));
    let lower = (0..COMPARED_FROM).map(|word| with(&on, word, on.image[word]));
    all.chain(when_off).chain(lower).collect()
}

/// Images of zeros, of ones, of any words, and with the words' bytes turned round.
fn wild_images() -> Vec<Inspection> {
    let unit = busy();
    let turned = unit.image.iter().map(|word| word.swap_bytes()).collect();
    let images = [
        vec![0; IMAGE_WORDS],
        vec![u32::MAX; IMAGE_WORDS],
        Random::from_seed(3).words(IMAGE_WORDS),
        turned,
    ];
    let mut inputs = Vec::new();
    for image in images {
        let image: Rc<[u8]> = bytes(&image).into();
        for of in units() {
            let on = On {
                name: "wild image",
                image: image.clone(),
            };
            inputs.push(on.journal(of.journal));
        }
    }
    inputs
}

/// Entries that may or may not come there.
fn tried() -> Vec<Vec<u8>> {
    let registers = [
        4,
        30,
        0,
        1,
        2,
        3,
        31,
        32,
        36,
        127,
        128,
        0x104,
        0x11E,
        0x8000_0004,
        u32::MAX,
    ];
    let mut events = vec![
        Event::Cold(boot(9)),
        Event::Update(boot(10)),
        Event::DisableCommand,
        Event::Stash(stash(0x1234)),
        Event::Tree(call(DEFAULT, derive(1), 9, 0)),
        Event::Tree(call(BUSY_HANDLE, Act::Destroy, 0, BUSY_CALLER)),
    ];
    events.extend(registers.map(|register| Event::Extension(extension(register))));
    events.iter().map(Event::entry).collect()
}

/// Every entry after every history, alone, with more behind it that is fine or
/// faulty, and itself cut.
fn orders() -> Vec<Inspection> {
    let behind: [&[u8]; 6] = [&[], &[3], &[0], &[STASH_ENTRY], &[5, 0x80, 0], &[1, 7]];
    let mut inputs = Vec::new();
    for unit in units() {
        let on = On::unit("order", &unit);
        for entry in tried() {
            for behind in behind {
                inputs.push(on.journal([&unit.journal[..], &entry, behind].concat()));
            }
            let cut = &entry[..entry.len() - 1];
            inputs.push(on.journal([&unit.journal[..], cut].concat()));
        }
        for faulty in [
            &[STASH_ENTRY, 0x80, 0][..],
            &[EXTENSION_ENTRY, 0x83, 0],
            &[EXTENSION_ENTRY, 0xFF, 0xFF, 0xFF, 0xFF, 0x10],
        ] {
            inputs.push(on.journal([&unit.journal[..], faulty].concat()));
        }
    }
    inputs
}

/// Every tree command at nodes of every sort, of their caller and of another, with
/// fresh handles of every sort.
fn calls() -> Vec<Inspection> {
    let mut inputs = Vec::new();
    let of = [
        DEFAULT,
        [1; HANDLE_BYTES],
        BUSY_HANDLE,
        RETIRED,
        [0x77; HANDLE_BYTES],
    ];
    let digest = [0x3C; DIGEST_BYTES];
    let extend = Act::Extend { digest };
    for unit in grown().into_iter().chain([busy(), Unit::booted()]) {
        let on = On::unit("call", &unit);
        for of in of {
            for caller in [0, BUSY_CALLER] {
                let mut tried = vec![call(of, extend, 0, caller)];
                tried.push(call(of, Act::Destroy, 0, caller));
                for act in [derive(1), derive(0), derive(2), Act::Rotate] {
                    tried.extend([0x99, 0, 0xFF, 1, 3].map(|fresh| call(of, act, fresh, caller)));
                }
                let entries = tried.into_iter().map(|call| Event::Tree(call).entry());
                inputs
                    .extend(entries.map(|entry| on.journal([&unit.journal[..], &entry].concat())));
            }
        }
    }
    inputs
}

/// Images that are cut short, and the first that is not.
fn short_images() -> Vec<Inspection> {
    let image = bytes(&busy().image);
    let former = 4 * (NODES_AT + 24 * NODE_WORDS);
    let lengths = [
        0,
        1,
        2,
        3,
        4,
        63,
        64,
        1_600,
        former - 1,
        former,
        former + 1,
        former + 97,
    ];
    let near = IMAGE_BYTES - 6..=IMAGE_BYTES;
    let cut = |length: usize| Inspection {
        name: "short image",
        image: image[..length].into(),
        journal: Vec::new(),
    };
    lengths.into_iter().chain(near).map(cut).collect()
}

/// Journals of more than 65,535 bytes and of more than 1,048,576, alone and with
/// an entry at their end that is refused.
fn long() -> Vec<Inspection> {
    let mut random = Random::from_seed(4);
    let mut inputs = Vec::new();
    let on = On::unit("long", &busy());
    for (entries, ends) in [(1_500, 7), (24_000, 2)] {
        let mut journal = Vec::new();
        let read = LongJournal::of(entries).read_to_end(&mut journal);
        read.expect("it is made as it is read");
        let all = [
            vec![EXTENSION_ENTRY, 31],
            vec![],
            Event::Stash(any_stash(&mut random)).entry(),
            Event::Extension(any_extension(&mut random)).entry(),
            vec![3, 3, 3, 2],
            vec![0x80],
            vec![STASH_ENTRY, 0xFF, 0xFF, 0xFF, 0xFF, 0x7F],
        ];
        let with = |end: Vec<u8>| on.journal([&journal[..], &end].concat());
        inputs.extend(all.into_iter().take(ends).map(with));
    }
    inputs
}
