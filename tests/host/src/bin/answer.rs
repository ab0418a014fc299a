//! Writes docs/ANSWER.md's table: what a power cut after each store of each
//! kind of work leaves, by running the engine.
//!
//! For each kind of work and each number of stores the engine is cold booted,
//! one measurement is stashed, the work is opened and stored that far, the power
//! is cut, and an update boot is opened and run to its end.

use host::driver::{Replies, Script};
use reference::boots::Inputs;
use reference::layout::{extended_by, words_of, ZERO};
use waggleloft::{NODES_AT, NODE_SVN, NODE_WORDS};

const STASH: u32 = 0x4D45_4153;
const DISABLE: u32 = 0x4453_424C;
const EXTEND: u32 = 0x5043_5245;

/// A number that is more than the stores of any work.
const ALL: u32 = 10_000;

/// PCR4, the register that is extended, and its first word.
const REGISTER: u32 = 4;
const REGISTER_AT: usize = 64;

/// The inputs of the unit's boots, of the update, and of the cold boot over both.
const BOOTED_WITH: Inputs = Inputs {
    runtime: &[0x11; 48],
    manifest: &[0x33; 48],
    secret: &[0x22; 48],
};
const UPDATED_WITH: Inputs = Inputs {
    runtime: &[0x55; 48],
    manifest: &[0x99; 48],
    secret: &[0x66; 48],
};
const BOOTED_ANEW_WITH: Inputs = Inputs {
    runtime: &[0x77; 48],
    manifest: &[0xAA; 48],
    secret: &[0x88; 48],
};

struct Kind {
    name: &'static str,
    /// What is done before the work is opened.
    before: fn(Script) -> Script,
    /// How many replies of which kind that gives.
    skip: fn(&mut Replies),
    /// Opens the work.
    open: fn(Script) -> Script,
    /// Reads the reply to the opening: the number of stores.
    left: fn(&mut Replies) -> u32,
    /// Whether the image shows the work, against the image without it.
    shown: fn(&Left, &Left) -> bool,
    /// What is said of it where it counted, and where it did not.
    counted: &'static str,
    lost: &'static str,
}

/// A measurement whose svn is that byte.
fn stash_arguments(byte: u8) -> Vec<u8> {
    let mut arguments = vec![0; 4];
    arguments.extend([byte; 48]);
    arguments.extend(u32::from(byte).to_le_bytes());
    arguments
}

fn extension_arguments(byte: u8) -> Vec<u8> {
    let mut arguments = REGISTER.to_le_bytes().to_vec();
    arguments.extend([byte; 48]);
    arguments
}

/// The register after both extensions.
fn extended_twice() -> [u32; 12] {
    words_of(&extended_by(&ZERO, &[[0x33; 48], [0x44; 48]]))
}

fn kinds() -> Vec<Kind> {
    vec![
        Kind {
            name: "a new measurement (stash)",
            before: |s| s,
            skip: |_| (),
            open: |s| s.request(STASH, &stash_arguments(0x44)),
            left: |r| r.request(),
            shown: |with, _| with.svns == [0, 0x33, 0x44],
            counted: "the new measurement is in the list",
            lost: "the new measurement is not in the list; all earlier ones are",
        },
        Kind {
            name: "an extension of a register",
            before: |s| s.request(EXTEND, &extension_arguments(0x33)).stores(ALL),
            skip: |r| {
                r.request();
                r.stores();
            },
            open: |s| s.request(EXTEND, &extension_arguments(0x44)),
            left: |r| r.request(),
            shown: |with, _| with.register == extended_twice(),
            counted: "the new digest is in its register",
            lost: "the new digest is not in its register; all earlier ones are",
        },
        Kind {
            name: "a disable command",
            before: |s| s,
            skip: |_| (),
            open: |s| s.request(DISABLE, &[]),
            left: |r| r.request(),
            shown: |with, without| without.on && !with.on && with.secret_zero,
            counted: "attestation was switched off, as commanded",
            lost: "nothing has changed",
        },
        Kind {
            name: "an update of the runtime",
            before: |s| s,
            skip: |_| (),
            open: |s| s.update_boot(UPDATED_WITH, true),
            left: |r| r.boot().1,
            shown: |with, without| with.root != without.root,
            counted: "the new runtime is in the list",
            lost: "the old runtime stays in the list; the update may be made again",
        },
        Kind {
            name: "a boot that switches attestation off",
            before: |s| s.request(DISABLE, &[]).stores(ALL),
            skip: |r| {
                r.request();
                r.stores();
            },
            open: |s| s.update_boot(UPDATED_WITH, true),
            left: |r| r.boot().1,
            shown: |with, _| !with.on && with.secret_zero,
            counted: "attestation was off and stays off",
            lost: "attestation was off and stays off",
        },
        Kind {
            name: "a cold boot",
            before: |s| s,
            skip: |_| (),
            open: |s| s.cold_boot(BOOTED_ANEW_WITH),
            left: |r| r.boot().1,
            shown: |with, without| with.svns == [0] && with.root != without.root,
            counted: "the old list is erased; a new one has begun, with one entry",
            lost: "the old list stands",
        },
    ]
}

/// What is left after the cut and the next update boot.
#[derive(PartialEq)]
struct Left {
    /// Outcome of the next update boot.
    outcome: u8,
    on: bool,
    secret_zero: bool,
    /// The svn of each measurement in the list.
    svns: Vec<u32>,
    root: Vec<u32>,
    register: Vec<u32>,
}

/// A unit with one measurement, and what is done before the work is opened.
fn unit(kind: &Kind) -> Script {
    let script = Script::new()
        .cold_boot(BOOTED_WITH)
        .stores(ALL)
        .request(STASH, &stash_arguments(0x33))
        .stores(ALL);
    (kind.before)(script)
}

/// What the driver wrote behind the unit's part of a script.
fn run(kind: &Kind, script: Script) -> Replies {
    let mut replies = script.run();
    replies.boot();
    replies.stores();
    replies.request();
    replies.stores();
    (kind.skip)(&mut replies);
    replies
}

/// The number of stores.
fn number(kind: &Kind) -> u32 {
    (kind.left)(&mut run(kind, (kind.open)(unit(kind))))
}

/// A cut, then an update boot to its end.
fn reboot(script: Script) -> Script {
    script
        .cut()
        .update_boot(BOOTED_WITH, false)
        .stores(ALL)
        .image()
}

/// What is left if the work is never opened.
fn untouched(kind: &Kind) -> Left {
    left(&mut run(kind, reboot(unit(kind))))
}

/// What is left if it is cut after so many stores.
fn cut(kind: &Kind, stores: u32) -> Left {
    let mut replies = run(kind, reboot((kind.open)(unit(kind)).stores(stores)));
    (kind.left)(&mut replies);
    assert_eq!(replies.stores(), stores);
    left(&mut replies)
}

fn left(replies: &mut Replies) -> Left {
    let (outcome, _) = replies.boot();
    replies.stores();
    let image = replies.image();
    let nodes = image[NODES_AT..].chunks_exact(NODE_WORDS);
    let used = nodes.filter(|node| node[0] % 65_536 == 1);
    Left {
        outcome,
        on: image[1] == 1,
        secret_zero: image[4..16].iter().all(|&word| word == 0),
        svns: used.map(|node| node[NODE_SVN]).collect(),
        root: image[NODES_AT..NODES_AT + NODE_WORDS].to_vec(),
        register: image[REGISTER_AT..REGISTER_AT + 12].to_vec(),
    }
}

/// What is said of a cut after so many stores; the image has to bear it out.
fn sentence(kind: &Kind, left: &Left, untouched: &Left, stores: u32, number: u32) -> &'static str {
    if 0 < stores && stores < number {
        assert!(!left.on && left.secret_zero && left.outcome == 3);
        return "attestation is off and the secret is erased: no list is shown as whole, until a cold boot starts a new one";
    }
    let shown = (kind.shown)(left, untouched);
    if stores == number {
        assert!(shown, "{}: a counted work must show", kind.name);
        return kind.counted;
    }
    assert!(
        left == untouched,
        "{}: an unstarted work must not show",
        kind.name
    );
    kind.lost
}

/// The rows of one kind: cuts that leave the same are one row.
fn rows(kind: &Kind) -> Vec<String> {
    let (number, untouched) = (number(kind), untouched(kind));
    let mut rows: Vec<(u32, u32, String)> = Vec::new();
    for stores in 0..=number {
        let left = cut(kind, stores);
        let text = sentence(kind, &left, &untouched, stores, number);
        let attestation = if left.on { "on" } else { "off" };
        let cell = format!("{attestation} | {text}");
        match rows.last_mut() {
            Some(last) if last.2 == cell => last.1 = stores,
            _ => rows.push((stores, stores, cell)),
        }
    }
    rows.into_iter()
        .map(|(from, to, cell)| {
            let stores = match (from, to) {
                (0, 0) => "before the first store".to_string(),
                (from, to) if from == to && to == number => format!("after store {to}, the last"),
                (from, to) if from == to => format!("after store {to}"),
                (0, to) if to == number => format!("before the first and after any of {to} stores"),
                (from, to) => format!("after store {from} to {to}"),
            };
            format!("| {} | {stores} | {cell} |", kind.name)
        })
        .collect()
}

fn main() {
    println!("| What the unit was doing | The power is cut | Attestation after the next update boot | What you then have |");
    println!("|---|---|---|---|");
    for kind in kinds() {
        for row in rows(&kind) {
            println!("{row}");
        }
    }
}
