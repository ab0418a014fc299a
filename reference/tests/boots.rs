//! A boot's inputs and what the two digests do to the registers and the root.
//! The expected digests are GNU `sha384sum`'s; docs/TESTING.md has the commands.

use reference::boots::Inputs;
use reference::engine::Engine;
use reference::layout::*;
use reference::mailbox::{booted, booted_with, BOOTED_WITH};
use reference::player::Player;
use reference::script::{encode, Op};
use reference::show;

const ENGINE: Engine = Engine::PAPER;

const UPDATED_WITH: Inputs = Inputs {
    runtime: &[0x44; 48],
    manifest: &[0x55; 48],
    secret: &[0x66; 48],
};

/// PCR2, PCR3 and the root's current of the small program's unit: 48 zero bytes
/// extended by 48 bytes 0x11, then by 48 bytes 0x33.
const BOOTED: &str = "7c20878ab486f86b065344e2e6d2382b2cad84955ea5ecfd\
                      80b5f91ea9c0cc701431809b9907e1ff24efe3a603c6f486";

/// Its root's cumulative: 48 zero bytes extended by that.
const CUMULATIVE: &str = "e9e5bcc8b76d66c67a65087b5bdb351f485f25260f8c3497\
                          9ea178005024936e115d5107b73e36e9dcdbf0510bc6927b";

/// After an update by 48 bytes 0x44 and 48 bytes 0x55: PCR2 from zero, PCR3 from
/// its old value, and the old cumulative extended by the new PCR3.
const UPDATED_CURRENT: &str = "04e178743c81f17d3bacb3f99066cf683ae664bde5e87694\
                               0c7891ef4d75660877033a2022e72d5c1bbed68cb96a8092";
const UPDATED_JOURNEY: &str = "577b7580f2ba97a41cb242a79c2de62cc97aae54a9a4f243\
                               755c8eaf5cf57b9e9e22c388e503cffe1b06e061907e221a";
const UPDATED_CUMULATIVE: &str = "0e4d7d59faa9d4d50dfba67ac56466f1edec54f8c7aa2dd5\
                                  1318b221a41e0386b9c870c2ee7478c44752a27ef9ea411b";

fn hex(bytes: &[u8]) -> String {
    bytes.iter().map(|byte| format!("{byte:02x}")).collect()
}

/// PCR2, PCR3, the current and the cumulative of the root at node 0.
fn measurements(image: &[u32]) -> [String; 4] {
    [
        register(CURRENT),
        register(JOURNEY),
        node(0) + NODE_CURRENT,
        node(0) + NODE_CUMULATIVE,
    ]
    .map(|word| hex(&bytes_of(&image[word..])))
}

#[test]
fn the_small_programs_boot_and_one_update() {
    let mut image = booted();
    assert_eq!(measurements(&image), [BOOTED, BOOTED, BOOTED, CUMULATIVE]);
    let (mut work, outcome) = ENGINE.open_update(&image, UPDATED_WITH, true).unwrap();
    let left = UPDATE_STORES as u32;
    assert_eq!((outcome, ENGINE.left(&work)), (UPDATED, left));
    while ENGINE.store(&mut work, &mut image) == 0 {}
    assert_eq!(
        measurements(&image),
        [
            UPDATED_CURRENT,
            UPDATED_JOURNEY,
            UPDATED_JOURNEY,
            UPDATED_CUMULATIVE
        ]
    );
    assert_eq!(image[SECRET..REGISTERS_AT], [0x6666_6666; 12]);
}

/// The book, asked for the same boots by a script.
#[test]
fn the_book_has_the_same_measurements() {
    let script = encode(&[
        Op::Cold(BOOTED_WITH.into()),
        Op::Store(COLD_STORES as u32),
        Op::Update(UPDATED_WITH.into(), 1),
        Op::Store(UPDATE_STORES as u32),
    ]);
    let mut player = Player::new(ENGINE);
    player.run(&script).expect("the book agrees");
    assert_eq!(player.seen.looks, 1);
    assert_eq!(measurements(player.image())[1], UPDATED_JOURNEY);
}

/// What both boots give for inputs on an image, the update for both verdicts.
fn opened(image: &[u32], inputs: Inputs) -> [Result<u8, u32>; 3] {
    let outcome = |(_, outcome)| outcome;
    [
        ENGINE.open_cold(image, inputs).map(outcome),
        ENGINE.open_update(image, inputs, true).map(outcome),
        ENGINE.open_update(image, inputs, false).map(outcome),
    ]
}

const REFUSED: [Result<u8, u32>; 3] = [Err(6); 3];
const TAKEN: [Result<u8, u32>; 3] = [Ok(COLD), Ok(UPDATED), Ok(KEPT)];

static BYTES: [u8; 65_535] = [7; 65_535];

/// Lengths that no input may have.
const WRONG_LENGTHS: [usize; 7] = [0, 1, 47, 49, 96, 48 + 256, 65_535];

/// Inputs of which each is right or has a wrong length; at least one is wrong.
fn misfits(length: usize) -> impl Iterator<Item = Inputs<'static>> {
    let wrong = &BYTES[..length];
    (1..8).map(move |which| Inputs {
        runtime: if which & 1 != 0 { wrong } else { &BYTES[..48] },
        manifest: if which & 2 != 0 { wrong } else { &BYTES[..48] },
        secret: if which & 4 != 0 { wrong } else { &BYTES[..48] },
    })
}

/// A fine unit, and one for each reason to disable it.
fn units() -> [(Vec<u32>, u8); 5] {
    let with = |word: usize| {
        let mut image = booted();
        image[word] ^= 3;
        (image, DISABLED)
    };
    [
        (booted(), UPDATED),
        with(MARK),
        with(ATTESTATION),
        with(node(0)),
        with(register(JOURNEY)),
    ]
}

#[test]
fn six_for_every_length_but_48_whatever_the_boot_would_do() {
    for (image, outcome) in units() {
        assert_eq!(opened(&image, UPDATED_WITH)[1], Ok(outcome));
        for inputs in WRONG_LENGTHS.into_iter().flat_map(misfits) {
            assert_eq!(opened(&image, inputs), REFUSED);
        }
    }
}

#[test]
fn lengths_are_not_summed() {
    for (runtime, manifest, secret) in [(47, 49, 48), (49, 47, 48), (48, 47, 49), (48, 49, 47)] {
        let inputs = Inputs {
            runtime: &BYTES[..runtime],
            manifest: &BYTES[..manifest],
            secret: &BYTES[..secret],
        };
        assert_eq!(opened(&booted(), inputs), REFUSED);
    }
}

#[test]
fn one_before_six() {
    let image = &booted()[1..];
    for inputs in misfits(47) {
        assert_eq!(opened(image, inputs), [Err(1); 3]);
    }
}

#[test]
fn only_the_secret_may_not_be_zero() {
    let fine = UPDATED_WITH;
    let image = booted();
    for inputs in [
        Inputs {
            runtime: &ZERO,
            ..fine
        },
        Inputs {
            manifest: &ZERO,
            ..fine
        },
        Inputs {
            runtime: &ZERO,
            manifest: &ZERO,
            ..fine
        },
        Inputs {
            manifest: fine.runtime,
            ..fine
        },
        Inputs {
            manifest: fine.secret,
            ..fine
        },
    ] {
        assert_eq!(opened(&image, inputs), TAKEN);
        let secret = &ZERO;
        assert_eq!(opened(&image, Inputs { secret, ..inputs }), REFUSED);
    }
}

/// 48 zero bytes extended by 48 zero bytes twice, and by 48 bytes 0x11 twice, as
/// `sha384sum` has them.
#[test]
fn equal_digests_are_extended_by_twice() {
    let of = |digest: &'static [u8]| {
        let image = booted_with(Inputs {
            runtime: digest,
            manifest: digest,
            ..BOOTED_WITH
        });
        measurements(&image)[0].clone()
    };
    assert_eq!(
        of(&ZERO),
        "11143121beb365e63826e7de89f9c76ae1100411fb9643d1\
         98e730b7603a83a4977c76eee6ddf74fa0b43fbf49897978"
    );
    assert_eq!(
        of(&[0x11; 48]),
        "466bc7c9f604d65bec68428ae743269d4dbdc1646014183f\
         d8f6620dc35845f1ffb9961a2c2bbfe204050b2c0048ceb9"
    );
}

#[test]
fn a_boot_is_shown_with_its_three_inputs() {
    let inputs = Inputs {
        manifest: &[0x33; 47],
        ..BOOTED_WITH
    };
    assert_eq!(
        show::operation(&Op::Update(inputs.into(), 1)),
        "U runtime 48 x 11, manifest 47 x 33, secret 48 x 22, verdict 1"
    );
}
