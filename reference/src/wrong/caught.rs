//! How many scripts it takes until each wrong engine is caught, and which ones
//! some inputs do not tell.

use super::{Shown, Wrong, GROUPS};
use crate::engine::Engine;
use crate::generate::{program_input, script};
use crate::mailbox::{mailbox_on, Ran};
use crate::player::{play, play_unwatched, Player};

/// How a wrong engine fares.
pub struct Caught {
    pub wrong: Wrong,
    /// Scripts until the outputs differ, if they do.
    pub scripts: Option<u64>,
    /// Scripts until the book beside it disagrees, if it does.
    pub book: Option<u64>,
}

/// A script and what the right engine writes for it.
type Played = (Vec<u8>, Vec<u8>);

/// Plays every wrong engine until it is caught, `count` scripts at most. The book
/// is kept beside it for so many scripts, and for as long as it is not caught.
pub fn caught(count: u64, with_book: u64, mut each: impl FnMut(&Caught)) {
    let mut played = Vec::new();
    for group in GROUPS {
        for &wrong in group.engines {
            each(&match group.shown {
                Shown::ByScripts => of_entries(wrong, count, with_book, &mut played),
                Shown::ByProgram => {
                    of_program(wrong, count, |ran, right| ran.output != right.output)
                }
                Shown::ByProgramImage => {
                    of_program(wrong, count, |ran, right| ran.image != right.image)
                }
            });
        }
    }
}

fn of_program(wrong: Wrong, count: u64, shows: fn(&Ran, &Ran) -> bool) -> Caught {
    let mut inputs = (0..count).map(program_input);
    let differs = |input: Vec<u8>| {
        let right = mailbox_on(Engine::PAPER, &input);
        shows(&mailbox_on(wrong.engine, &input), &right)
    };
    Caught {
        wrong,
        scripts: inputs.position(differs).map(|seed| seed as u64 + 1),
        book: None,
    }
}

fn of_entries(wrong: Wrong, count: u64, with_book: u64, played: &mut Vec<Played>) -> Caught {
    let mut caught = Caught {
        wrong,
        scripts: None,
        book: None,
    };
    for seed in 0..count {
        if played.len() as u64 == seed {
            let input = script(seed).bytes();
            let output = play(&input);
            played.push((input, output));
        }
        let (input, output) = &played[seed as usize];
        if with_book > 0 && caught.book.is_none() && Player::new(wrong.engine).run(input).is_err() {
            caught.book = Some(seed + 1);
        }
        if caught.scripts.is_none() && play_unwatched(wrong.engine, input) != *output {
            caught.scripts = Some(seed + 1);
        }
        if caught.scripts.is_some() && (caught.book.is_some() || seed >= with_book) {
            break;
        }
    }
    caught
}

/// The wrong engines of a group that none of the inputs tells.
pub fn untold(inputs: &[Vec<u8>], title: &str) -> Vec<&'static str> {
    let played: Vec<Played> = inputs
        .iter()
        .map(|input| (input.clone(), play(input)))
        .collect();
    let group = GROUPS.iter().find(|group| group.title == title);
    let engines = group.expect("the group").engines.iter();
    let told = |wrong: &&Wrong| {
        let mut played = played.iter();
        played.any(|(input, right)| play_unwatched(wrong.engine, input) != *right)
    };
    let untold = engines.filter(|wrong| !told(wrong));
    untold.map(|wrong| wrong.name).collect()
}
