//! Whatever an image and a journal hold, text and page come out, and both can be read.

mod common;

use common::{check_page, some_tree, some_unit, Unit};
use inspector::html::html;
use inspector::image::Image;
use inspector::judge::Judgement;
use inspector::report::{Names, Report};
use inspector::survey::Survey;
use inspector::text::{text, Paint};

/// A stream of numbers that look random (xorshift), the same in each run.
struct Numbers(u64);

impl Numbers {
    fn next(&mut self) -> u64 {
        self.0 ^= self.0 << 13;
        self.0 ^= self.0 >> 7;
        self.0 ^= self.0 << 17;
        self.0
    }

    fn below(&mut self, bound: u64) -> u64 {
        self.next() % bound
    }

    fn bytes(&mut self, count: u64) -> Vec<u8> {
        (0..count).map(|_| self.next() as u8).collect()
    }
}

/// Shows them by each judgement that a judge could give.
fn check(image: &[u32], journal: &[u8]) {
    let bytes: Vec<u8> = image.iter().flat_map(|w| w.to_le_bytes()).collect();
    let image = Image::from_bytes(&bytes).expect("an image");
    let mut survey = Survey::new(&image, 5);
    survey.feed(journal);
    survey.finish();
    let judgements = [
        Judgement::NoColdBoot,
        Judgement::Refused(24, 7),
        Judgement::Unlike(Box::new([[7; 48]; 30])),
    ];
    for judgement in judgements {
        let names = Names {
            image: "image".into(),
            journal: "journal".into(),
        };
        let report = Report::new(names, &image, &survey, false, judgement);
        let text = text(&report, Paint { colours: false });
        let longest = text.lines().map(|line| line.chars().count()).max();
        assert!(longest <= Some(100), "{text}");
        check_page(&html(&report));
    }
}

/// A unit's image with nodes that hang anywhere: cycles, several roots, parents beyond the nodes, free ones between.
fn any_nodes(numbers: &mut Numbers, image: &mut [u32]) {
    for place in 0..32 {
        let at = 400 + 35 * place;
        let parent = match numbers.below(8) {
            0 => 0xFF,
            1 => numbers.next() as u32 & 0xFFFF,
            _ => numbers.below(33) as u32,
        };
        image[at] = match numbers.below(6) {
            0 => 0,
            1 => parent << 16 | numbers.next() as u32 & 0xFFFF,
            _ => parent << 16 | 1,
        };
        let handle = [0, u32::MAX, 0x0101_0101, numbers.next() as u32][numbers.below(4) as usize];
        image[at + 2..at + 7].fill(handle);
        image[at + 2 + numbers.below(5) as usize] ^= numbers.below(2) as u32;
        for word in &mut image[at + 32..at + 35] {
            *word = numbers.next() as u32;
        }
    }
}

#[test]
fn any_tree() {
    let mut numbers = Numbers(0x1234_5678_9ABC_DEF1);
    let unit = some_tree();
    for _ in 0..100 {
        let mut image = unit.image.clone();
        any_nodes(&mut numbers, &mut image);
        check(&image, &unit.journal);
    }
}

#[test]
fn any_image() {
    let mut numbers = Numbers(0x0FED_CBA9_8765_4321);
    let unit = some_tree();
    for _ in 0..50 {
        let image: Vec<u32> = (0..1520).map(|_| numbers.next() as u32).collect();
        check(&image, &unit.journal);
    }
    check(&[0; 1520], &unit.journal);
    check(&[u32::MAX; 1520], &unit.journal);
}

/// An entry of any kind, whole or cut, its handles from a few so that some name nodes.
fn any_entry(numbers: &mut Numbers) -> Vec<u8> {
    let kind = numbers.below(12) as u8;
    let mut bytes = vec![kind];
    let mut handle = || [[0, 0xA1, 0xA2, 0xB1, 0xFF][numbers.below(5) as usize]; 20];
    if kind >= 6 {
        bytes.extend(handle());
    }
    if kind == 6 {
        bytes.extend([1, 7]);
        bytes.extend([9; 48]);
    }
    if kind == 6 || kind == 8 {
        bytes.extend(handle());
    }
    if kind >= 6 {
        bytes.push(0);
    } else {
        let count = numbers.below(120);
        bytes.extend(numbers.bytes(count));
    }
    bytes
}

#[test]
fn any_journal() {
    let mut numbers = Numbers(0x0123_4567_89AB_CDEF);
    for unit in [some_unit(), some_tree(), Unit::new().cold_boot(1, 2)] {
        for _ in 0..40 {
            let mut journal = unit.journal.clone();
            while numbers.below(4) > 0 {
                journal.extend(any_entry(&mut numbers));
            }
            check(&unit.image, &journal);
        }
    }
}

/// A branch of all nodes that goes at once, with the longest words of each kind of tree command.
#[test]
fn the_longest_lines() {
    let mut unit = Unit::new().cold_boot(1, 2);
    for place in 1..32 {
        unit = unit.derive(
            (place - 1, 0),
            place,
            (b"\xFF\xFF\xFF\xFF", 0xFF, place as u8),
        );
    }
    let freed: Vec<usize> = (1..32).rev().collect();
    let unit = unit.extend(31, 1).rotate(31, 99).destroy(&freed);
    check(&unit.image, &unit.journal);
}
