//! The image's chain beside the replayed one: how each node is marked, and what is said of it.

mod common;

use common::{some_tree, some_unit, Unit};
use inspector::chain::{chain, Mark, Row, Stand};
use inspector::image::Image;

fn image(unit: &Unit) -> Image {
    Image::from_bytes(&unit.image_bytes()).expect("an image")
}

/// Place and mark of each row.
fn marks(rows: &[Row]) -> Vec<(usize, Mark)> {
    rows.iter().map(|row| (row.place, row.mark)).collect()
}

fn compared(saved: &Unit, replayed: &Unit) -> Vec<Row> {
    chain(&image(saved), Some(&image(replayed)))
}

#[test]
fn alike() {
    let unit = some_unit();
    let rows = compared(&unit, &unit);
    let expected = [(0, Mark::Alike), (1, Mark::Alike), (2, Mark::Alike)];
    assert_eq!(marks(&rows), expected);
    assert!(rows.iter().all(|row| row.differences.is_empty()));
}

#[test]
fn nothing_to_compare_with() {
    let rows = chain(&image(&some_unit()), None);
    let expected = [(0, Mark::Unknown), (1, Mark::Unknown), (2, Mark::Unknown)];
    assert_eq!(marks(&rows), expected);
}

/// A node more in the image: it is added, and the holder before it differs in its handle.
#[test]
fn added() {
    let unit = some_unit();
    let rows = compared(&unit.clone().stash(b"MORE", 9, 9, 9), &unit);
    let expected = [
        (0, Mark::Alike),
        (1, Mark::Alike),
        (2, Mark::Differs),
        (3, Mark::Added),
    ];
    assert_eq!(marks(&rows), expected);
    assert_eq!(
        rows[2].differences,
        ["handle: image retired, replayed default"]
    );
    assert!(rows[3].differences.is_empty());
}

/// A node more in the replayed chain: it is shown as it was replayed.
#[test]
fn missing() {
    let unit = some_unit();
    let rows = compared(&unit, &unit.clone().stash(b"MORE", 9, 8, 7));
    let expected = [
        (0, Mark::Alike),
        (1, Mark::Alike),
        (2, Mark::Differs),
        (3, Mark::Missing),
    ];
    assert_eq!(marks(&rows), expected);
    assert_eq!(rows[3].stand, Stand::Missing);
    assert_eq!((rows[3].node.svn(), rows[3].node.locality()), (8, 7));
}

/// Each word of a node changed: one line, which names its field.
#[test]
fn every_field() {
    let unit = some_unit();
    let fields = |word: usize| match word {
        0 => "first word: image 0x01000001 (on 0x0100), replayed 0x00000001 (on 0)",
        1 => "tag: image 0x1000000, replayed 0x0",
        2..=6 => "handle: image ",
        7 => "flags: image 0x1000000, replayed 0x0",
        8..=19 => "digest: image ",
        20..=31 => "cumulative: image ",
        32 => "type: image \"HOUS\", replayed \"HOUR\"",
        33 => "locality: image 16777217, replayed 1",
        _ => "svn: image 16777219, replayed 3",
    };
    for word in 0..35 {
        let mut changed = unit.clone();
        changed.image[435 + word] ^= 0x0100_0000;
        let rows = compared(&changed, &unit);
        let row = rows.iter().find(|row| row.place == 1).expect("node 1");
        assert_eq!(row.mark, Mark::Differs, "word {word}");
        let [line] = row.differences.as_slice() else {
            panic!("word {word}: {:?}", row.differences);
        };
        assert!(line.starts_with(fields(word)), "word {word}: {line}");
    }
}

/// A digest that differs in its middle: where is told, since the middle is not shown.
#[test]
fn the_middle_of_a_digest() {
    let unit = some_unit();
    let mut changed = unit.clone();
    changed.image[435 + 8 + 5] ^= 0x0001_0000;
    let rows = compared(&changed, &unit);
    let line = "digest: image 66666666..6666, replayed 66666666..6666 (unlike from byte 22 on)";
    assert_eq!(rows[1].differences, [line]);
}

/// Used nodes that no root leads to, and words in a free node.
#[test]
fn nodes_that_are_no_tree() {
    let unit = some_unit();
    let mut changed = unit.clone();
    changed.image[400 + 35] = 9 << 16 | 1;
    changed.image[400 + 35 * 20 + 34] = 1;
    changed.image[400 + 35 * 21] = 2;
    let rows = compared(&changed, &unit);
    let stands: Vec<_> = rows
        .iter()
        .map(|row| (row.place, row.mark, row.stand))
        .collect();
    assert!(matches!(stands[0], (0, Mark::Alike, Stand::Tree(_))));
    let others = [
        (1, Mark::Differs, Stand::Stray),
        (2, Mark::Alike, Stand::Stray),
        (20, Mark::Added, Stand::Odd),
        (21, Mark::Added, Stand::Odd),
    ];
    assert_eq!(stands[1..], others);
}

/// Live handles that differ in their middle: where is told, since the middle is not shown.
#[test]
fn the_middle_of_a_handle() {
    let unit = some_tree();
    let mut changed = unit.clone();
    let mut handle = unit.handle_of(3);
    handle[11] ^= 1;
    changed.put_handle(3, handle);
    let rows = compared(&changed, &unit);
    let row = rows.iter().find(|row| row.place == 3).expect("node 3");
    let line = "handle: image a3a3a3a3..a3a3, replayed a3a3a3a3..a3a3 (unlike from byte 11 on)";
    assert_eq!(row.differences, [line]);
}

/// A handle stands in full where, shortened, it could be taken for another node's, the default or a retired one.
#[test]
fn handles_in_full() {
    let mut unit = some_tree();
    let middle = |around: u8, within: u8| {
        let mut handle = [around; 20];
        handle[9] = within;
        handle
    };
    unit.put_handle(0, middle(0, 1));
    unit.put_handle(1, middle(0xC1, 1));
    unit.put_handle(2, middle(0xC1, 2));
    unit.put_handle(3, middle(0xFF, 1));
    let rows = compared(&unit, &unit);
    let whole = |place: usize| {
        let row = rows.iter().find(|row| row.place == place).expect("a node");
        row.whole_handle.clone()
    };
    let full = |around: &str, within: &str| {
        let (before, behind) = (around.repeat(9), around.repeat(10));
        Some(format!("handle in full: {before}{within}{behind}"))
    };
    assert_eq!(whole(0), full("00", "01"));
    assert_eq!(whole(1), full("c1", "01"));
    assert_eq!(whole(2), full("c1", "02"));
    assert_eq!(whole(3), full("ff", "01"));
    assert_eq!(whole(4), None, "the default one");
    // The same handle twice is no mistake.
    unit.put_handle(2, middle(0xC1, 1));
    let rows = compared(&unit, &unit);
    assert!(rows
        .iter()
        .all(|row| row.place != 1 || row.whole_handle.is_none()));
}
