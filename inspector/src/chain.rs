//! The chain of nodes: the image's as a tree, with what differs from the replayed ones.

use crate::image::{Handle, Image, Node, NODES};
use crate::tree::{tree, Line};
use crate::words::{handle_words, hex, parent_words, short, type_words};

/// How a node of the image stands to the replayed one.
#[derive(Clone, Copy, Debug, PartialEq, Eq)]
pub enum Mark {
    /// There is nothing to compare with.
    Unknown,
    Alike,
    Differs,
    /// Used in the image alone.
    Added,
    /// Used in the replayed chain alone.
    Missing,
}

impl Mark {
    pub fn is_difference(self) -> bool {
        !matches!(self, Mark::Unknown | Mark::Alike)
    }

    pub fn sign(self) -> &'static str {
        match self {
            Mark::Unknown | Mark::Alike => " ",
            Mark::Differs => "≠",
            Mark::Added => "+",
            Mark::Missing => "-",
        }
    }
}

/// Where a node stands in the drawing.
#[derive(Clone, Copy, Debug, PartialEq, Eq)]
pub enum Stand {
    /// On the way from a root.
    Tree(Line),
    /// Used, and no root leads to it.
    Stray,
    /// Not used, and not zero either.
    Odd,
    /// Only replayed.
    Missing,
}

impl Stand {
    /// The title before the first row of a group that is no tree.
    pub fn title(self, before: Option<Stand>) -> Option<&'static str> {
        match self {
            _ if before == Some(self) => None,
            Stand::Tree(_) => None,
            Stand::Stray => Some("used, but no root leads there"),
            Stand::Odd => Some("neither used nor free"),
            Stand::Missing => Some("replayed, but not in the image"),
        }
    }
}

pub struct Row {
    pub place: usize,
    pub stand: Stand,
    pub mark: Mark,
    /// The image's node; the replayed one where that alone is used.
    pub node: Node,
    /// A line for each field that differs.
    pub differences: Vec<String>,
    /// The handle in full, where shortened it could be taken for another one.
    pub whole_handle: Option<String>,
}

/// The image's nodes, and those that only the replayed chain has.
pub fn chain(image: &Image, replayed: Option<&Image>) -> Vec<Row> {
    let nodes: Vec<Node> = image.nodes().map(|(_, node)| node).collect();
    let drawing = tree(&nodes);
    let lines = drawing.lines.iter();
    let mut stands: Vec<(usize, Stand)> =
        lines.map(|line| (line.place, Stand::Tree(*line))).collect();
    stands.extend(drawing.stray.iter().map(|&place| (place, Stand::Stray)));
    let unused = || (0..NODES).filter(|&place| !nodes[place].is_used());
    let odd = unused().filter(|&place| !nodes[place].is_free());
    stands.extend(odd.map(|place| (place, Stand::Odd)));
    let is_replayed = |place| replayed.is_some_and(|image| image.node(place).is_used());
    let missing = unused().filter(|&place| nodes[place].is_free() && is_replayed(place));
    stands.extend(missing.map(|place| (place, Stand::Missing)));
    let compared = |(place, stand)| row(place, stand, &nodes[place], replayed);
    let mut rows: Vec<Row> = stands.into_iter().map(compared).collect();
    let handles: Vec<Handle> = rows.iter().map(|row| row.node.handle()).collect();
    for (row, handle) in rows.iter_mut().zip(&handles) {
        let is_unclear = is_mistakable(*handle, &handles);
        row.whole_handle = is_unclear.then(|| format!("handle in full: {}", hex(&handle.bytes())));
    }
    rows
}

/// Whether a live handle, shortened, looks like another one.
fn is_mistakable(handle: Handle, all: &[Handle]) -> bool {
    let known = [Handle::Default, Handle::Retired];
    let looks_like = |other: &Handle| short(&other.bytes()) == short(&handle.bytes());
    let mut others = all.iter().chain(&known).filter(|other| **other != handle);
    matches!(handle, Handle::Other(_)) && others.any(looks_like)
}

fn row(place: usize, stand: Stand, node: &Node, replayed: Option<&Image>) -> Row {
    let other = replayed.map(|image| image.node(place));
    let mark = match &other {
        None => Mark::Unknown,
        Some(other) if other == node => Mark::Alike,
        Some(_) if stand == Stand::Missing => Mark::Missing,
        Some(other) if other.is_free() => Mark::Added,
        Some(_) => Mark::Differs,
    };
    let differences = match &other {
        Some(other) if mark == Mark::Differs => differences(node, other),
        _ => Vec::new(),
    };
    let shown = match (&other, stand) {
        (Some(other), Stand::Missing) => other,
        _ => node,
    };
    Row {
        place,
        stand,
        mark,
        node: *shown,
        differences,
        whole_handle: None,
    }
}

/// A field's name and its words.
type Field = (&'static str, fn(&Node) -> String);

/// A line for each field of a node that is not the replayed one's.
fn differences(image: &Node, replayed: &Node) -> Vec<String> {
    let fields: [Field; 6] = [
        ("first word", first_word),
        ("tag", |node| format!("{:#x}", node.tag())),
        ("flags", |node| format!("{:#x}", node.flags())),
        ("type", |node| type_words(node.kind())),
        ("locality", |node| node.locality().to_string()),
        ("svn", |node| node.svn().to_string()),
    ];
    let mut lines: Vec<String> = fields
        .iter()
        .map(|(name, words)| (name, words(image), words(replayed)))
        .filter(|(_, image, replayed)| image != replayed)
        .map(|(name, image, replayed)| format!("{name}: image {image}, replayed {replayed}"))
        .collect();
    lines.extend(handle_difference(image.handle(), replayed.handle()));
    let measurements = [
        ("digest", image.current(), replayed.current()),
        ("cumulative", image.cumulative(), replayed.cumulative()),
    ];
    for (name, image, replayed) in measurements {
        if let Some(words) = unlike(&image, &replayed) {
            lines.push(format!("{name}: image {}, {words}", short(&image)));
        }
    }
    lines
}

fn handle_difference(image: Handle, replayed: Handle) -> Option<String> {
    let words = match (image, replayed) {
        _ if image == replayed => return None,
        (Handle::Other(image), Handle::Other(replayed)) => unlike(&image, &replayed)?,
        _ => format!("replayed {}", handle_words(replayed)),
    };
    Some(format!("handle: image {}, {words}", handle_words(image)))
}

/// The replayed digest or handle, and where it differs: the middle of neither is shown.
pub fn unlike(image: &[u8], replayed: &[u8]) -> Option<String> {
    let at = image.iter().zip(replayed).position(|(a, b)| a != b)?;
    let replayed = short(replayed);
    Some(format!("replayed {replayed} (unlike from byte {at} on)"))
}

fn first_word(node: &Node) -> String {
    let word = node.first_word();
    match node.is_used() {
        true => format!("{word:#010x} ({})", parent_words(node.parent())),
        false => format!("{word:#010x} (not used)"),
    }
}
