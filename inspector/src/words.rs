//! How numbers, digests, types and names are shown.

use std::ffi::OsStr;
use std::iter;

use crate::form::{Entry, Stop, Wrong, KINDS};
use crate::image::{Handle, Parent};
use crate::replayed::Places;

/// Columns of the text.
pub const COLUMNS: usize = 100;

pub fn hex(bytes: &[u8]) -> String {
    bytes.iter().map(|byte| format!("{byte:02x}")).collect()
}

/// A digest's first 8 and last 4 digits.
pub fn short(digest: &[u8]) -> String {
    let digits = hex(digest);
    match digits.len() {
        0..=14 => digits,
        n => format!("{}..{}", &digits[..8], &digits[n - 4..]),
    }
}

/// A number with its thousands set apart.
pub fn grouped(number: u64) -> String {
    let digits = number.to_string();
    let groups = digits.as_bytes().rchunks(3).rev();
    let groups: Vec<_> = groups.map(String::from_utf8_lossy).collect();
    groups.join(",")
}

/// So many of a thing.
pub fn counted(number: u64, one: &str, many: &str) -> String {
    match number {
        1 => format!("1 {one}"),
        _ => format!("{} {many}", grouped(number)),
    }
}

/// A list in a sentence: "a, b and c".
pub fn listed(items: &[String]) -> String {
    match items {
        [] => String::new(),
        [one] => one.clone(),
        [rest @ .., last] => format!("{} and {last}", rest.join(", ")),
    }
}

/// A type: its four characters if they can be printed, else its number.
pub fn type_words(kind: u32) -> String {
    let bytes = kind.to_le_bytes();
    if bytes.iter().all(|byte| (0x20..0x7F).contains(byte)) {
        let text: String = bytes.iter().map(|&byte| char::from(byte)).collect();
        format!("\"{text}\"")
    } else {
        format!("{kind:#010x}")
    }
}

pub fn parent_words(parent: Parent) -> String {
    match parent {
        Parent::Root => "root".into(),
        Parent::Node(place) => format!("on {place}"),
        Parent::Beyond(number) => format!("on {number:#06x}"),
    }
}

pub fn handle_words(handle: Handle) -> String {
    match handle {
        Handle::Default => "default".into(),
        Handle::Retired => "retired".into(),
        Handle::Other(bytes) => short(&bytes),
    }
}

/// A file's name with nothing in it that a terminal would obey, and not too long.
pub fn name(name: &OsStr) -> String {
    if name == "-" {
        return "standard input".into();
    }
    let most = 60;
    let text: Vec<char> = name
        .to_string_lossy()
        .chars()
        .map(|c| if c.is_control() { '\u{FFFD}' } else { c })
        .collect();
    match text.len().checked_sub(most) {
        None | Some(0) => text.into_iter().collect(),
        Some(over) => ".."
            .chars()
            .chain(text.into_iter().skip(over + 2))
            .collect(),
    }
}

/// What an entry holds, in one or two lines.
pub fn entry_words(entry: &Entry, places: &Places) -> Vec<String> {
    match entry {
        Entry::ColdBoot { runtime, manifest } | Entry::Update { runtime, manifest } => {
            let (runtime, manifest) = (short(runtime), short(manifest));
            vec![format!("runtime {runtime}  manifest {manifest}")]
        }
        Entry::Disabling => vec!["attestation goes off".into()],
        Entry::Stash {
            kind,
            digest,
            svn,
            caller,
        } => {
            let (kind, digest, node) = (type_words(*kind), short(digest), node_words(places.taken));
            vec![format!("{kind} {digest} svn {svn} caller {caller} {node}")]
        }
        Entry::Extension { register, digest } => {
            vec![format!("PCR{register} by {}", short(digest))]
        }
        _ => tree_words(entry, places),
    }
}

/// The same of a tree command: each begins with the node that it is about.
fn tree_words(entry: &Entry, places: &Places) -> Vec<String> {
    let named = |handle: &Handle| {
        let node = node_words(places.named);
        format!("{node} ({})", handle_words(*handle))
    };
    match entry {
        Entry::Derive {
            handle,
            retain,
            kind,
            digest,
            fresh,
            caller,
        } => {
            let (kind, digest, node) = (type_words(*kind), short(digest), node_words(places.taken));
            let (fresh, above) = (handle_words(*fresh), named(handle));
            let parent = if *retain == 0 { "retired" } else { "kept" };
            vec![
                format!("{kind} {digest} caller {caller} {node}"),
                format!("handle {fresh}, below {above}, which is {parent}"),
            ]
        }
        Entry::Extend {
            handle,
            digest,
            caller,
        } => vec![format!(
            "{} by {} caller {caller}",
            named(handle),
            short(digest)
        )],
        Entry::Rotate {
            handle,
            fresh,
            caller,
        } => {
            let fresh = handle_words(*fresh);
            vec![format!("{} is now {fresh} caller {caller}", named(handle))]
        }
        Entry::Destroy { handle, caller } => {
            let first = format!("{} caller {caller}", named(handle));
            iter::once(first)
                .chain(freed_words(&places.freed))
                .collect()
        }
        _ => Vec::new(),
    }
}

/// What went with a destroyed node.
fn freed_words(freed: &[usize]) -> Option<String> {
    match freed {
        [] | [_] => None,
        [_, above @ ..] => Some(format!(
            "with it {}: retired, and nothing left below",
            places_words(above)
        )),
    }
}

fn node_words(place: Option<usize>) -> String {
    place.map_or("a node".into(), |place| format!("node {place}"))
}

/// Nodes by their numbers.
pub fn places_words(places: &[usize]) -> String {
    let numbers: Vec<String> = places.iter().map(usize::to_string).collect();
    let nodes = if places.len() == 1 { "node" } else { "nodes" };
    format!("{nodes} {}", listed(&numbers))
}

/// What a refusal's number says.
pub fn number_words(number: u32) -> &'static str {
    match number {
        1 => "the image is cut short",
        20 => "kind not listed",
        21 => "number too long or too large",
        22 => "cut entry",
        24 => "the unit could not have counted this there",
        _ => "an unknown number",
    }
}

/// What is wrong with an entry's form.
pub fn stop_words(stop: &Stop) -> String {
    match stop {
        Stop::Kind(kind) => {
            let kinds: Vec<String> = (1..)
                .zip(KINDS)
                .map(|(n, name)| format!("{n:02x} {name}"))
                .collect();
            format!(
                "{kind:02x} is no kind of entry; the kinds are {}",
                kinds.join(", ")
            )
        }
        Stop::Number { field, wrong, .. } => match wrong {
            Wrong::Longer => format!(
                "its {field} is not in the shortest form: a number's last group may not be zero"
            ),
            Wrong::Larger => format!("its {field} has more than 32 bits"),
        },
        Stop::Cut { field } => format!("the journal ends before the end of its {field}"),
    }
}

/// A text in lines of at most so many columns.
pub fn wrapped(text: &str, columns: usize) -> Vec<String> {
    let mut lines = vec![String::new()];
    for word in text.split(' ') {
        let line = lines.last_mut().expect("there is a line");
        if !line.is_empty() && line.chars().count() + 1 + word.chars().count() > columns {
            lines.push(word.into());
        } else {
            if !line.is_empty() {
                line.push(' ');
            }
            line.push_str(word);
        }
    }
    lines
}

#[cfg(test)]
mod tests {
    use super::*;

    #[test]
    fn digests_are_shortened() {
        assert_eq!(short(&[0xAB; 48]), "abababab..abab");
        assert_eq!(short(&[1, 2]), "0102");
    }

    #[test]
    fn numbers_are_grouped() {
        assert_eq!(grouped(0), "0");
        assert_eq!(grouped(999), "999");
        assert_eq!(grouped(1000), "1,000");
        assert_eq!(grouped(4_294_967_296), "4,294,967,296");
    }

    #[test]
    fn types() {
        assert_eq!(type_words(0x4D4A_5452), "\"RTJM\"");
        assert_eq!(type_words(u32::from_le_bytes(*b"A \"~")), "\"A \"~\"");
        assert_eq!(type_words(0x1F), "0x0000001f");
        assert_eq!(type_words(u32::from_le_bytes(*b"ABC\x7F")), "0x7f434241");
    }

    #[test]
    fn names_cannot_command_a_terminal() {
        assert_eq!(name(OsStr::new("a\x1b[31m\nb")), "a\u{FFFD}[31m\u{FFFD}b");
        let long = "x".repeat(100) + "end";
        let shown = name(OsStr::new(&long));
        assert_eq!(shown.chars().count(), 60);
        assert!(shown.starts_with("..x") && shown.ends_with("xend"));
        assert_eq!(name(OsStr::new(&"y".repeat(60))), "y".repeat(60));
    }

    #[test]
    fn lines_are_wrapped() {
        assert_eq!(wrapped("aa bb cc", 5), ["aa bb", "cc"]);
        assert_eq!(wrapped("aaaaaaa b", 5), ["aaaaaaa", "b"]);
    }
}
