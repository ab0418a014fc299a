//! The form of a journal's entries (docs/REFERENCE.md, section 16).

use std::ops::Range;

use crate::image::{Digest, Handle, HANDLE};

#[derive(Clone, Copy, Debug, PartialEq, Eq)]
pub enum Entry {
    ColdBoot {
        runtime: Digest,
        manifest: Digest,
    },
    Update {
        runtime: Digest,
        manifest: Digest,
    },
    Disabling,
    Stash {
        kind: u32,
        digest: Digest,
        svn: u32,
        caller: u32,
    },
    Extension {
        register: u32,
        digest: Digest,
    },
    Derive {
        handle: Handle,
        retain: u32,
        kind: u32,
        digest: Digest,
        fresh: Handle,
        caller: u32,
    },
    Extend {
        handle: Handle,
        digest: Digest,
        caller: u32,
    },
    Rotate {
        handle: Handle,
        fresh: Handle,
        caller: u32,
    },
    Destroy {
        handle: Handle,
        caller: u32,
    },
}

/// The kinds in their order: the first is kind 1.
pub const KINDS: [&str; 9] = [
    "cold boot",
    "update",
    "disabling",
    "stash",
    "extension",
    "derive",
    "extend",
    "rotate",
    "destroy",
];

impl Entry {
    /// The byte of its kind.
    pub fn kind(&self) -> u8 {
        match self {
            Entry::ColdBoot { .. } => 1,
            Entry::Update { .. } => 2,
            Entry::Disabling => 3,
            Entry::Stash { .. } => 4,
            Entry::Extension { .. } => 5,
            Entry::Derive { .. } => 6,
            Entry::Extend { .. } => 7,
            Entry::Rotate { .. } => 8,
            Entry::Destroy { .. } => 9,
        }
    }

    pub fn name(&self) -> &'static str {
        KINDS[usize::from(self.kind()) - 1]
    }

    /// The bytes of a field in an entry of that length, counted from its first. The entry has that field.
    pub fn bytes_of(&self, field: Field, length: usize) -> Range<usize> {
        let number = |at, value| at..at + number_bytes(value);
        let caller_at = length - self.caller().map_or(0, number_bytes);
        match (field, self) {
            (Field::Register, Entry::Extension { register, .. }) => number(1, *register),
            (Field::Handle, _) => 1..1 + HANDLE,
            (Field::Retain, Entry::Derive { retain, .. }) => number(1 + HANDLE, *retain),
            (Field::Fresh, _) => caller_at - HANDLE..caller_at,
            (Field::Caller, _) => caller_at..length,
            _ => 0..1,
        }
    }

    fn caller(&self) -> Option<u32> {
        match self {
            Entry::Stash { caller, .. }
            | Entry::Derive { caller, .. }
            | Entry::Extend { caller, .. }
            | Entry::Rotate { caller, .. }
            | Entry::Destroy { caller, .. } => Some(*caller),
            _ => None,
        }
    }
}

/// A field that can make an entry impossible.
#[derive(Clone, Copy, Debug, PartialEq, Eq)]
pub enum Field {
    Register,
    Handle,
    Retain,
    Fresh,
    Caller,
}

/// The name of a kind, if it is listed.
pub fn kind_name(kind: u8) -> Option<&'static str> {
    KINDS.get(usize::from(kind).checked_sub(1)?).copied()
}

/// Why reading an entry stops before its end.
#[derive(Clone, Copy, Debug, PartialEq, Eq)]
pub enum Stop {
    /// The kind is not listed.
    Kind(u8),
    /// A number that no entry could have: the byte that decides, counted from the entry's first.
    Number {
        field: &'static str,
        at: usize,
        wrong: Wrong,
    },
    /// The bytes end inside this field.
    Cut { field: &'static str },
}

/// What is wrong with a number.
#[derive(Clone, Copy, Debug, PartialEq, Eq)]
pub enum Wrong {
    /// Its last byte adds nothing.
    Longer,
    /// More than 32 bits.
    Larger,
}

/// The entry that the bytes begin with, and its length. There is at least one byte.
pub fn read(bytes: &[u8]) -> Result<(Entry, usize), Stop> {
    let mut cursor = Cursor { bytes, at: 1 };
    let entry = match bytes[0] {
        1 => Entry::ColdBoot {
            runtime: cursor.digest("runtime digest")?,
            manifest: cursor.digest("manifest digest")?,
        },
        2 => Entry::Update {
            runtime: cursor.digest("runtime digest")?,
            manifest: cursor.digest("manifest digest")?,
        },
        3 => Entry::Disabling,
        4 => Entry::Stash {
            kind: cursor.number("type")?,
            digest: cursor.digest("digest")?,
            svn: cursor.number("svn")?,
            caller: cursor.number("caller")?,
        },
        5 => Entry::Extension {
            register: cursor.number("register")?,
            digest: cursor.digest("digest")?,
        },
        6 => Entry::Derive {
            handle: cursor.handle("handle")?,
            retain: cursor.number("retain")?,
            kind: cursor.number("type")?,
            digest: cursor.digest("digest")?,
            fresh: cursor.handle("fresh handle")?,
            caller: cursor.number("caller")?,
        },
        7 => Entry::Extend {
            handle: cursor.handle("handle")?,
            digest: cursor.digest("digest")?,
            caller: cursor.number("caller")?,
        },
        8 => Entry::Rotate {
            handle: cursor.handle("handle")?,
            fresh: cursor.handle("fresh handle")?,
            caller: cursor.number("caller")?,
        },
        9 => Entry::Destroy {
            handle: cursor.handle("handle")?,
            caller: cursor.number("caller")?,
        },
        kind => return Err(Stop::Kind(kind)),
    };
    Ok((entry, cursor.at))
}

struct Cursor<'a> {
    bytes: &'a [u8],
    at: usize,
}

impl Cursor<'_> {
    fn plain<const N: usize>(&mut self, field: &'static str) -> Result<[u8; N], Stop> {
        let bytes = self.bytes.get(self.at..self.at + N);
        self.at += N;
        bytes
            .and_then(|bytes| bytes.try_into().ok())
            .ok_or(Stop::Cut { field })
    }

    fn digest(&mut self, field: &'static str) -> Result<Digest, Stop> {
        self.plain(field)
    }

    fn handle(&mut self, field: &'static str) -> Result<Handle, Stop> {
        self.plain(field).map(Handle::from_bytes)
    }

    /// Groups of seven bits, the lowest first; the top bit says that another follows.
    fn number(&mut self, field: &'static str) -> Result<u32, Stop> {
        let mut value = 0;
        for group in 0..5 {
            let at = self.at;
            let byte = *self.bytes.get(at).ok_or(Stop::Cut { field })?;
            let wrong = |wrong| Err(Stop::Number { field, at, wrong });
            if group > 0 && byte == 0 {
                return wrong(Wrong::Longer);
            }
            if group == 4 && byte > 0x0F {
                return wrong(Wrong::Larger);
            }
            self.at += 1;
            value |= u32::from(byte & 0x7F) << (7 * group);
            if byte < 0x80 {
                break;
            }
        }
        Ok(value)
    }
}

/// How many bytes a number takes.
pub fn number_bytes(value: u32) -> usize {
    match value {
        0..=0x7F => 1,
        0x80..=0x3FFF => 2,
        0x4000..=0x1F_FFFF => 3,
        0x20_0000..=0xFFF_FFFF => 4,
        _ => 5,
    }
}

#[cfg(test)]
mod tests {
    use super::*;

    /// An extension with these bytes for its register and 48 bytes 0x66 behind them.
    fn extension(number: &[u8]) -> Result<(Entry, usize), Stop> {
        read(&[&[5], number, &[0x66; 48][..]].concat())
    }

    fn register(number: &[u8]) -> u32 {
        match extension(number) {
            Ok((Entry::Extension { register, digest }, length)) => {
                assert_eq!(digest, [0x66; 48]);
                assert_eq!(length, 1 + number.len() + 48);
                assert_eq!(number_bytes(register), number.len());
                register
            }
            other => panic!("{other:?}"),
        }
    }

    fn wrong(number: &[u8]) -> (usize, Wrong) {
        match extension(number) {
            Err(Stop::Number { field, at, wrong }) => {
                assert_eq!(field, "register");
                (at, wrong)
            }
            other => panic!("{other:?}"),
        }
    }

    #[test]
    fn numbers_at_their_borders() {
        assert_eq!(register(&[0]), 0);
        assert_eq!(register(&[0x7F]), 127);
        assert_eq!(register(&[0x80, 1]), 128);
        assert_eq!(register(&[0xAC, 2]), 300);
        assert_eq!(register(&[0xFF, 0x7F]), 0x3FFF);
        assert_eq!(register(&[0x80, 0x80, 1]), 0x4000);
        assert_eq!(register(&[0x80, 0x80, 0x80, 1]), 0x20_0000);
        assert_eq!(register(&[0x80, 0x80, 0x80, 0x80, 1]), 0x1000_0000);
        assert_eq!(register(&[0xFF, 0xFF, 0xFF, 0xFF, 0x0F]), u32::MAX);
    }

    #[test]
    fn numbers_that_are_none() {
        assert_eq!(wrong(&[0x80, 0]), (2, Wrong::Longer));
        assert_eq!(wrong(&[0xFF, 0x80, 0]), (3, Wrong::Longer));
        assert_eq!(wrong(&[0xFF, 0xFF, 0xFF, 0xFF, 0]), (5, Wrong::Longer));
        assert_eq!(wrong(&[0xFF, 0xFF, 0xFF, 0xFF, 0x10]), (5, Wrong::Larger));
        assert_eq!(wrong(&[0xFF, 0xFF, 0xFF, 0xFF, 0x80]), (5, Wrong::Larger));
    }

    /// Every proper beginning of every kind's entry is cut, in the field that it ends in.
    #[test]
    fn cut_entries() {
        let (digest, handle, number): (_, _, &[u8]) = ([0x66; 48], [0x77; 20], &[0xAC, 2]);
        let boot: [(&str, &[u8]); 2] = [("runtime digest", &digest), ("manifest digest", &digest)];
        let entries: [&[(&str, &[u8])]; 9] = [
            &boot,
            &boot,
            &[],
            &[
                ("type", number),
                ("digest", &digest),
                ("svn", number),
                ("caller", number),
            ],
            &[("register", number), ("digest", &digest)],
            &[
                ("handle", &handle),
                ("retain", number),
                ("type", number),
                ("digest", &digest),
                ("fresh handle", &handle),
                ("caller", number),
            ],
            &[("handle", &handle), ("digest", &digest), ("caller", number)],
            &[
                ("handle", &handle),
                ("fresh handle", &handle),
                ("caller", number),
            ],
            &[("handle", &handle), ("caller", number)],
        ];
        for (kind, fields) in (1..).zip(entries) {
            let mut bytes = vec![kind];
            for &(field, part) in fields {
                for end in 0..part.len() {
                    let cut = [&bytes[..], &part[..end]].concat();
                    assert_eq!(read(&cut), Err(Stop::Cut { field }), "kind {kind}");
                }
                bytes.extend(part);
            }
            let (entry, length) = read(&[&bytes[..], &[9; 9]].concat()).expect("an entry");
            assert_eq!((entry.kind(), length), (kind, bytes.len()));
        }
    }

    /// The bytes that a field is read from.
    #[test]
    fn places_of_fields() {
        let (fresh, digest) = ([0x77; 20], [0x66; 48]);
        let head = |kind: u8| [&[kind][..], &[0x55; 20]].concat();
        let derive = [&head(6)[..], &[0x80, 1, 7], &digest, &fresh, &[0xAC, 2]].concat();
        let rotate = [&head(8)[..], &fresh, &[5]].concat();
        let destroy = [&head(9)[..], &[0x80, 0x80, 1]].concat();
        let extension = [&[5, 0x84, 2][..], &digest].concat();
        let cases = [
            (&derive, Field::Handle, 1..21),
            (&derive, Field::Retain, 21..23),
            (&derive, Field::Fresh, 72..92),
            (&derive, Field::Caller, 92..94),
            (&rotate, Field::Fresh, 21..41),
            (&rotate, Field::Caller, 41..42),
            (&destroy, Field::Caller, 21..24),
            (&extension, Field::Register, 1..3),
        ];
        for (bytes, field, place) in cases {
            let (entry, length) = read(bytes).expect("an entry");
            assert_eq!(length, bytes.len());
            assert_eq!(entry.bytes_of(field, length), place, "{field:?}");
        }
    }

    #[test]
    fn kinds() {
        assert_eq!(read(&[3, 0xFF]), Ok((Entry::Disabling, 1)));
        for kind in (0..=255).filter(|kind| !(1..=9).contains(kind)) {
            assert_eq!(read(&[kind]), Err(Stop::Kind(kind)));
            assert_eq!(kind_name(kind), None);
        }
    }
}
