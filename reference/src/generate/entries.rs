//! Journal entries of every kind of work, taken too early, into buffers that are
//! too short, just right and longer, and after a part of the work was set.

use super::extensions::{outside_in_work, within};
use super::svns::mail;
use super::{trees, Maker};
use crate::journal::groups;
use crate::layout::*;
use crate::requests::Stash;
use crate::script::Op;
use crate::sha384::DIGEST_BYTES;
use crate::tree::{Act, TreeCall, DEFAULT};

/// The least, the greatest, and the numbers on both sides of every border between
/// two lengths.
pub const BORDERS: [u32; 10] = [
    0,
    127,
    128,
    16_383,
    16_384,
    (1 << 21) - 1,
    1 << 21,
    (1 << 28) - 1,
    1 << 28,
    u32::MAX,
];

/// The bytes of a boot's entry, of a disabling's and of an extension's.
pub(super) const BOOT_ENTRY: usize = 1 + 2 * DIGEST_BYTES;
pub(super) const DISABLING_ENTRY: usize = 1;
pub(super) const EXTENSION_ENTRY: usize = 2 + DIGEST_BYTES;

/// The bytes of a stash's entry.
pub(super) fn stash_entry(stash: &Stash) -> usize {
    let numbers = [stash.kind, stash.svn, stash.caller];
    let bytes = numbers.iter().map(|&number| groups(number).len());
    1 + DIGEST_BYTES + bytes.sum::<usize>()
}

/// The bytes of a tree command's entry.
pub(super) fn call_entry(call: &TreeCall) -> usize {
    let caller = groups(call.caller).len();
    let fresh = if call.act.takes_fresh() {
        HANDLE_BYTES
    } else {
        0
    };
    trees::data(call).len() + fresh + caller
}

/// Sizes of buffers near every length of an entry.
const SIZES: [u16; 32] = [
    0, 0, 1, 1, 2, 21, 22, 41, 42, 48, 49, 50, 51, 52, 53, 55, 56, 58, 60, 62, 63, 64, 65, 69, 70,
    91, 92, 95, 96, 97, 98, 160,
];

impl Maker {
    /// Takes an entry into a buffer of about some entry's length.
    pub(super) fn push_entry(&mut self) {
        let size = self.random.pick(&SIZES);
        self.add(Op::Entry(size));
    }

    /// Takes an entry of that length: too short a buffer, then a long enough one.
    fn take(&mut self, length: usize) {
        let short = match length {
            0 => 0,
            _ => self.random.pick(&[0, length / 2, length - 1, length - 1]),
        };
        let more = self.random.pick(&[0, 0, 1, 2, 40]);
        for size in [short, length + more] {
            self.push(Op::Entry(size as u16));
        }
    }

    /// Takes the entry of the work in hand after some of its stores and after the
    /// last, and once more after an answer.
    fn entry_of(&mut self, sort: Sort, length: usize) {
        let all = sort.stores();
        let any = self.random.between(0, all - 1);
        let first = self.random.pick(&[0, any, any, all - 1]);
        self.push_stores(first);
        self.take(length);
        self.push_stores(all - first);
        self.take(length);
        if self.random.once_in(2) {
            self.push_answer();
            self.push(Op::Entry(length as u16));
        }
    }

    /// A stash whose numbers are near the borders.
    fn border_stash(&mut self) -> Stash {
        let mut number = || self.random.pick(&BORDERS);
        let (kind, svn, caller) = (number(), number(), number());
        Stash {
            kind,
            svn,
            caller,
            ..self.stash()
        }
    }

    /// Works of every kind on one unit, and their entries.
    pub(super) fn entries(&mut self) {
        self.push(Op::Cut);
        self.take(1);
        self.push_cold();
        self.entry_of(Sort::Cold, BOOT_ENTRY);
        for _ in 0..3 {
            let stash = self.border_stash();
            self.push(Op::Request(mail(&stash)));
            self.entry_of(Sort::Stash, stash_entry(&stash));
        }
        self.push_refused_request();
        self.push_entry();
        self.push_extension();
        self.entry_of(Sort::Extension, EXTENSION_ENTRY);
        self.tree_entries();
        self.push_small_request();
        self.take(0);
        self.push_update(false);
        self.take(0);
        self.push_update(true);
        self.entry_of(Sort::Update, BOOT_ENTRY);
        self.push_bad_boot();
        self.take(BOOT_ENTRY);
        self.bent_entry();
        self.entries_when_off();
    }

    /// Tree commands on the last stash's node and the children below it.
    fn tree_entries(&mut self) {
        let mut number = || self.random.pick(&BORDERS);
        let (kind, caller) = (number(), number());
        let stash = Stash {
            caller,
            ..self.stash()
        };
        self.push(Op::Request(mail(&stash)));
        self.push_stores(STASH_STORES);
        let digest = stash.digest;
        let handle = |first: u8| [first; HANDLE_BYTES];
        let derive = |retain: u32| Act::Derive {
            retain,
            kind,
            digest,
        };
        let calls = [
            (DEFAULT, derive(1), 1),
            (handle(1), derive(0), 2),
            (handle(2), Act::Extend { digest }, 0),
            (handle(2), Act::Rotate, 3),
            // With its parent, which is retired.
            (handle(3), Act::Destroy, 0),
        ];
        for (of, act, fresh) in calls {
            let call = TreeCall::new(of, act, &handle(fresh), caller);
            self.push(Op::Request(trees::mail(&call)));
            self.entry_of(call.sort(), call_entry(&call));
        }
        self.push_stores(NODE_WORDS);
        self.take(call_entry(&TreeCall::new(
            DEFAULT,
            Act::Destroy,
            &[],
            caller,
        )));
    }

    /// A disabling by a command or by a boot after a torn work; then works that
    /// are declined or refused, a disabling once more, and none in hand.
    fn entries_when_off(&mut self) {
        if self.random.once_in(2) {
            self.push_disable();
        } else {
            self.push_extension();
            let made = self.random.between(1, EXTENSION_STORES - 1);
            self.push_stores(made);
            let yes = self.random.once_in(2);
            self.push_update(yes);
        }
        self.entry_of(Sort::Disabling, DISABLING_ENTRY);
        self.push_stash();
        self.take(0);
        self.push_extension();
        self.take(0);
        let yes = self.random.once_in(2);
        self.push_update(yes);
        self.entry_of(Sort::Disabling, DISABLING_ENTRY);
        self.push(Op::Cut);
        self.take(DISABLING_ENTRY);
    }

    /// A finished work with a part set, taken and mended.
    fn bent_entry(&mut self) {
        let extends = self.random.once_in(2);
        let (sort, length, answer) = if extends {
            self.push_extension();
            (Sort::Extension, EXTENSION_ENTRY, 8)
        } else {
            let stash = self.border_stash();
            self.push(Op::Request(mail(&stash)));
            (Sort::Stash, stash_entry(&stash), 12)
        };
        self.push_stores(sort.stores());
        let (past, fine) = match sort {
            Sort::Extension => (outside_in_work(&mut self.random), within(&mut self.random)),
            _ => (NODES as u64, 3),
        };
        let all = sort.stores() as u64;
        let most = ANSWER_MAX as u64;
        let parts = [
            (1, past, fine),
            (3, most + 1, answer),
            (3, 1 << 32, most),
            (0, all + 1, all),
            (0, all - 1, all),
        ];
        for (field, past, fine) in parts {
            self.set(field, past);
            self.take(length);
            self.set(field, fine);
            self.take(length);
        }
    }
}
