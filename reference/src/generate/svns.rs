//! Stashes with svns of every sort: whole, cut around the svn's store, and svns
//! that are stored alone, in free nodes and in used ones.

use super::Maker;
use crate::checksum::sealed;
use crate::layout::*;
use crate::requests::Stash;
use crate::script::{Mail, Op};

/// An svn with only its lowest bit, only its highest, and of four different
/// bytes.
pub(super) const LOW: u32 = 1;
pub(super) const HIGH: u32 = 0x8000_0000;
pub(super) const FOUR_BYTES: u32 = 0x0403_0201;

/// The sorts of svns; the stash's type and its caller are among them.
pub(super) fn svns(kind: u32, caller: u32) -> [u32; 7] {
    [0, LOW, HIGH, u32::MAX, FOUR_BYTES, kind, caller]
}

/// The request of a stash; the verdict is no.
pub(super) fn mail(stash: &Stash) -> Mail {
    let (kind, svn) = (stash.kind.to_le_bytes(), stash.svn.to_le_bytes());
    let body = [&kind[..], &stash.digest, &svn].concat();
    Mail {
        code: STASH,
        caller: stash.caller,
        verdict: 0,
        table: Vec::new(),
        bytes: sealed(STASH, &body),
        fresh: Vec::new(),
    }
}

impl Maker {
    /// Any stash; its svn is one of the sorts, or any number.
    pub(super) fn stash(&mut self) -> Stash {
        let (kind, caller) = (self.word(), self.word());
        let any = self.random.half();
        let listed = self.random.pick(&svns(kind, caller));
        Stash {
            kind,
            digest: self.digest().try_into().expect("a digest has 48 bytes"),
            svn: self.random.pick(&[any, listed]),
            caller,
        }
    }

    /// Two whole stashes on the same image, alike but for one byte of the svn.
    pub(super) fn push_twins(&mut self, image: &[u32]) {
        let mut stash = self.stash();
        let byte = self.random.below(4);
        for _ in 0..2 {
            self.push(Op::Image(image.to_vec()));
            self.push(Op::Request(mail(&stash)));
            self.push_stores(STASH_STORES);
            self.push(Op::Answer(12));
            self.push(Op::Dump);
            stash.svn ^= 0xFF << (8 * byte);
        }
    }

    /// Everything about svns; sorts, cuts and nodes take turns from seed to seed.
    pub(super) fn svns(&mut self) {
        let in_turn = self.seed as usize / 8;
        self.push_booted();
        for turn in 0..3 {
            self.stash_of_sort(3 * in_turn + turn);
        }
        self.push(Op::Dump);
        self.push_update(true);
        self.push_stores(UPDATE_STORES);
        self.push(Op::Dump);
        self.cut_around_svn(in_turn);
        for svn in [LOW, HIGH] {
            self.push_booted();
            self.lone_svn(1 + in_turn % (NODES - 1), svn);
            self.try_tree();
        }
        self.push_booted();
        self.stash_of_sort(in_turn);
        let svn = self.stash().svn;
        self.lone_svn(in_turn % 2, svn);
        self.try_tree();
    }

    /// A whole stash with an svn of that sort.
    fn stash_of_sort(&mut self, sort: usize) {
        let mut stash = self.stash();
        let sorts = svns(stash.kind, stash.caller);
        stash.svn = sorts[sort % sorts.len()];
        self.push(Op::Request(mail(&stash)));
        self.push_stores(STASH_STORES);
    }

    /// A stash that stops within two stores of its svn's, and a boot.
    fn cut_around_svn(&mut self, in_turn: usize) {
        self.push_stash();
        self.push_stores(BEFORE_SVN - 1 + in_turn % 4);
        self.push(Op::Left);
        self.push(Op::Dump);
        match in_turn / 4 % 3 {
            0 => self.push(Op::Cut),
            1 => self.push_stash(),
            _ => {}
        }
        self.push_update(true);
        self.finish();
        self.push(Op::Dump);
    }

    /// Stores an svn alone at a node: its stash starts there, and the mark stays.
    fn lone_svn(&mut self, index: usize, svn: u32) {
        let stash = Stash {
            svn,
            ..self.stash()
        };
        self.push(Op::Request(mail(&stash)));
        self.set(1, index as u64);
        self.set(0, BEFORE_SVN as u64);
        self.push(Op::Store(1));
    }

    /// What the tree is looked at for: a stash and both boots; then what is opened
    /// to its end.
    pub(super) fn try_tree(&mut self) {
        self.push_stash();
        self.push(Op::Left);
        self.push_update(false);
        self.push_update(true);
        self.push_stores(UPDATE_STORES);
        self.push(Op::Dump);
        self.push_stash();
        self.push_stores(STASH_STORES);
        self.push(Op::Dump);
    }
}
