//! Works whose parts are set from outside, damaged ones included.

use super::extensions::{outside_in_work, within};
use super::Maker;
use crate::layout::*;
use crate::script::Op;

impl Maker {
    pub(super) fn works(&mut self, count: usize) {
        self.push_booted();
        self.push_stash();
        self.push_stores(STASH_STORES);
        for _ in 0..count {
            self.work();
        }
        self.push(Op::Dump);
    }

    /// Opens a work: its kind and the length of its answer.
    fn open_some(&mut self) -> (Sort, usize) {
        let answer = |code: u32| command(code).map_or(0, |command| command.answer_bytes);
        match self.random.below(13) {
            0..=2 => {
                self.push_stash();
                (Sort::Stash, answer(STASH))
            }
            12 => {
                self.push_call();
                (Sort::Derive, answer(INVOKE))
            }
            3 => {
                self.push_disable();
                (Sort::Disabling, answer(DISABLE))
            }
            4 | 5 => {
                self.push_update(true);
                (Sort::Update, 0)
            }
            6 => {
                self.push_cold();
                (Sort::Cold, 0)
            }
            7 => {
                self.push_update(false);
                (Sort::Nothing, 0)
            }
            8 | 9 => {
                self.push_extension();
                (Sort::Extension, answer(EXTEND))
            }
            10 => {
                let table = self.good_table();
                if self.size < super::ENOUGH {
                    self.push_request(IDENTITY, &[], table, true);
                } else {
                    self.push_any_request();
                }
                (Sort::Nothing, answer(IDENTITY))
            }
            _ => {
                self.push(Op::Cut);
                (Sort::Disabling, answer(DISABLE))
            }
        }
    }

    fn work(&mut self) {
        let (sort, length) = self.open_some();
        let number = sort.stores();
        if self.random.once_in(3) {
            let made = self.random.between(0, number.min(70));
            self.push_stores(made);
        }
        let (number, length) = (number as u64, length as u64);
        for _ in 0..self.random.between(1, 4) {
            self.set_part(sort, length);
            self.use_work(number);
        }
        if self.random.once_in(2) {
            // Mended, it is as good as before.
            self.set(3, length);
            let first = self.index(sort);
            self.set(1, first);
            let other = self.index(sort);
            let second = self.random.pick(&[other, other, first]);
            self.set(2, second);
            let position = self.random.pick(&[0, 0, number / 2, number]);
            self.set(0, position);
            self.use_work(number);
            self.finish();
            self.push_answer();
            self.push(Op::Dump);
            self.spoil_finished(sort, length);
        }
        if self.random.once_in(3) {
            let yes = self.random.once_in(2);
            self.push_update(yes);
            self.finish();
        }
        if self.random.once_in(4) {
            self.push_booted();
        }
    }

    /// A finished work with one part past its bound, and mended again; then all
    /// its stores once more, on the image that they have changed.
    fn spoil_finished(&mut self, sort: Sort, length: u64) {
        self.set(0, sort.stores() as u64);
        let (nodes, most) = (NODES as u64, ANSWER_MAX as u64);
        let (past, fine) = match sort {
            Sort::Extension => (outside_in_work(&mut self.random), *EXTENDABLE.start()),
            _ => (nodes, 0),
        };
        for (field, past, fine) in [(3, most + 1, length), (1, past, fine), (2, nodes, 0)] {
            self.set(field, past);
            self.push(Op::Left);
            self.push(Op::Store(1));
            self.push(Op::Answer(ANSWER_MAX as u16));
            self.push_entry();
            self.set(field, fine);
        }
        self.push(Op::Answer(ANSWER_MAX as u16));
        self.push_entry();
        if self.random.once_in(2) {
            self.set(0, 0);
            self.finish();
            self.push(Op::Dump);
        }
    }

    pub(super) fn set(&mut self, field: u8, value: u64) {
        self.push(Op::Set { field, value });
    }

    /// An index within its bounds.
    fn index(&mut self, sort: Sort) -> u64 {
        match sort {
            Sort::Extension => within(&mut self.random),
            _ => self.random.below(NODES) as u64,
        }
    }

    fn set_part(&mut self, sort: Sort, length: u64) {
        let number = sort.stores() as u64;
        let field = self.random.pick(&[0, 0, 0, 1, 1, 2, 2, 3, 3, 4, 255]);
        let near = self.random.between(0, 65) as u64;
        let inside = self.random.between(0, number as usize) as u64;
        let (nodes, most) = (NODES as u64, ANSWER_MAX as u64);
        let node_field = 1 + DIGEST_WORDS as u64;
        let handle_field = node_field + NODE_WORDS as u64;
        let svn_field = BEFORE_SVN as u64;
        let value = match field {
            0 => self.random.pick(&[
                0,
                1,
                number.wrapping_sub(1),
                number,
                number + 1,
                number + 2,
                near,
                inside,
                inside,
                node_field,
                svn_field - 1,
                svn_field,
                handle_field,
                handle_field + HANDLE_WORDS as u64 - 1,
                1 << 32,
                (1 << 32) + number,
                (1 << 32) + near,
                (1 << 63) + near,
                u64::MAX,
            ]),
            1 if sort == Sort::Extension => match self.random.below(3) {
                0 => within(&mut self.random),
                _ => outside_in_work(&mut self.random),
            },
            1 | 2 => self.random.pick(&[
                0,
                1,
                5,
                nodes - 2,
                nodes - 1,
                nodes - 1,
                nodes,
                nodes,
                nodes + 1,
                255,
                1 << 16,
                1 << 32,
                (1 << 32) + 5,
                (1 << 32) + nodes - 1,
                1 << 63,
                u64::MAX,
                u64::MAX / NODE_WORDS as u64,
                u64::MAX / NODE_WORDS as u64 + 1,
            ]),
            _ => self.random.pick(&[
                0,
                1,
                length,
                length.wrapping_sub(1),
                length + 1,
                8,
                most - 1,
                most,
                most + 1,
                most + 1,
                most + 2,
                1 << 16,
                1 << 32,
                (1 << 32) + length,
                (1 << 32) + 8,
                1 << 63,
                u64::MAX,
            ]),
        };
        self.set(field, value);
    }

    fn use_work(&mut self, number: u64) {
        self.push(Op::Left);
        if self.random.once_in(2) {
            self.push_answer();
        }
        if self.random.once_in(5) {
            // Positions decide where the image is touched: all of it is shown.
            self.push(Op::Store(1));
            self.push(Op::Dump);
        }
        if self.random.once_in(2) {
            let all = COLD_STORES as u32 + 1;
            let count = self.random.pick(&[0, 1, 2, number as u32, all]);
            self.push(Op::Store(count));
            self.push(Op::Left);
        }
        if self.random.once_in(2) {
            self.push_answer();
            self.push_entry();
        }
        if self.random.once_in(4) {
            self.push(Op::Dump);
        }
    }
}
