//! Lists after a cold boot: calls, cuts, openings over half-stored works.

use super::Maker;
use crate::layout::*;
use crate::script::Op;

/// A kind of work that a list can interrupt, with its number of stores.
#[derive(Clone, Copy)]
enum Opening {
    Stash,
    Extension,
    Disable,
    Update,
    /// An update boot of a unit that a command has disabled.
    BootDisabling,
    /// A tree command; a derive has the most stores of those that a list opens.
    Call,
}

impl Opening {
    const ALL: [Opening; 5] = [
        Opening::Stash,
        Opening::Extension,
        Opening::Disable,
        Opening::Update,
        Opening::BootDisabling,
    ];

    fn number(self) -> usize {
        let sort = match self {
            Opening::Stash => Sort::Stash,
            Opening::Extension => Sort::Extension,
            Opening::Disable | Opening::BootDisabling => Sort::Disabling,
            Opening::Update => Sort::Update,
            Opening::Call => Sort::Derive,
        };
        sort.stores()
    }
}

impl Maker {
    pub(super) fn lists(&mut self, count: usize) {
        for turn in 0..count {
            self.cut_in_turn(turn);
            self.cold_boot();
            if self.random.once_in(4) {
                let stashes = self.random.between(1, 4);
                self.fill(stashes);
            }
            for _ in 0..self.random.between(3, 10) {
                self.event();
            }
            self.interrupted();
            for _ in 0..self.random.between(0, 4) {
                self.event();
            }
            self.push(Op::Dump);
        }
    }

    /// A work on a fresh unit, cut after a number of stores that goes through
    /// all numbers of all kinds from seed to seed.
    fn cut_in_turn(&mut self, turn: usize) {
        let in_turn = self.seed as usize / 8 * 4 + self.seed as usize % 8 * 2 + turn;
        for position in [2 * in_turn, 2 * in_turn + 1] {
            self.push_cold();
            self.push_stores(position % (COLD_STORES + 1));
            self.push(Op::Cut);
            self.push(Op::Dump);
            let yes = self.random.once_in(2);
            self.push_update(yes);
        }
        self.push_booted();
        let before = self.random.below(3);
        self.fill(before);
        let numbers = Opening::ALL.iter().map(|kind| kind.number() + 1);
        let mut position = in_turn % numbers.sum::<usize>();
        for kind in Opening::ALL {
            if position <= kind.number() {
                self.open(kind);
                break;
            }
            position -= kind.number() + 1;
        }
        self.push_stores(position);
        if self.random.once_in(2) {
            self.push(Op::Left);
            self.push(Op::Dump);
        }
        self.push(Op::Cut);
        if self.random.once_in(3) {
            self.push_any_request();
        }
        self.boots_and_cuts();
    }

    /// A list that fills the nodes.
    pub(super) fn long_list(&mut self) {
        self.cold_boot();
        let before = self.random.between(NODES - 4, NODES - 1);
        self.fill(before);
        self.push(Op::Dump);
        for _ in 0..self.random.between(1, 5) {
            if self.random.once_in(2) {
                self.fill(1);
                self.push(Op::Answer(12));
            } else {
                self.event();
            }
        }
        self.fill(2);
        self.push(Op::Answer(12));
        self.push_update(true);
        self.finish();
        self.push(Op::Dump);
    }

    /// A completed cold boot, after none, one or more that were cut.
    fn cold_boot(&mut self) {
        if self.random.once_in(2) {
            self.turn += 1;
            self.push_cold();
            let position = (self.seed * 7 + self.turn * 313) as usize % (COLD_STORES + 1);
            self.push_stores(position);
            self.peek();
            if self.random.once_in(3) {
                // Over it, without a cut.
                self.event();
            } else {
                self.push(Op::Cut);
                self.event();
            }
        }
        self.push_cold();
        self.finish();
        self.peek();
    }

    /// Stashes that run to their ends.
    fn fill(&mut self, count: usize) {
        for _ in 0..count {
            self.push_stash();
            self.push_stores(STASH_STORES);
        }
    }

    fn event(&mut self) {
        match self.random.below(25) {
            0..=3 => {
                self.push_stash();
                self.finish();
                self.push(Op::Answer(12));
            }
            4 | 5 => {
                self.push_update(true);
                self.finish();
            }
            6 => {
                for _ in 0..2 {
                    self.push_update(true);
                    self.finish();
                    self.push(Op::Dump);
                }
            }
            7 | 8 => self.push_update(false),
            9 => self.push_bad_boot(),
            10 => self.push_refused_request(),
            11 => self.push_any_request(),
            12 => {
                self.push_small_request();
                self.peek();
            }
            13 => {
                // Opened, and nothing stored.
                self.open_any();
                self.peek();
            }
            14 => self.push(Op::Cut),
            15 => {
                let count = self.random.pick(&[0, 1, 2, 100]);
                self.push(Op::Store(count));
            }
            16 if self.random.once_in(3) => {
                self.push_disable();
                self.finish();
                self.push(Op::Answer(8));
            }
            17 if self.random.once_in(2) => self.interrupted(),
            18 | 19 => {
                self.push_extension();
                self.finish();
                self.push(Op::Answer(8));
            }
            22..=24 => {
                self.push_call();
                self.finish();
                self.push(Op::Answer(12));
            }
            _ => self.peek(),
        }
    }

    fn open(&mut self, opening: Opening) {
        match opening {
            Opening::Stash => self.push_stash(),
            Opening::Extension => self.push_extension(),
            Opening::Disable => self.push_disable(),
            Opening::Update => self.push_update(true),
            Opening::Call => self.push_call(),
            Opening::BootDisabling => {
                self.push_disable();
                self.push_stores(DISABLING_STORES);
                let yes = self.random.once_in(2);
                self.push_update(yes);
            }
        }
    }

    fn open_any(&mut self) -> Opening {
        let opening = self.random.pick(&[
            Opening::Stash,
            Opening::Stash,
            Opening::Extension,
            Opening::Disable,
            Opening::Update,
            Opening::Update,
            Opening::Call,
        ]);
        self.open(opening);
        opening
    }

    /// A work that stops after some stores, and what comes then.
    fn interrupted(&mut self) {
        let opening = self.open_any();
        self.turn += 1;
        let number = opening.number();
        // The unit may be off, and the work another: the position is what counts.
        let position = match self.random.below(4) {
            0 => self.random.pick(&[0, 1, number - 1, number]),
            1 => self.random.between(0, number),
            _ => (self.seed / 2 + self.turn * 17) as usize % (number + 1),
        };
        if self.random.once_in(6) {
            for _ in 0..position.min(70) {
                self.push(Op::Store(1));
                self.push(Op::Left);
            }
        } else {
            self.push_stores(position);
        }
        if self.random.once_in(2) {
            self.push(Op::Dump);
        }
        match self.random.below(8) {
            0..=2 => self.push(Op::Cut),
            3 => {
                // Refused openings over it, then to its end.
                self.push_stash();
                self.push_bad_boot();
                self.push_any_request();
                self.peek();
                self.finish();
                self.push(Op::Answer(12));
            }
            4 => {
                let yes = self.random.once_in(2);
                self.push_update(yes);
            }
            5 => {
                self.push_bad_boot();
                self.push(Op::Left);
                self.finish();
            }
            6 => {
                self.push(Op::Cut);
                self.push_any_request();
                self.push_refused_request();
            }
            _ => {
                self.push_any_request();
                self.push(Op::Cut);
            }
        }
        self.boots_and_cuts();
    }

    /// Update boots, most of them cut, the last one not.
    fn boots_and_cuts(&mut self) {
        while self.random.once_in(2) {
            let yes = !self.random.once_in(3);
            self.push_update(yes);
            let most = self.random.pick(&[DISABLING_STORES, UPDATE_STORES]);
            let position = self.random.between(0, most);
            self.push_stores(position);
            if self.random.once_in(2) {
                self.push(Op::Cut);
            }
        }
        if self.random.once_in(4) {
            self.push_bad_manifest();
        }
        let yes = self.random.once_in(2);
        self.push_update(yes);
        self.push(Op::Left);
        self.finish();
        self.push(Op::Dump);
        if self.random.once_in(2) {
            self.push_stash();
            self.push(Op::Answer(12));
        }
    }

    /// A request that changes nothing, accepted.
    pub(super) fn push_small_request(&mut self) {
        if self.size < super::ENOUGH && self.random.once_in(3) {
            let table = self.good_table();
            self.push_request(IDENTITY, &[], table, false);
        } else {
            self.push_verify(true);
        }
    }
}
