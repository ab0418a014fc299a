//! Extensions: registers within their bounds and outside, with every other
//! fault and at every sort of unit.

use super::Maker;
use crate::checksum::sealed;
use crate::layout::*;
use crate::random::Random;
use crate::script::Op;

/// Numbers that a request's register may not be: near the bounds, or one within
/// them if a part of the number counts.
const OUTSIDE: [u32; 17] = [
    0,
    1,
    2,
    3,
    3,
    31,
    31,
    32,
    36,
    62,
    0x104,
    0x11E,
    0x0004_0000,
    0x0400_0000,
    0x1E00_0000,
    0x8000_0004,
    u32::MAX,
];

/// The same for the register of a work, which has 64 bits.
const OUTSIDE_IN_WORK: [u64; 10] = [
    0,
    3,
    31,
    32,
    36,
    0x104,
    (1 << 32) + 4,
    (1 << 32) + 30,
    1 << 63,
    u64::MAX,
];

/// A register that may be extended, the first and the last more often.
pub(super) fn within(random: &mut Random) -> u64 {
    let (first, last) = (*EXTENDABLE.start(), *EXTENDABLE.end());
    let any = random.between(first as usize, last as usize) as u64;
    random.pick(&[first, last, any, any, any, any])
}

/// A work's register that is outside.
pub(super) fn outside_in_work(random: &mut Random) -> u64 {
    random.pick(&OUTSIDE_IN_WORK)
}

/// A request's register that is outside.
pub(super) fn outside(random: &mut Random) -> u32 {
    let any = random.half();
    let listed = random.pick(&OUTSIDE);
    let is_outside = !EXTENDABLE.contains(&u64::from(any));
    if is_outside && random.once_in(6) {
        any
    } else {
        listed
    }
}

/// Sets the register of a request's bytes behind the checksum, if they reach so
/// far: it is mostly within.
pub(super) fn set_register(random: &mut Random, code: u32, body: &mut [u8]) {
    let register = match random.below(4) {
        0 => outside(random),
        _ => within(random) as u32,
    };
    if code == EXTEND {
        if let Some(field) = body.first_chunk_mut() {
            *field = register.to_le_bytes();
        }
    }
}

impl Maker {
    /// An extension of a register that is fine.
    pub(super) fn push_extension(&mut self) {
        let register = within(&mut self.random) as u32;
        self.push_extension_of(register);
    }

    /// An extension of a register that is outside.
    pub(super) fn push_outside(&mut self) {
        let register = outside(&mut self.random);
        self.push_extension_of(register);
    }

    pub(super) fn push_extension_of(&mut self, register: u32) {
        let mut body = register.to_le_bytes().to_vec();
        body.extend(self.digest());
        let yes = self.random.once_in(2);
        self.push_request(EXTEND, &body, Vec::new(), yes);
    }

    /// A whole extension.
    fn extend(&mut self, register: u32) {
        self.push_extension_of(register);
        self.push_stores(EXTENSION_STORES);
    }

    /// Extensions on one unit, which is then turned off, and on others some whose
    /// register is set.
    pub(super) fn extensions(&mut self) {
        if !self.random.once_in(3) {
            self.push_booted();
        }
        self.extensions_in_turn();
        self.faulty_extensions();
        self.push_update(true);
        self.finish();
        self.push(Op::Dump);
        self.extensions_when_off();
        for turn in 0..2 {
            self.moved_extension(self.seed as usize / 8 * 2 + turn);
        }
    }

    /// A register that goes through all from seed to seed, twice, and another
    /// one between, cut or replaced now and then.
    fn extensions_in_turn(&mut self) {
        let all = EXTENDABLE.end() - EXTENDABLE.start() + 1;
        let register = (EXTENDABLE.start() + self.seed % all) as u32;
        self.extend(register);
        let between = within(&mut self.random) as u32;
        self.extend(between);
        self.push(Op::Answer(9));
        self.extend(register);
        self.push(Op::Dump);
        if self.random.once_in(3) {
            let made = self.random.between(0, EXTENSION_STORES);
            self.push_extension();
            self.push_stores(made);
            match self.random.below(3) {
                0 => self.push(Op::Cut),
                1 => self.push_update(true),
                _ => self.push_extension(),
            }
            self.push(Op::Dump);
        }
    }

    /// A wrong length, a wrong register, and a wrong checksum with either.
    fn faulty_extensions(&mut self) {
        for length in [8, 55, 57, 60] {
            self.push_extension_of_length(length);
        }
        for _ in 0..3 {
            self.push_outside();
            self.push(Op::Left);
        }
        for _ in 0..2 {
            let mut body = self.random.bytes(4 + DIGEST_WORDS * 4);
            set_register(&mut self.random, EXTEND, &mut body);
            let mut bytes = sealed(EXTEND, &body);
            super::requests::spoil(&mut self.random, EXTEND, &mut bytes);
            self.push_mail(EXTEND, bytes, Vec::new(), true);
        }
    }

    fn push_extension_of_length(&mut self, length: usize) {
        let mut body = self.random.bytes(length - CHECKSUM_BYTES);
        set_register(&mut self.random, EXTEND, &mut body);
        self.push_request(EXTEND, &body, Vec::new(), true);
    }

    /// On a unit that a command has turned off, or the boot after a torn work.
    fn extensions_when_off(&mut self) {
        if self.random.once_in(2) {
            self.push_disable();
        } else {
            self.push_extension();
            let made = self.random.between(1, EXTENSION_STORES - 1);
            self.push_stores(made);
            self.push(Op::Cut);
            self.push_update(true);
        }
        self.push_stores(DISABLING_STORES);
        self.push_extension();
        self.push(Op::Left);
        self.push_outside();
        self.push_extension();
        self.push_stores(EXTENSION_STORES);
        self.push(Op::Dump);
    }

    /// The second extension of a register, which is set before, between or after
    /// its stores. Places and numbers outside take turns.
    fn moved_extension(&mut self, in_turn: usize) {
        self.push_booted();
        let register = within(&mut self.random) as u32;
        self.extend(register);
        self.push_extension_of(register);
        let between = self.random.between(1, EXTENSION_STORES - 1);
        self.push_stores([0, between, EXTENSION_STORES][in_turn % 3]);
        if self.random.once_in(2) {
            self.set_within();
            self.push(Op::Left);
        }
        self.set(1, OUTSIDE_IN_WORK[in_turn / 3 % OUTSIDE_IN_WORK.len()]);
        if self.random.once_in(3) {
            let second = self.random.pick(&[0, NODES as u64, u64::MAX]);
            self.set(2, second);
        }
        self.push(Op::Left);
        self.push(Op::Store(1));
        self.push(Op::Answer(8));
        if self.random.once_in(2) {
            self.set_within();
        }
        self.push_stores(EXTENSION_STORES);
        self.push(Op::Answer(9));
        self.push(Op::Dump);
    }

    fn set_within(&mut self) {
        let register = within(&mut self.random);
        self.set(1, register);
    }
}
