//! Ends of scripts: an operation cut short, an unknown letter, an image that
//! is too long, a slice longer than the input. Operations behind them must not
//! be made.

use super::Maker;
use crate::layout::COLD_STORES;
use crate::script::{Op, LENT_WORDS, LETTERS, TOTAL};

impl Maker {
    pub(super) fn broken_tail(&mut self) -> Vec<u8> {
        match self.random.below(9) {
            0 => {
                let any = self.random.below(256) as u8;
                let near = self.random.pick(b"icursaljxdwBFEZ\0\n");
                let mut letter = self.random.pick(&[any, near]);
                while LETTERS.contains(&letter) {
                    letter = letter.wrapping_add(1);
                }
                let mut tail = vec![letter];
                tail.extend_from_slice(b"LDLD");
                tail
            }
            1 => {
                let long = LENT_WORDS as u32 + 1;
                let count = self.random.pick(&[
                    long,
                    long + 1,
                    0x0001_0000,
                    0x4000_0000,
                    0x4000_0001,
                    u32::MAX,
                ]);
                let mut tail = vec![b'I'];
                tail.extend_from_slice(&count.to_le_bytes());
                if count == long && self.size < 8_000 {
                    tail.resize(tail.len() + 4 * long as usize, 0);
                }
                tail.extend_from_slice(b"LDLD");
                tail
            }
            2 => {
                // A slice longer than what is left of the input.
                let length = self
                    .random
                    .pick(&[5, 6, 255, 0x0001_0000, 0x8000_0000, u32::MAX]);
                let mut tail = vec![b'f'];
                tail.extend_from_slice(&length.to_le_bytes());
                tail.extend_from_slice(b"eeDe");
                tail
            }
            _ => {
                let bytes = self.any_op().bytes();
                let most = bytes.len() - 1;
                let length = match self.random.below(4) {
                    0 => most,
                    1 => self.random.between(0, most.min(12)),
                    _ => self.random.between(0, most),
                };
                bytes[..length].to_vec()
            }
        }
    }

    fn any_op(&mut self) -> Op {
        let mark = self.ops.len();
        // They take turns from seed to seed.
        match self.seed / 8 % 12 {
            0 => {
                let words = self.random.words(3);
                self.push(Op::Image(words));
            }
            1 => self.push_cold(),
            2 => self.push_update(true),
            3 => self.push_stash(),
            4 => self.push_stores(COLD_STORES),
            5 => self.push(Op::Answer(12)),
            9 => self.push_entry(),
            10 => self.push_call(),
            6 => self.push(Op::Set {
                field: 0,
                value: 1 << 40,
            }),
            7 => {
                let slice = self.random.bytes(9);
                self.push(Op::Feed(slice));
            }
            8 => self.push(Op::SetCount {
                field: TOTAL,
                value: 1 << 40,
            }),
            _ => self.push_disable(),
        }
        // Another operation may have come before it.
        let op = self.ops[self.ops.len() - 1].clone();
        self.ops.truncate(mark);
        op
    }
}
