//! Works by value: positions, indices and lengths from outside, and answers.

use crate::engine::Paper;
use crate::layout::*;
use crate::player::Host;
use crate::work::{Kind, Work, Works};

const LOW_HALF: u64 = 0xFFFF_FFFF;

/// A work with the position cut to 32 bits.
fn half_position(work: &Work) -> Work {
    let mut half = work.clone();
    half.position &= LOW_HALF;
    half
}

/// A work with the indices cut to 32 bits.
fn half_indices(work: &Work) -> Work {
    let mut half = work.clone();
    let indices = half.kind.indices();
    indices
        .into_iter()
        .for_each(|mut index| *index.value() &= LOW_HALF);
    half
}

/// A work with the answer's length cut to 32 bits.
fn half_length(work: &Work) -> Work {
    let mut half = work.clone();
    half.answer_bytes &= LOW_HALF;
    half
}

/// The methods of an engine that sees works so.
macro_rules! sees {
    ($half:ident) => {
        fn left(&self, work: &Work) -> u32 {
            Paper.left(&$half(work))
        }
        fn next_store(&self, work: &Work) -> Option<(usize, u32)> {
            Paper.next_store(&$half(work))
        }
        fn answer(&self, work: &Work, buffer: &mut [u8]) -> u32 {
            Paper.answer(&$half(work), buffer)
        }
    };
}
pub(super) use sees;

super::engines! {

PositionHalf: "the position is cut to 32 bits"
[works: Works] {
    sees!(half_position);
}

IndexHalf: "indices are cut to 32 bits"
[works: Works] {
    sees!(half_indices);
}

LengthHalf: "the answer's length is cut to 32 bits"
[works: Works] {
    sees!(half_length);
}

SameNodeRefused: "a stash whose node is its holder is damaged"
[works: Works] {
    fn is_sound(&self, work: &Work) -> bool {
        let same = matches!(work.kind, Kind::Stash { node, holder } if node == holder);
        Paper.is_sound(work) && !same
    }
}

CumulativeAtStore: "the root's cumulative is extended when its work starts to store"
[works: Works] {
    fn store(&self, work: &mut Work, image: &mut [u32]) -> u32 {
        let number = Paper.store(work, image);
        if let (0, 1, Kind::Update { root }) = (number, work.position, work.kind) {
            let old = bytes_of(&node_of(image, root as usize)[NODE_CUMULATIVE..]);
            work.set_node(NODE_CUMULATIVE, &extended(&old, &bytes_of(&work.journey)));
        }
        number
    }
}

PositionPast: "a position past the number is finished"
[works: Works] {
    fn answer(&self, work: &Work, buffer: &mut [u8]) -> u32 {
        let past = Work { kind: Kind::Nothing, position: 0, ..work.clone() };
        if self.left(work) == 0 && Paper.is_sound(&Work { position: 0, ..work.clone() }) {
            return Paper.answer(&past, buffer);
        }
        number::STORES_LEFT
    }
}

LongAnswerStores: "a work with a long answer may store"
[works: Works] {
    fn store(&self, work: &mut Work, image: &mut [u32]) -> u32 {
        let length = std::mem::replace(&mut work.answer_bytes, 0);
        let number = Paper.store(work, image);
        work.answer_bytes = length;
        number
    }
}

PositionByTwo: "a store moves the position by two"
[works: Works] {
    fn store(&self, work: &mut Work, image: &mut [u32]) -> u32 {
        let number = Paper.store(work, image);
        if number == 0 {
            work.position += 1;
        }
        number
    }
}

EqualSkipped: "a store skips words that are already right"
[works: Works] {
    fn store(&self, work: &mut Work, image: &mut [u32]) -> u32 {
        let number = Paper.store(work, image);
        let is_right = |&(word, value): &(usize, u32)| word != MARK && image[word] == value;
        if number == 0 {
            while self.next_store(work).filter(is_right).is_some() {
                work.position += 1;
            }
        }
        number
    }
}

DamagedAnswered: "7 is decided by the stores left"
[works: Works] {
    fn answer(&self, work: &Work, buffer: &mut [u8]) -> u32 {
        if self.left(work) > 0 {
            return number::STORES_LEFT;
        }
        let finished = Work {
            kind: Kind::Nothing,
            position: 0,
            answer_bytes: work.answer_bytes.min(ANSWER_MAX as u64),
            ..work.clone()
        };
        Paper.answer(&finished, buffer)
    }
}

EightBeforeSeven: "8 is told before 7"
[works: Works] {
    fn answer(&self, work: &Work, buffer: &mut [u8]) -> u32 {
        if (buffer.len() as u64) < work.answer_bytes {
            return number::BUFFER;
        }
        Paper.answer(work, buffer)
    }
}

BufferWrittenFirst: "the answer is written as far as it fits, then 8"
[works: Works] {
    fn answer(&self, work: &Work, buffer: &mut [u8]) -> u32 {
        let number = Paper.answer(work, buffer);
        if number == number::BUFFER {
            let fits = buffer.len();
            buffer.copy_from_slice(&work.answer[..fits]);
        }
        number
    }
}

RestCleared: "bytes past the answer are cleared"
[works: Works] {
    fn answer(&self, work: &Work, buffer: &mut [u8]) -> u32 {
        let number = Paper.answer(work, buffer);
        if number == 0 {
            buffer[work.answer_bytes as usize..].fill(0);
        }
        number
    }
}

BufferLonger: "the buffer must be longer than the answer"
[works: Works] {
    fn answer(&self, work: &Work, buffer: &mut [u8]) -> u32 {
        match buffer.split_last_mut() {
            Some((_, shorter)) if shorter.len() as u64 + 1 == work.answer_bytes => {
                Paper.answer(work, shorter)
            }
            None if work.answer_bytes == 0 && Paper.answer(work, &mut []) == 0 => number::BUFFER,
            _ => Paper.answer(work, buffer),
        }
    }
}

RefusedWithoutUndo: "a refused answer clears the buffer"
[works: Works] {
    fn answer(&self, work: &Work, buffer: &mut [u8]) -> u32 {
        let number = Paper.answer(work, buffer);
        if number == number::STORES_LEFT {
            buffer.fill(0);
        }
        number
    }
}

AnswerOnce: "the answer is gone once taken"
[host: Host] {
    fn after_answer(&self, work: Work) -> Work {
        Work { answer_bytes: 0, ..work }
    }
}

}
