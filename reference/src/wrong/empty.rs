//! The empty builds that a contract has to rule out.

use crate::boots::{Boot, Boots, Inputs};
use crate::engine::Paper;
use crate::layout::*;
use crate::memory::Unit;
use crate::requests::{Accepted, Refusal, Request, Requests, View};
use crate::work::{Work, Works};

super::engines! {

RefuseAll: "every opening is refused with 2"
[requests: Requests] {
    fn order(&self, view: &View, request: Request) -> Vec<Refusal> {
        Paper.order(&View { done: false, ..*view }, request)
    }
}
[boots: Boots] {
    fn accept(&self, image: &[u32], _: Inputs) -> Result<Boot, u32> {
        if image.len() != IMAGE_WORDS {
            return Err(number::IMAGE);
        }
        Err(number::UNFINISHED)
    }
}

FixedAnswer: "every answer is zero bytes"
[requests: Requests] {
    fn decide(&self, view: &View, request: Request) -> Result<Accepted, u32> {
        let mut accepted = Paper.decide(view, request)?;
        accepted.answer.fill(0);
        Ok(accepted)
    }
}

StoreNothing: "a store changes no word"
[works: Works] {
    fn store(&self, work: &mut Work, image: &mut [u32]) -> u32 {
        Paper.store(work, &mut image.to_vec())
    }
}

AllAtOnce: "the first store makes all"
[works: Works] {
    fn store(&self, work: &mut Work, image: &mut [u32]) -> u32 {
        let number = Paper.store(work, image);
        while Paper.store(work, image) == 0 {}
        number
    }
}

LeftInvented: "one store too many is reported left"
[works: Works] {
    fn left(&self, work: &Work) -> u32 {
        match Paper.left(work) {
            0 => 0,
            left => left + 1,
        }
    }
}

AlwaysDisable: "every update boot disables"
[boots: Boots] {
    fn sound_root(&self, _: Unit) -> Option<usize> {
        None
    }
}

}
