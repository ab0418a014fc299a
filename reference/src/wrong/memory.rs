//! What is read of the image, its length, and "well formed".

use crate::boots::{Boot, Boots, Inputs, Opened};
use crate::engine::Paper;
use crate::layout::*;
use crate::memory::{count, low_half, Memory, Unit};
use crate::requests::{Request, Requests};
use crate::work::{Work, Works};
use std::iter::successors;

/// The words of an image as far as they are used.
fn cut(image: &[u32]) -> &[u32] {
    image.get(..IMAGE_WORDS).unwrap_or(image)
}

/// An image of that length as if it were whole: it goes on with zeros, or ends
/// where it should. Another is as it is.
pub(super) fn seen(image: &[u32], length: usize) -> Vec<u32> {
    let mut image = image.to_vec();
    if image.len() == length {
        image.resize(IMAGE_WORDS, 0);
    }
    image
}

/// The methods of an engine that takes images of a length for whole, by part.
macro_rules! takes {
    (requests, $length:expr) => {
        fn open(&self, unit: Unit, request: Request) -> Result<Work, u32> {
            let image = &seen(unit.image, $length);
            Paper.open(Unit { image, ..unit }, request)
        }
    };
    (boots, $length:expr) => {
        fn cold(&self, image: &[u32], inputs: Inputs) -> Result<Opened, u32> {
            Paper.cold(&seen(image, $length), inputs)
        }
        fn update(&self, unit: Unit, inputs: Inputs, verdict: bool) -> Result<Opened, u32> {
            let image = &seen(unit.image, $length);
            Paper.update(Unit { image, ..unit }, inputs, verdict)
        }
    };
    (works, $length:expr) => {
        fn store(&self, work: &mut Work, image: &mut [u32]) -> u32 {
            let mut whole = seen(image, $length);
            let number = Paper.store(work, &mut whole);
            let words = image.len().min(whole.len());
            image[..words].copy_from_slice(&whole[..words]);
            number
        }
    };
}
pub(super) use takes;

super::engines! {

LongImageTaken: "of a longer image the first words are taken"
[requests: Requests] {
    fn open(&self, unit: Unit, request: Request) -> Result<Work, u32> {
        Paper.open(Unit { image: cut(unit.image), ..unit }, request)
    }
}
[boots: Boots] {
    fn accept(&self, image: &[u32], inputs: Inputs) -> Result<Boot, u32> {
        Paper.accept(cut(image), inputs)
    }
}
[works: Works] {
    fn store(&self, work: &mut Work, image: &mut [u32]) -> u32 {
        let most = image.len().min(IMAGE_WORDS);
        Paper.store(work, &mut image[..most])
    }
}

ShortImageTaken: "an image may lack its last word"
[requests: Requests] {
    takes!(requests, IMAGE_WORDS - 1);
}
[boots: Boots] {
    takes!(boots, IMAGE_WORDS - 1);
}
[works: Works] {
    takes!(works, IMAGE_WORDS - 1);
}

MarkNonZero: "any mark but 0 is done"
[memory: Memory] {
    fn is_done(&self, image: &[u32]) -> bool {
        image[MARK] != 0
    }
}

OnNonZero: "any attestation but 0 is on"
[memory: Memory] {
    fn is_on(&self, image: &[u32]) -> bool {
        image[ATTESTATION] != 0
    }
}

RootByType: "the root is the first node of type RTJM"
[memory: Memory] {
    fn root(&self, image: &[u32]) -> Option<usize> {
        (0..NODES).find(|&i| self.is_used(image, i) && node_of(image, i)[TYPE] == RTJM)
    }
}

HolderIsRoot: "the new node's parent is the root"
[memory: Memory] {
    fn holder(&self, image: &[u32]) -> Option<usize> {
        self.root(image)
    }
}

LastFree: "the highest free node is taken"
[memory: Memory] {
    fn free_node(&self, image: &[u32]) -> Option<usize> {
        (0..NODES).rfind(|&index| self.is_free(image, index))
    }
}

NodeIsCount: "the new node is the number of used nodes"
[memory: Memory] {
    fn free_node(&self, image: &[u32]) -> Option<usize> {
        Some(count(|index| self.is_used(image, index))).filter(|&used| used < NODES)
    }
}

LowHalfParity: "used is an odd low half"
[memory: Memory] {
    fn is_used(&self, image: &[u32], index: usize) -> bool {
        low_half(image, index) % 2 == 1
    }
    fn is_free(&self, image: &[u32], index: usize) -> bool {
        low_half(image, index).is_multiple_of(2)
    }
    fn is_blank(&self, image: &[u32], index: usize) -> bool {
        FreeHighHalf.is_blank(image, index)
    }
}

LowHalfNonZero: "used is any low half but 0"
[memory: Memory] {
    fn is_used(&self, image: &[u32], index: usize) -> bool {
        low_half(image, index) != 0
    }
}

FreeHighHalf: "a free node's first word is not looked at"
[memory: Memory] {
    fn is_blank(&self, image: &[u32], index: usize) -> bool {
        node_of(image, index)[1..].iter().all(|&word| word == 0)
    }
}

FreeNotChecked: "a free node's words are not looked at"
[memory: Memory] {
    fn is_blank(&self, _: &[u32], _: usize) -> bool {
        true
    }
}

ParentByte: "the parent is taken from one byte"
[memory: Memory] {
    fn parent(&self, image: &[u32], index: usize) -> u32 {
        Paper.parent(image, index) & 0xFF
    }
}

TwoRoots: "two roots are fine"
[memory: Memory] {
    fn has_one_root(&self, image: &[u32]) -> bool {
        self.root(image).is_some()
    }
}

RootBitNotChecked: "the root may be without bit 31"
[memory: Memory] {
    fn internal_fine(&self, image: &[u32], index: usize) -> bool {
        self.is_root(image, index) || Paper.internal_fine(image, index)
    }
}

OtherBitNotChecked: "others may have bit 31"
[memory: Memory] {
    fn internal_fine(&self, image: &[u32], index: usize) -> bool {
        !self.is_root(image, index) || Paper.internal_fine(image, index)
    }
}

RootTypeNotChecked: "the root may have any type"
[memory: Memory] {
    fn type_fine(&self, _: &[u32], _: usize) -> bool {
        true
    }
}

RtjmOnlyRoot: "only the root may have type RTJM"
[memory: Memory] {
    fn type_fine(&self, image: &[u32], index: usize) -> bool {
        self.is_root(image, index) == (node_of(image, index)[TYPE] == RTJM)
    }
}

FlagsNotChecked: "flag bits 30 to 0 are not looked at"
[memory: Memory] {
    fn other_flags_fine(&self, _: &[u32], _: usize) -> bool {
        true
    }
}

SelfParent: "a node may be its own parent"
[memory: Memory] {
    fn leads_to_root(&self, image: &[u32], index: usize) -> bool {
        let mut way = successors(Some(index), |&at| self.next_up(image, at)).take(1 + MAX_STEPS);
        way.any(|at| self.is_root(image, at) || self.next_up(image, at) == Some(at))
    }
}

ParentBelow: "a parent must have a lower index"
[memory: Memory] {
    fn next_up(&self, image: &[u32], index: usize) -> Option<usize> {
        Paper.next_up(image, index).filter(|&parent| parent < index)
    }
}

FreeParent: "a parent may be a free node"
[memory: Memory] {
    fn next_up(&self, image: &[u32], index: usize) -> Option<usize> {
        let parent = self.parent(image, index) as usize;
        (parent < NODES).then_some(parent)
    }
}

TwoHolders: "two holders of the default handle are fine"
[memory: Memory] {
    fn has_few_holders(&self, _: &[u32]) -> bool {
        true
    }
}

HolderRequired: "without a holder of the default handle a tree is not well formed"
[memory: Memory] {
    fn has_few_holders(&self, image: &[u32]) -> bool {
        count(|index| self.is_holder(image, index)) == 1
    }
}

HandleFirstWord: "only a handle's first word is looked at"
[memory: Memory] {
    fn has_handle(&self, image: &[u32], index: usize, wanted: &[u32; HANDLE_WORDS]) -> bool {
        node_of(image, index)[HANDLE] == wanted[0]
    }
}

TagChecked: "tags must be zero"
[memory: Memory] {
    fn well_formed(&self, image: &[u32]) -> bool {
        Paper.well_formed(image) && (0..NODES).all(|index| node_of(image, index)[TAG] == 0)
    }
}

RootMustHold: "the root must be the holder or node 0"
[memory: Memory] {
    fn well_formed(&self, image: &[u32]) -> bool {
        let root = self.root(image);
        Paper.well_formed(image) && (root == Some(0) || root == self.holder(image))
    }
}

}
