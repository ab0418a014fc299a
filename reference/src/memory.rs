//! "What the unit holds": the mark, attestation, the nodes, and "well formed".

use crate::layout::*;
use std::iter::successors;

/// What is read of an image. Each rule is a method, so that an engine can be
/// wrong in just one.
pub trait Memory {
    fn is_done(&self, image: &[u32]) -> bool {
        image[MARK] == DONE
    }

    fn is_on(&self, image: &[u32]) -> bool {
        image[ATTESTATION] == ON
    }

    /// "Well formed", clause by clause.
    fn well_formed(&self, image: &[u32]) -> bool {
        let used = |&index: &usize| self.is_used(image, index);
        (0..NODES).all(|index| self.is_used(image, index) || self.is_free(image, index))
            && (0..NODES).all(|index| self.is_used(image, index) || self.is_blank(image, index))
            && self.has_one_root(image)
            && (0..NODES).filter(used).all(|index| {
                self.internal_fine(image, index)
                    && self.type_fine(image, index)
                    && self.other_flags_fine(image, index)
                    && self.leads_to_root(image, index)
            })
            && self.has_few_holders(image)
            && (0..NODES)
                .filter(used)
                .all(|index| self.is_alone(image, index))
    }

    /// The used node with the root's parent, if there is one.
    fn root(&self, image: &[u32]) -> Option<usize> {
        (0..NODES).find(|&index| self.is_root(image, index))
    }

    /// The used node with the default handle, if there is one.
    fn holder(&self, image: &[u32]) -> Option<usize> {
        (0..NODES).find(|&index| self.is_holder(image, index))
    }

    /// The lowest free node, if there is one.
    fn free_node(&self, image: &[u32]) -> Option<usize> {
        (0..NODES).find(|&index| self.is_free(image, index))
    }

    fn is_used(&self, image: &[u32], index: usize) -> bool {
        low_half(image, index) == USED
    }

    fn is_free(&self, image: &[u32], index: usize) -> bool {
        low_half(image, index) == FREE
    }

    /// Whether a node's words are all zero.
    fn is_blank(&self, image: &[u32], index: usize) -> bool {
        node_of(image, index).iter().all(|&word| word == 0)
    }

    fn parent(&self, image: &[u32], index: usize) -> u32 {
        node_of(image, index)[0] >> 16
    }

    fn is_root(&self, image: &[u32], index: usize) -> bool {
        self.is_used(image, index) && self.parent(image, index) == ROOT_PARENT
    }

    fn has_one_root(&self, image: &[u32]) -> bool {
        count(|index| self.is_root(image, index)) == 1
    }

    /// Bit 31 is the root's, and no other's.
    fn internal_fine(&self, image: &[u32], index: usize) -> bool {
        let internal = node_of(image, index)[FLAGS] & INTERNAL != 0;
        internal == self.is_root(image, index)
    }

    /// The root's type is RTJM, which others may have too.
    fn type_fine(&self, image: &[u32], index: usize) -> bool {
        !self.is_root(image, index) || node_of(image, index)[TYPE] == RTJM
    }

    fn other_flags_fine(&self, image: &[u32], index: usize) -> bool {
        node_of(image, index)[FLAGS] & !INTERNAL == 0
    }

    /// Whether the parents lead to the root in few enough steps.
    fn leads_to_root(&self, image: &[u32], index: usize) -> bool {
        let mut way = successors(Some(index), |&at| self.next_up(image, at)).take(1 + MAX_STEPS);
        way.any(|at| self.is_root(image, at))
    }

    /// The parent, if it is a used node.
    fn next_up(&self, image: &[u32], index: usize) -> Option<usize> {
        let parent = self.parent(image, index) as usize;
        (parent < NODES && self.is_used(image, parent)).then_some(parent)
    }

    fn is_holder(&self, image: &[u32], index: usize) -> bool {
        self.is_used(image, index) && self.has_handle(image, index, &DEFAULT_HANDLE)
    }

    fn has_few_holders(&self, image: &[u32]) -> bool {
        count(|index| self.is_holder(image, index)) <= 1
    }

    /// Whether no other used node has a node's handle, if that is neither the
    /// default one nor retired.
    fn is_alone(&self, image: &[u32], index: usize) -> bool {
        let handle = handle_of(image, index);
        let same =
            |&other: &usize| self.is_used(image, other) && self.has_handle(image, other, &handle);
        let others = (0..NODES).filter(|&other| other != index);
        self.is_holder(image, index)
            || self.is_retired(image, index)
            || others.filter(same).count() == 0
    }

    fn is_retired(&self, image: &[u32], index: usize) -> bool {
        self.has_handle(image, index, &RETIRED_HANDLE)
    }

    fn has_handle(&self, image: &[u32], index: usize, wanted: &[u32; HANDLE_WORDS]) -> bool {
        handle_of(image, index) == *wanted
    }

    /// The used node with a handle, if it is not the retired one.
    fn named(&self, image: &[u32], handle: &Handle) -> Option<usize> {
        let wanted = handle_words(handle);
        let has = |&index: &usize| {
            self.is_used(image, index)
                && !self.is_retired(image, index)
                && self.has_handle(image, index, &wanted)
        };
        (0..NODES).find(has)
    }

    fn locality(&self, image: &[u32], index: usize) -> u32 {
        node_of(image, index)[LOCALITY]
    }

    /// The used nodes whose parent is that one.
    fn children(&self, image: &[u32], index: usize) -> Vec<usize> {
        let below = |&other: &usize| {
            self.is_used(image, other) && self.parent(image, other) as usize == index
        };
        (0..NODES).filter(below).collect()
    }

    /// What a destroy of a node frees: it, and upwards each ancestor that is
    /// retired, not the root, and left without a child.
    fn freed(&self, image: &[u32], index: usize) -> Vec<usize> {
        let mut freed = vec![index];
        let mut last = index;
        while let Some(above) = self.next_up(image, last) {
            if freed.len() == NODES || !self.goes_with(image, above, &freed) {
                break;
            }
            freed.push(above);
            last = above;
        }
        freed
    }

    /// Whether an ancestor of freed nodes is freed too.
    fn goes_with(&self, image: &[u32], above: usize, freed: &[usize]) -> bool {
        let children = self.children(image, above);
        !self.is_root(image, above)
            && self.is_retired(image, above)
            && children.iter().all(|child| freed.contains(child))
    }
}

/// A node's handle.
pub fn handle_of(image: &[u32], index: usize) -> [u32; HANDLE_WORDS] {
    std::array::from_fn(|i| node_of(image, index)[HANDLE + i])
}

/// What the request rules ask of a tree: of the image's, or of the book's.
pub trait Tree {
    /// The live node with a handle.
    fn named(&self, handle: &Handle) -> Option<usize>;
    fn locality(&self, index: usize) -> u32;
    fn is_root(&self, index: usize) -> bool;
    fn has_child(&self, index: usize) -> bool;
}

/// An image, and how it is read.
#[derive(Clone, Copy)]
pub struct Unit<'a> {
    pub memory: &'a dyn Memory,
    pub image: &'a [u32],
}

impl Unit<'_> {
    pub fn is_done(self) -> bool {
        self.memory.is_done(self.image)
    }

    pub fn is_on(self) -> bool {
        self.memory.is_on(self.image)
    }

    pub fn is_well_formed(self) -> bool {
        self.memory.well_formed(self.image)
    }

    pub fn root(self) -> Option<usize> {
        self.memory.root(self.image)
    }

    pub fn holder(self) -> Option<usize> {
        self.memory.holder(self.image)
    }

    pub fn free_node(self) -> Option<usize> {
        self.memory.free_node(self.image)
    }

    pub fn freed(self, index: usize) -> Vec<usize> {
        self.memory.freed(self.image, index)
    }

    /// The bytes of a register, of a measurement or of the secret.
    pub fn bytes_at(self, word: usize) -> Digest {
        bytes_of(&self.image[word..])
    }
}

impl Tree for Unit<'_> {
    fn named(&self, handle: &Handle) -> Option<usize> {
        self.memory.named(self.image, handle)
    }

    fn locality(&self, index: usize) -> u32 {
        self.memory.locality(self.image, index)
    }

    fn is_root(&self, index: usize) -> bool {
        self.memory.is_root(self.image, index)
    }

    fn has_child(&self, index: usize) -> bool {
        !self.memory.children(self.image, index).is_empty()
    }
}

pub(crate) fn low_half(image: &[u32], index: usize) -> u32 {
    node_of(image, index)[0] & 0xFFFF
}

/// How many nodes are so.
pub(crate) fn count(holds: impl Fn(usize) -> bool) -> usize {
    (0..NODES).filter(|&index| holds(index)).count()
}
