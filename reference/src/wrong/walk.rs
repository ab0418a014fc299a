//! Shortcuts of the way to the root, that each node's need not be walked anew.

use crate::layout::*;
use crate::memory::Memory;
use std::iter::successors;

/// A node's way up, itself first, with as many steps as there may be.
fn way<'a>(
    memory: &'a dyn Memory,
    image: &'a [u32],
    index: usize,
) -> impl Iterator<Item = usize> + 'a {
    successors(Some(index), |&at| memory.next_up(image, at)).take(1 + MAX_STEPS)
}

/// The nodes that are found to lead in passes over all, each in its own order: a
/// node does if its parent was found before it.
fn found(memory: &dyn Memory, image: &[u32], passes: &[Vec<usize>]) -> [bool; NODES] {
    let mut leads = std::array::from_fn(|index| memory.is_root(image, index));
    for &index in passes.concat().iter() {
        let parent = memory.next_up(image, index);
        leads[index] |= parent.is_some_and(|parent| leads[parent]);
    }
    leads
}

fn upwards() -> Vec<usize> {
    (0..NODES).collect()
}

fn downwards() -> Vec<usize> {
    (0..NODES).rev().collect()
}

super::engines! {

LowerUnused: "a way ends well at an index below its start, used or not"
[memory: Memory] {
    fn leads_to_root(&self, image: &[u32], index: usize) -> bool {
        let parent = |at: usize| self.parent(image, at) as usize;
        way(self, image, index).any(|at| self.is_root(image, at) || parent(at) < index)
    }
}

LowerThanBefore: "a way ends well where the index falls"
[memory: Memory] {
    fn leads_to_root(&self, image: &[u32], index: usize) -> bool {
        let falls = |at: usize| self.next_up(image, at).is_some_and(|next| next < at);
        way(self, image, index).any(|at| self.is_root(image, at) || falls(at))
    }
}

EndsAtNodeZero: "a way ends well at node 0"
[memory: Memory] {
    fn leads_to_root(&self, image: &[u32], index: usize) -> bool {
        way(self, image, index).any(|at| self.is_root(image, at) || at == 0)
    }
}

EndsAtHolder: "a way ends well at the holder of the default handle"
[memory: Memory] {
    fn leads_to_root(&self, image: &[u32], index: usize) -> bool {
        way(self, image, index).any(|at| self.is_root(image, at) || self.is_holder(image, at))
    }
}

MarkedTooEarly: "a way marks its nodes as leading before its end is known"
[memory: Memory] {
    fn leads_to_root(&self, image: &[u32], index: usize) -> bool {
        let mut leads = [false; NODES];
        way(self, image, index).any(|at| {
            self.is_root(image, at) || std::mem::replace(&mut leads[at], true)
        })
    }
}

MarkedFromStart: "a way may end at its own start"
[memory: Memory] {
    fn leads_to_root(&self, image: &[u32], index: usize) -> bool {
        let back = |at: usize| self.next_up(image, at) == Some(index);
        way(self, image, index).any(|at| self.is_root(image, at) || back(at))
    }
}

HolderWalkedOnly: "only the holder's way to the root is walked"
[memory: Memory] {
    fn leads_to_root(&self, image: &[u32], index: usize) -> bool {
        let mut way = way(self, image, index);
        !self.is_holder(image, index) || way.any(|at| self.is_root(image, at))
    }
}

LowerParentOnly: "a parent need only have a lower index"
[memory: Memory] {
    fn leads_to_root(&self, image: &[u32], index: usize) -> bool {
        let lower = (self.parent(image, index) as usize) < index;
        self.is_root(image, index) || lower
    }
}

OnePassUp: "the nodes that lead are found in one pass from the first to the last"
[memory: Memory] {
    fn leads_to_root(&self, image: &[u32], index: usize) -> bool {
        found(self, image, &[upwards()])[index]
    }
}

PassUpAndDown: "the nodes that lead are found in one pass up and one down"
[memory: Memory] {
    fn leads_to_root(&self, image: &[u32], index: usize) -> bool {
        found(self, image, &[upwards(), downwards()])[index]
    }
}

}
