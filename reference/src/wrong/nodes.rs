//! The number of nodes: searches that end too early, ways, parents and works with
//! other bounds, images and cold boots of other lengths.
//!
//! A way of one step more cannot be told: where no root is met in as many steps
//! as there are nodes but one, the way is a loop. Nor can a test be told that only
//! leaves out whether the last node is used or free: one that is neither is not
//! blank.

use super::boots::altered;
use super::memory::{seen, takes};
use super::works::sees;
use crate::boots::{Boots, Inputs, Opened};
use crate::engine::Paper;
use crate::generate::{FORMER_NODES, FORMER_WORDS};
use crate::layout::*;
use crate::memory::{count, Memory, Unit};
use crate::requests::{Request, Requests};
use crate::work::{Field, Kind, Work, Works};
use std::iter::successors;

const LAST: usize = NODES - 1;

/// An image whose nodes from one on are free.
fn ending(image: &[u32], index: usize) -> Vec<u32> {
    let mut image = image.to_vec();
    image[node(index)..].fill(0);
    image
}

/// Whether the parents lead to the root in that many steps.
fn leads_in(memory: &dyn Memory, image: &[u32], index: usize, most: usize) -> bool {
    let way = successors(Some(index), |&at| memory.next_up(image, at));
    way.take(1 + most).any(|at| memory.is_root(image, at))
}

/// The lowest free node, unless that many nodes are used.
fn free_below(image: &[u32], most: usize) -> Option<usize> {
    let used = count(|index| Paper.is_used(image, index));
    Paper.free_node(image).filter(|_| used < most)
}

/// A cold boot that leaves the nodes from one on.
fn sparing(image: &[u32], inputs: Inputs, index: usize) -> Result<Opened, u32> {
    altered(image, inputs, |words| {
        words[node(index)..].copy_from_slice(&image[node(index)..])
    })
}

/// The fields of a work; a cold boot ends at that word.
fn cold_until(work: &Work, end: usize) -> Vec<Field<'_>> {
    let mut fields = Paper.fields(work);
    if work.kind == Kind::Cold {
        fields[1].1 = &work.whole[..end - ATTESTATION];
    }
    fields
}

/// A work whose nodes are taken modulo the number of nodes.
fn wrapped(work: &Work) -> Work {
    let mut wrapped = work.clone();
    if wrapped.kind.sort() != Sort::Extension {
        let indices = wrapped.kind.indices();
        indices
            .into_iter()
            .for_each(|mut index| *index.value() %= NODES as u64);
    }
    wrapped
}

super::engines! {

RootSearchShort: "the root is not looked for in the last node"
[memory: Memory] {
    fn root(&self, image: &[u32]) -> Option<usize> {
        Paper.root(image).filter(|&root| root != LAST)
    }
}

HolderSearchShort: "the holder is not looked for in the last node"
[memory: Memory] {
    fn holder(&self, image: &[u32]) -> Option<usize> {
        Paper.holder(image).filter(|&holder| holder != LAST)
    }
}

FreeSearchShort: "a free node is not looked for in the last node"
[memory: Memory] {
    fn free_node(&self, image: &[u32]) -> Option<usize> {
        Paper.free_node(image).filter(|&free| free != LAST)
    }
}

RootsCountedShort: "roots are counted without the last node"
[memory: Memory] {
    fn has_one_root(&self, image: &[u32]) -> bool {
        count(|index| index != LAST && self.is_root(image, index)) == 1
    }
}

HoldersCountedShort: "holders of the default handle are counted without the last node"
[memory: Memory] {
    fn has_few_holders(&self, image: &[u32]) -> bool {
        count(|index| index != LAST && self.is_holder(image, index)) <= 1
    }
}

LastBlankNotChecked: "the words of the last node are not looked at if it is free"
[memory: Memory] {
    fn is_blank(&self, image: &[u32], index: usize) -> bool {
        index == LAST || Paper.is_blank(image, index)
    }
}

LastNeither: "the last node is free unless it is used"
[memory: Memory] {
    fn well_formed(&self, image: &[u32]) -> bool {
        if Paper.is_used(image, LAST) {
            return Paper.well_formed(image);
        }
        Paper.well_formed(&ending(image, LAST))
    }
}

LastBitNotChecked: "bit 31 of the last node is not looked at"
[memory: Memory] {
    fn internal_fine(&self, image: &[u32], index: usize) -> bool {
        index == LAST || Paper.internal_fine(image, index)
    }
}

LastTypeNotChecked: "the root may have any type in the last node"
[memory: Memory] {
    fn type_fine(&self, image: &[u32], index: usize) -> bool {
        index == LAST || Paper.type_fine(image, index)
    }
}

LastFlagsNotChecked: "flag bits 30 to 0 of the last node are not looked at"
[memory: Memory] {
    fn other_flags_fine(&self, image: &[u32], index: usize) -> bool {
        index == LAST || Paper.other_flags_fine(image, index)
    }
}

LastWayNotWalked: "the last node's way to the root is not walked"
[memory: Memory] {
    fn leads_to_root(&self, image: &[u32], index: usize) -> bool {
        index == LAST || Paper.leads_to_root(image, index)
    }
}

LastHandleNotChecked: "the last node's handle is not compared with others"
[memory: Memory] {
    fn is_alone(&self, image: &[u32], index: usize) -> bool {
        index == LAST || Paper.is_alone(&ending(image, LAST), index)
    }
}

FormerNodesOnly: "the nodes behind the former ones are not looked at"
[memory: Memory] {
    fn well_formed(&self, image: &[u32]) -> bool {
        Paper.well_formed(&ending(image, FORMER_NODES))
    }
    fn root(&self, image: &[u32]) -> Option<usize> {
        Paper.root(image).filter(|&root| root < FORMER_NODES)
    }
    fn holder(&self, image: &[u32]) -> Option<usize> {
        Paper.holder(image).filter(|&holder| holder < FORMER_NODES)
    }
    fn free_node(&self, image: &[u32]) -> Option<usize> {
        Paper.free_node(image).filter(|&free| free < FORMER_NODES)
    }
}

FullOneEarly: "a stash is declined when one node is free"
[memory: Memory] {
    fn free_node(&self, image: &[u32]) -> Option<usize> {
        free_below(image, LAST)
    }
}

FullAsBefore: "a stash is declined when as many nodes are used as there were before"
[memory: Memory] {
    fn free_node(&self, image: &[u32]) -> Option<usize> {
        free_below(image, FORMER_NODES)
    }
}

FullByLast: "a stash is declined when the last node is used"
[memory: Memory] {
    fn free_node(&self, image: &[u32]) -> Option<usize> {
        Paper.free_node(image).filter(|_| !self.is_used(image, LAST))
    }
}

StepTooFew: "the way to the root may have one step fewer"
[memory: Memory] {
    fn leads_to_root(&self, image: &[u32], index: usize) -> bool {
        leads_in(self, image, index, MAX_STEPS - 1)
    }
}

StepsAsBefore: "the way to the root may have as many steps as before"
[memory: Memory] {
    fn leads_to_root(&self, image: &[u32], index: usize) -> bool {
        leads_in(self, image, index, FORMER_NODES - 1)
    }
}

ParentNotLast: "the last node is no parent"
[memory: Memory] {
    fn next_up(&self, image: &[u32], index: usize) -> Option<usize> {
        Paper.next_up(image, index).filter(|&parent| parent != LAST)
    }
}

ParentAsBefore: "a parent is one of the former nodes"
[memory: Memory] {
    fn next_up(&self, image: &[u32], index: usize) -> Option<usize> {
        Paper.next_up(image, index).filter(|&parent| parent < FORMER_NODES)
    }
}

ParentPastEnd: "the index behind the last node is the root's for a parent"
[memory: Memory] {
    fn next_up(&self, image: &[u32], index: usize) -> Option<usize> {
        if self.parent(image, index) as usize == NODES {
            return self.root(image);
        }
        Paper.next_up(image, index)
    }
}

ParentModulo: "a parent is taken modulo the number of nodes"
[memory: Memory] {
    fn next_up(&self, image: &[u32], index: usize) -> Option<usize> {
        let parent = self.parent(image, index) as usize % NODES;
        self.is_used(image, parent).then_some(parent)
    }
}

WorkNodeNotLast: "a work with the last node is damaged"
[works: Works] {
    fn is_node(&self, index: u64) -> bool {
        index < LAST as u64
    }
}

WorkNodeAsBefore: "a work's nodes are of the former ones"
[works: Works] {
    fn is_node(&self, index: u64) -> bool {
        index < FORMER_NODES as u64
    }
}

NodePastEnd: "the index behind the last node is taken as it stands"
[works: Works] {
    fn is_node(&self, index: u64) -> bool {
        index <= NODES as u64
    }
    fn store(&self, work: &mut Work, image: &mut [u32]) -> u32 {
        if image.len() != IMAGE_WORDS || self.left(work) == 0 {
            return Paper.store(work, image);
        }
        // What is aimed past the end is lost.
        let aimed = self.next_store(work);
        if let Some((word, value)) = aimed.filter(|&(word, _)| word < IMAGE_WORDS) {
            image[word] = value;
        }
        work.position += 1;
        0
    }
}

WorkNodeModulo: "a work's nodes are taken modulo the number of nodes"
[works: Works] {
    sees!(wrapped);
}

FormerImageTaken: "an image of the former length is taken"
[requests: Requests] {
    takes!(requests, FORMER_WORDS);
}
[boots: Boots] {
    takes!(boots, FORMER_WORDS);
}
[works: Works] {
    takes!(works, FORMER_WORDS);
}

NodeTooLongTaken: "an image that is one node too long is taken"
[requests: Requests] {
    takes!(requests, IMAGE_WORDS + NODE_WORDS);
}
[boots: Boots] {
    takes!(boots, IMAGE_WORDS + NODE_WORDS);
}
[works: Works] {
    takes!(works, IMAGE_WORDS + NODE_WORDS);
}

NodeTooShortTaken: "an image may lack its last node"
[requests: Requests] {
    takes!(requests, IMAGE_WORDS - NODE_WORDS);
}
[boots: Boots] {
    takes!(boots, IMAGE_WORDS - NODE_WORDS);
}
[works: Works] {
    takes!(works, IMAGE_WORDS - NODE_WORDS);
}

ColdKeepsLastNode: "a cold boot leaves the last node"
[boots: Boots] {
    fn cold(&self, image: &[u32], inputs: Inputs) -> Result<Opened, u32> {
        sparing(image, inputs, LAST)
    }
}

ColdKeepsNewNodes: "a cold boot leaves the nodes behind the former ones"
[boots: Boots] {
    fn cold(&self, image: &[u32], inputs: Inputs) -> Result<Opened, u32> {
        sparing(image, inputs, FORMER_NODES)
    }
}

ColdWithoutNode: "a cold boot makes a node's stores fewer, without the last node"
[works: Works] {
    fn fields<'a>(&self, work: &'a Work) -> Vec<Field<'a>> {
        cold_until(work, node(LAST))
    }
}

ColdAsBefore: "a cold boot makes as many stores as before"
[works: Works] {
    fn fields<'a>(&self, work: &'a Work) -> Vec<Field<'a>> {
        cold_until(work, FORMER_WORDS)
    }
}

}
