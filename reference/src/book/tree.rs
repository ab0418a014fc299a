//! The book's nodes as a tree: a list of places that changes from event to event.

use super::{Event, Node, Reading, State};
use crate::layout::*;
use crate::memory::Tree;
use crate::tree::{Act, TreeCall};

/// A derived child is as a stash's node but for its handle and its svn.
pub(super) fn derived(parent: usize, call: &TreeCall) -> Node {
    let (kind, digest) = match call.act {
        Act::Derive { kind, digest, .. } => (kind, digest),
        _ => (0, ZERO),
    };
    Node {
        parent: Some(parent),
        tag: 0,
        handle: Some(call.fresh),
        current: digest,
        cumulative: extended(&ZERO, &digest),
        kind,
        locality: call.caller,
        svn: 0,
    }
}

/// A node without a child is freed with its last one if it is retired and not the
/// root.
pub(super) fn goes(node: &Node) -> bool {
    node.handle.is_none() && node.parent.is_some()
}

impl State {
    /// The place of the node with a handle.
    pub(super) fn with_handle(&self, handle: &Handle) -> Option<usize> {
        let has = |node: &Option<Node>| node.as_ref().is_some_and(|n| n.handle == Some(*handle));
        self.nodes.iter().position(has)
    }

    pub(super) fn has_room(&self) -> bool {
        self.nodes.iter().any(Option::is_none)
    }

    /// Whether a node has that parent.
    fn is_parent(&self, place: usize) -> bool {
        let mut nodes = self.nodes.iter().flatten();
        nodes.any(|node| node.parent == Some(place))
    }

    pub(super) fn node(&mut self, place: usize) -> &mut Node {
        self.nodes[place].as_mut().expect("a used node")
    }

    pub(super) fn retire(&mut self, place: usize) {
        self.node(place).handle = None;
    }

    /// Puts a node at the lowest free place.
    pub(super) fn put(&mut self, node: Node) {
        let free = self.nodes.iter().position(Option::is_none);
        self.nodes[free.expect("a free node")] = Some(node);
    }

    /// What a tree command does to its node and those around it.
    pub(super) fn called(&mut self, place: usize, call: &TreeCall, reading: Reading) {
        match call.act {
            Act::Derive { retain, .. } => {
                self.put((reading.derived)(place, call));
                if retain == 0 {
                    self.retire(place);
                }
            }
            Act::Extend { digest } => {
                let node = self.node(place);
                node.current = digest;
                node.cumulative = extended(&node.cumulative, &digest);
            }
            Act::Rotate => self.node(place).handle = Some(call.fresh),
            Act::Destroy => self.free(place, reading),
        }
    }

    /// Frees a place; then looks at the parent in the list as it now stands.
    pub(super) fn free(&mut self, place: usize, reading: Reading) {
        let freed = self.nodes[place].take().expect("a used node");
        let Some(above) = freed.parent else { return };
        let goes = self.nodes[above].as_ref().is_some_and(reading.goes);
        if goes && !self.is_parent(above) {
            self.free(above, reading);
        }
    }

    /// An event's number of stores: of a destroy, by the places that it frees.
    pub(super) fn stores(&self, event: &Event, reading: Reading) -> u32 {
        let freed = match event {
            Event::Tree(call) if call.act == Act::Destroy => {
                let used = |state: &State| state.nodes.iter().flatten().count();
                used(self) - used(&self.clone().after(event, reading))
            }
            _ => return event.sort().stores() as u32,
        };
        (2 + NODE_WORDS * freed) as u32
    }

    /// Whether one node is the root, every other leads to it, and no two have the
    /// same live handle.
    pub(super) fn is_well_formed(&self) -> bool {
        let roots = self.nodes.iter().flatten().filter(|n| n.parent.is_none());
        let used = || (0..NODES).filter(|&place| self.nodes[place].is_some());
        roots.count() == 1
            && used().all(|place| self.leads_up(place))
            && used().all(|place| self.has_own_handle(place))
    }

    /// Whether the way up from a place ends at the root.
    fn leads_up(&self, place: usize) -> bool {
        let mut at = place;
        for _ in 0..NODES {
            match &self.nodes[at] {
                None => return false,
                Some(node) => match node.parent {
                    None => return true,
                    Some(above) => at = above,
                },
            }
        }
        false
    }

    fn has_own_handle(&self, place: usize) -> bool {
        let handle = |place: usize| self.nodes[place].as_ref().and_then(|n| n.handle);
        let of_other = |other: usize| other != place && handle(other) == handle(place);
        handle(place).is_none() || !(0..NODES).any(of_other)
    }
}

impl Tree for State {
    fn named(&self, handle: &Handle) -> Option<usize> {
        self.with_handle(handle)
    }

    fn locality(&self, index: usize) -> u32 {
        self.nodes[index].as_ref().map_or(0, |node| node.locality)
    }

    fn is_root(&self, index: usize) -> bool {
        let node = self.nodes[index].as_ref();
        node.is_some_and(|node| node.parent.is_none())
    }

    fn has_child(&self, index: usize) -> bool {
        self.is_parent(index)
    }
}
