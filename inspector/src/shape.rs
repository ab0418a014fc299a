//! What a unit makes of its image's nodes: whether they are well formed (docs/REFERENCE.md, 3.5), and what
//! their handles leave to measure.

use crate::image::{Handle, Image, Node, Parent, ROOT_FLAGS, ROOT_TYPE};
use crate::tree::tree;
use crate::words::places_words;

/// A sentence on nodes that would surprise a reader. With attestation off or a work unfinished it is not the
/// nodes that decide.
pub fn remark(image: &Image) -> Option<String> {
    if image.mark() != 1 || !image.is_on() {
        return None;
    }
    let nodes: Vec<Node> = image.nodes().map(|(_, node)| node).collect();
    if let Some(fault) = fault(&nodes) {
        return Some(format!(
            "The image's nodes are not well formed: {fault}. The unit refuses every stash and every tree \
             command with 11, and its next update boot switches attestation off."
        ));
    }
    let live: Vec<Handle> = handles(&nodes).filter(|handle| handle.is_live()).collect();
    if live.is_empty() {
        return Some(
            "No node has a live handle: until a cold boot nothing can be measured. Every stash is declined \
             with 3, every tree command with 6; registers can still be extended and the runtime updated."
                .into(),
        );
    }
    let has_holder = live.contains(&Handle::Default);
    (!has_holder).then(|| {
        "No node has the default handle: every stash is declined with 3 until a cold boot. Only tree \
         commands can measure, with a live handle."
            .into()
    })
}

fn handles(nodes: &[Node]) -> impl Iterator<Item = Handle> + '_ {
    let used = nodes.iter().filter(|node| node.is_used());
    used.map(Node::handle)
}

/// The first rule that nodes break, if they break one.
fn fault(nodes: &[Node]) -> Option<String> {
    odd(nodes)
        .or_else(|| roots(nodes))
        .or_else(|| labels(nodes))
        .or_else(|| stray(nodes))
        .or_else(|| shared(nodes))
}

fn odd(nodes: &[Node]) -> Option<String> {
    let place = nodes.iter().position(|n| !n.is_used() && !n.is_free())?;
    Some(format!("node {place} is neither used nor free"))
}

fn is_root(node: &Node) -> bool {
    node.is_used() && node.parent() == Parent::Root
}

fn roots(nodes: &[Node]) -> Option<String> {
    let roots: Vec<usize> = (0..nodes.len()).filter(|&i| is_root(&nodes[i])).collect();
    match roots.len() {
        0 => Some("no node is the root".into()),
        1 => None,
        _ => Some(format!("{} are all roots", places_words(&roots))),
    }
}

/// Flags, and the root's type.
fn labels(nodes: &[Node]) -> Option<String> {
    let is_wrong = |node: &Node| match is_root(node) {
        true => node.flags() != ROOT_FLAGS || node.kind() != ROOT_TYPE,
        false => node.flags() != 0,
    };
    let place = nodes.iter().position(is_wrong)?;
    Some(match is_root(&nodes[place]) {
        true => format!("node {place}, the root, has other flags or another type than a root"),
        false => format!("node {place} has flags, and only the root has any"),
    })
}

fn stray(nodes: &[Node]) -> Option<String> {
    let place = *tree(nodes).stray.first()?;
    Some(format!("no way leads from node {place} to the root"))
}

fn shared(nodes: &[Node]) -> Option<String> {
    let with = |handle| {
        (0..nodes.len()).filter(move |&i| nodes[i].is_used() && nodes[i].handle() == handle)
    };
    let live = handles(nodes).filter(|handle| handle.is_live());
    let mut shared = live.map(|handle| with(handle).collect::<Vec<usize>>());
    let places = shared.find(|places| places.len() > 1)?;
    Some(format!("{} have the same handle", places_words(&places)))
}

#[cfg(test)]
mod tests {
    use super::*;

    /// A change to the nodes.
    type Change = fn(&mut [Node]);

    /// A root, two nodes on it and one on the second of them, with handles of their own; 3 has the default one.
    fn nodes() -> Vec<Node> {
        let parents = [
            Parent::Root,
            Parent::Node(0),
            Parent::Node(0),
            Parent::Node(2),
        ];
        let mut nodes: Vec<Node> = parents.into_iter().map(Node::used).collect();
        nodes[0].set_flags(ROOT_FLAGS);
        nodes[0].set_labels(ROOT_TYPE, 0, 0);
        for (handle, node) in (1..).zip(&mut nodes[..3]) {
            node.set_handle(Handle::Other([handle; 20]));
        }
        nodes.resize(32, Node::FREE);
        nodes
    }

    fn image(change: Change) -> Image {
        let mut nodes = nodes();
        change(&mut nodes);
        let mut image = Image::zero();
        image.set_marks(1, 1);
        for (place, node) in nodes.iter().enumerate() {
            image.set_node(place, node);
        }
        image
    }

    #[test]
    fn well_formed() {
        let cases: [Change; 4] = [
            |_| {},
            |nodes| nodes[1].set_labels(ROOT_TYPE, 7, 7),
            |nodes| nodes[1].set_handle(Handle::Retired),
            |nodes| nodes[0].set_handle(Handle::Retired),
        ];
        for change in cases {
            assert_eq!(remark(&image(change)), None);
        }
    }

    #[test]
    fn faults() {
        let cases: [(Change, &str); 13] = [
            (
                |nodes| nodes[9].set_labels(0, 0, 1),
                "node 9 is neither used nor free",
            ),
            (|nodes| nodes[0] = Node::FREE, "no node is the root"),
            (|nodes| nodes.fill(Node::FREE), "no node is the root"),
            (
                |nodes| nodes[2] = Node::used(Parent::Root),
                "nodes 0 and 2 are all roots",
            ),
            (
                |nodes| nodes[0].set_flags(ROOT_FLAGS | 1),
                "node 0, the root, has other flags or another type than a root",
            ),
            (
                |nodes| nodes[0].set_labels(ROOT_TYPE + 1, 0, 0),
                "node 0, the root, has other flags or another type than a root",
            ),
            (
                |nodes| nodes[3].set_flags(ROOT_FLAGS),
                "node 3 has flags, and only the root has any",
            ),
            (
                |nodes| nodes[2] = Node::used(Parent::Node(3)),
                "no way leads from node 2 to the root",
            ),
            (
                |nodes| nodes[3] = Node::used(Parent::Node(31)),
                "no way leads from node 3 to the root",
            ),
            (
                |nodes| nodes[3] = Node::used(Parent::Beyond(0xFFFF)),
                "no way leads from node 3 to the root",
            ),
            (
                |nodes| nodes[2].set_handle(Handle::Default),
                "nodes 2 and 3 have the same handle",
            ),
            (
                |nodes| nodes[2].set_handle(Handle::Other([1; 20])),
                "nodes 0 and 2 have the same handle",
            ),
            (
                |nodes| {
                    nodes[..4]
                        .iter_mut()
                        .for_each(|node| node.set_handle(Handle::Default))
                },
                "nodes 0, 1, 2 and 3 have the same handle",
            ),
        ];
        for (change, words) in cases {
            let told = remark(&image(change)).expect("a remark");
            let start = format!("The image's nodes are not well formed: {words}. ");
            assert!(told.starts_with(&start), "{told}");
        }
    }

    #[test]
    fn no_holder() {
        let told = remark(&image(|nodes| nodes[3].set_handle(Handle::Retired)));
        let told = told.expect("a remark");
        assert!(
            told.starts_with("No node has the default handle: every stash"),
            "{told}"
        );
    }

    #[test]
    fn nothing_live() {
        let all = |nodes: &mut [Node]| {
            nodes[..4]
                .iter_mut()
                .for_each(|node| node.set_handle(Handle::Retired));
        };
        let told = remark(&image(all)).expect("a remark");
        assert!(
            told.starts_with("No node has a live handle: until a cold boot"),
            "{told}"
        );
        for (mark, attestation) in [(0, 1), (2, 1), (1, 0), (1, 2)] {
            let mut image = image(all);
            image.set_marks(mark, attestation);
            assert_eq!(remark(&image), None);
        }
    }
}
