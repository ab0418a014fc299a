//! The order in which a tree of nodes is drawn: each node, then what hangs on it.

use crate::image::{Node, Parent};

/// One node of the drawing.
#[derive(Clone, Copy, Debug, PartialEq, Eq)]
pub struct Line {
    pub place: usize,
    /// Steps from the root.
    pub depth: usize,
    /// The line of the node that it hangs on.
    pub above: Option<usize>,
    /// No further node hangs on that one.
    pub is_last: bool,
}

/// The used nodes that roots lead to, in the order of drawing, and those that none leads to.
#[derive(Clone, Debug, Default, PartialEq, Eq)]
pub struct Tree {
    pub lines: Vec<Line>,
    pub stray: Vec<usize>,
}

pub fn tree(nodes: &[Node]) -> Tree {
    let mut tree = Tree::default();
    for place in hanging(nodes, Parent::Root) {
        tree.draw(
            nodes,
            Line {
                place,
                depth: 0,
                above: None,
                is_last: true,
            },
        );
    }
    let is_drawn = |place: usize| tree.lines.iter().any(|line| line.place == place);
    tree.stray = (0..nodes.len())
        .filter(|&place| nodes[place].is_used() && !is_drawn(place))
        .collect();
    tree
}

/// The used nodes that hang there.
fn hanging(nodes: &[Node], there: Parent) -> Vec<usize> {
    (0..nodes.len())
        .filter(|&place| nodes[place].is_used() && nodes[place].parent() == there)
        .collect()
}

impl Tree {
    /// Draws a node and what hangs on it. A node has one parent, so none is drawn twice.
    fn draw(&mut self, nodes: &[Node], line: Line) {
        let above = self.lines.len();
        self.lines.push(line);
        let children = hanging(nodes, Parent::Node(line.place));
        for (i, &place) in children.iter().enumerate() {
            self.draw(
                nodes,
                Line {
                    place,
                    depth: line.depth + 1,
                    above: Some(above),
                    is_last: i + 1 == children.len(),
                },
            );
        }
    }
}

#[cfg(test)]
mod tests {
    use super::*;
    use crate::image::NODES;

    /// Nodes that hang on these; `None` is a free node, 255 the root's mark.
    fn nodes(parents: &[Option<usize>]) -> Vec<Node> {
        let node = |parent: &Option<usize>| match parent {
            None => Node::FREE,
            Some(255) => Node::used(Parent::Root),
            Some(place) if *place < NODES => Node::used(Parent::Node(*place)),
            Some(number) => Node::used(Parent::Beyond(*number as u32)),
        };
        let mut nodes: Vec<Node> = parents.iter().map(node).collect();
        nodes.resize(NODES, Node::FREE);
        nodes
    }

    /// Place, depth and whether it is the last of each line.
    fn drawn(tree: &Tree) -> Vec<(usize, usize, bool)> {
        let lines = tree.lines.iter();
        lines
            .map(|line| (line.place, line.depth, line.is_last))
            .collect()
    }

    #[test]
    fn a_chain() {
        let mut parents = vec![Some(255)];
        parents.extend((0..31).map(Some));
        let tree = tree(&nodes(&parents));
        let expected: Vec<_> = (0..32).map(|place| (place, place, true)).collect();
        assert_eq!(drawn(&tree), expected);
        assert!(tree.stray.is_empty());
        assert_eq!(tree.lines[0].above, None);
        assert_eq!(tree.lines[31].above, Some(30));
    }

    /// 2 is the root; 0 and 4 hang on it, 1 and 5 on 0, 3 on 4.
    #[test]
    fn branches() {
        let parents = [Some(2), Some(0), Some(255), Some(4), Some(2), Some(0)];
        let tree = tree(&nodes(&parents));
        let expected = [
            (2, 0, true),
            (0, 1, false),
            (1, 2, false),
            (5, 2, true),
            (4, 1, true),
            (3, 2, true),
        ];
        assert_eq!(drawn(&tree), expected);
        let above: Vec<Option<usize>> = tree.lines.iter().map(|line| line.above).collect();
        assert_eq!(above, [None, Some(0), Some(1), Some(1), Some(0), Some(4)]);
    }

    #[test]
    fn what_no_root_leads_to() {
        // 1 and 2 in a cycle, 3 on itself, 4 beyond the nodes, 5 on a free node, 6 on 5.
        let parents = [255, 2, 1, 3, 0x1FF, 20, 5].map(Some);
        let tree = tree(&nodes(&parents));
        assert_eq!(drawn(&tree), [(0, 0, true)]);
        assert_eq!(tree.stray, [1, 2, 3, 4, 5, 6]);
    }

    #[test]
    fn no_root_and_several() {
        assert_eq!(tree(&nodes(&[None, Some(0)])).stray, [1]);
        let tree = tree(&nodes(&[Some(255), None, Some(255), Some(2)]));
        assert_eq!(drawn(&tree), [(0, 0, true), (2, 0, true), (3, 1, true)]);
    }
}
