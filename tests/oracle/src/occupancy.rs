//! The words about sets of nodes once more, for tall trees.
//!
//! [`definitions`](crate::definitions) asks each held node about all others, which takes too long from height 9 on. Here
//! the held nodes at, above and below every node are counted once, down and up the tree, and each word is its definition
//! read off these numbers. On one level, left of a node is whatever has a lower number.

use crate::definitions::{self, Node, Tree};

/// Up to this height the bare definitions are quick enough.
const SMALL: u32 = 5;

/// Whether held nodes are legal and safe, by the bare definitions where they are quick enough.
pub fn is_legal_and_safe(tree: Tree, held: &[Node]) -> bool {
    if tree.height() <= SMALL {
        return definitions::is_legal(held) && tree.is_safe(held);
    }
    let occupancy = Occupancy::new(tree, held);
    occupancy.is_legal() && occupancy.is_safe()
}

/// Held nodes of a tree, with what is held around each of its nodes.
pub struct Occupancy<'a> {
    tree: Tree,
    held: &'a [Node],
    /// How often each node is held itself.
    here: Vec<u32>,
    /// How many held nodes it is under.
    above: Vec<u32>,
    /// How many held nodes are under it.
    below: Vec<u32>,
    /// The first pages of the held nodes of each level, ascending.
    starts: Vec<Vec<usize>>,
}

impl<'a> Occupancy<'a> {
    /// Counts held nodes, all of them in the tree.
    pub fn new(tree: Tree, held: &'a [Node]) -> Self {
        let end = usize::from(tree.last_node()) + 1;
        let mut here = vec![0; end];
        let mut starts = vec![Vec::new(); tree.levels().count()];
        for &node in held {
            here[usize::from(node)] += 1;
            starts[tree.level(node) as usize].push(tree.pages(node).start);
        }
        starts.iter_mut().for_each(|pages| pages.sort_unstable());
        let mut above = vec![0; end];
        for node in 2..end {
            above[node] = here[node / 2] + above[node / 2];
        }
        let mut below = vec![0; end];
        for node in (2..end).rev() {
            below[node / 2] += here[node] + below[node];
        }
        Occupancy {
            tree,
            held,
            here,
            above,
            below,
            starts,
        }
    }

    pub fn is_legal(&self) -> bool {
        self.held
            .iter()
            .map(|&node| usize::from(node))
            .all(|node| self.here[node] == 1 && self.above[node] == 0)
    }

    pub fn is_free(&self, node: Node) -> bool {
        let node = usize::from(node);
        self.here[node] == 0 && self.above[node] == 0 && self.below[node] == 0
    }

    pub fn is_meager(&self, node: Node) -> bool {
        let node = usize::from(node);
        self.here[node] == 0 && self.below[node] == 1
    }

    /// Smaller blocks that start where the node ends, or further right.
    pub fn tails(&self, node: Node) -> usize {
        let end = self.tree.pages(node).end;
        let smaller = &self.starts[..self.tree.level(node) as usize];
        smaller
            .iter()
            .map(|starts| starts.len() - starts.partition_point(|&start| start < end))
            .sum()
    }

    pub fn is_dense(&self) -> bool {
        !self.any_held_right_of(|node| self.is_free(node))
    }

    pub fn is_safe(&self) -> bool {
        self.is_dense()
            && self.held.iter().all(|&node| self.tails(node) <= 1)
            && !self.any_held_right_of(|node| self.is_meager(node))
    }

    /// Whether on some level a held node has a node of some kind left of it.
    fn any_held_right_of(&self, is_kind: impl Fn(Node) -> bool) -> bool {
        self.tree.levels().any(|level| {
            let mut nodes = self.tree.nodes_at(level);
            nodes.any(&is_kind) && nodes.any(|node| self.here[usize::from(node)] > 0)
        })
    }
}
