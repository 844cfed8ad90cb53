//! The tree, and the words about sets of its nodes.
//!
//! Each function is its definition written out, over a plain list of held nodes. Nothing is cached, ordered or
//! deduced, so that reading a function next to the paper is enough to believe it. A list may hold anything: a node
//! twice is a node that is another held node, and so simply not legal.

use std::collections::BTreeMap;
use std::ops::{Range, RangeInclusive};

/// A node by its number: the root is 1, and node n has the children 2n and 2n + 1.
pub type Node = u16;

/// The tallest tree there is.
pub const TALLEST: u32 = 12;

/// How many blocks are held at each level, from level 0 up.
pub type Counts = [u32; TALLEST as usize + 1];

/// How far below the root a node is.
pub fn depth(node: Node) -> u32 {
    node.ilog2()
}

/// Whether one node is strictly below another: climbing from it meets the other.
pub fn is_under(lower: Node, upper: Node) -> bool {
    let mut above = lower / 2;
    while above > upper {
        above /= 2;
    }
    above == upper
}

/// Whether one node's pages include the other's, in either direction.
fn overlap(one: Node, other: Node) -> bool {
    one == other || is_under(one, other) || is_under(other, one)
}

/// Legal: the blocks are apart, so none of them coincides with another or sits inside it.
pub fn is_legal(held: &[Node]) -> bool {
    let clashes = |place: usize, node: Node| {
        held.iter()
            .enumerate()
            .any(|(other_place, &other)| place != other_place && (node == other || is_under(node, other)))
    };
    !held.iter().enumerate().any(|(place, &node)| clashes(place, node))
}

/// Free: nothing is held here, further up or further down, so a block could go here as things are.
pub fn is_free(held: &[Node], node: Node) -> bool {
    !held.iter().any(|&other| overlap(node, other))
}

/// Meager: not held itself, with one single block somewhere inside.
pub fn is_meager(held: &[Node], node: Node) -> bool {
    !held.contains(&node) && held.iter().filter(|&&other| is_under(other, node)).count() == 1
}

/// A complete binary tree of some height; its leaves are the pages.
#[derive(Clone, Copy, Debug, PartialEq, Eq)]
pub struct Tree {
    height: u32,
}

impl Tree {
    /// The tree of a height that is known to be allowed.
    pub fn new(height: u32) -> Self {
        assert!(height <= TALLEST, "no tree has height {height}");
        Tree { height }
    }

    pub fn height(self) -> u32 {
        self.height
    }

    /// The number of pages.
    pub fn pages_in_all(self) -> u32 {
        1 << self.height
    }

    pub fn last_node(self) -> Node {
        (1 << (self.height + 1)) - 1
    }

    pub fn nodes(self) -> RangeInclusive<Node> {
        1..=self.last_node()
    }

    pub fn level(self, node: Node) -> u32 {
        self.height - depth(node)
    }

    pub fn levels(self) -> RangeInclusive<u32> {
        0..=self.height
    }

    /// The nodes of one level, left to right.
    pub fn nodes_at(self, level: u32) -> Range<Node> {
        let first: Node = 1 << (self.height - level);
        first..2 * first
    }

    /// The pages that a node covers.
    pub fn pages(self, node: Node) -> Range<usize> {
        let level = self.level(node);
        let place = usize::from(node) - (1 << depth(node));
        place << level..(place + 1) << level
    }

    /// Left of: the two have no page in common, and those of the first one have the lower numbers.
    pub fn is_left_of(self, one: Node, other: Node) -> bool {
        !overlap(one, other) && self.pages(one).start < self.pages(other).start
    }

    /// Dense: no block could go to a free place of the same size further left.
    pub fn is_dense(self, held: &[Node]) -> bool {
        let gap_before = |node: Node| {
            self.nodes_at(self.level(node))
                .any(|other| self.is_left_of(other, node) && is_free(held, other))
        };
        !held.iter().any(|&node| gap_before(node))
    }

    /// How many tails a node has: smaller blocks behind it.
    pub fn tails(self, held: &[Node], node: Node) -> usize {
        held.iter()
            .filter(|&&other| self.level(other) < self.level(node) && self.is_left_of(node, other))
            .count()
    }

    /// Whether a meager tree of the node's own level lies left of it.
    fn has_meager_tree_before(self, held: &[Node], node: Node) -> bool {
        self.nodes_at(self.level(node))
            .any(|other| self.is_left_of(other, node) && is_meager(held, other))
    }

    /// Safe: dense, never two tails behind one block, and never a meager tree of a block's size in front of it.
    pub fn is_safe(self, held: &[Node]) -> bool {
        self.is_dense(held)
            && held
                .iter()
                .all(|&node| self.tails(held, node) <= 1 && !self.has_meager_tree_before(held, node))
    }

    /// How many of the nodes are at each level.
    pub fn counts(self, held: &[Node]) -> Counts {
        let mut counts = Counts::default();
        for &node in held {
            counts[self.level(node) as usize] += 1;
        }
        counts
    }

    /// The pages that so many blocks take together.
    pub fn pages_taken(self, counts: &Counts) -> u32 {
        (0..).zip(counts).map(|(level, &number)| number << level).sum()
    }

    /// Every counts vector whose pages fit into the tree.
    pub fn every_fitting_counts(self) -> Vec<Counts> {
        let mut all = vec![Counts::default()];
        for level in self.levels() {
            let mut longer = Vec::new();
            for counts in &all {
                let room = self.pages_in_all() - self.pages_taken(counts);
                longer.extend((0..=room >> level).map(|number| {
                    let mut counts = *counts;
                    counts[level as usize] = number;
                    counts
                }));
            }
            all = longer;
        }
        all
    }

    /// Every set of nodes, legal or not, as ascending lists. There are 2 to the power of the number of nodes, which
    /// is bearable up to height 3.
    pub fn every_set(self) -> impl Iterator<Item = Vec<Node>> {
        assert!(self.height <= 3, "too many sets at height {}", self.height);
        let last = self.last_node();
        (0u32..1 << last).map(move |chosen| (1..=last).filter(|node| chosen >> (node - 1) & 1 == 1).collect())
    }

    /// Every legal set: a node alone, or what can be chosen on its left with what can be chosen on its right. One
    /// height further than [`Tree::every_set`] is bearable.
    pub fn every_legal_set(self) -> Vec<Vec<Node>> {
        assert!(self.height <= 4, "too many sets at height {}", self.height);
        self.legal_sets_within(1)
    }

    fn legal_sets_within(self, node: Node) -> Vec<Vec<Node>> {
        let mut sets = vec![vec![node]];
        if self.level(node) == 0 {
            sets.push(Vec::new());
        } else {
            let rights = self.legal_sets_within(2 * node + 1);
            for left in self.legal_sets_within(2 * node) {
                sets.extend(rights.iter().map(|right| [&left[..], right].concat()));
            }
        }
        sets
    }
}

/// What the legal sets with the same counts look like.
#[derive(Clone, Debug, Default)]
pub struct Family {
    /// How many legal sets there are.
    pub legal: usize,
    /// Those among them that are safe, each ascending.
    pub safe: Vec<Vec<Node>>,
}

/// Sorts legal sets by their counts and picks out the safe ones.
pub fn families(tree: Tree, legal_sets: impl IntoIterator<Item = Vec<Node>>) -> BTreeMap<Counts, Family> {
    let mut families: BTreeMap<Counts, Family> = BTreeMap::new();
    for mut set in legal_sets {
        let family = families.entry(tree.counts(&set)).or_default();
        family.legal += 1;
        if tree.is_safe(&set) {
            set.sort_unstable();
            family.safe.push(set);
        }
    }
    families
}
