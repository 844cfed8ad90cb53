//! A row of pages, each labelled with the block that lies on it.

use crate::definitions::{Node, Tree};

/// The pages from left to right, each with the node of the block on it, or 0.
#[derive(Clone, Debug)]
pub struct Row {
    tree: Tree,
    labels: Vec<Node>,
}

impl Row {
    pub fn empty(tree: Tree) -> Self {
        Row {
            tree,
            labels: vec![0; tree.pages_in_all() as usize],
        }
    }

    pub fn tree(&self) -> Tree {
        self.tree
    }

    pub fn is_free(&self, node: Node) -> bool {
        self.labels[self.tree.pages(node)].iter().all(|&label| label == 0)
    }

    /// Puts a block on its pages if all of them are free, and says whether they were.
    pub fn put(&mut self, node: Node) -> bool {
        let is_free = self.is_free(node);
        if is_free {
            self.labels[self.tree.pages(node)].fill(node);
        }
        is_free
    }

    /// Takes a block off its pages.
    pub fn take(&mut self, node: Node) {
        self.labels[self.tree.pages(node)].fill(0);
    }

    /// The one block in a subtree, if there is just one.
    pub fn lone_block(&self, subtree: Node) -> Option<Node> {
        let mut blocks = self.labels[self.tree.pages(subtree)]
            .iter()
            .filter(|&&label| label != 0);
        let first = *blocks.next()?;
        blocks.all(|&label| label == first).then_some(first)
    }

    /// The blocks on the row, ascending by node number.
    pub fn blocks(mut self) -> Vec<Node> {
        self.labels.dedup();
        self.labels.retain(|&label| label != 0);
        self.labels.sort_unstable();
        self.labels
    }
}
