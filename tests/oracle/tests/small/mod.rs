//! All small trees, and all counts that fit into them.

use std::ops::RangeInclusive;

use oracle::definitions::{Counts, Tree};

/// The trees of some heights.
pub fn trees(heights: RangeInclusive<u32>) -> impl Iterator<Item = Tree> {
    heights.map(Tree::new)
}

/// The trees of some heights, each with every counts vector whose pages fit.
pub fn trees_with_counts(heights: RangeInclusive<u32>) -> impl Iterator<Item = (Tree, Counts)> {
    trees(heights).flat_map(|tree| {
        tree.every_fitting_counts()
            .into_iter()
            .map(move |counts| (tree, counts))
    })
}
