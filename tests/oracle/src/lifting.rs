//! The safe layout of any counts, by the lifting rule, on a row of pages.
//!
//! The row says for every page which block lies on it. That makes each step of the rule something to be seen on the
//! row: a subtree is in use if a page of it is labelled, it has just one block if all its labels agree, and a place is
//! free if none of its pages is labelled.

use crate::definitions::{Counts, Node, Tree};
use crate::row::Row;

/// The safe layout for so many blocks at each level, ascending by node number; nothing if the blocks find no places.
pub fn layout(tree: Tree, counts: &Counts) -> Option<Vec<Node>> {
    let levels_above = &counts[tree.height() as usize + 1..];
    if levels_above.iter().any(|&number| number != 0) {
        return None;
    }
    let mut row = Row::empty(tree);
    for level in tree.levels() {
        let lifted = lift(&mut row, level);
        place_leftmost(&mut row, level, counts[level as usize])?;
        if let Some(block) = lifted {
            place_leftmost(&mut row, tree.level(block), 1)?;
        }
    }
    Some(row.blocks())
}

/// Takes the block off the row that stands alone in the last subtree in use at a level, if it is of lower level.
fn lift(row: &mut Row, level: u32) -> Option<Node> {
    let tree = row.tree();
    let last = tree.nodes_at(level).rev().find(|&node| !row.is_free(node))?;
    let block = row.lone_block(last)?;
    if tree.level(block) >= level {
        return None;
    }
    row.take(block);
    Some(block)
}

/// Puts so many blocks of a level on the leftmost free places, or gives up when there are no more. Going once along the
/// level is enough, since placing a block frees nothing behind it.
fn place_leftmost(row: &mut Row, level: u32, number: u32) -> Option<()> {
    let mut missing = number;
    for node in row.tree().nodes_at(level) {
        if missing == 0 {
            break;
        }
        if row.put(node) {
            missing -= 1;
        }
    }
    (missing == 0).then_some(())
}
